//! For tests/faults, tests/sweeps, tests/seats, tests/kept and tests/tables: loaded before the C library, it counts the calls,
//! from 0, by which a store's file is sized, read, written and synced. The call with the number FAULT fails, at that with the number STOP the process
//! ends, and that with the number HELD waits for a byte from the descriptor WAITS; each of these is told by a byte to the descriptor
//! TELLS, another one where the call that fails reads several sectors. Of each call the descriptor CALLS is told a letter and the place in the file, 8 bytes. Each of these words may be
//! missing.
#[path = "calls.rs"]
mod calls;

use self::calls::{given, number, syscall, WRITE};
use std::os::raw::{c_int, c_long, c_void};
use std::sync::atomic::{AtomicU64, Ordering};

const READ: c_long = 0;
const PREAD: c_long = 17;
const PWRITE: c_long = 18;
const FSYNC: c_long = 74;
const FDATASYNC: c_long = 75;
const FTRUNCATE: c_long = 77;
const EXIT_GROUP: c_long = 231;
const INPUT_OUTPUT: c_int = 5;
const STOPPED: c_int = 99;
/// A read of more than a sector.
const SEVERAL: u8 = b'm';
const SECTOR: usize = 4096;

static CALLS: AtomicU64 = AtomicU64::new(0);

unsafe fn tell(name: &[u8], bytes: &[u8]) {
    if let Some(file) = number(name) {
        syscall(WRITE, file as c_int, bytes.as_ptr(), bytes.len());
    }
}

unsafe fn stop() {
    tell(b"TELLS\0", b"s");
    syscall(EXIT_GROUP, STOPPED);
}

unsafe fn wait() {
    tell(b"TELLS\0", b"h");
    let mut byte = 0u8;
    syscall(READ, given(b"WAITS\0") as c_int, &mut byte, 1usize);
}

/// Counts a call: whether it fails.
unsafe fn fails(letter: u8, at: i64) -> bool {
    let call = Some(CALLS.fetch_add(1, Ordering::SeqCst));
    let mut note = [letter; 9];
    note[1..].copy_from_slice(&at.to_be_bytes());
    tell(b"CALLS\0", &note);
    if call == number(b"STOP\0") {
        stop();
    }
    if call == number(b"HELD\0") {
        wait();
    }
    if call != number(b"FAULT\0") {
        return false;
    }
    tell(b"TELLS\0", if letter == SEVERAL { b"m" } else { b"f" });
    calls::fails(INPUT_OUTPUT);
    true
}

#[no_mangle]
pub unsafe extern "C" fn pread(file: c_int, bytes: *mut c_void, size: usize, at: i64) -> isize {
    let letter = if size > SECTOR { SEVERAL } else { b'r' };
    if fails(letter, at) { -1 } else { syscall(PREAD, file, bytes, size, at) as isize }
}

#[no_mangle]
pub unsafe extern "C" fn pwrite(file: c_int, bytes: *const c_void, size: usize, at: i64) -> isize {
    if fails(b'w', at) { -1 } else { syscall(PWRITE, file, bytes, size, at) as isize }
}

#[no_mangle]
pub unsafe extern "C" fn fsync(file: c_int) -> c_int {
    if fails(b's', 0) { -1 } else { syscall(FSYNC, file) as c_int }
}

#[no_mangle]
pub unsafe extern "C" fn fdatasync(file: c_int) -> c_int {
    if fails(b's', 0) { -1 } else { syscall(FDATASYNC, file) as c_int }
}

#[no_mangle]
pub unsafe extern "C" fn ftruncate(file: c_int, size: i64) -> c_int {
    if fails(b't', size) { -1 } else { syscall(FTRUNCATE, file, size) as c_int }
}
