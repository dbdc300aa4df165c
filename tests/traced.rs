//! For tests/traces: loaded before the C library, it tells the descriptor CALLS each call on a store's file: a letter, the file's
//! number in 4 bytes and a number in 8, highest byte first. `o` is an opening of a file whose name ends with `.store`, with its
//! flags; `l` a lock, with what was asked for; `r` a read, `w` a write and `t` a new size, with their place; `f` an fsync, `d` an
//! fdatasync. The read or write with the number SHORT, from 0, moves half of its bytes, and that with the number INTERRUPTED none,
//! as where a signal came.
#[allow(dead_code)]
#[path = "calls.rs"]
mod calls;

use self::calls::{number, syscall, WRITE};
use std::ffi::CStr;
use std::os::raw::{c_char, c_int, c_long, c_void};
use std::sync::atomic::{AtomicU64, Ordering};

const OPENAT: c_long = 257;
const FLOCK: c_long = 73;
const PREAD: c_long = 17;
const PWRITE: c_long = 18;
const FSYNC: c_long = 74;
const FDATASYNC: c_long = 75;
const FTRUNCATE: c_long = 77;
const HERE: c_int = -100;
const INTERRUPTED: c_int = 4;

static MOVES: AtomicU64 = AtomicU64::new(0);

unsafe fn tell(letter: u8, file: c_int, value: i64) {
    if let Some(calls) = number(b"CALLS\0") {
        let mut note = [letter; 13];
        note[1..5].copy_from_slice(&file.to_be_bytes());
        note[5..].copy_from_slice(&value.to_be_bytes());
        syscall(WRITE, calls as c_int, note.as_ptr(), note.len());
    }
}

unsafe fn opened(folder: c_int, path: *const c_char, flags: c_int, mode: c_int) -> c_int {
    let file = syscall(OPENAT, folder, path, flags, mode) as c_int;
    if CStr::from_ptr(path).to_bytes().ends_with(b".store") {
        tell(b'o', file, flags as i64);
    }
    file
}

#[no_mangle]
pub unsafe extern "C" fn open(path: *const c_char, flags: c_int, mode: c_int) -> c_int {
    opened(HERE, path, flags, mode)
}

#[no_mangle]
pub unsafe extern "C" fn open64(path: *const c_char, flags: c_int, mode: c_int) -> c_int {
    opened(HERE, path, flags, mode)
}

#[no_mangle]
pub unsafe extern "C" fn openat(folder: c_int, path: *const c_char, flags: c_int, mode: c_int) -> c_int {
    opened(folder, path, flags, mode)
}

#[no_mangle]
pub unsafe extern "C" fn flock(file: c_int, how: c_int) -> c_int {
    tell(b'l', file, how as i64);
    syscall(FLOCK, file, how) as c_int
}

/// How many bytes a read or a write is let move, or none where it is interrupted.
unsafe fn share(size: usize) -> Option<usize> {
    let call = Some(MOVES.fetch_add(1, Ordering::SeqCst));
    if call == number(b"INTERRUPTED\0") {
        calls::fails(INTERRUPTED);
        return None;
    }
    Some(if call == number(b"SHORT\0") { size / 2 } else { size })
}

#[no_mangle]
pub unsafe extern "C" fn pread(file: c_int, bytes: *mut c_void, size: usize, at: i64) -> isize {
    tell(b'r', file, at);
    match share(size) {
        Some(size) => syscall(PREAD, file, bytes, size, at) as isize,
        None => -1,
    }
}

#[no_mangle]
pub unsafe extern "C" fn pwrite(file: c_int, bytes: *const c_void, size: usize, at: i64) -> isize {
    tell(b'w', file, at);
    match share(size) {
        Some(size) => syscall(PWRITE, file, bytes, size, at) as isize,
        None => -1,
    }
}

#[no_mangle]
pub unsafe extern "C" fn fsync(file: c_int) -> c_int {
    tell(b'f', file, 0);
    syscall(FSYNC, file) as c_int
}

#[no_mangle]
pub unsafe extern "C" fn fdatasync(file: c_int) -> c_int {
    tell(b'd', file, 0);
    syscall(FDATASYNC, file) as c_int
}

#[no_mangle]
pub unsafe extern "C" fn ftruncate(file: c_int, size: i64) -> c_int {
    tell(b't', file, size);
    syscall(FTRUNCATE, file, size) as c_int
}
