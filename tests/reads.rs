//! For tests/reads and wire.rs: loaded before the C library, it reads the descriptor FILE, where that is given, by at most SIZE
//! bytes. Its call with the number FAILS, from 1, fails by the error WHY, and where HALTS is 1 each third one is interrupted. Each
//! is told by a byte to the descriptor TELLS, where that is given. The opening with the number REFUSED, from 1, is refused memory.
#[path = "calls.rs"]
pub mod calls;

use self::calls::{fails, given, number, syscall, WRITE};
use std::os::raw::{c_char, c_int, c_long, c_void};
use std::sync::atomic::{AtomicU64, Ordering};

const READ: c_long = 0;
const OPEN: c_long = 2;
pub const INTERRUPTED: c_int = 4;
const NO_MEMORY: c_int = 12;

static READS: AtomicU64 = AtomicU64::new(0);
static OPENINGS: AtomicU64 = AtomicU64::new(0);

pub unsafe fn tell(call: &[u8; 1]) {
    if let Some(told) = number(b"TELLS\0") {
        syscall(WRITE, told as c_int, call.as_ptr(), 1usize);
    }
}

#[no_mangle]
pub unsafe extern "C" fn open(path: *const c_char, flags: c_int, mode: c_int) -> c_int {
    if OPENINGS.fetch_add(1, Ordering::SeqCst) + 1 == given(b"REFUSED\0") {
        return fails(NO_MEMORY);
    }
    syscall(OPEN, path, flags, mode) as c_int
}

#[no_mangle]
pub unsafe extern "C" fn read(file: c_int, bytes: *mut c_void, size: usize) -> isize {
    if number(b"FILE\0") != Some(file as u64) {
        return syscall(READ, file, bytes, size) as isize;
    }
    tell(b"r");
    let call = READS.fetch_add(1, Ordering::SeqCst) + 1;
    if call == given(b"FAILS\0") {
        return fails(given(b"WHY\0") as c_int) as isize;
    }
    if given(b"HALTS\0") == 1 && call % 3 == 0 {
        return fails(INTERRUPTED) as isize;
    }
    syscall(READ, file, bytes, size.min(given(b"SIZE\0") as usize)) as isize
}
