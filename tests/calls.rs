//! What faults.rs, reads.rs and writes.rs share: the system's calls, and the numbers that the environment gives.
use std::os::raw::{c_char, c_int, c_long};

pub const WRITE: c_long = 1;

extern "C" {
    pub fn syscall(number: c_long, ...) -> c_long;
    fn getenv(name: *const c_char) -> *const c_char;
    fn __errno_location() -> *mut c_int;
}

/// The number that a word of the environment gives, which ends with a zero.
pub unsafe fn number(name: &[u8]) -> Option<u64> {
    let mut text = getenv(name.as_ptr() as *const c_char);
    if text.is_null() {
        return None;
    }
    let mut n = 0;
    while *text != 0 {
        n = n * 10 + (*text as u8 - b'0') as u64;
        text = text.add(1);
    }
    Some(n)
}

/// The same, and 0 where there is none.
pub unsafe fn given(name: &[u8]) -> u64 {
    number(name).unwrap_or(0)
}

/// What a call gives back that fails by this error.
pub unsafe fn fails(why: c_int) -> c_int {
    *__errno_location() = why;
    -1
}
