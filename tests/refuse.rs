//! For tests/refused_memory: loaded before the C library, it refuses the allocation whose number REFUSE gives, from 1, and
//! then writes one byte to descriptor 9.
use std::os::raw::{c_char, c_void};
use std::sync::atomic::{AtomicU64, Ordering};

extern "C" {
    fn __libc_malloc(size: usize) -> *mut c_void;
    fn __libc_realloc(old: *mut c_void, size: usize) -> *mut c_void;
    fn getenv(name: *const c_char) -> *const c_char;
    fn write(descriptor: i32, bytes: *const c_void, size: usize) -> isize;
}

static COUNT: AtomicU64 = AtomicU64::new(0);

unsafe fn number() -> u64 {
    let mut text = getenv(b"REFUSE\0".as_ptr() as *const c_char);
    let mut n = 0;
    while !text.is_null() && *text != 0 {
        n = n * 10 + (*text as u8 - b'0') as u64;
        text = text.add(1);
    }
    n
}

unsafe fn refuses() -> bool {
    let refused = COUNT.fetch_add(1, Ordering::SeqCst) + 1 == number();
    if refused {
        write(9, b"r".as_ptr() as *const c_void, 1);
    }
    refused
}

#[no_mangle]
pub unsafe extern "C" fn malloc(size: usize) -> *mut c_void {
    if refuses() { std::ptr::null_mut() } else { __libc_malloc(size) }
}

#[no_mangle]
pub unsafe extern "C" fn realloc(old: *mut c_void, size: usize) -> *mut c_void {
    if refuses() { std::ptr::null_mut() } else { __libc_realloc(old, size) }
}
