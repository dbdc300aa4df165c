//! For tests/pieces: loaded before the C library, it has room for ROOM bytes in all that are written to connections. The write
//! behind them fails, once; what is written then goes its way.
#[path = "calls.rs"]
mod calls;

use self::calls::{fails, given, syscall, WRITE};
use std::os::raw::{c_int, c_void};
use std::sync::atomic::{AtomicBool, AtomicU64, Ordering};

const BROKEN_PIPE: c_int = 32;

static WRITTEN: AtomicU64 = AtomicU64::new(0);
static HAS_FAILED: AtomicBool = AtomicBool::new(false);

#[no_mangle]
pub unsafe extern "C" fn send(file: c_int, bytes: *const c_void, size: usize, _flags: c_int) -> isize {
    if HAS_FAILED.load(Ordering::SeqCst) {
        return syscall(WRITE, file, bytes, size) as isize;
    }
    let left = given(b"ROOM\0") - WRITTEN.load(Ordering::SeqCst);
    if left == 0 && size > 0 {
        HAS_FAILED.store(true, Ordering::SeqCst);
        return fails(BROKEN_PIPE) as isize;
    }
    let put = syscall(WRITE, file, bytes, size.min(left as usize)) as isize;
    WRITTEN.fetch_add(put.max(0) as u64, Ordering::SeqCst);
    put
}
