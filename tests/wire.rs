//! For tests/wire: loaded before the C library, it reads as reads.rs does, and writes to connections and to the descriptor OUTPUT,
//! where that is given, by at most TAKES bytes a call and ROOM in all, where these are given. Its call with the number BREAKS, from
//! 1, fails by the error WHY, and where PAUSES is 1 each second one, from the first on, is interrupted. Each is told as a read is.
mod reads;

use reads::calls::{fails, given, number, syscall, WRITE};
use reads::{tell, INTERRUPTED};
use std::os::raw::{c_int, c_long, c_void};
use std::sync::atomic::{AtomicU64, Ordering};

const SEND: c_long = 44;

/// `struct iovec` of Linux on x86-64.
#[repr(C)]
pub struct Part {
    bytes: *const u8,
    size: usize,
}

/// The front of `struct msghdr`.
#[repr(C)]
pub struct Message {
    name: *const c_void,
    name_size: u32,
    parts: *const Part,
    count: usize,
}

static WRITES: AtomicU64 = AtomicU64::new(0);
static TAKEN: AtomicU64 = AtomicU64::new(0);

/// How many of so many bytes a call takes, or why it fails.
unsafe fn taken(size: usize) -> Result<usize, c_int> {
    tell(b"w");
    let call = WRITES.fetch_add(1, Ordering::SeqCst) + 1;
    if call == given(b"BREAKS\0") {
        return Err(given(b"WHY\0") as c_int);
    }
    if given(b"PAUSES\0") == 1 && call % 2 == 1 {
        return Err(INTERRUPTED);
    }
    let room = number(b"ROOM\0").unwrap_or(u64::MAX) - TAKEN.load(Ordering::SeqCst);
    let count = room.min(number(b"TAKES\0").unwrap_or(u64::MAX)).min(size as u64);
    TAKEN.fetch_add(count, Ordering::SeqCst);
    Ok(count as usize)
}

#[no_mangle]
pub unsafe extern "C" fn write(file: c_int, bytes: *const c_void, size: usize) -> isize {
    if number(b"OUTPUT\0") != Some(file as u64) {
        return syscall(WRITE, file, bytes, size) as isize;
    }
    match taken(size) {
        Ok(count) => syscall(WRITE, file, bytes, count) as isize,
        Err(why) => fails(why) as isize,
    }
}

#[no_mangle]
pub unsafe extern "C" fn send(socket: c_int, bytes: *const u8, size: usize, flags: c_int) -> isize {
    match taken(size) {
        Ok(count) => syscall(SEND, socket, bytes, count, flags, 0usize, 0usize) as isize,
        Err(why) => fails(why) as isize,
    }
}

#[no_mangle]
pub unsafe extern "C" fn sendmsg(socket: c_int, message: *const Message, flags: c_int) -> isize {
    let mut bytes = Vec::new();
    for n in 0..(*message).count {
        let part = &*(*message).parts.add(n);
        bytes.extend_from_slice(std::slice::from_raw_parts(part.bytes, part.size));
    }
    send(socket, bytes.as_ptr(), bytes.len(), flags)
}
