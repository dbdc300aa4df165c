// The writes and syncs of a store's file, as strace noted them, for bench/load, bench/sweep and bench/desk: made again by plain Rust,
// a page of 4,096 bytes at each place.
use std::fs::File;
use std::os::unix::fs::FileExt;

pub enum Call {
    Write(u64),
    Sync,
}

pub fn call_of(line: &str) -> Option<Call> {
    if line.contains(" fdatasync(") {
        return Some(Call::Sync);
    }
    let (words, _) = line.split_once(") ")?;
    let (_, words) = words.split_once(" pwrite64(")?;
    let (_, place) = words.rsplit_once(", ")?;
    Some(Call::Write(place.parse().unwrap()))
}

pub fn make(file: &File, calls: &[Call]) {
    let page = [7; 4096];
    for call in calls {
        match call {
            Call::Write(place) => file.write_all_at(&page, *place).unwrap(),
            Call::Sync => file.sync_data().unwrap(),
        }
    }
}

// how many of them are writes
pub fn writes(calls: &[Call]) -> usize {
    calls.iter().filter(|call| matches!(call, Call::Write(_))).count()
}
