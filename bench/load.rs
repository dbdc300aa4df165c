// The plain counterpart of `plandesk load` and of `plandesk sweep`, for bench/load and bench/sweep alone: the same pages at the same
// places of the file, with the same syncs between them, as strace noted them; and nothing else of it.
mod calls;

use calls::{Call, call_of, make, writes};
use std::env;
use std::fs::{OpenOptions, read_to_string};
use std::time::Instant;

fn main() {
    let words: Vec<String> = env::args().collect();
    let trace = read_to_string(&words[1]).unwrap();
    let calls: Vec<Call> = trace.lines().filter_map(call_of).collect();
    let file = OpenOptions::new().write(true).open(&words[2]).unwrap();
    let start = Instant::now();
    make(&file, &calls);
    let writes = writes(&calls);
    println!("{:.3} {writes} {}", start.elapsed().as_secs_f64(), calls.len() - writes);
}
