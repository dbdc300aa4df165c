// The rows that `plandesk serve` writes of creates, patches of one county and whole revisions, in SQLite (see sqlite.rs) with full
// syncs, beside the rows of a state's blocks, for bench/served alone.
mod client;
mod sqlite;

use client::median;
use sqlite::{Base, Statement};
use std::env;
use std::time::Instant;

fn key(letter: u8, numbers: &[u64]) -> Vec<u8> {
    let mut key = vec![letter];
    numbers.iter().for_each(|n| key.extend_from_slice(&n.to_be_bytes()));
    key
}

// a county's districts in pieces of 512, under the next number
fn put_county(rows: &Statement, chunk: u64, blocks: usize) {
    for piece in 0..blocks.div_ceil(512) {
        let count = 512.min(blocks - 512 * piece);
        rows.put(&key(b'k', &[chunk, piece as u64]), &vec![chunk as u8; 2 * count]);
    }
}

// a revision's numbers of chunks in parts of 128, the plan's row and the counters
fn put_revision(rows: &Statement, revision: u64, counties: usize) {
    for part in 0..counties.div_ceil(128) {
        let count = 128.min(counties - 128 * part);
        rows.put(&key(b'R', &[1, revision, part as u64]), &vec![revision as u8; 8 * count]);
    }
    rows.put(b"Pplan", &[revision as u8; 15]);
    rows.put(b"A", &[revision as u8; 24]);
}

fn timed(what: &str, count: u64, mut act: impl FnMut(u64)) {
    let mut waits = Vec::new();
    for k in 0..count {
        let start = Instant::now();
        act(k);
        waits.push(start.elapsed().as_secs_f64() * 1e6);
    }
    println!("{what}: {:.0}", median(waits));
}

fn main() {
    let words: Vec<String> = env::args().collect();
    let (path, mode) = (&words[1], &words[2]);
    let (blocks, counties): (usize, usize) = (words[3].parse().unwrap(), words[4].parse().unwrap());
    let base = Base::new(path, Some(mode));
    let rows = base.statement("INSERT OR REPLACE INTO rows VALUES (?1, ?2)");
    base.run("BEGIN");
    for block in 0..blocks as u64 {
        rows.put(&key(b'g', &[block]), &[block as u8; 16]);
    }
    base.run("COMMIT");
    let county = blocks / counties;
    timed("create", 300, |k| {
        base.run("BEGIN");
        rows.put(format!("Pmany-{k}").as_bytes(), &[k as u8; 15]);
        rows.put(b"A", &[k as u8; 24]);
        base.run("COMMIT");
    });
    timed("patch", 300, |k| {
        base.run("BEGIN");
        put_county(&rows, 1_000_000 + k, county);
        put_revision(&rows, k, counties);
        base.run("COMMIT");
    });
    timed("whole", 30, |k| {
        base.run("BEGIN");
        (0..counties as u64).for_each(|c| put_county(&rows, 2_000_000 + 1_000 * k + c, county));
        put_revision(&rows, 1_000 + k, counties);
        base.run("COMMIT");
    });
}
