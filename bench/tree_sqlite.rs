// The rows of tree.rs in SQLite: see sqlite.rs.
mod sqlite;

use sqlite::{Base, Statement};
use std::time::Instant;

// one step with these values, in transactions of 512
fn each(base: &Base, text: &str, rows: u64, mut step: impl FnMut(&Statement, u64)) {
    let made = base.statement(text);
    for i in 0..rows {
        if i % 512 == 0 {
            base.run("BEGIN");
        }
        step(&made, i);
        made.reset();
        if i % 512 == 511 || i + 1 == rows {
            base.run("COMMIT");
        }
    }
}

fn key_of(i: u64, shuffled: bool) -> [u8; 20] {
    let mut key = *b"block.......00000000";
    let n = if shuffled { i.wrapping_mul(0x9e37_79b9_7f4a_7c15) } else { i };
    key[12..].copy_from_slice(&n.to_be_bytes());
    key
}

fn value_of(i: u64) -> [u8; 16] {
    let mut value = [0; 16];
    value[..8].copy_from_slice(&i.to_be_bytes());
    value
}

fn run(path: &str, rows: u64, shuffled: bool) {
    let name = if shuffled { "shuffled" } else { "rising" };
    let _ = std::fs::remove_file(path);
    let base = Base::new(path, None);
    let mut told = 0u64;
    let start = Instant::now();
    each(&base, "INSERT OR REPLACE INTO rows VALUES (?1, ?2)", rows, |made, i| {
        let (key, value) = (key_of(i, shuffled), value_of(i));
        made.bind(1, &key);
        made.bind(2, &value);
        made.step();
    });
    println!("{name} put {}", start.elapsed().as_nanos());
    let start = Instant::now();
    each(&base, "SELECT v FROM rows WHERE k = ?1", rows, |made, i| {
        let key = key_of(i, shuffled);
        made.bind(1, &key);
        if made.step() {
            told += made.byte(0, 7) as u64;
        }
    });
    println!("{name} get {}", start.elapsed().as_nanos());
    let start = Instant::now();
    let mut scanned = 0u64;
    let made = base.statement("SELECT k, v FROM rows ORDER BY k");
    while made.step() {
        let (key, value) = (made.byte(0, 19), made.byte(1, 7));
        scanned = scanned.wrapping_mul(31).wrapping_add(key as u64 + value as u64);
    }
    drop(made);
    println!("{name} scan {}", start.elapsed().as_nanos());
    println!("{name} scanned {scanned}");
    let start = Instant::now();
    each(&base, "DELETE FROM rows WHERE k = ?1", rows, |made, i| {
        let key = key_of(i, shuffled);
        made.bind(1, &key);
        made.step();
        told = told.wrapping_add(1);
    });
    println!("{name} remove {}", start.elapsed().as_nanos());
    println!("{name} told {told}");
    drop(base);
    let _ = std::fs::remove_file(path);
}

fn main() {
    let mut words = std::env::args().skip(1);
    let rows = words.next().and_then(|word| word.parse().ok()).unwrap_or(200_000);
    let path = words.next().unwrap_or("/dev/shm/rows.db".to_string());
    run(&path, rows, false);
    run(&path, rows, true);
}
