// The rows of a load in SQLite: see sqlite.rs.
mod sqlite;

use sqlite::Base;
use std::env;
use std::time::Instant;

fn key_of(letter: u8, place: u32) -> [u8; 14] {
    let mut key = [0; 14];
    key[0] = b'g';
    key[9] = letter;
    key[10..].copy_from_slice(&place.to_be_bytes());
    key
}

fn main() {
    let words: Vec<String> = env::args().collect();
    let number = |i: usize| -> u32 { words[i].parse().unwrap() };
    let (blocks, pairs, batch) = (number(3), number(4), number(5));
    let base = Base::new(&words[1], Some(&words[2]));
    let insert = base.statement("INSERT INTO rows VALUES (?1, ?2)");
    let start = Instant::now();
    for row in 0..blocks + pairs {
        if row % batch == 0 {
            base.run("BEGIN");
        }
        if row < blocks {
            insert.put(&key_of(b'b', row), &[row as u8; 16]);
        } else {
            insert.put(&key_of(b'p', row - blocks), &[row as u8; 8]);
        }
        if row % batch == batch - 1 || row + 1 == blocks + pairs {
            base.run("COMMIT");
        }
    }
    println!("{:.2}", start.elapsed().as_secs_f64());
}
