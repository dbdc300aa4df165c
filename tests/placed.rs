//! Prints so many numbers from a given one on, of which a table that places 64-bit numbers by a hash with a fixed seed would put
//! each into the same of 8,192 places.
use std::env::args;
use std::io::{BufWriter, Write, stdout};

fn hashed(number: u64) -> u64 {
    let product = (0x243f_6a88_85a3_08d3 ^ number) as u128 * (0x9e37_79b9_7f4a_7c15_u64 ^ 16) as u128;
    let folded = product as u64 ^ (product >> 64) as u64;
    folded ^ folded >> 32
}

fn main() {
    let given: Vec<u64> = args().skip(1).map(|word| word.parse().unwrap()).collect();
    let mut out = BufWriter::new(stdout());
    for number in (given[0]..).filter(|number| hashed(*number) % 8_192 == 0).take(given[1] as usize) {
        writeln!(out, "{number}").unwrap();
    }
}
