// For bench/limits alone: what the machine itself takes. Each prints the median of COUNT times, in milliseconds.
// loopback BYTES COUNT: a request over the loopback, and an answer of so many bytes that were made before;
// pass BLOCKS COUNT: one pass over so many blocks with their districts, and one over their pairs, in memory.
#[allow(dead_code)]
mod client;

use client::{Connection, get, median};
use std::env;
use std::hint::black_box;
use std::io::{Read, Write};
use std::net::TcpListener;
use std::thread;
use std::time::Instant;

const WIDTH: usize = 419;

struct Block { id: u64, city: Option<u32>, population: u32 }

struct Pair { first: u32, second: u32 }

// the milliseconds of each call
fn timed(count: usize, mut call: impl FnMut()) -> f64 {
    median((0..count).map(|_| { let start = Instant::now(); call(); start.elapsed().as_secs_f64() * 1e3 }).collect())
}

// answers each request, which comes in one piece, with the same bytes
fn answer(listener: &TcpListener, bytes: &[u8]) {
    let (mut stream, _) = listener.accept().unwrap();
    stream.set_nodelay(true).unwrap();
    let mut request = [0; 1024];
    while stream.read(&mut request).unwrap() > 0 {
        stream.write_all(bytes).unwrap();
    }
}

fn loopback(length: usize, count: usize) -> f64 {
    let listener = TcpListener::bind(("127.0.0.1", 0)).unwrap();
    let port = listener.local_addr().unwrap().port();
    let mut bytes = format!("HTTP/1.1 200 OK\r\nContent-Type: text/plain\r\nContent-Length: {length}\r\n\r\n").into_bytes();
    bytes.resize(bytes.len() + length, b'7');
    thread::spawn(move || answer(&listener, &bytes));
    let mut connection = Connection::new(port);
    timed(count, || assert_eq!(connection.ask(&get("/blocks"), None), 200))
}

fn pass(count: usize, times: usize) -> f64 {
    let blocks: Vec<Block> = (0..count).map(|i| Block { id: 190_010_000_000_000 + i as u64, city: (i % 2 == 0).then_some(21_000), population: (i % 97) as u32 }).collect();
    let mut pairs = Vec::new();
    for i in 0..count {
        for (other, is_there) in [(i + 1, (i + 1) % WIDTH != 0), (i + WIDTH, true), (i + WIDTH + 1, (i + 1) % WIDTH != 0 && i % 7 < 4)] {
            if is_there && other < count { pairs.push(Pair { first: i as u32, second: other as u32 }); }
        }
    }
    let plan: Vec<u16> = (0..count).map(|i| (i * 100 / count) as u16 + 1).collect();
    timed(times, || {
        let mut people = vec![0; 101];
        let (mut cities, mut joined, mut ids) = (0, 0, 0);
        for (block, district) in blocks.iter().zip(&plan) {
            people[*district as usize] += block.population;
            cities += block.city.unwrap_or(0) as u64;
            ids += block.id;
        }
        for pair in &pairs {
            joined += (plan[pair.first as usize] == plan[pair.second as usize]) as u32;
        }
        black_box((people, cities, joined, ids));
    })
}

fn main() {
    let words: Vec<String> = env::args().collect();
    let number = |at: usize| words[at].parse().unwrap();
    let took = match words[1].as_str() {
        "loopback" => loopback(number(2), number(3)),
        "pass" => pass(number(2), number(3)),
        word => panic!("{word}?"),
    };
    println!("{took:.3}");
}
