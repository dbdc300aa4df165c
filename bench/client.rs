// What bench/serve, bench/desk and bench/sweep ask a server with: a connection that stays, one request after the other.
use std::io::{Read, Write};
use std::net::TcpStream;

fn has_length(head: &[u8]) -> usize {
    head.split(|b| *b == b'\n')
        .find_map(|line| {
            let (key, value) = line.split_at(line.iter().position(|b| *b == b':')?);
            key.eq_ignore_ascii_case(b"content-length").then(|| std::str::from_utf8(&value[1..]).unwrap().trim().parse().unwrap())
        })
        .unwrap_or(0)
}

pub struct Connection {
    stream: TcpStream,
    buffer: Vec<u8>,
}

impl Connection {
    pub fn new(port: u16) -> Connection {
        let stream = TcpStream::connect(("127.0.0.1", port)).unwrap();
        stream.set_nodelay(true).unwrap();
        Connection { stream, buffer: vec![0; 1 << 18] }
    }

    // one write, and reads until the answer is there: its status, and its body where it is kept
    pub fn ask(&mut self, request: &[u8], mut keep: Option<&mut Vec<u8>>) -> u16 {
        self.stream.write_all(request).unwrap();
        let mut came = 0;
        let end = loop {
            let n = self.stream.read(&mut self.buffer[came..]).unwrap();
            assert!(n > 0, "the server closed");
            came += n;
            if let Some(end) = self.buffer[..came].windows(4).position(|w| w == b"\r\n\r\n") {
                break end + 4;
            }
        };
        let head = &self.buffer[..end];
        let status = std::str::from_utf8(&head[9..12]).unwrap().parse().unwrap();
        let mut left = has_length(head) - (came - end);
        if let Some(body) = &mut keep {
            body.extend_from_slice(&self.buffer[end..came]);
        }
        while left > 0 {
            let n = self.stream.read(&mut self.buffer).unwrap();
            assert!(n > 0, "the server closed");
            left -= n;
            if let Some(body) = &mut keep {
                body.extend_from_slice(&self.buffer[..n]);
            }
        }
        status
    }
}

pub fn get(path: &str) -> Vec<u8> {
    format!("GET {path} HTTP/1.1\r\nHost: d\r\n\r\n").into_bytes()
}

pub fn with_body(words: &str, body: &[u8]) -> Vec<u8> {
    let mut request = format!("{words} HTTP/1.1\r\nHost: d\r\nContent-Length: {}\r\n\r\n", body.len()).into_bytes();
    request.extend_from_slice(body);
    request
}

pub fn median(mut numbers: Vec<f64>) -> f64 {
    numbers.sort_by(f64::total_cmp);
    let half = numbers.len() / 2;
    if numbers.len() % 2 == 1 { numbers[half] } else { (numbers[half - 1] + numbers[half]) / 2.0 }
}
