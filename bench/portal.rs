// The client of bench/portal: some connections make plans and post a whole revision of each; others audit each plan at the same time, and
// compare the revision that they read back with the one that was posted.
mod client;

use client::{Connection, get, with_body};
use std::env;
use std::fs;
use std::io::{BufRead, BufReader};
use std::process::{Command, Stdio};
use std::sync::atomic::{AtomicUsize, Ordering};
use std::sync::mpsc::{Receiver, Sender, channel};
use std::sync::Mutex;
use std::thread;
use std::time::Instant;

const HEAD: &[u8] = b"BLOCKID|DISTRICT\n";
// a block's 15 digits, a bar, the three digits of its district, a line feed
const LINE: usize = 20;
const DISTRICTS: usize = 100;

/// The text of a plan, by rising blocks. Each plan shifts the districts by another number of blocks.
#[derive(Clone)]
struct Text {
    bytes: Vec<u8>,
}

impl Text {
    fn of(path: &str) -> Text {
        let given = fs::read(path).unwrap();
        assert!(given.starts_with(HEAD) && (given.len() - HEAD.len()) % LINE == 0);
        let mut lines: Vec<&[u8]> = given[HEAD.len()..].chunks(LINE).collect();
        lines.sort();
        Text { bytes: [HEAD, &lines.concat()].concat() }
    }

    fn shift(&mut self, plan: usize) -> &[u8] {
        let count = (self.bytes.len() - HEAD.len()) / LINE;
        let first = plan * 7919 % count;
        for (place, line) in self.bytes[HEAD.len()..].chunks_mut(LINE).enumerate() {
            let district = (place + first) % count * DISTRICTS / count + 1;
            for (digit, power) in line[16..19].iter_mut().zip([100, 10, 1]) {
                *digit = b'0' + (district / power % 10) as u8;
            }
        }
        &self.bytes
    }
}

/// A server, over one connection that stays open, or over a new one for each request if the server closes it.
struct Server {
    port: u16,
    stays: bool,
    connection: Connection,
}

impl Server {
    fn new(port: u16, stays: bool) -> Server {
        Server { port, stays, connection: Connection::new(port) }
    }

    fn ask(&mut self, request: &[u8], keep: Option<&mut Vec<u8>>) -> u16 {
        let status = self.connection.ask(request, keep);
        if !self.stays {
            self.connection = Connection::new(self.port);
        }
        status
    }
}

fn path(plan: usize) -> String {
    format!("/plans/p{plan:05}")
}

fn milliseconds(work: impl FnOnce()) -> f64 {
    let start = Instant::now();
    work();
    start.elapsed().as_secs_f64() * 1e3
}

/// Makes and posts plans until there are enough. Returns the milliseconds of each create and each post.
fn posts(mut server: Server, plans: usize, next: &AtomicUsize, mut text: Text, posted: Sender<usize>) -> [Vec<f64>; 2] {
    let mut waits = [Vec::new(), Vec::new()];
    loop {
        let plan = next.fetch_add(1, Ordering::Relaxed);
        if plan >= plans {
            return waits;
        }
        let make = with_body(&format!("PUT {}?kind=house&districts={DISTRICTS}", path(plan)), b"");
        let post = with_body(&format!("POST {}/revisions?after=0", path(plan)), text.shift(plan));
        waits[0].push(milliseconds(|| assert_eq!(server.ask(&make, None), 201)));
        waits[1].push(milliseconds(|| assert_eq!(server.ask(&post, None), 201)));
        posted.send(plan).unwrap();
    }
}

/// Audits each posted plan and reads it back. Returns the milliseconds of each audit and each read-back.
fn reads(mut server: Server, posted: &Mutex<Receiver<usize>>, mut text: Text) -> [Vec<f64>; 2] {
    let (mut waits, mut body) = ([Vec::new(), Vec::new()], Vec::new());
    loop {
        let next = posted.lock().unwrap().recv();
        let Ok(plan) = next else { return waits };
        let (audit, read) = (get(&format!("{}/revisions/1/audit", path(plan))), get(&format!("{}/revisions/1", path(plan))));
        body.clear();
        waits[0].push(milliseconds(|| assert_eq!(server.ask(&audit, Some(&mut body)), 200)));
        assert!(body.starts_with(b"{\"broken\":"), "no report");
        body.clear();
        waits[1].push(milliseconds(|| assert_eq!(server.ask(&read, Some(&mut body)), 200)));
        assert!(body == text.shift(plan), "another revision");
    }
}

/// The median and the 99th percentile, as cells of a table.
fn cell(mut waits: Vec<f64>) -> String {
    waits.sort_by(f64::total_cmp);
    let at = |part: f64| waits[((waits.len() as f64 * part).ceil() as usize).clamp(1, waits.len()) - 1];
    format!("{:.2}; {:.2}", at(0.5), at(0.99))
}

fn joined(threads: Vec<thread::ScopedJoinHandle<'_, [Vec<f64>; 2]>>) -> [Vec<f64>; 2] {
    let mut all = [Vec::new(), Vec::new()];
    for found in threads.into_iter().map(|each| each.join().unwrap()) {
        all.iter_mut().zip(found).for_each(|(all, waits)| all.extend(waits));
    }
    all
}

/// PORT PLAN PLANS POSTERS READERS stays|closes: prints the plans posted per second and the milliseconds of each request.
fn load(words: &[String]) {
    let (port, stays) = (words[0].parse().unwrap(), words[5] == "stays");
    let numbers: Vec<usize> = words[2..5].iter().map(|word| word.parse().unwrap()).collect();
    let (text, next, start) = (Text::of(&words[1]), AtomicUsize::new(0), Instant::now());
    let (sender, receiver) = channel();
    let posted = Mutex::new(receiver);
    thread::scope(|scope| {
        let posters = (0..numbers[1]).map(|_| (text.clone(), sender.clone())).collect::<Vec<_>>();
        drop(sender);
        let posters = posters
            .into_iter()
            .map(|(text, sender)| scope.spawn(|| posts(Server::new(port, stays), numbers[0], &next, text, sender)))
            .collect();
        let readers = (0..numbers[2]).map(|_| text.clone()).collect::<Vec<_>>();
        let readers = readers.into_iter().map(|text| scope.spawn(|| reads(Server::new(port, stays), &posted, text))).collect();
        let [make, post] = joined(posters);
        let rate = numbers[0] as f64 / start.elapsed().as_secs_f64();
        let [audit, read] = joined(readers);
        println!("{rate:.1} | {} | {} | {} | {}", cell(make), cell(post), cell(audit), cell(read));
    });
}

/// PROGRAM STORE PORT: prints the seconds until the store is served.
fn opening(words: &[String]) {
    let start = Instant::now();
    let mut server = Command::new(&words[0]).args(["serve", &words[1], "--port", &words[2]]).stdout(Stdio::piped()).spawn().unwrap();
    let mut line = String::new();
    BufReader::new(server.stdout.take().unwrap()).read_line(&mut line).unwrap();
    assert!(line.starts_with("listening"), "no server");
    println!("{:.2}", start.elapsed().as_secs_f64());
    server.kill().unwrap();
    server.wait().unwrap();
}

/// PORT: prints the audit of the first plan.
fn audit(words: &[String]) {
    let mut body = Vec::new();
    assert_eq!(Connection::new(words[0].parse().unwrap()).ask(&get(&format!("{}/revisions/1/audit", path(0))), Some(&mut body)), 200);
    println!("{}", String::from_utf8(body).unwrap());
}

fn main() {
    let words: Vec<String> = env::args().skip(1).collect();
    match words[0].as_str() {
        "load" => load(&words[1..]),
        "opening" => opening(&words[1..]),
        "audit" => audit(&words[1..]),
        word => panic!("no such word: {word}"),
    }
}
