// For bench/serve alone: what loads a server with requests and times it, and the plain counterpart of `plandesk serve`, threads that
// keep the desk in memory and answer each request by one read and one write.
mod client;

use client::{Connection, get, median, with_body};
use std::collections::BTreeMap;
use std::env;
use std::fs;
use std::io::{self, Read, Write};
use std::net::{TcpListener, TcpStream};
use std::sync::atomic::{AtomicBool, Ordering};
use std::sync::{Barrier, RwLock};
use std::thread;
use std::time::{Duration, Instant};

// ---- the plain server

struct Plan {
    kind: String,
    districts: usize,
    revisions: Vec<Vec<u16>>,
}

type Desk = RwLock<BTreeMap<String, Plan>>;

struct Head<'a> {
    get: bool,
    target: &'a str,
    length: usize,
    closes: bool,
    size: usize,
}

// one pass over the head, line by line: None where it hasn't come whole
fn head_of(bytes: &[u8]) -> Option<Head<'_>> {
    let mut at = 0;
    let mut line = || {
        let end = at + bytes[at..].iter().position(|b| *b == b'\n')?;
        let line = bytes[at..end].strip_suffix(b"\r")?;
        at = end + 1;
        Some(line)
    };
    let mut words = line()?.split(|b| *b == b' ');
    let (method, target) = (words.next()?, std::str::from_utf8(words.next()?).ok()?);
    let (mut hosts, mut length, mut closes) = (0, 0, false);
    loop {
        let line = line()?;
        if line.is_empty() {
            break;
        }
        let colon = line.iter().position(|b| *b == b':')?;
        let (key, value) = (&line[..colon], line[colon + 1..].trim_ascii());
        if key.eq_ignore_ascii_case(b"host") {
            hosts += 1;
        } else if key.eq_ignore_ascii_case(b"content-length") {
            length = std::str::from_utf8(value).ok()?.parse().ok()?;
        } else if key.eq_ignore_ascii_case(b"connection") {
            closes = value.eq_ignore_ascii_case(b"close");
        }
    }
    assert_eq!(hosts, 1);
    Some(Head { get: method == b"GET", target, length, closes, size: at })
}

// the digits of a number, without the machinery of `write!`
fn put_number(text: &mut Vec<u8>, mut number: usize) {
    let mut digits = [0u8; 20];
    let mut at = digits.len();
    loop {
        at -= 1;
        digits[at] = b'0' + (number % 10) as u8;
        number /= 10;
        if number == 0 {
            break;
        }
    }
    text.extend_from_slice(&digits[at..]);
}

fn put_head(out: &mut Vec<u8>, status: &str, kind: &str, length: usize) {
    for part in ["HTTP/1.1 ", status, "\r\nContent-Type: ", kind, "\r\nContent-Length: "] {
        out.extend_from_slice(part.as_bytes());
    }
    put_number(out, length);
    out.extend_from_slice(b"\r\n\r\n");
}

fn put_list(desk: &Desk, body: &mut Vec<u8>) {
    body.extend_from_slice(b"{\"plans\":[");
    for (i, (name, plan)) in desk.read().unwrap().iter().enumerate() {
        body.extend_from_slice(if i == 0 { b"{\"districts\":" } else { b",{\"districts\":" });
        put_number(body, plan.districts);
        for part in [",\"kind\":\"", &plan.kind, "\",\"name\":\"", name, "\",\"revisions\":"] {
            body.extend_from_slice(part.as_bytes());
        }
        put_number(body, plan.revisions.len());
        body.push(b'}');
    }
    body.extend_from_slice(b"]}");
}

// each block's digits and a bar, three digits and a line end
fn put_revision(blocks: &[[u8; 16]], districts: &[u16], body: &mut Vec<u8>) {
    body.extend_from_slice(b"BLOCKID|DISTRICT\n");
    for (block, district) in blocks.iter().zip(districts) {
        let mut row = [b'\n'; 20];
        row[..16].copy_from_slice(block);
        for (place, power) in [(16, 100), (17, 10), (18, 1)] {
            row[place] = b'0' + (district / power % 10) as u8;
        }
        body.extend_from_slice(&row);
    }
}

fn read_revision(blocks: &[[u8; 16]], text: &[u8]) -> Vec<u16> {
    let rows = text.strip_prefix(b"BLOCKID|DISTRICT\n").unwrap().chunks_exact(20);
    assert_eq!(rows.len(), blocks.len());
    rows.zip(blocks)
        .map(|(row, block)| {
            assert_eq!(&row[..16], block);
            row[16..19].iter().fold(0, |n, digit| n * 10 + (digit - b'0') as u16)
        })
        .collect()
}

const JSON: &str = "application/json";

// the answer to a request, behind its head
fn answer(desk: &Desk, blocks: &[[u8; 16]], head: &Head, given: &[u8], body: &mut Vec<u8>, out: &mut Vec<u8>) {
    body.clear();
    out.clear();
    let (path, query) = head.target.split_once('?').unwrap_or((head.target, ""));
    if head.get && path == "/plans" {
        put_list(desk, body);
        put_head(out, "200 OK", JSON, body.len());
        return out.extend_from_slice(body);
    }
    let (name, revision) = path.strip_prefix("/plans/").unwrap().split_once('/').unwrap_or((&path[7..], ""));
    if head.get {
        let number: usize = revision.strip_prefix("revisions/").unwrap().parse().unwrap();
        let size = 17 + 20 * blocks.len();
        put_head(out, "200 OK", "text/plain; charset=us-ascii", size);
        out.reserve(size);
        return put_revision(blocks, &desk.read().unwrap()[name].revisions[number - 1], out);
    }
    let number = if revision.is_empty() {
        let words: BTreeMap<_, _> = query.split('&').filter_map(|pair| pair.split_once('=')).collect();
        let plan = Plan { kind: words["kind"].into(), districts: words["districts"].parse().unwrap(), revisions: Vec::new() };
        assert!(desk.write().unwrap().insert(name.into(), plan).is_none());
        0
    } else {
        let districts = read_revision(blocks, given);
        let mut plans = desk.write().unwrap();
        let revisions = &mut plans.get_mut(name).unwrap().revisions;
        revisions.push(districts);
        revisions.len()
    };
    write!(body, "{{\"plan\":\"{name}\",\"revisions\":{number}}}").unwrap();
    put_head(out, "201 Created", JSON, body.len());
    out.extend_from_slice(body);
}

// whole requests, each by one read where its bytes came at once; each answer by one write
fn serve_stream(mut stream: TcpStream, desk: &Desk, blocks: &[[u8; 16]]) -> io::Result<()> {
    stream.set_nodelay(true)?;
    let (mut inbox, mut came, mut start) = (vec![0; 65_536], 0, 0);
    let (mut body, mut out) = (Vec::new(), Vec::new());
    loop {
        let Some(head) = head_of(&inbox[start..came]) else {
            inbox.copy_within(start..came, 0);
            (came, start) = (came - start, 0);
            assert!(came < inbox.len());
            let more = stream.read(&mut inbox[came..])?;
            if more == 0 {
                return Ok(());
            }
            came += more;
            continue;
        };
        let begin = start + head.size;
        let here = head.length.min(came - begin);
        let mut given = Vec::new();
        if here == head.length {
            answer(desk, blocks, &head, &inbox[begin..begin + here], &mut body, &mut out);
        } else {
            given.resize(head.length, 0);
            given[..here].copy_from_slice(&inbox[begin..came]);
            stream.read_exact(&mut given[here..])?;
            answer(desk, blocks, &head, &given, &mut body, &mut out);
        }
        let closes = head.closes;
        start = begin + here;
        stream.write_all(&out)?;
        if closes {
            return Ok(());
        }
    }
}

fn plain(port: u16, workers: usize, text: &str) {
    let text = fs::read(text).unwrap();
    let blocks: Vec<[u8; 16]> = text.split(|b| *b == b'\n').skip(1).filter_map(|line| line.get(..16)?.try_into().ok()).collect();
    let listener = TcpListener::bind(("127.0.0.1", port)).unwrap();
    let desk = Desk::default();
    println!("listening on 127.0.0.1:{port}");
    thread::scope(|scope| {
        for _ in 0..workers {
            scope.spawn(|| {
                for stream in listener.incoming() {
                    let _ = serve_stream(stream.unwrap(), &desk, &blocks);
                }
            });
        }
    });
}

// ---- what loads a server

// ten plans, the first with a revision; those that are there stay
fn set_up(port: u16, text: &str) {
    let mut connection = Connection::new(port);
    for i in 0..10 {
        let status = connection.ask(&with_body(&format!("PUT /plans/plan-{i}?kind=house&districts=100"), b""), None);
        assert!(status == 201 || status == 409, "{status}");
    }
    let mut list = Vec::new();
    connection.ask(&get("/plans"), Some(&mut list));
    if !String::from_utf8(list).unwrap().contains("\"revisions\":1") {
        assert_eq!(connection.ask(&with_body("POST /plans/plan-0/revisions?after=0", &fs::read(text).unwrap()), None), 201);
    }
}

// answers a second, and the greatest wait in microseconds
fn rate(port: u16, path: &str, connections: usize, seconds: f64) -> (f64, u128) {
    let request = get(path);
    let (over, barrier) = (AtomicBool::new(false), Barrier::new(connections + 1));
    thread::scope(|scope| {
        let threads: Vec<_> = (0..connections)
            .map(|_| {
                scope.spawn(|| {
                    let mut connection = Connection::new(port);
                    assert_eq!(connection.ask(&request, None), 200);
                    barrier.wait();
                    let (mut count, mut longest) = (0u64, Duration::ZERO);
                    let mut last = Instant::now();
                    while !over.load(Ordering::Relaxed) {
                        assert_eq!(connection.ask(&request, None), 200);
                        count += 1;
                        let now = Instant::now();
                        longest = longest.max(now - last);
                        last = now;
                    }
                    (count, longest)
                })
            })
            .collect();
        barrier.wait();
        let start = Instant::now();
        thread::sleep(Duration::from_secs_f64(seconds));
        over.store(true, Ordering::Relaxed);
        let took = start.elapsed().as_secs_f64();
        let ended: Vec<(u64, Duration)> = threads.into_iter().map(|t| t.join().unwrap()).collect();
        let count: u64 = ended.iter().map(|e| e.0).sum();
        (count as f64 / took, ended.iter().map(|e| e.1).max().unwrap().as_micros())
    })
}

// SECONDS ROUNDS PATH CONNECTIONS NAME=PORT ..: the servers in turn, and the first one's rate to each other's, round by round
fn compare(words: &[String]) {
    let (seconds, rounds): (f64, usize) = (words[0].parse().unwrap(), words[1].parse().unwrap());
    let connections = words[3].parse().unwrap();
    let servers: Vec<(&str, u16)> = words[4..].iter().map(|w| w.split_once('=').unwrap()).map(|(n, p)| (n, p.parse().unwrap())).collect();
    let mut rates = vec![Vec::new(); servers.len()];
    for round in 0..rounds {
        for turn in 0..servers.len() {
            let at = (turn + round) % servers.len();
            rates[at].push(rate(servers[at].1, &words[2], connections, seconds).0);
        }
    }
    let mut said = format!("{} at {connections} connections, answers a second:", words[2]);
    for ((name, _), rates) in servers.iter().zip(&rates) {
        said += &format!(" {name} {:.0}", median(rates.clone()));
        if connections == 1 {
            said += &format!(" ({:.0} µs each)", 1e6 / median(rates.clone()));
        }
    }
    for (at, (name, _)) in servers.iter().enumerate().skip(1) {
        let ratios: Vec<f64> = rates[0].iter().zip(&rates[at]).map(|(first, other)| first / other).collect();
        said += &format!("; {} to {name} {:.2}", servers[0].0, median(ratios));
    }
    println!("{said}");
}

// posts revisions of a plan, one text and the other in turn, until told to end: how many
fn post(port: u16, plan: &str, texts: &[Vec<u8>; 2], over: &AtomicBool) -> u64 {
    let mut connection = Connection::new(port);
    let status = connection.ask(&with_body(&format!("PUT /plans/{plan}?kind=house&districts=100"), b""), None);
    assert_eq!(status, 201);
    let mut count = 0;
    while !over.load(Ordering::Relaxed) {
        let text = &texts[count as usize % 2];
        let status = connection.ask(&with_body(&format!("POST /plans/{plan}/revisions?after={count}"), text), None);
        assert_eq!(status, 201);
        count += 1;
    }
    count
}

// SECONDS ROUNDS CONNECTIONS PORT OTHER TEXT: readers of a server alone, beside a writer at the same server, and beside one at another
fn beside(words: &[String]) {
    let (seconds, rounds): (f64, usize) = (words[0].parse().unwrap(), words[1].parse().unwrap());
    let connections = words[2].parse().unwrap();
    let (port, other): (u16, u16) = (words[3].parse().unwrap(), words[4].parse().unwrap());
    let text = fs::read(&words[5]).unwrap();
    let mut turned = text.clone();
    for row in turned[17..].chunks_exact_mut(20) {
        let first = row[16..19] == *b"001";
        row[16..19].copy_from_slice(if first { b"002" } else { b"001" });
    }
    let texts = [text, turned];
    let (mut alone, mut kept, mut longest) = (Vec::new(), [Vec::new(), Vec::new()], [0; 3]);
    let mut posts = [0.0, 0.0];
    for round in 0..rounds {
        let (first, wait) = rate(port, "/plans", connections, seconds);
        longest[2] = longest[2].max(wait);
        alone.push(first);
        for (which, at) in [port, other].into_iter().enumerate() {
            let over = AtomicBool::new(false);
            let plan = format!("beside-{connections}-{round}-{which}");
            let ((now, wait), count) = thread::scope(|scope| {
                let writer = scope.spawn(|| post(at, &plan, &texts, &over));
                let now = rate(port, "/plans", connections, seconds);
                over.store(true, Ordering::Relaxed);
                (now, writer.join().unwrap())
            });
            kept[which].push(now / first);
            longest[which] = longest[which].max(wait);
            posts[which] += count as f64 / seconds / rounds as f64;
        }
    }
    let [same, apart] = kept.map(median);
    println!(
        "readers at {connections} connections: {:.0} a second; beside a writer {same:.2} of that ({:.0} posts a second), beside a writer at another server {apart:.2} ({:.0} posts a second); the longest waits in ms: alone {:.1}, beside {:.1} and {:.1}",
        median(alone), posts[0], posts[1], longest[2] as f64 / 1e3, longest[0] as f64 / 1e3, longest[1] as f64 / 1e3
    );
}

fn main() {
    let words: Vec<String> = env::args().collect();
    let port = |at: usize| words[at].parse().unwrap();
    match words[1].as_str() {
        "plain" => plain(port(2), words[3].parse().unwrap(), &words[4]),
        "set-up" => set_up(port(2), &words[3]),
        "fetch" => {
            let mut body = Vec::new();
            assert_eq!(Connection::new(port(2)).ask(&get(&words[3]), Some(&mut body)), 200);
            io::stdout().write_all(&body).unwrap();
        }
        "ask" => {
            let mut connection = Connection::new(port(2));
            for _ in 0..words[4].parse().unwrap() {
                assert_eq!(connection.ask(&get(&words[3]), None), 200);
            }
        }
        "compare" => compare(&words[2..]),
        "beside" => beside(&words[2..]),
        word => panic!("{word}?"),
    }
}
