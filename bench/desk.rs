// For bench/desk, bench/served and bench/sizes: what asks `plandesk serve` for commands and queries and times them, and the plain
// counterpart of a command: the same pages at the same places with the same syncs, as strace noted them of one.
mod calls;
mod client;

use calls::{Call, call_of, make, writes};
use client::{Connection, get, median, with_body};
use std::env;
use std::fs::{self, OpenOptions};
use std::net::TcpStream;
use std::process::{Command, Stdio};
use std::thread;
use std::time::{Duration, Instant};

const HEAD: &str = "BLOCKID|DISTRICT\n";
const DISTRICTS: usize = 100;

// a plan's text, and its rows county by county
fn counties_of(text: &str) -> Vec<Vec<(&str, usize)>> {
    let mut counties: Vec<Vec<(&str, usize)>> = Vec::new();
    for row in text.strip_prefix(HEAD).unwrap().lines() {
        let (block, district) = row.split_once('|').unwrap();
        let row = (block, district.parse().unwrap());
        match counties.last_mut() {
            Some(county) if county[0].0[..5] == block[..5] => county.push(row),
            _ => counties.push(vec![row]),
        }
    }
    counties
}

// rows with each district so many further on
fn text_of<'a>(rows: impl Iterator<Item = &'a (&'a str, usize)>, turn: usize) -> String {
    let mut text = String::from(HEAD);
    for (block, district) in rows {
        text += &format!("{block}|{:03}\n", (district - 1 + turn) % DISTRICTS + 1);
    }
    text
}

// the processor time of all threads of a process, in microseconds
fn processor(process: &str) -> f64 {
    let tasks = fs::read_dir(format!("/proc/{process}/task")).unwrap();
    let spent = tasks.map(|task| fs::read_to_string(task.unwrap().path().join("schedstat")).unwrap());
    spent.map(|line| line.split(' ').next().unwrap().parse::<f64>().unwrap()).sum::<f64>() / 1e3
}

// the most memory that a process had, in KB
fn peak(process: &str) -> String {
    let status = fs::read_to_string(format!("/proc/{process}/status")).unwrap();
    let line = status.lines().find(|line| line.starts_with("VmHWM")).unwrap();
    line.split_whitespace().nth(1).unwrap().to_string()
}

fn create(connection: &mut Connection, name: &str) {
    let words = format!("PUT /plans/{name}?kind=house&districts={DISTRICTS}");
    assert_eq!(connection.ask(&with_body(&words, b""), None), 201);
}

fn told(what: &str, mut waits: Vec<f64>, spent: f64) {
    let count = waits.len();
    waits.sort_by(f64::total_cmp);
    println!("{what}: p50 {:.0} µs, p90 {:.0} µs, processor {:.0} µs each, {count} of them", median(waits.clone()), waits[count * 9 / 10], spent / count as f64);
}

// PORT PROCESS TEXT NAME FIRST COUNT: patches of one county each, behind revision FIRST; where FIRST is 0 the plan is made with its
// first revision before
fn patches(words: &[String]) {
    let text = fs::read_to_string(&words[2]).unwrap();
    let counties = counties_of(&text);
    let (name, mut first, count): (&str, usize, usize) = (&words[3], words[4].parse().unwrap(), words[5].parse().unwrap());
    let mut connection = Connection::new(words[0].parse().unwrap());
    if first == 0 {
        create(&mut connection, name);
        assert_eq!(connection.ask(&with_body(&format!("POST /plans/{name}/revisions?after=0"), text.as_bytes()), None), 201);
        first = 1;
    }
    let requests: Vec<Vec<u8>> = (first..first + count)
        .map(|k| {
            let body = text_of(counties[k % counties.len()].iter(), 1 + k / counties.len());
            with_body(&format!("POST /plans/{name}/counties?after={k}"), body.as_bytes())
        })
        .collect();
    let (mut waits, before) = (Vec::new(), processor(&words[1]));
    for request in &requests {
        let start = Instant::now();
        assert_eq!(connection.ask(request, None), 201);
        waits.push(start.elapsed().as_secs_f64() * 1e6);
    }
    told(&format!("a patch of one of {} counties behind revision {first}", counties.len()), waits, processor(&words[1]) - before);
    println!("  peak KB: {}", peak(&words[1]));
}

// PORT PROCESS NAME COUNT: creates of plans whose names begin so
fn creates(words: &[String]) {
    let mut connection = Connection::new(words[0].parse().unwrap());
    let (mut waits, before) = (Vec::new(), processor(&words[1]));
    for i in 0..words[3].parse().unwrap() {
        let start = Instant::now();
        create(&mut connection, &format!("{}-{i}", words[2]));
        waits.push(start.elapsed().as_secs_f64() * 1e6);
    }
    told("a create", waits, processor(&words[1]) - before);
}

// PORT PROCESS NAME:REVISION NAME COUNT: forks of a revision, whose names begin so
fn forks(words: &[String]) {
    let mut connection = Connection::new(words[0].parse().unwrap());
    let (mut waits, before) = (Vec::new(), processor(&words[1]));
    for i in 0..words[4].parse().unwrap() {
        let request = with_body(&format!("POST /plans/{}-fork-{i}?from={}", words[3], words[2]), b"");
        let start = Instant::now();
        assert_eq!(connection.ask(&request, None), 201);
        waits.push(start.elapsed().as_secs_f64() * 1e6);
    }
    told(&format!("a fork of {}", words[2]), waits, processor(&words[1]) - before);
}

// PORT PROCESS TEXT NAME COUNT: whole revisions of a new plan, each county of which changes
fn wholes(words: &[String]) {
    let text = fs::read_to_string(&words[2]).unwrap();
    let counties = counties_of(&text);
    let texts = [0, 1].map(|turn| text_of(counties.iter().flatten(), turn));
    let mut connection = Connection::new(words[0].parse().unwrap());
    create(&mut connection, &words[3]);
    let (mut waits, before) = (Vec::new(), processor(&words[1]));
    for k in 0..words[4].parse().unwrap() {
        let request = with_body(&format!("POST /plans/{}/revisions?after={k}", words[3]), texts[k % 2].as_bytes());
        let start = Instant::now();
        assert_eq!(connection.ask(&request, None), 201);
        waits.push(start.elapsed().as_secs_f64() * 1e6);
    }
    told("a whole revision", waits, processor(&words[1]) - before);
}

// PORT PROCESS PATH COUNT
fn reads(words: &[String]) {
    let mut connection = Connection::new(words[0].parse().unwrap());
    let (mut waits, before) = (Vec::new(), processor(&words[1]));
    let paths: Vec<&str> = words[2].split(' ').collect();
    for k in 0..words[3].parse().unwrap() {
        let start = Instant::now();
        assert_eq!(connection.ask(&get(paths[k % paths.len()]), None), 200);
        waits.push(start.elapsed().as_secs_f64() * 1e6);
    }
    told(&words[2], waits, processor(&words[1]) - before);
}

// PORT TEXT COUNT: plans of one whole revision each, no two alike
fn plans(words: &[String]) {
    let text = fs::read_to_string(&words[1]).unwrap();
    let counties = counties_of(&text);
    let mut connection = Connection::new(words[0].parse().unwrap());
    for i in 0..words[2].parse().unwrap() {
        create(&mut connection, &format!("many-{i}"));
        let body = text_of(counties.iter().flatten(), i % DISTRICTS);
        let request = with_body(&format!("POST /plans/many-{i}/revisions?after=0"), body.as_bytes());
        assert_eq!(connection.ask(&request, None), 201);
    }
}

// PORT TEXT COUNT PATCHES: plans of one whole revision each, no two alike, and so many patches of one county behind each
fn patched(words: &[String]) {
    plans(&words[..3]);
    let text = fs::read_to_string(&words[1]).unwrap();
    let counties = counties_of(&text);
    let mut connection = Connection::new(words[0].parse().unwrap());
    for i in 0..words[2].parse().unwrap() {
        for k in 1..=words[3].parse().unwrap() {
            let body = text_of(counties[(i + k) % counties.len()].iter(), i % DISTRICTS + k);
            let request = with_body(&format!("POST /plans/many-{i}/counties?after={k}"), body.as_bytes());
            assert_eq!(connection.ask(&request, None), 201);
        }
    }
}

// PLANDESK STORE PORT: from the start of `serve` to its first answer
fn opening(words: &[String]) {
    let start = Instant::now();
    let mut command = Command::new(&words[0]);
    command.args(["serve", &words[1], "--port", &words[2], "--workers", "1", "--connections", "9"]).stdout(Stdio::null());
    let mut server = command.spawn().unwrap();
    while TcpStream::connect(format!("127.0.0.1:{}", words[2])).is_err() {
        thread::sleep(Duration::from_micros(200));
    }
    assert_eq!(Connection::new(words[2].parse().unwrap()).ask(&get("/plans"), None), 200);
    let took = start.elapsed().as_secs_f64();
    let process = server.id().to_string();
    println!("an opening, to its first answer: {took:.3} s, {:.3} of processor, peak KB {}", processor(&process) / 1e6, peak(&process));
    server.kill().unwrap();
    server.wait().unwrap();
}

// TRACE STORE COUNT: the writes and syncs between the last answer of a trace and the one before it, again and again
fn bare(words: &[String]) {
    let trace = fs::read_to_string(&words[0]).unwrap();
    let lines: Vec<&str> = trace.lines().collect();
    let answers: Vec<usize> = (0..lines.len()).filter(|at| lines[*at].contains(" sendto(")).collect();
    let [.., before, last] = answers[..] else { panic!("two answers?") };
    let calls: Vec<Call> = lines[before..last].iter().filter_map(|line| call_of(line)).collect();
    let file = OpenOptions::new().write(true).open(&words[1]).unwrap();
    let mut waits = Vec::new();
    for _ in 0..words[2].parse().unwrap() {
        let start = Instant::now();
        make(&file, &calls);
        waits.push(start.elapsed().as_secs_f64() * 1e6);
    }
    let writes = writes(&calls);
    told(&format!("its {writes} writes and {} syncs alone", calls.len() - writes), waits, 0.0);
}

fn main() {
    let words: Vec<String> = env::args().skip(1).collect();
    match words[0].as_str() {
        "patches" => patches(&words[1..]),
        "creates" => creates(&words[1..]),
        "forks" => forks(&words[1..]),
        "wholes" => wholes(&words[1..]),
        "reads" => reads(&words[1..]),
        "plans" => plans(&words[1..]),
        "patched" => patched(&words[1..]),
        "opening" => opening(&words[1..]),
        "bare" => bare(&words[1..]),
        word => panic!("{word}?"),
    }
}
