//! Hostile bytes, made from worked ones: streams into `talk`, and files into `check`. Each is cut, doubled, spliced with another,
//! or has bytes, sizes, names or line ends changed. It is given whole, from a file, and again one byte at a time, through a pipe
//! that keeps its packets apart. Both runs have to end with a status that is named, without a signal, with the same bytes on
//! standard output and standard error, and within the same bound of memory. A part of the streams is sent to a served store too, each
//! by a connection of its own, four at a time: the server has to end by itself, with nothing told, within that bound.
//!
//! hostile PROGRAM EXAMPLE STREAMS FILES SEED: EXAMPLE is the folder of the sample's files.
use std::fs::{self, File};
use std::io::{BufRead, BufReader, ErrorKind, Read, Seek, SeekFrom, Write};
use std::net::{Shutdown, TcpListener, TcpStream};
use std::os::fd::{FromRawFd, OwnedFd};
use std::path::{Path, PathBuf};
use std::process::{Command, Stdio};
use std::sync::atomic::{AtomicU64, AtomicUsize, Ordering};
use std::time::Duration;

/// The most memory that a run may hold, in kilobytes: the buffers, the store in memory, and a body of the size of a stream.
const MEMORY: u64 = 65_536;

extern "C" {
    fn pipe2(ends: *mut i32, flags: i32) -> i32;
    fn wait4(pid: i32, status: *mut i32, options: i32, usage: *mut Usage) -> i32;
    fn signal(number: i32, handler: usize) -> usize;
}

/// What the system tells of a process that has ended: `struct rusage` of Linux on x86-64.
#[repr(C)]
#[derive(Default)]
struct Usage {
    times: [i64; 4],
    peak: i64,
    rest: [i64; 13],
}

/// Numbers that are the same for the same seed (xorshift64*).
struct Numbers(u64);

impl Numbers {
    fn next(&mut self) -> u64 {
        self.0 ^= self.0 >> 12;
        self.0 ^= self.0 << 25;
        self.0 ^= self.0 >> 27;
        self.0.wrapping_mul(0x2545_F491_4F6C_DD1D) >> 11
    }

    fn below(&mut self, limit: usize) -> usize {
        (self.next() % limit as u64) as usize
    }

    fn of<'a, T: ?Sized>(&mut self, list: &'a [&'a T]) -> &'a T {
        list[self.below(list.len())]
    }
}

/// The numbers of the k-th of the inputs.
fn numbers_of(seed: u64, k: usize) -> Numbers {
    let mut numbers = Numbers((seed << 32) + 2 * k as u64 + 1);
    for _ in 0..4 {
        numbers.next();
    }
    numbers
}

const COUNTY: &str = "BLOCKID|DISTRICT\n190010001001001|01\n190010001001002|01\n190030001001001|02\n190030001001002|02\n";
const PATCH: &str = "BLOCKID|DISTRICT\n190030001001001|1\n190030001001002|1\n";

/// Requests that are answered, each one whole.
fn requests() -> Vec<Vec<u8>> {
    let sized = |line: &str, body: &str| format!("{line} HTTP/1.1\r\nHost: d\r\nContent-Length: {}\r\n\r\n{body}", body.len());
    let chunked = |line: &str, more: &str, body: &str| {
        let (front, back) = body.split_at(17);
        format!("{line} HTTP/1.1\r\nHost: d\r\n{more}Transfer-Encoding: chunked\r\n\r\n{:x}\r\n{front}\r\n{:x};x=y\r\n{back}\r\n0\r\nDigest: none\r\n\r\n",
            front.len(), back.len())
    };
    let bare = |line: &str| format!("{line} HTTP/1.1\r\nHost: d\r\n\r\n");
    [
        bare("PUT /plans/a?kind=congress&districts=2"),
        sized("POST /plans/a/revisions?after=0", COUNTY),
        sized("POST /plans/a/counties?after=1", PATCH),
        chunked("POST /plans/a/revisions?after=0", "", COUNTY),
        chunked("POST /plans/a/revisions?after=0", "Expect: 100-continue\r\n", COUNTY),
        bare("GET /plans"),
        bare("GET /plans/a/revisions/1"),
        bare("GET /plans/a/revisions/1/audit"),
        bare("GET /blocks"),
        bare("HEAD /plans"),
        bare("DELETE /plans"),
        bare("DELETE /plans/a"),
        bare("GET http://d/plans"),
        bare("PUT /plans/%61b?kind=house&districts=2"),
        bare("POST /plans/f?from=a:1"),
        bare("POST /plans/a?fr%6Fm=f:00001"),
        bare("GET /plans/a/revisions/1/audit?senate=b:1"),
        bare("GET /plans/ab/revisions/1/audit?congress=a:1&senate=b:1"),
        "GET /plans HTTP/1.0\r\n\r\n".to_string(),
        "GET /plans HTTP/1.1\r\nHost: d\r\nConnection: close\r\n\r\n".to_string(),
    ]
    .into_iter()
    .map(String::into_bytes)
    .collect()
}

const HUGE: [&str; 10] = [
    "0", "1", "33554432", "33554433", "4294967295", "4294967296", "18446744073709551615", "18446744073709551616",
    "99999999999999999999999999", "-1",
];
const HEADS: [&str; 12] = [
    "Content-Length", "content-length", "Transfer-Encoding", "Expect", "Connection", "Host", "Trailer", "X", "", " Host", "Host ", "Ho\tst",
];
const ENDS: [&str; 6] = ["\n", "\r", "\r\r\n", "\r\n\r\n", "", "\n\r"];
const ODD: [u8; 14] = [0, 9, 10, 13, 32, 34, 37, 58, 59, 124, 127, 128, 195, 255];

/// Places of a run of bytes that the test takes, as the first and the one behind the last.
fn runs(bytes: &[u8], is_in: impl Fn(u8) -> bool) -> Vec<(usize, usize)> {
    let mut found = Vec::new();
    let mut at = 0;
    while at < bytes.len() {
        let end = at + bytes[at..].iter().take_while(|&&b| is_in(b)).count();
        if end > at {
            found.push((at, end));
        }
        at = end + 1;
    }
    found
}

fn put(bytes: &mut Vec<u8>, (from, to): (usize, usize), new: &[u8]) {
    bytes.splice(from..to, new.iter().copied());
}

/// Changes the bytes once.
fn mutate(numbers: &mut Numbers, bytes: &mut Vec<u8>, other: &[u8]) {
    if bytes.is_empty() {
        return;
    }
    let at = numbers.below(bytes.len());
    match numbers.below(12) {
        0 => bytes.truncate(at),
        1 => {
            let to = (at + 1 + numbers.below(64)).min(bytes.len());
            let part = bytes[at..to].to_vec();
            put(bytes, (at, at), &part);
        }
        2 => bytes[at] = ODD[numbers.below(ODD.len())],
        3 => bytes[at] = numbers.next() as u8,
        4 => bytes[at] ^= 1 << numbers.below(8),
        5 => {
            let to = (at + 1 + numbers.below(16)).min(bytes.len());
            put(bytes, (at, to), b"");
        }
        6 => {
            let found = runs(bytes, |b| b.is_ascii_digit());
            if !found.is_empty() {
                let place = found[numbers.below(found.len())];
                put(bytes, place, numbers.of(&HUGE).as_bytes());
            }
        }
        7 => {
            let found: Vec<_> = runs(bytes, |b| b.is_ascii_alphabetic() || b == b'-').into_iter()
                .filter(|&(_, to)| bytes.get(to) == Some(&b':')).collect();
            if !found.is_empty() {
                let place = found[numbers.below(found.len())];
                put(bytes, place, numbers.of(&HEADS).as_bytes());
            }
        }
        8 => {
            let found = runs(bytes, |b| b == b'\r' || b == b'\n');
            if !found.is_empty() {
                let place = found[numbers.below(found.len())];
                put(bytes, place, numbers.of(&ENDS).as_bytes());
            }
        }
        9 => {
            let found = runs(bytes, |b| b != b'|' && b != b' ' && b != b'\n');
            if found.len() > 1 {
                let from = found[numbers.below(found.len())];
                let new = bytes[from.0..from.1].to_vec();
                let place = found[numbers.below(found.len())];
                put(bytes, place, &new);
            }
        }
        10 => {
            let from = numbers.below(other.len() + 1);
            bytes.truncate(at);
            bytes.extend_from_slice(&other[from..]);
        }
        _ => {
            let byte = bytes[at];
            let many = 1 << numbers.below(12);
            put(bytes, (at, at), &vec![byte; many]);
        }
    }
}

/// A stream of a few requests, changed once to three times.
fn stream(numbers: &mut Numbers, requests: &[Vec<u8>]) -> Vec<u8> {
    let mut bytes = Vec::new();
    if numbers.below(4) > 0 {
        bytes.extend_from_slice(&requests[0]);
    }
    for _ in 0..1 + numbers.below(3) {
        bytes.extend_from_slice(&requests[numbers.below(requests.len())]);
    }
    for _ in 0..1 + numbers.below(3) {
        let other = &requests[numbers.below(requests.len())];
        mutate(numbers, &mut bytes, other);
    }
    bytes
}

/// What a run said.
#[derive(PartialEq, Eq, Debug)]
struct Said {
    status: i32,
    output: Vec<u8>,
    errors: Vec<u8>,
}

/// A worker's room: files that are used again for each run.
struct Room {
    folder: PathBuf,
    input: File,
    output: File,
    errors: File,
    peak: u64,
}

fn open(path: &Path) -> File {
    File::options().read(true).write(true).create(true).truncate(true).open(path).unwrap()
}

fn emptied(file: &mut File) -> Stdio {
    file.set_len(0).unwrap();
    file.seek(SeekFrom::Start(0)).unwrap();
    Stdio::from(file.try_clone().unwrap())
}

fn read(file: &mut File) -> Vec<u8> {
    let mut bytes = Vec::new();
    file.seek(SeekFrom::Start(0)).unwrap();
    file.read_to_end(&mut bytes).unwrap();
    bytes
}

impl Room {
    fn new(folder: PathBuf) -> Room {
        fs::create_dir_all(&folder).unwrap();
        Room { input: open(&folder.join("input")), output: open(&folder.join("output")), errors: open(&folder.join("errors")), folder, peak: 0 }
    }

    /// Runs the program over the bytes on its standard input, whole or byte by byte.
    fn run(&mut self, program: &str, words: &[String], bytes: &[u8], is_whole: bool) -> Said {
        let (stdin, mut pieces) = if is_whole {
            drop(emptied(&mut self.input));
            self.input.write_all(bytes).unwrap();
            self.input.seek(SeekFrom::Start(0)).unwrap();
            (Stdio::from(self.input.try_clone().unwrap()), None)
        } else {
            let mut ends = [0; 2];
            // O_DIRECT | O_CLOEXEC: each read gives one packet
            assert_eq!(unsafe { pipe2(ends.as_mut_ptr(), 0o40000 | 0o2000000) }, 0);
            let [from, to] = ends.map(|end| unsafe { OwnedFd::from_raw_fd(end) });
            (Stdio::from(from), Some(File::from(to)))
        };
        let child = Command::new(program).args(words).stdin(stdin).stdout(emptied(&mut self.output))
            .stderr(emptied(&mut self.errors)).spawn().unwrap();
        if let Some(pieces) = &mut pieces {
            // a program that has its answer may stop reading
            for byte in bytes {
                if pieces.write_all(&[*byte]).is_err() {
                    break;
                }
            }
        }
        drop(pieces);
        let (mut status, mut usage) = (0, Usage::default());
        assert_eq!(unsafe { wait4(child.id() as i32, &mut status, 0, &mut usage) }, child.id() as i32);
        self.peak = self.peak.max(usage.peak as u64);
        Said { status, output: read(&mut self.output), errors: read(&mut self.errors) }
    }

    /// Runs it both ways, and stops where something is not as it has to be.
    fn both(&mut self, program: &str, words: [&[String]; 2], bytes: &[u8], statuses: &[i32]) -> i32 {
        let whole = self.run(program, words[0], bytes, true);
        let pieces = self.run(program, words[1], bytes, false);
        let is_named = whole.status & 0x7f == 0 && statuses.contains(&(whole.status >> 8));
        if !is_named || whole != pieces || self.peak > MEMORY {
            let kept = self.folder.join("refused");
            fs::write(&kept, bytes).unwrap();
            panic!("{words:?}, {} KB, input kept in {}: whole {:?}, in pieces {:?}", self.peak, kept.display(), whole, pieces);
        }
        whole.status >> 8
    }
}

const NAMES: [(&str, &str); 8] = [
    ("--geo", "geo.pl"), ("--seg1", "seg1.pl"), ("--seg2", "seg2.pl"), ("--seg3", "seg3.pl"), ("--gal", "neighbours.gal"),
    ("--plan", "house.txt"), ("--senate", "house.txt"), ("--congress", "diagonal.txt"),
];

/// The words of `check` with one of the files read from standard input.
fn check_words(example: &str, place: usize) -> Vec<String> {
    let mut words = vec!["check".to_string()];
    for (k, (word, name)) in NAMES.iter().enumerate() {
        words.push(word.to_string());
        words.push(if k == place { "/dev/stdin".to_string() } else { format!("{example}/{name}") });
    }
    words.extend(["--kind", "house", "--districts", "2", "--senate-districts", "2", "--congress-districts", "2"].map(String::from));
    words
}

/// Sends the bytes by a connection, in pieces of that size, and reads what comes until its end: whether there was an answer.
fn send(port: u16, bytes: &[u8], piece: usize) -> bool {
    let mut client = TcpStream::connect(("127.0.0.1", port)).unwrap();
    client.set_nodelay(true).unwrap();
    client.set_read_timeout(Some(Duration::from_secs(60))).unwrap();
    // a server that has its answer may stop reading, and what it didn't read ends the connection
    let _ = bytes.chunks(piece).try_for_each(|piece| client.write_all(piece));
    let _ = client.shutdown(Shutdown::Write);
    let mut got = Vec::new();
    if let Err(e) = client.read_to_end(&mut got) {
        assert!(!matches!(e.kind(), ErrorKind::WouldBlock | ErrorKind::TimedOut), "no end after {bytes:?}");
    }
    got.starts_with(b"HTTP/1.1 ")
}

/// Sends so many streams to a store with the sample's state, the worked requests as they are where there is no seed: the most memory
/// that the server held, in kilobytes.
fn serve(program: &str, example: &str, streams: usize, seed: Option<u64>, requests: &[Vec<u8>]) -> u64 {
    // in memory, where there is such a folder: a sync of a file on a disk takes long
    let parent = Some(PathBuf::from("/dev/shm")).filter(|p| p.is_dir()).unwrap_or_else(std::env::temp_dir);
    let folder = parent.join(format!("hostile-{}", std::process::id()));
    fs::create_dir_all(&folder).unwrap();
    let store = folder.join("store").to_str().unwrap().to_string();
    let ends_well = |words: &[&str]| assert!(Command::new(program).args(words).stdout(Stdio::null()).status().unwrap().success(), "{words:?}");
    ends_well(&["format", &store, "--sectors", "2000", "--journal", "256"]);
    let mut words: Vec<String> = vec!["load".to_string(), store.clone()];
    words.extend(NAMES[..5].iter().flat_map(|(word, name)| [word.to_string(), format!("{example}/{name}")]));
    ends_well(&words.iter().map(String::as_str).collect::<Vec<_>>());
    let port = TcpListener::bind(("127.0.0.1", 0)).unwrap().local_addr().unwrap().port();
    let mut errors = open(&folder.join("errors"));
    let mut child = Command::new(program).args(["serve", &store, "--port", &port.to_string(), "--workers", "4", "--connections", &streams.to_string()])
        .stdout(Stdio::piped()).stderr(errors.try_clone().unwrap()).spawn().unwrap();
    let mut said = BufReader::new(child.stdout.take().unwrap());
    let mut line = String::new();
    said.read_line(&mut line).unwrap();
    assert_eq!(line, format!("listening on 127.0.0.1:{port}\n"));
    let (next, answered) = (AtomicUsize::new(0), AtomicUsize::new(0));
    std::thread::scope(|scope| {
        for _ in 0..4 {
            scope.spawn(|| loop {
                let k = next.fetch_add(1, Ordering::SeqCst);
                if k >= streams {
                    break;
                }
                let mut numbers = numbers_of(seed.unwrap_or(0), k);
                let bytes = if seed.is_some() { stream(&mut numbers, requests) } else { requests.concat() };
                let piece = if k % 2 == 0 { bytes.len().max(1) } else { 1 + numbers.below(64) };
                answered.fetch_add(send(port, &bytes, piece) as usize, Ordering::SeqCst);
            });
        }
    });
    assert!(2 * answered.into_inner() >= streams);
    let (mut status, mut usage) = (0, Usage::default());
    assert_eq!(unsafe { wait4(child.id() as i32, &mut status, 0, &mut usage) }, child.id() as i32);
    let told = String::from_utf8(read(&mut errors)).unwrap();
    assert!(status == 0 && told.is_empty() && usage.peak as u64 <= MEMORY, "serve: status {status}, {} KB: {told}", usage.peak);
    fs::remove_dir_all(&folder).unwrap();
    usage.peak as u64
}

fn main() {
    let words: Vec<String> = std::env::args().collect();
    let [_, program, example, streams, files, seed] = words.as_slice() else { panic!("hostile PROGRAM EXAMPLE STREAMS FILES SEED") };
    let (streams, files, seed): (usize, usize, u64) = (streams.parse().unwrap(), files.parse().unwrap(), seed.parse().unwrap());
    // SIGPIPE is ignored, so that a write to a program that has ended is an error
    unsafe { signal(13, 1) };
    let requests = requests();
    let texts: Vec<Vec<u8>> = NAMES.iter().map(|(_, name)| fs::read(format!("{example}/{name}")).unwrap()).collect();
    let (next, peak) = (AtomicUsize::new(0), AtomicU64::new(0));
    let told: [AtomicUsize; 8] = Default::default();
    let folder = std::env::temp_dir().join(format!("hostile-{}", std::process::id()));
    let talk = ["talk".to_string()];
    std::thread::scope(|scope| {
        for worker in 0..std::thread::available_parallelism().map_or(2, |n| n.get()) {
            let mut room = Room::new(folder.join(worker.to_string()));
            let (next, peak, told, talk, requests, texts) = (&next, &peak, &told, &talk, &requests, &texts);
            scope.spawn(move || loop {
                let k = next.fetch_add(1, Ordering::SeqCst);
                if k >= streams + files {
                    peak.fetch_max(room.peak, Ordering::SeqCst);
                    break;
                }
                let mut numbers = numbers_of(seed, k);
                let status = if k < streams {
                    room.both(program, [talk, talk], &stream(&mut numbers, requests), &[0])
                } else {
                    let place = k % NAMES.len();
                    let mut bytes = texts[place].clone();
                    for _ in 0..1 + numbers.below(3) {
                        mutate(&mut numbers, &mut bytes, &texts[place]);
                    }
                    let words = check_words(example, place);
                    room.both(program, [&words, &words], &bytes, &[0, 1, 3])
                };
                told[status as usize].fetch_add(1, Ordering::SeqCst);
            });
        }
    });
    let counts: Vec<usize> = told.iter().map(|n| n.load(Ordering::SeqCst)).collect();
    // files that are all refused, or none of which is, would show little
    assert!(files < 600 || counts[0] > streams && counts[3] > files / 4, "{counts:?}");
    let mut calm = Room::new(folder.join("calm"));
    calm.run(program, &talk, &requests.concat(), true);
    fs::remove_dir_all(&folder).unwrap();
    println!("{streams} streams and {files} files, each whole and byte by byte: {} ended with 0, {} with 1, {} with 3; at most {} KB, the worked requests {}",
        counts[0], counts[1], counts[3], peak.load(Ordering::SeqCst), calm.peak);
    let connections = streams.div_ceil(4);
    println!("{connections} of the streams served: at most {} KB, the worked requests {}",
        serve(program, example, connections, Some(seed), &requests), serve(program, example, 4, None, &requests));
}
