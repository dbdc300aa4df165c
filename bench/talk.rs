// The plain counterpart of `plandesk talk`, for bench/talk alone: the same answers to the requests that bench/talk makes.
use std::collections::BTreeMap;
use std::collections::btree_map::Entry;
use std::fmt::Write as _;
use std::fs::File;
use std::io::{self, Read, Write};
use std::mem::ManuallyDrop;
use std::os::fd::{FromRawFd, OwnedFd};
use std::os::unix::net::UnixDatagram;
use std::process::Command;

const LIST: &str = "GET /plans HTTP/1.1\r\nHost: d\r\n\r\n";

fn make_lists(count: usize, out: &mut impl Write) {
    for _ in 0..count {
        out.write_all(LIST.as_bytes()).unwrap();
    }
}

// names in a shuffled order, all of them different
fn name(i: usize, count: usize) -> String {
    format!("plan-{:05}", (i * 40_507 + 7) % count)
}

fn make_create(i: usize, count: usize, out: &mut impl Write) {
    write!(out, "PUT /plans/{}?kind=congress&districts=4 HTTP/1.1\r\nHost: d\r\n\r\n", name(i, count)).unwrap();
}

fn make_creates(count: usize, out: &mut impl Write) {
    for i in 0..count {
        make_create(i, count, out);
    }
    for i in (0..count).rev() {
        make_create(i, count, out);
    }
}

// so many plans, and ten lists of them
fn make_listed(count: usize, out: &mut impl Write) {
    for i in 0..count {
        make_create(i, count, out);
    }
    make_lists(10, out);
}

// a plan, and whole revisions of it, of which each changes the last block of the sample
fn make_posts(count: usize, out: &mut impl Write) {
    out.write_all(b"PUT /plans/a?kind=senate&districts=2 HTTP/1.1\r\nHost: d\r\n\r\n").unwrap();
    for i in 0..count {
        write!(out, "POST /plans/a/revisions?after={i} HTTP/1.1\r\nHost: d\r\nContent-Length: 97\r\n\r\n").unwrap();
        out.write_all(b"BLOCKID|DISTRICT\n").unwrap();
        for (block, district) in [("190010001001001", 1), ("190010001001002", 1), ("190030001001001", 2), ("190030001001002", 1 + i % 2)] {
            write!(out, "{block}|{district:03}\n").unwrap();
        }
    }
}

fn make_body(size: usize, out: &mut impl Write) {
    write!(out, "GET /plans HTTP/1.1\r\nHost: d\r\nContent-Length: {size}\r\n\r\n").unwrap();
    let piece = vec![b'x'; 65_536];
    let mut left = size;
    while left > 0 {
        let n = left.min(piece.len());
        out.write_all(&piece[..n]).unwrap();
        left -= n;
    }
}

// the head of such a request, whose body never comes
fn make_promise(size: usize, out: &mut impl Write) {
    write!(out, "GET /plans HTTP/1.1\r\nHost: d\r\nContent-Length: {size}\r\n\r\n").unwrap();
}

// a head of so many bytes and 64 header lines
fn make_head(size: usize, out: &mut impl Write) {
    let start = "GET /plans HTTP/1.1\r\nHost: d\r\n";
    let per = (size - start.len() - 2) / 63;
    let last = size - start.len() - 2 - 62 * per;
    write!(out, "{start}").unwrap();
    for i in 0..63 {
        let len = if i < 62 { per } else { last };
        write!(out, "X: {}\r\n", "v".repeat(len - 5)).unwrap();
    }
    write!(out, "\r\n").unwrap();
}

// runs a command whose reads of its input give a byte of the file each
fn send_pieces(file: &str, command: &[String]) {
    let bytes = std::fs::read(file).unwrap();
    let (here, there) = UnixDatagram::pair().unwrap();
    let mut child = Command::new(&command[0]).args(&command[1..]).stdin(OwnedFd::from(there)).spawn().unwrap();
    for byte in &bytes {
        here.send(std::slice::from_ref(byte)).unwrap();
    }
    // a read of no bytes is the end
    here.send(&[]).unwrap();
    assert!(child.wait().unwrap().success());
}

// the same body in chunks of 4,096 bytes
fn make_chunks(size: usize, out: &mut impl Write) {
    write!(out, "GET /plans HTTP/1.1\r\nHost: d\r\nTransfer-Encoding: chunked\r\n\r\n").unwrap();
    let piece = vec![b'x'; 4096];
    let mut left = size;
    while left > 0 {
        let n = left.min(piece.len());
        write!(out, "{n:x}\r\n").unwrap();
        out.write_all(&piece[..n]).unwrap();
        out.write_all(b"\r\n").unwrap();
        left -= n;
    }
    out.write_all(b"0\r\n\r\n").unwrap();
}

struct Head<'a> {
    list: bool,
    target: &'a str,
    length: usize,
    chunked: bool,
    size: usize,
}

// one pass over the head, line by line
fn head_of(bytes: &[u8]) -> Option<Head<'_>> {
    let mut at = 0;
    let mut line = || {
        let end = at + bytes[at..].iter().position(|b| *b == b'\n')?;
        let line = bytes[at..end].strip_suffix(b"\r")?;
        at = end + 1;
        Some(line)
    };
    let mut words = line()?.split(|b| *b == b' ');
    let (method, target) = (words.next()?, std::str::from_utf8(words.next()?).ok()?);
    let (mut hosts, mut length, mut chunked) = (0, 0, false);
    loop {
        let line = line()?;
        if line.is_empty() {
            break;
        }
        let colon = line.iter().position(|b| *b == b':')?;
        let (key, value) = (&line[..colon], line[colon + 1..].trim_ascii());
        if key.eq_ignore_ascii_case(b"host") {
            hosts += 1;
        } else if key.eq_ignore_ascii_case(b"content-length") {
            length = std::str::from_utf8(value).ok()?.parse().ok()?;
        } else if key.eq_ignore_ascii_case(b"transfer-encoding") {
            chunked = value.eq_ignore_ascii_case(b"chunked");
        }
    }
    assert_eq!(hosts, 1);
    Some(Head { list: method == b"GET", target, length, chunked, size: at })
}

// the digits of a number, without the machinery of `write!`
fn put_number(text: &mut String, mut number: usize) {
    let mut digits = [0u8; 20];
    let mut at = digits.len();
    loop {
        at -= 1;
        digits[at] = b'0' + (number % 10) as u8;
        number /= 10;
        if number == 0 {
            break;
        }
    }
    text.push_str(std::str::from_utf8(&digits[at..]).unwrap());
}

// what each commit of the desk's store copies in memory: three pages that it changes, a list of them and the journal's copies, the
// gate, the pages at home and the gate once more, and after each a sync, which notes that no sector waits
struct Store {
    sectors: Vec<[u8; 4096]>,
    waits: Vec<bool>,
    changed: [[u8; 4096]; 3],
}

impl Store {
    fn new() -> Store {
        Store { sectors: vec![[0; 4096]; 2000], waits: vec![false; 2000], changed: [[0; 4096]; 3] }
    }

    fn write(&mut self, at: usize, from: usize) {
        let page = &self.changed[from];
        self.sectors[at].copy_from_slice(page);
        self.waits[at] = true;
    }

    fn sync(&mut self) {
        std::hint::black_box(&mut self.sectors);
        self.waits.fill(false);
    }

    fn commit(&mut self, count: usize) {
        // the leaf of a plan's row, the one of the numbers, and the first page
        let homes = [300 + count * 7919 % 1500, 299, 258];
        for (i, home) in homes.iter().enumerate() {
            self.changed[i].copy_from_slice(&self.sectors[*home]);
            self.changed[i][count % 4096] += 1;
        }
        self.write(2, 0);
        for i in 0..3 {
            self.write(3 + i, i);
        }
        self.sync();
        self.write(1, 0);
        self.sync();
        for (i, home) in homes.iter().enumerate() {
            self.write(*home, i);
        }
        self.sync();
        self.write(1, 0);
        self.sync();
        self.sync();
    }
}

struct Plan {
    kind: String,
    n: u16,
    revisions: Vec<[u16; 4]>,
}

// the districts of the four blocks of the sample, by the lines of a body
fn districts_of(sent: &[u8], n: u16) -> Option<[u16; 4]> {
    const BLOCKS: [u64; 4] = [190010001001001, 190010001001002, 190030001001001, 190030001001002];
    let mut districts = [0; 4];
    let mut lines = sent.strip_prefix(b"BLOCKID|DISTRICT\n")?.split_inclusive(|b| *b == b'\n');
    for (place, block) in BLOCKS.iter().enumerate() {
        let line = lines.next()?.strip_suffix(b"\n")?;
        let (digits, code) = (line.get(..15)?, line.get(16..19)?);
        let mut number = 0;
        for digit in digits {
            number = 10 * number + u64::from(digit.checked_sub(b'0')?);
        }
        let mut district = 0;
        for digit in code {
            district = 10 * district + u16::from(digit.checked_sub(b'0')?);
        }
        if number != *block || line[15] != b'|' || district > n {
            return None;
        }
        districts[place] = district;
    }
    lines.next().is_none().then_some(districts)
}

// puts the answer behind those that wait
fn answer(store: &mut Option<Store>, plans: &mut BTreeMap<String, Plan>, list: bool, target: &str, sent: &[u8], body: &mut String, out: &mut String) {
    let (path, query) = target.split_once('?').unwrap_or((target, ""));
    body.clear();
    let posted = path.strip_suffix("/revisions").and_then(|path| path.strip_prefix("/plans/"));
    let status = if let (false, Some(name)) = (list, posted) {
        let plan = plans.get_mut(name).unwrap();
        let after: usize = query.strip_prefix("after=").unwrap().parse().unwrap();
        assert_eq!(after, plan.revisions.len());
        plan.revisions.push(districts_of(sent, plan.n).unwrap());
        let count = plan.revisions.len();
        for part in ["{\"plan\":\"", name, "\",\"revisions\":"] {
            body.push_str(part);
        }
        put_number(body, count);
        body.push('}');
        if let Some(store) = store {
            store.commit(count);
        }
        "201 Created"
    } else if list && path == "/plans" {
        *body += "{\"plans\":[";
        for (i, (name, Plan { kind, n, revisions })) in plans.iter().enumerate() {
            body.push_str(if i == 0 { "{\"districts\":" } else { ",{\"districts\":" });
            put_number(body, *n as usize);
            for part in [",\"kind\":\"", kind, "\",\"name\":\"", name, "\",\"revisions\":"] {
                body.push_str(part);
            }
            put_number(body, revisions.len());
            body.push('}');
        }
        *body += "]}";
        "200 OK"
    } else {
        let name = path.strip_prefix("/plans/").unwrap();
        let (mut kind, mut n) = ("", 0);
        for pair in query.split('&') {
            match pair.split_once('=').unwrap() {
                ("kind", value) => kind = value,
                ("districts", value) => n = value.parse().unwrap(),
                _ => unreachable!(),
            }
        }
        match plans.entry(name.to_string()) {
            Entry::Occupied(_) => {
                *body += "{\"error\":\"PlanExists\"}";
                "409 Conflict"
            }
            Entry::Vacant(place) => {
                place.insert(Plan { kind: kind.to_string(), n, revisions: Vec::new() });
                if let Some(store) = store {
                    store.commit(plans.len());
                }
                write!(body, "{{\"plan\":\"{name}\",\"revisions\":0}}").unwrap();
                "201 Created"
            }
        }
    };
    out.push_str("HTTP/1.1 ");
    out.push_str(status);
    out.push_str("\r\nContent-Type: application/json\r\nContent-Length: ");
    put_number(out, body.len());
    out.push_str("\r\n\r\n");
    out.push_str(body);
}

// bytes that have come, from start to end
struct Inbox {
    buffer: Vec<u8>,
    start: usize,
    end: usize,
}

impl Inbox {
    fn bytes(&self) -> &[u8] {
        &self.buffer[self.start..self.end]
    }

    fn fill(&mut self, input: &mut impl Read) -> bool {
        self.buffer.copy_within(self.start..self.end, 0);
        self.end -= self.start;
        self.start = 0;
        let n = input.read(&mut self.buffer[self.end..]).unwrap();
        self.end += n;
        n > 0
    }

    // adds the next bytes to the body, in room that grows with what comes: whether they all came
    fn take(&mut self, input: &mut impl Read, body: &mut Vec<u8>, n: usize) -> bool {
        let here = n.min(self.end - self.start);
        body.extend_from_slice(&self.bytes()[..here]);
        self.start += here;
        let mut left = n - here;
        while left > 0 {
            let filled = body.len();
            body.resize(filled + left.min(filled.max(65_536)), 0);
            let came = input.read(&mut body[filled..]).unwrap();
            body.truncate(filled + came);
            if came == 0 {
                return false;
            }
            left -= came;
        }
        true
    }

    // the next line without its end
    fn line(&mut self, input: &mut impl Read) -> String {
        loop {
            if let Some(end) = self.bytes().windows(2).position(|w| w == b"\r\n") {
                let line = String::from_utf8(self.bytes()[..end].to_vec()).unwrap();
                self.start += end + 2;
                return line;
            }
            assert!(self.fill(input));
        }
    }

    fn take_chunks(&mut self, input: &mut impl Read, body: &mut Vec<u8>) {
        loop {
            let size = usize::from_str_radix(&self.line(input), 16).unwrap();
            if size == 0 {
                break;
            }
            assert!(body.len() + size <= 33_554_432);
            assert!(self.take(input, body, size));
            assert!(self.line(input).is_empty());
        }
        while !self.line(input).is_empty() {}
    }
}

fn talk(mut store: Option<Store>) {
    let (mut input, mut output) = (io::stdin().lock(), straight());
    let mut plans = BTreeMap::new();
    let mut inbox = Inbox { buffer: vec![0; 65_536], start: 0, end: 0 };
    let (mut target, mut text) = (String::new(), String::new());
    // answers wait here, and are sent before more is read and where they fill it
    let mut out = String::with_capacity(16_384);
    let mut send = |out: &mut String| {
        output.write_all(out.as_bytes()).unwrap();
        out.clear();
    };
    loop {
        if let Some(head) = head_of(inbox.bytes()) {
            let Head { list, length, chunked, size, .. } = head;
            target.clear();
            target.push_str(head.target);
            inbox.start += size;
            if chunked || length > inbox.end - inbox.start {
                send(&mut out);
            }
            let mut body = Vec::with_capacity(length.min(65_536));
            if chunked {
                inbox.take_chunks(&mut input, &mut body);
            } else if !inbox.take(&mut input, &mut body, length) {
                return;
            }
            answer(&mut store, &mut plans, list, &target, &body, &mut text, &mut out);
            if out.len() > 15_884 {
                send(&mut out);
            }
            continue;
        }
        send(&mut out);
        if !inbox.fill(&mut input) {
            return;
        }
    }
}

// standard output, with no buffer of its own
fn straight() -> ManuallyDrop<File> {
    ManuallyDrop::new(unsafe { File::from_raw_fd(1) })
}

fn main() {
    let words: Vec<String> = std::env::args().collect();
    let count = || words[2].parse().unwrap();
    let mut out = io::BufWriter::new(io::stdout().lock());
    match words[1].as_str() {
        "make-lists" => make_lists(count(), &mut out),
        "make-creates" => make_creates(count(), &mut out),
        "make-posts" => make_posts(count(), &mut out),
        "make-listed" => make_listed(count(), &mut out),
        "make-body" => make_body(count(), &mut out),
        "make-promise" => make_promise(count(), &mut out),
        "make-head" => make_head(count(), &mut out),
        "pieces" => send_pieces(&words[2], &words[3..]),
        "make-chunks" => make_chunks(count(), &mut out),
        _ => {
            drop(out);
            talk((words[1] == "talk-pages").then(Store::new));
        }
    }
}
