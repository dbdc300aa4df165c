// The plain counterpart of `plandesk serve` for bench/portal: a thread for each connection, each plan in memory as two bytes for each block,
// and a log to which each change is appended and synced before its answer. Nothing else is promised: a log that was cut short is refused.
//   portal_plain load FOLDER LOG        begins a log with the state of these census files
//   portal_plain serve LOG --port PORT  reads the log, and answers what bench/portal asks
use std::collections::{BTreeSet, HashMap};
use std::fs::{self, File, OpenOptions};
use std::io::{self, Read, Write};
use std::net::{TcpListener, TcpStream};
use std::sync::{Arc, Mutex, RwLock};
use std::thread;

const HEAD: &[u8] = b"BLOCKID|DISTRICT\n";

#[derive(Default)]
struct State {
    ids: Vec<u64>,
    // the digits of each block, and a bar
    rows: Vec<[u8; 16]>,
    people: Vec<u32>,
    // the number of a block's city, or 0
    cities: Vec<u32>,
    // the neighbours of block k are those from starts[k] to starts[k + 1]
    starts: Vec<u32>,
    near: Vec<u32>,
}

struct Plan {
    kind: String,
    districts: usize,
    revisions: Vec<Arc<Vec<u16>>>,
}

struct Desk {
    state: State,
    plans: RwLock<HashMap<String, Plan>>,
    log: Mutex<File>,
}

// ---- the log: records of a name, a kind, a number and the districts of a revision, if it is one

fn put_numbers(out: &mut Vec<u8>, numbers: &[u32]) {
    out.extend((numbers.len() as u32).to_le_bytes());
    out.extend(numbers.iter().flat_map(|number| number.to_le_bytes()));
}

fn take<'a>(log: &mut &'a [u8], size: usize) -> &'a [u8] {
    let (one, rest) = log.split_at(size);
    *log = rest;
    one
}

fn number(log: &mut &[u8]) -> u32 {
    u32::from_le_bytes(take(log, 4).try_into().unwrap())
}

fn numbers(log: &mut &[u8]) -> Vec<u32> {
    let size = number(log) as usize;
    take(log, 4 * size).chunks(4).map(|four| u32::from_le_bytes(four.try_into().unwrap())).collect()
}

fn text(log: &mut &[u8]) -> String {
    let size = number(log) as usize;
    String::from_utf8(take(log, size).to_vec()).unwrap()
}

fn record(name: &str, kind: &str, districts: usize, plan: &[u16]) -> Vec<u8> {
    let mut out = Vec::with_capacity(2 * plan.len() + 100);
    for word in [name, kind] {
        out.extend((word.len() as u32).to_le_bytes());
        out.extend_from_slice(word.as_bytes());
    }
    out.extend((districts as u32).to_le_bytes());
    out.extend((plan.len() as u32).to_le_bytes());
    out.extend(plan.iter().flat_map(|district| district.to_le_bytes()));
    out
}

fn load(folder: &str, log: &str) {
    let fields = |name: &str| fs::read_to_string(format!("{folder}/{name}")).unwrap();
    let mut people: HashMap<String, u32> = HashMap::new();
    for line in fields("seg1").lines() {
        let cells: Vec<&str> = line.splitn(7, '|').collect();
        people.insert(cells[4].to_string(), cells[5].parse().unwrap());
    }
    let mut blocks: Vec<(u64, u32, u32)> = Vec::new();
    for line in fields("geo").lines() {
        let cells: Vec<&str> = line.split('|').collect();
        if cells[2] == "750" {
            let id = [cells[12], cells[14], cells[32], cells[34]].concat().parse().unwrap();
            let city = if cells[30].starts_with('C') { cells[29].parse().unwrap() } else { 0 };
            blocks.push((id, people[cells[7]], city));
        }
    }
    blocks.sort_unstable();
    let place: HashMap<u64, u32> = blocks.iter().enumerate().map(|(k, block)| (block.0, k as u32)).collect();
    let mut near: Vec<Vec<u32>> = vec![Vec::new(); blocks.len()];
    let gal = fields("gal");
    let mut lines = gal.lines().skip(1);
    while let Some(head) = lines.next() {
        let id: u64 = head.split(' ').next().unwrap().parse().unwrap();
        let others = lines.next().unwrap().split(' ').map(|other| place[&other.parse().unwrap()]);
        near[place[&id] as usize] = others.collect();
    }
    let mut out = Vec::new();
    put_numbers(&mut out, &blocks.iter().flat_map(|block| [(block.0 >> 32) as u32, block.0 as u32, block.1, block.2]).collect::<Vec<_>>());
    for list in &near {
        put_numbers(&mut out, list);
    }
    let mut file = File::create(log).unwrap();
    file.write_all(&out).unwrap();
    file.sync_all().unwrap();
}

fn open(path: &str) -> Desk {
    let bytes = fs::read(path).unwrap();
    let log = &mut bytes.as_slice();
    let mut state = State::default();
    for block in numbers(log).chunks(4) {
        state.ids.push((block[0] as u64) << 32 | block[1] as u64);
        state.rows.push(format!("{:015}|", state.ids.last().unwrap()).as_bytes().try_into().unwrap());
        state.people.push(block[2]);
        state.cities.push(block[3]);
    }
    for _ in 0..state.ids.len() {
        state.starts.push(state.near.len() as u32);
        state.near.extend(numbers(log));
    }
    state.starts.push(state.near.len() as u32);
    let mut plans: HashMap<String, Plan> = HashMap::new();
    while !log.is_empty() {
        let (name, kind, districts) = (text(log), text(log), number(log) as usize);
        let size = number(log) as usize;
        let found = take(log, 2 * size).chunks(2).map(|two| u16::from_le_bytes([two[0], two[1]])).collect();
        let plan = plans.entry(name).or_insert(Plan { kind, districts, revisions: Vec::new() });
        if size > 0 {
            plan.revisions.push(Arc::new(found));
        }
    }
    let log = Mutex::new(OpenOptions::new().append(true).open(path).unwrap());
    Desk { state, plans: RwLock::new(plans), log }
}

fn keep(log: &mut File, record: &[u8]) -> io::Result<()> {
    log.write_all(record)?;
    log.sync_data()
}

// ---- a plan's text and its audit

fn read_plan(state: &State, text: &[u8], most: usize) -> Option<Vec<u16>> {
    let mut plan = vec![0; state.ids.len()];
    let mut next = 0;
    for line in text.strip_prefix(HEAD)?.split(|byte| *byte == b'\n').filter(|line| !line.is_empty()) {
        let (row, code) = line.split_at_checked(16)?;
        let row: &[u8; 16] = row.try_into().unwrap();
        let place = if state.rows.get(next) == Some(row) { next } else { state.rows.binary_search(row).ok()? };
        let district = code.iter().try_fold(0, |all, byte| byte.is_ascii_digit().then(|| 10 * all + (byte - b'0') as usize))?;
        if code.is_empty() || code.len() > 3 || !(1..=most).contains(&district) {
            return None;
        }
        if plan[place] != 0 {
            return None;
        }
        plan[place] = district as u16;
        next = place + 1;
    }
    Some(plan)
}

fn plan_text(state: &State, plan: &[u16]) -> Vec<u8> {
    let mut out = Vec::with_capacity(HEAD.len() + 20 * plan.len());
    out.extend_from_slice(HEAD);
    for (block, district) in state.rows.iter().zip(plan) {
        let mut row = [b'\n'; 20];
        row[..16].copy_from_slice(block);
        for (place, power) in [(16, 100), (17, 10), (18, 1)] {
            row[place] = b'0' + (district / power % 10) as u8;
        }
        out.extend_from_slice(&row);
    }
    out
}

// the first block of each district, and the first one that no path of neighbours within it reaches from there
fn gaps(state: &State, plan: &[u16], districts: usize) -> Vec<(usize, Option<(usize, usize)>)> {
    let (mut first, mut apart) = (vec![None; districts + 1], vec![None; districts + 1]);
    let (mut seen, mut waiting) = (vec![false; plan.len()], Vec::new());
    for (block, district) in plan.iter().enumerate().filter(|(_, district)| **district > 0) {
        if seen[block] {
            continue;
        }
        if first[*district as usize].is_some() {
            apart[*district as usize].get_or_insert(block);
            continue;
        }
        first[*district as usize] = Some(block);
        seen[block] = true;
        waiting.push(block);
        while let Some(one) = waiting.pop() {
            for other in &state.near[state.starts[one] as usize..state.starts[one + 1] as usize] {
                let other = *other as usize;
                if plan[other] == *district && !seen[other] {
                    seen[other] = true;
                    waiting.push(other);
                }
            }
        }
    }
    let gap = |d: usize| (first[d].is_none() || apart[d].is_some()).then(|| (d, first[d].zip(apart[d])));
    (1..=districts).filter_map(gap).collect()
}

// the keys of which two blocks have different districts
fn divided(keys: impl Iterator<Item = (u64, u16)>) -> BTreeSet<u64> {
    let (mut found, mut two, mut last) = (HashMap::new(), BTreeSet::new(), None);
    for pair in keys {
        // (blocks of one county and city lie side by side)
        if last != Some(pair) && *found.entry(pair.0).or_insert(pair.1) != pair.1 {
            two.insert(pair.0);
        }
        last = Some(pair);
    }
    two
}

fn list<T>(values: impl IntoIterator<Item = T>, text: impl Fn(T) -> String) -> String {
    format!("[{}]", values.into_iter().map(text).collect::<Vec<_>>().join(","))
}

fn audit(state: &State, plan: &[u16], kind: &str, districts: usize) -> String {
    let mut people = vec![0u64; districts + 1];
    for (district, each) in plan.iter().zip(&state.people) {
        people[*district as usize] += *each as u64;
    }
    let (total, n, unassigned) = (people.iter().sum::<u64>(), districts as u64, plan.iter().filter(|district| **district == 0).count());
    let people = &people[1..];
    let (most, least) = (*people.iter().max().unwrap(), *people.iter().min().unwrap());
    let mean = 100 * people.iter().map(|each| (n * each).abs_diff(total)).sum::<u64>() > n * total;
    let (range, apart) = (20 * most > 21 * least, gaps(state, plan, districts));
    let county = |id: u64| id / 10_000_000_000 % 1_000;
    let cities = |in_county: u64| {
        state.ids.iter().zip(&state.cities).zip(plan).filter(|((_, city), _)| **city > 0)
            .map(move |((id, city), district)| (in_county * county(*id) * 100_000 + *city as u64, *district))
    };
    let within: BTreeSet<u64> = divided(cities(1)).into_iter().map(|key| key % 100_000).collect();
    let tests = [(unassigned > 0, "desk.complete"), (mean, "42.4.1.a.mean"), (range, "42.4.1.a.range"), (!apart.is_empty(), "42.4.3")];
    let at = |wanted: u64| people.iter().position(|each| *each == wanted).unwrap() + 1;
    format!(
        "{{\"broken\":{},\"cities\":{},\"cities_in_county\":{},\"congress\":[],\"contiguity\":{},\"counties\":{},\"districts\":{districts},\
         \"divided_by_congress\":null,\"kind\":\"{kind}\",\"nesting\":[],\"not_asked\":[\"42.4.6\"],\"population\":{total},\
         \"populations\":{},\"range\":{},\"unassigned\":{unassigned}}}",
        list(tests.iter().filter(|test| test.0), |test| format!("\"{}\"", test.1)),
        list(divided(cities(0)), |city| format!("\"{city:05}\"")),
        list(within, |city| format!("\"{city:05}\"")),
        list(apart, |(d, gap)| match gap {
            None => format!("{{\"district\":{d}}}"),
            Some((from, to)) => format!("{{\"district\":{d},\"from\":\"{:015}\",\"to\":\"{:015}\"}}", state.ids[from], state.ids[to]),
        }),
        list(divided(state.ids.iter().zip(plan).map(|(id, district)| (county(*id), *district))), |code| format!("\"{code:03}\"")),
        list(people, |each| each.to_string()),
        if range { format!("[{},{}]", at(most), at(least)) } else { "null".to_string() },
    )
}

// ---- requests

fn make(desk: &Desk, name: &str, query: &str) -> Option<(u16, Vec<u8>)> {
    let (kind, districts) = query.strip_prefix("kind=")?.split_once("&districts=")?;
    let districts: usize = districts.parse().ok()?;
    // (who has the log is the only writer; readers wait for no sync)
    let mut log = desk.log.lock().unwrap();
    if desk.plans.read().unwrap().contains_key(name) {
        return Some((409, b"{\"error\":\"PlanExists\"}".to_vec()));
    }
    keep(&mut log, &record(name, kind, districts, &[])).ok()?;
    desk.plans.write().unwrap().insert(name.to_string(), Plan { kind: kind.to_string(), districts, revisions: Vec::new() });
    Some((201, format!("{{\"plan\":\"{name}\",\"revisions\":0}}").into_bytes()))
}

fn post(desk: &Desk, name: &str, query: &str, body: &[u8]) -> Option<(u16, Vec<u8>)> {
    let after: usize = query.strip_prefix("after=")?.parse().ok()?;
    let (kind, districts) = desk.plans.read().unwrap().get(name).map(|plan| (plan.kind.clone(), plan.districts))?;
    let Some(found) = read_plan(&desk.state, body, districts) else { return Some((422, b"{\"error\":\"BadBody\"}".to_vec())) };
    let said = record(name, &kind, districts, &found);
    let mut log = desk.log.lock().unwrap();
    if desk.plans.read().unwrap().get(name)?.revisions.len() != after {
        return Some((409, b"{\"error\":\"Stale\"}".to_vec()));
    }
    keep(&mut log, &said).ok()?;
    desk.plans.write().unwrap().get_mut(name)?.revisions.push(Arc::new(found));
    Some((201, format!("{{\"plan\":\"{name}\",\"revisions\":{}}}", after + 1).into_bytes()))
}

fn answer(desk: &Desk, method: &str, target: &str, body: &[u8]) -> Option<(u16, Vec<u8>)> {
    let (path, query) = target.split_once('?').unwrap_or((target, ""));
    let parts: Vec<&str> = path.strip_prefix("/plans/")?.split('/').collect();
    match (method, parts.as_slice()) {
        ("PUT", [name]) => make(desk, name, query),
        ("POST", [name, "revisions"]) => post(desk, name, query, body),
        ("GET", [name, "revisions", number, rest @ ..]) => {
            let (kind, districts, found) = {
                let plans = desk.plans.read().unwrap();
                let plan = plans.get(*name)?;
                (plan.kind.clone(), plan.districts, plan.revisions.get(number.parse::<usize>().ok()?.checked_sub(1)?)?.clone())
            };
            match rest {
                [] => Some((200, plan_text(&desk.state, &found))),
                ["audit"] => Some((200, audit(&desk.state, &found, &kind, districts).into_bytes())),
                _ => None,
            }
        }
        _ => None,
    }
}

// one request: its method, target and body, none at the end of the stream
fn request(stream: &mut TcpStream, left: &mut Vec<u8>) -> io::Result<Option<(String, String, Vec<u8>)>> {
    let mut more = vec![0; 1 << 18];
    let end = loop {
        if let Some(end) = left.windows(4).position(|four| four == b"\r\n\r\n") {
            break end + 4;
        }
        let size = stream.read(&mut more)?;
        if size == 0 {
            return Ok(None);
        }
        left.extend_from_slice(&more[..size]);
    };
    let head = String::from_utf8_lossy(&left[..end]).into_owned();
    let length = head.lines().find_map(|line| line.split_once(": ").filter(|pair| pair.0.eq_ignore_ascii_case("content-length")));
    let length: usize = length.map_or(0, |pair| pair.1.parse().unwrap_or(0));
    let mut body = left.split_off(end);
    let came = body.len();
    if came < length {
        body.resize(length, 0);
        stream.read_exact(&mut body[came..])?;
    }
    *left = body.split_off(length);
    let mut words = head.split(' ');
    let mut word = || words.next().unwrap_or("").to_string();
    Ok(Some((word(), word(), body)))
}

fn serve_stream(mut stream: TcpStream, desk: &Desk) -> io::Result<()> {
    stream.set_nodelay(true)?;
    let mut left = Vec::new();
    while let Some((method, target, body)) = request(&mut stream, &mut left)? {
        let (status, said) = answer(desk, &method, &target, &body).unwrap_or((404, b"{\"error\":\"NoRoute\"}".to_vec()));
        stream.write_all(format!("HTTP/1.1 {status} .\r\nContent-Length: {}\r\n\r\n", said.len()).as_bytes())?;
        stream.write_all(&said)?;
    }
    Ok(())
}

fn serve(log: &str, port: &str) {
    let desk = open(log);
    let listener = TcpListener::bind(("127.0.0.1", port.parse().unwrap())).unwrap();
    println!("listening on 127.0.0.1:{port}");
    thread::scope(|scope| {
        for stream in listener.incoming() {
            let desk = &desk;
            scope.spawn(move || stream.map(|stream| serve_stream(stream, desk)));
        }
    });
}

fn main() {
    let words: Vec<String> = std::env::args().collect();
    match words[1].as_str() {
        "load" => load(&words[2], &words[3]),
        "serve" => serve(&words[2], &words[4]),
        word => panic!("no such word: {word}"),
    }
}
