// The plain counterpart of `plandesk check`, with vector code for the lines where the machine has AVX2, for bench/check alone: the same counts, and the same report of a house plan
// with its senate plan, of the state that bench/check makes.
use std::collections::{BTreeMap, HashMap, HashSet};
use std::fs::File;
use std::hash::{BuildHasherDefault, Hasher};
use std::io::{self, BufWriter, Read, Write};

const COUNTIES: usize = 99;

// every so many lines one is of another level than a block
fn is_block(line: usize, lines: usize, blocks: usize) -> bool {
    line * blocks / lines != (line + 1) * blocks / lines
}

const HOUSE: usize = 100;
const SENATE: usize = 50;

struct Block {
    number: usize,
    county: usize,
    tract: usize,
    block: usize,
    people: usize,
}

fn blocks_of(lines: usize, blocks: usize) -> Vec<Block> {
    let mut all = Vec::new();
    for line in 1..lines {
        if is_block(line - 1, lines - 1, blocks) {
            let i = all.len();
            let county = i * COUNTIES / blocks;
            all.push(Block { number: line + 1, county: 2 * county + 1, tract: 100 + i / 60 % 9000, block: 1000 + i % 60, people: i * 7919 % 97 });
        }
    }
    all
}

fn put_line(out: &mut impl Write, count: usize, fill: &str, values: &[(usize, &str)]) {
    let mut next = values.iter().peekable();
    for n in 1..=count {
        if n > 1 {
            out.write_all(b"|").unwrap();
        }
        match next.peek() {
            Some((place, value)) if *place == n => {
                out.write_all(value.as_bytes()).unwrap();
                next.next();
            }
            _ => out.write_all(fill.as_bytes()).unwrap(),
        }
    }
    out.write_all(b"\n").unwrap();
}

fn make(folder: &str, lines: usize, blocks: usize) {
    let all = blocks_of(lines, blocks);
    let total: usize = all.iter().map(|b| b.people).sum();
    let file = |name: &str| BufWriter::new(File::create(format!("{folder}/{name}")).unwrap());
    let (mut geo, mut seg1, mut seg2, mut seg3) = (file("geo"), file("seg1"), file("seg2"), file("seg3"));
    let mut next = all.iter().peekable();
    for line in 0..lines {
        let number = format!("{:07}", line + 1);
        let mut people = String::from("12");
        if line == 0 {
            put_line(&mut geo, 97, "ab", &[(3, "040"), (5, "00"), (8, &number), (13, "19")]);
            people = total.to_string();
        } else if next.peek().is_some_and(|b| b.number == line + 1) {
            let b = next.next().unwrap();
            people = b.people.to_string();
            let (county, tract, block) = (format!("{:03}", b.county), format!("{:06}", b.tract), format!("{:04}", b.block));
            put_line(&mut geo, 97, "abc", &[(3, "750"), (5, "00"), (8, &number), (13, "19"), (15, &county), (30, "21000"), (31, "C1"), (33, &tract), (35, &block)]);
        } else {
            put_line(&mut geo, 97, "ab", &[(3, "140"), (5, "00"), (8, &number), (13, "19")]);
        }
        put_line(&mut seg1, 149, "1", &[(5, &number), (6, &people)]);
        put_line(&mut seg2, 152, "1", &[(5, &number), (6, "0")]);
        put_line(&mut seg3, 15, "1", &[(5, &number), (6, "0")]);
    }
}

fn id_of(b: &Block) -> u64 {
    ((19_000 + b.county as u64) * 1_000_000 + b.tract as u64) * 10_000 + b.block as u64
}

// the blocks in rows of a grid, each a neighbour of those beside, above and below it; a house plan of stripes of blocks, two
// of them in each district of a senate plan
fn make_plans(folder: &str, lines: usize, blocks: usize) {
    let ids: Vec<u64> = blocks_of(lines, blocks).iter().map(id_of).collect();
    let (count, width) = (ids.len(), blocks / (4 * HOUSE));
    let file = |name: &str| BufWriter::new(File::create(format!("{folder}/{name}")).unwrap());
    let (mut gal, mut plan, mut senate) = (file("gal"), file("plan"), file("senate"));
    writeln!(gal, "0 {count} made BLOCKID").unwrap();
    writeln!(plan, "BLOCKID|DISTRICT").unwrap();
    writeln!(senate, "BLOCKID|DISTRICT").unwrap();
    for (i, id) in ids.iter().enumerate() {
        let mut near = Vec::new();
        if i >= width {
            near.push(i - width);
        }
        if i % width > 0 {
            near.push(i - 1);
        }
        if i % width + 1 < width && i + 1 < count {
            near.push(i + 1);
        }
        if i + width < count {
            near.push(i + width);
        }
        let texts: Vec<String> = near.iter().map(|j| format!("{:015}", ids[*j])).collect();
        writeln!(gal, "{id:015} {}\n{}", near.len(), texts.join(" ")).unwrap();
        writeln!(plan, "{id:015}|{:03}", i * HOUSE / count + 1).unwrap();
        writeln!(senate, "{id:015}|{:03}", i * HOUSE / count * SENATE / HOUSE + 1).unwrap();
    }
}

fn number(text: &[u8]) -> u64 {
    assert!((1..=10).contains(&text.len()));
    text.iter().fold(0, |n, b| {
        assert!(b.is_ascii_digit());
        n * 10 + (b - b'0') as u64
    })
}

// the first line feed, or the length where there is none, and how many bars stand before it
#[cfg(target_arch = "x86_64")]
#[target_feature(enable = "avx2")]
unsafe fn scan_wide(text: &[u8]) -> (usize, usize) {
    use std::arch::x86_64::*;
    let (feed, bar) = (_mm256_set1_epi8(b'\n' as i8), _mm256_set1_epi8(b'|' as i8));
    let (mut at, mut bars) = (0, 0);
    while at + 32 <= text.len() {
        let block = _mm256_loadu_si256(text.as_ptr().add(at) as *const __m256i);
        let feeds = _mm256_movemask_epi8(_mm256_cmpeq_epi8(block, feed)) as u32;
        let hits = _mm256_movemask_epi8(_mm256_cmpeq_epi8(block, bar)) as u32;
        if feeds != 0 {
            let end = feeds.trailing_zeros();
            return (at + end as usize, bars + (hits & ((1u32 << end) - 1)).count_ones() as usize);
        }
        bars += hits.count_ones() as usize;
        at += 32;
    }
    let (end, more) = scan_plain(&text[at..]);
    (at + end, bars + more)
}

fn scan_plain(text: &[u8]) -> (usize, usize) {
    let end = text.iter().position(|b| *b == b'\n').unwrap_or(text.len());
    (end, text[..end].iter().filter(|b| **b == b'|').count())
}

fn scan(text: &[u8]) -> (usize, usize) {
    #[cfg(target_arch = "x86_64")]
    if is_x86_feature_detected!("avx2") {
        return unsafe { scan_wide(text) };
    }
    scan_plain(text)
}

fn judge_line(line: &[u8], bars: usize, count: usize) -> &[u8] {
    let line = line.strip_suffix(b"\r").unwrap_or(line);
    assert!(line.len() <= 65_536);
    assert_eq!(bars + 1, count);
    line
}

// calls f with each line of so many fields, from one buffer
fn each_line(path: &str, count: usize, mut f: impl FnMut(&[u8])) {
    let mut file = File::open(path).unwrap();
    let mut buffer = vec![0u8; 1 << 18];
    let mut held = 0;
    loop {
        let came = file.read(&mut buffer[held..]).unwrap();
        let filled = held + came;
        let mut from = 0;
        while from < filled {
            let (end, bars) = scan(&buffer[from..filled]);
            if from + end == filled && came > 0 {
                break;
            }
            f(judge_line(&buffer[from..from + end], bars, count));
            from += end + 1;
        }
        if came == 0 {
            return;
        }
        buffer.copy_within(from..filled, 0);
        held = filled - from;
        assert!(held < buffer.len());
    }
}

// a cheap hash of a number
#[derive(Default, Clone, Copy)]
struct Mix(u64);

impl Hasher for Mix {
    fn finish(&self) -> u64 {
        self.0
    }

    fn write(&mut self, _: &[u8]) {
        unreachable!()
    }

    fn write_u64(&mut self, n: u64) {
        self.0 = (n ^ n >> 32).wrapping_mul(0x9e37_79b9_7f4a_7c15).rotate_left(26);
    }
}

type Mixed = BuildHasherDefault<Mix>;

fn segment(path: &str, count: usize, with_people: bool) -> HashMap<u64, u32, Mixed> {
    let mut records = HashMap::default();
    each_line(path, count, |line| {
        let mut fields = line.split(|b| *b == b'|').skip(4);
        let key = number(fields.next().unwrap());
        let people = if with_people { number(fields.next().unwrap()).try_into().unwrap() } else { 0 };
        assert!(records.insert(key, people).is_none());
    });
    records
}

struct Row {
    id: u64,
    city: Option<u64>,
    people: u32,
}

impl Row {
    fn county(&self) -> u64 {
        self.id / 10_000_000_000 % 1000
    }
}

fn read_state(paths: &[String]) -> Vec<Row> {
    let (mut blocks, mut state_record) = (Vec::new(), None);
    let (mut ids, mut numbers) = (HashSet::<u64, Mixed>::default(), HashSet::<u64, Mixed>::default());
    each_line(&paths[0], 97, |line| {
        let fields: Vec<&[u8]> = line.splitn(36, |b| *b == b'|').collect();
        if fields[4] != b"00" {
            return;
        }
        if fields[2] == b"040" {
            state_record = Some(number(fields[7]));
            assert!(numbers.insert(number(fields[7])));
        } else if fields[2] == b"750" {
            let key = number(fields[7]);
            let id = ((number(fields[12]) * 1000 + number(fields[14])) * 1_000_000 + number(fields[32])) * 10_000 + number(fields[34]);
            let city = fields[30].starts_with(b"C").then(|| number(fields[29]));
            assert!(ids.insert(id) && numbers.insert(key));
            blocks.push((key, id, city));
        }
    });
    let segments = [segment(&paths[1], 149, true), segment(&paths[2], 152, false), segment(&paths[3], 15, false)];
    for (key, _, _) in &blocks {
        assert!(segments.iter().all(|records| records.contains_key(key)));
    }
    let mut rows: Vec<Row> = blocks.iter().map(|(key, id, city)| Row { id: *id, city: *city, people: segments[0][key] }).collect();
    let total: u64 = rows.iter().map(|row| row.people as u64).sum();
    if let Some(key) = state_record {
        assert_eq!(segments[0][&key] as u64, total);
    }
    rows.sort_unstable_by_key(|row| row.id);
    rows
}

fn check(paths: &[String]) {
    let rows = read_state(paths);
    let total: u64 = rows.iter().map(|row| row.people as u64).sum();
    let mut counties: BTreeMap<u64, u64> = BTreeMap::new();
    for row in &rows {
        *counties.entry(row.county()).or_default() += row.people as u64;
    }
    let mut text = format!("blocks {}\ncounties {}\npopulation {total}\n", rows.len(), counties.len());
    for (county, people) in &counties {
        text += &format!("county {county:03} {people}\n");
    }
    io::stdout().write_all(text.as_bytes()).unwrap();
}

fn place(rows: &[Row], text: &[u8]) -> usize {
    assert_eq!(text.len(), 15);
    let id = text.iter().fold(0, |n, b| {
        assert!(b.is_ascii_digit());
        n * 10 + (b - b'0') as u64
    });
    rows.binary_search_by_key(&id, |row| row.id).unwrap()
}

// for each block the places of its neighbours
fn read_gal(path: &str, rows: &[Row]) -> Vec<Vec<u32>> {
    let text = std::fs::read_to_string(path).unwrap();
    let (header, rest) = text.split_once('\n').unwrap();
    let count: usize = header.split_ascii_whitespace().nth(1).unwrap().parse().unwrap();
    let mut near: Vec<Option<Vec<u32>>> = (0..rows.len()).map(|_| None).collect();
    let mut words = rest.split_ascii_whitespace();
    for _ in 0..count {
        let unit = place(rows, words.next().unwrap().as_bytes());
        let n: usize = words.next().unwrap().parse().unwrap();
        assert!(n <= 4096 && near[unit].is_none());
        let mut list: Vec<u32> = Vec::with_capacity(n);
        for _ in 0..n {
            let other = place(rows, words.next().unwrap().as_bytes());
            assert!(other != unit && !list.contains(&(other as u32)));
            list.push(other as u32);
        }
        near[unit] = Some(list);
    }
    assert!(words.next().is_none());
    let near: Vec<Vec<u32>> = near.into_iter().map(Option::unwrap).collect();
    for (unit, list) in near.iter().enumerate() {
        assert!(list.iter().all(|other| near[*other as usize].contains(&(unit as u32))));
    }
    near
}

fn read_plan(path: &str, rows: &[Row], n: usize) -> Vec<u16> {
    let text = std::fs::read(path).unwrap();
    assert!(text.len() <= 33_554_432);
    let mut lines = text.split(|b| *b == b'\n').map(|line| line.strip_suffix(b"\r").unwrap_or(line));
    assert_eq!(lines.next().unwrap(), b"BLOCKID|DISTRICT");
    let mut plan: Vec<Option<u16>> = vec![None; rows.len()];
    for line in lines.filter(|line| !line.is_empty()) {
        let (id, code) = line.split_at(line.iter().position(|b| *b == b'|').unwrap());
        let district = match &code[1..] {
            b"" | b"ZZ" | b"ZZZ" => 0,
            digits => {
                let d = std::str::from_utf8(digits).unwrap().parse().unwrap();
                assert!((1..=n).contains(&d));
                d as u16
            }
        };
        assert!(plan[place(rows, id)].replace(district).is_none());
    }
    plan.into_iter().map(|d| d.unwrap_or(0)).collect()
}

// the districts that don't hold together, with the least block and the least that no path reaches
fn breaks(near: &[Vec<u32>], plan: &[u16], n: usize) -> Vec<(usize, Option<(usize, usize)>)> {
    let (mut first, mut apart) = (vec![None; n + 1], vec![None; n + 1]);
    let mut seen = vec![false; plan.len()];
    let mut queue = Vec::new();
    for (i, d) in plan.iter().enumerate() {
        let d = *d as usize;
        if d == 0 || seen[i] {
            continue;
        }
        if first[d].is_some() {
            apart[d].get_or_insert(i);
            continue;
        }
        first[d] = Some(i);
        seen[i] = true;
        queue.push(i);
        while let Some(j) = queue.pop() {
            for k in &near[j] {
                let k = *k as usize;
                if plan[k] as usize == d && !seen[k] {
                    seen[k] = true;
                    queue.push(k);
                }
            }
        }
    }
    (1..=n).filter_map(|d| match (first[d], apart[d]) {
        (None, _) => Some((d, None)),
        (Some(i), Some(j)) => Some((d, Some((i, j)))),
        (Some(_), None) => None,
    }).collect()
}

// the keys whose blocks have two districts, an unassigned block among them
fn divided<K: Ord + std::hash::Hash + Copy>(keys: impl Iterator<Item = (K, u16)>) -> Vec<K> {
    let mut all: HashMap<K, (u16, bool)> = HashMap::new();
    for (key, d) in keys {
        let entry = all.entry(key).or_insert((d, false));
        entry.1 |= entry.0 != d;
    }
    let mut keys: Vec<K> = all.into_iter().filter(|(_, (_, two))| *two).map(|(key, _)| key).collect();
    keys.sort_unstable();
    keys
}

fn list<X>(xs: &[X], f: impl Fn(&X) -> String) -> String {
    format!("[{}]", xs.iter().map(f).collect::<Vec<_>>().join(","))
}

fn audit(paths: &[String]) {
    let rows = read_state(paths);
    let near = read_gal(&paths[4], &rows);
    let (plan, senate) = (read_plan(&paths[5], &rows, HOUSE), read_plan(&paths[6], &rows, SENATE));
    let total: u64 = rows.iter().map(|row| row.people as u64).sum();
    let mut people = vec![0u64; HOUSE];
    for (row, d) in rows.iter().zip(&plan) {
        if *d > 0 {
            people[*d as usize - 1] += row.people as u64;
        }
    }
    let n = HOUSE as u64;
    let mean = 100 * people.iter().map(|p| (n * p).abs_diff(total)).sum::<u64>() > n * total;
    let (most, least) = (*people.iter().max().unwrap(), *people.iter().min().unwrap());
    let range = 20 * most > 21 * least;
    let at = |wanted: u64| people.iter().position(|p| *p == wanted).unwrap() + 1;
    let unassigned = plan.iter().filter(|d| **d == 0).count();
    let gaps = breaks(&near, &plan, HOUSE);
    let mut values: Vec<Option<u16>> = vec![None; HOUSE + 1];
    let mut bad = vec![false; HOUSE + 1];
    for (d, s) in plan.iter().zip(&senate) {
        let d = *d as usize;
        bad[d] |= *s == 0 || *values[d].get_or_insert(*s) != *s;
    }
    let nesting: Vec<usize> = (1..=HOUSE).filter(|d| bad[*d]).collect();
    let mut broken = Vec::new();
    for (is, name) in [(unassigned > 0, "desk.complete"), (mean, "42.4.1.a.mean"), (range, "42.4.1.a.range"), (!gaps.is_empty(), "42.4.3"), (!nesting.is_empty(), "42.4.6")] {
        if is {
            broken.push(name);
        }
    }
    let cities = |in_county: bool| rows.iter().zip(&plan).filter_map(move |(row, d)| row.city.map(|city| ((city, if in_county { row.county() } else { 0 }), *d)));
    let mut within: Vec<u64> = divided(cities(true)).into_iter().map(|key| key.0).collect();
    within.dedup();
    let gap = |g: &(usize, Option<(usize, usize)>)| match g.1 {
        None => format!("{{\"district\":{}}}", g.0),
        Some((i, j)) => format!("{{\"district\":{},\"from\":\"{:015}\",\"to\":\"{:015}\"}}", g.0, rows[i].id, rows[j].id),
    };
    let shown_range = if range { format!("[{},{}]", at(most), at(least)) } else { "null".into() };
    println!(
        "{{\"broken\":{},\"cities\":{},\"cities_in_county\":{},\"congress\":[],\"contiguity\":{},\"counties\":{},\"districts\":{HOUSE},\"divided_by_congress\":null,\"kind\":\"house\",\"nesting\":{},\"not_asked\":[],\"population\":{total},\"populations\":{},\"range\":{shown_range},\"unassigned\":{unassigned}}}",
        list(&broken, |name| format!("\"{name}\"")),
        list(&divided(cities(false)), |city| format!("\"{:05}\"", city.0)),
        list(&within, |city| format!("\"{city:05}\"")),
        list(&gaps, gap),
        list(&divided(rows.iter().zip(&plan).map(|(row, d)| (row.county(), *d))), |county| format!("\"{county:03}\"")),
        list(&nesting, usize::to_string),
        list(&people, u64::to_string),
    );
}

fn main() {
    let words: Vec<String> = std::env::args().collect();
    match words[1].as_str() {
        "make" => {
            make(&words[2], words[3].parse().unwrap(), words[4].parse().unwrap());
            make_plans(&words[2], words[3].parse().unwrap(), words[4].parse().unwrap());
        }
        "audit" => audit(&words[2..]),
        _ => check(&words[2..]),
    }
}
