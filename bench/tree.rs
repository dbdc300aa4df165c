// A B-tree over 4,096-byte pages behind the same journal, all in memory, by plain Rust: rows put in commits of 512, got, scanned
// and removed. Pages are searched and edited where they lie; a page of a transaction is found by its number.
use std::cmp::Ordering;
use std::convert::TryInto;
use std::hint::black_box;
use std::time::Instant;

type Page = [u8; 4096];
const JOURNAL: usize = 8192;
const BATCH: u64 = 512;

struct Store {
    sectors: Vec<Page>,
    home: usize,
    root: u32,
    first: u32,
    free: u32,
    /// The pages that the transaction writes, and the place of each among them, plus one.
    list: Vec<(u32, Page)>,
    place: Vec<u32>,
}

fn word(page: &Page, k: usize) -> u32 {
    u32::from_be_bytes(page[4 * k..4 * k + 4].try_into().unwrap())
}

fn set_word(page: &mut Page, k: usize, value: u32) {
    page[4 * k..4 * k + 4].copy_from_slice(&value.to_be_bytes());
}

fn count_of(page: &[u8]) -> usize {
    256 * page[2] as usize + page[3] as usize
}

fn set_count(page: &mut Page, count: usize) {
    page[2] = (count / 256) as u8;
    page[3] = (count % 256) as u8;
}

fn value_at(page: &[u8], at: usize) -> usize {
    at + 3 + page[at] as usize
}

fn end_at(page: &[u8], at: usize) -> usize {
    value_at(page, at) + 256 * page[at + 1] as usize + page[at + 2] as usize
}

fn child_at(page: &[u8], at: usize) -> u32 {
    let value = value_at(page, at);
    u32::from_be_bytes(page[value..value + 4].try_into().unwrap())
}

/// The three bytes of an entry's lengths, as a number.
fn head_at(page: &Page, at: usize) -> u32 {
    u32::from_be_bytes(page[at..at + 4].try_into().unwrap()) >> 8
}

/// Where the eight entries from a place on end: where they have the same lengths, by one look.
fn pass(page: &Page, mut at: usize) -> usize {
    let head = head_at(page, at);
    let size = 3 + (head >> 16) as usize + (head & 0xffff) as usize;
    if at + 8 * size < 4096 {
        let mut same = true;
        for k in 1..8 {
            same &= head_at(page, at + k * size) == head;
        }
        if same {
            return at + 8 * size;
        }
    }
    for _ in 0..8 {
        at = end_at(page, at);
    }
    at
}

/// Keys in the order of their bytes, eight at a time.
fn compare(a: &[u8], b: &[u8]) -> Ordering {
    let least = a.len().min(b.len());
    if least < 8 {
        return a.cmp(b);
    }
    let eight = |l: &[u8], i: usize| u64::from_be_bytes(l[i..i + 8].try_into().unwrap());
    let mut i = 0;
    while i + 8 < least {
        let (x, y) = (eight(a, i), eight(b, i));
        if x != y {
            return x.cmp(&y);
        }
        i += 8;
    }
    eight(a, least - 8)
        .cmp(&eight(b, least - 8))
        .then(a.len().cmp(&b.len()))
}

fn compare_at(page: &Page, at: usize, key: &[u8]) -> Ordering {
    compare(&page[at + 3..value_at(page, at)], key)
}

/// The index and the place of an entry near a key's, before which each key is below it; one key of nine is looked at.
fn near(page: &Page, key: &[u8], above: Ordering) -> (usize, usize) {
    let (mut k, mut at) = (0, 4);
    while k + 8 < count_of(page) {
        let next = pass(page, at);
        if compare_at(page, next, key) >= above {
            break;
        }
        k += 9;
        at = end_at(page, next);
    }
    (k, at)
}

/// The index and the place of a key's entry, or those that it would have.
fn find(page: &Page, key: &[u8]) -> (usize, usize, bool) {
    let (first, mut at) = near(page, key, Ordering::Equal);
    for k in first..count_of(page) {
        match compare_at(page, at, key) {
            Ordering::Less => at = end_at(page, at),
            Ordering::Greater => return (k, at, false),
            Ordering::Equal => return (k, at, true),
        }
    }
    (count_of(page), at, false)
}

/// The index and the place of the link that a key belongs to, and where it ends. The first link's key says nothing.
fn link_for(page: &Page, key: &[u8]) -> (usize, usize, usize) {
    let (mut k, mut at, mut next) = (0, 4, end_at(page, 4));
    while k + 9 < count_of(page) {
        let last = pass(page, next);
        if compare_at(page, last, key) == Ordering::Greater {
            break;
        }
        k += 9;
        at = last;
        next = end_at(page, at);
    }
    while k + 1 < count_of(page) && compare_at(page, next, key) != Ordering::Greater {
        k += 1;
        at = next;
        next = end_at(page, at);
    }
    (k, at, next)
}

fn used_from(page: &Page, mut k: usize, mut at: usize) -> usize {
    while k + 8 < count_of(page) {
        at = pass(page, at);
        k += 8;
    }
    while k < count_of(page) {
        at = end_at(page, at);
        k += 1;
    }
    at
}

/// An entry's bytes, and how many.
fn entry(key: &[u8], value: &[u8]) -> ([u8; 1099], usize) {
    let mut bytes = [0; 1099];
    bytes[0] = key.len() as u8;
    bytes[1] = (value.len() / 256) as u8;
    bytes[2] = (value.len() % 256) as u8;
    bytes[3..3 + key.len()].copy_from_slice(key);
    bytes[3 + key.len()..3 + key.len() + value.len()].copy_from_slice(value);
    (bytes, 3 + key.len() + value.len())
}

/// Moves all bytes from `end` on to `at`: by the C library's `memmove`.
#[cfg(not(steps))]
fn close(page: &mut Page, at: usize, end: usize) {
    page.copy_within(end.., at);
}

/// The same by a loop, which the compiler makes steps of 16 bytes of, as the proved program's toolchain does.
#[cfg(steps)]
fn close(page: &mut Page, at: usize, end: usize) {
    let first = page.as_mut_ptr();
    for i in 0..4096 - end {
        unsafe { *first.add(at + i) = *first.add(end + i) }
    }
}

/// A split: the key and the page of the new right node.
struct Split {
    key: [u8; 72],
    length: usize,
    page: u32,
}

impl Store {
    fn new(pages: usize) -> Store {
        let home = 2 + (JOURNAL + 1024) / 1024 + JOURNAL;
        let mut store = Store {
            sectors: vec![[0; 4096]; home + pages],
            home,
            root: 0,
            first: 1,
            free: pages as u32 - 1,
            list: Vec::new(),
            place: vec![0; pages],
        };
        for p in 1..pages - 1 {
            set_word(&mut store.sectors[home + p], 0, p as u32 + 1);
        }
        store
    }

    fn page(&self, p: u32) -> &Page {
        match self.place[p as usize] {
            0 => &self.sectors[self.home + p as usize],
            k => &self.list[k as usize - 1].1,
        }
    }

    fn page_mut(&mut self, p: u32) -> &mut Page {
        if self.place[p as usize] == 0 {
            let bytes = self.sectors[self.home + p as usize];
            self.list.push((p, bytes));
            self.place[p as usize] = self.list.len() as u32;
        }
        let k = self.place[p as usize] as usize - 1;
        &mut self.list[k].1
    }

    fn take(&mut self) -> u32 {
        assert!(self.free > 0);
        let p = self.first;
        self.first = word(self.page(p), 0);
        self.free -= 1;
        p
    }

    fn give(&mut self, p: u32) {
        let first = self.first;
        let page = self.page_mut(p);
        page.fill(0);
        set_word(page, 0, first);
        self.first = p;
        self.free += 1;
    }

    /// List, copies, gate, pages, gate.
    fn commit(&mut self) {
        let (root, first, free) = (self.root, self.first, self.free);
        let meta = self.page_mut(0);
        set_word(meta, 0, root);
        set_word(meta, 1, first);
        set_word(meta, 2, free);
        assert!(self.list.len() <= JOURNAL);
        let mut words =
            std::iter::once(self.list.len() as u32).chain(self.list.iter().map(|w| w.0));
        for s in 0..self.list.len() / 1024 + 1 {
            let mut sector = [0; 4096];
            for k in 0..1024 {
                let Some(value) = words.next() else { break };
                set_word(&mut sector, k, value);
            }
            self.sectors[2 + s] = black_box(sector);
        }
        drop(words);
        let copies = self.home - JOURNAL;
        for (k, (_, bytes)) in self.list.iter().enumerate() {
            self.sectors[copies + k] = *bytes;
        }
        let mut gate = [0; 4096];
        gate[0] = 0xa5;
        self.sectors[1] = black_box(gate);
        for (p, bytes) in &self.list {
            self.sectors[self.home + *p as usize] = *bytes;
            self.place[*p as usize] = 0;
        }
        self.sectors[1] = black_box([0; 4096]);
        self.list.clear();
        black_box(&mut self.sectors);
    }

    fn get(&self, key: &[u8]) -> Option<&[u8]> {
        let mut p = self.root;
        if p == 0 {
            return None;
        }
        loop {
            let page = self.page(p);
            if page[0] == 0 {
                let (_, at, found) = find(page, key);
                return found.then(|| &page[value_at(page, at)..end_at(page, at)]);
            }
            p = child_at(page, link_for(page, key).1);
        }
    }

    /// Puts bytes in the place of others, and splits the node where it overflows.
    fn splice(&mut self, p: u32, k: usize, at: usize, old: usize, bytes: &[u8]) -> Option<Split> {
        let page = self.page(p);
        let used = used_from(page, k, at);
        let size = used - old + bytes.len();
        let count = count_of(page) + (old == 0) as usize;
        if size <= 4096 {
            let page = self.page_mut(p);
            page.copy_within(at + old..used, at + bytes.len());
            page[at..at + bytes.len()].copy_from_slice(bytes);
            set_count(page, count);
            return None;
        }
        let mut all = [0u8; 5200];
        all[4..at].copy_from_slice(&page[4..at]);
        all[at..at + bytes.len()].copy_from_slice(bytes);
        all[at + bytes.len()..size].copy_from_slice(&page[at + old..used]);
        let level = page[0];
        let (mut kept, mut cut) = (0, 4);
        if k + 1 == count && at <= 4096 {
            (kept, cut) = (k, at);
        } else {
            while 2 * cut < size + 4 {
                cut = end_at(&all, cut);
                kept += 1;
            }
        }
        let right = self.take();
        let page = self.page_mut(right);
        page.fill(0);
        page[0] = level;
        set_count(page, count - kept);
        page[4..4 + size - cut].copy_from_slice(&all[cut..size]);
        let page = self.page_mut(p);
        page[4..cut].copy_from_slice(&all[4..cut]);
        page[cut..].fill(0);
        set_count(page, kept);
        let length = all[cut] as usize;
        let mut key = [0; 72];
        key[..length].copy_from_slice(&all[cut + 3..cut + 3 + length]);
        Some(Split {
            key,
            length,
            page: right,
        })
    }

    fn put_at(&mut self, p: u32, key: &[u8], value: &[u8]) -> (bool, Option<Split>) {
        let page = self.page(p);
        if page[0] == 0 {
            let (k, at, found) = find(page, key);
            let old = if found { end_at(page, at) - at } else { 0 };
            let (bytes, size) = entry(key, value);
            return (found, self.splice(p, k, at, old, &bytes[..size]));
        }
        let (k, at, next) = link_for(page, key);
        let (had, split) = self.put_at(child_at(page, at), key, value);
        let Some(split) = split else {
            return (had, None);
        };
        let (bytes, size) = entry(&split.key[..split.length], &split.page.to_be_bytes());
        (had, self.splice(p, k + 1, next, 0, &bytes[..size]))
    }

    fn put(&mut self, key: &[u8], value: &[u8]) -> bool {
        if self.root == 0 {
            let root = self.take();
            self.page_mut(root).fill(0);
            let (bytes, size) = entry(key, value);
            self.splice(root, 0, 4, 0, &bytes[..size]);
            self.root = root;
            return false;
        }
        let (had, split) = self.put_at(self.root, key, value);
        if let Some(split) = split {
            let level = self.page(self.root)[0] + 1;
            assert!(level <= 5);
            let root = self.take();
            let page = self.page_mut(root);
            page.fill(0);
            page[0] = level;
            let (bytes, size) = entry(&[], &self.root.to_be_bytes());
            self.splice(root, 0, 4, 0, &bytes[..size]);
            let (bytes, more) = entry(&split.key[..split.length], &split.page.to_be_bytes());
            self.splice(root, 1, 4 + size, 0, &bytes[..more]);
            self.root = root;
        }
        had
    }

    /// Takes an entry out, and tells whether the node is then empty.
    fn cut_out(&mut self, p: u32, at: usize) -> bool {
        let page = self.page_mut(p);
        let end = end_at(page, at);
        let count = count_of(page) - 1;
        close(page, at, end);
        set_count(page, count);
        count == 0
    }

    /// Whether the key was there, and whether the node was given back.
    fn remove_at(&mut self, p: u32, key: &[u8]) -> (bool, bool) {
        let page = self.page(p);
        let at = if page[0] == 0 {
            let (_, at, found) = find(page, key);
            if !found {
                return (false, false);
            }
            at
        } else {
            let (_, at, _) = link_for(page, key);
            let (had, gone) = self.remove_at(child_at(page, at), key);
            if !gone {
                return (had, false);
            }
            at
        };
        let gone = self.cut_out(p, at);
        if gone {
            self.give(p);
        }
        (true, gone)
    }

    fn remove(&mut self, key: &[u8]) -> bool {
        if self.root == 0 {
            return false;
        }
        let (had, gone) = self.remove_at(self.root, key);
        if gone {
            self.root = 0;
        }
        had
    }

    fn scan(&self, p: u32, each: &mut impl FnMut(&[u8], &[u8])) {
        let page = self.page(p);
        let mut at = 4;
        for _ in 0..count_of(page) {
            let (value, end) = (value_at(page, at), end_at(page, at));
            if page[0] == 0 {
                each(&page[at + 3..value], &page[value..end]);
            } else {
                self.scan(child_at(page, at), each);
            }
            at = end;
        }
    }
}

fn key_of(i: u64, shuffled: bool) -> [u8; 20] {
    let mut key = *b"block.......00000000";
    let n = if shuffled {
        i.wrapping_mul(0x9e37_79b9_7f4a_7c15)
    } else {
        i
    };
    key[12..].copy_from_slice(&n.to_be_bytes());
    key
}

fn value_of(i: u64) -> [u8; 16] {
    let mut value = [0; 16];
    value[..8].copy_from_slice(&i.to_be_bytes());
    value
}

fn run(rows: u64, shuffled: bool) {
    let name = if shuffled { "shuffled" } else { "rising" };
    let mut store = Store::new(16_384);
    let mut told = 0u64;
    let start = Instant::now();
    for from in (0..rows).step_by(BATCH as usize) {
        for i in from..rows.min(from + BATCH) {
            told += store.put(&key_of(i, shuffled), &value_of(i)) as u64;
        }
        store.commit();
    }
    println!("{name} put {}", start.elapsed().as_nanos());
    println!("{name} pages {}", 16_383 - store.free);
    let start = Instant::now();
    for i in 0..rows {
        if let Some(value) = store.get(&key_of(i, shuffled)) {
            told += value[7] as u64;
        }
    }
    println!("{name} get {}", start.elapsed().as_nanos());
    let start = Instant::now();
    let mut scanned = 0u64;
    store.scan(store.root, &mut |key, value| {
        scanned = scanned
            .wrapping_mul(31)
            .wrapping_add(key[19] as u64 + value[7] as u64);
    });
    println!("{name} scan {}", start.elapsed().as_nanos());
    println!("{name} scanned {scanned}");
    let start = Instant::now();
    for from in (0..rows).step_by(BATCH as usize) {
        for i in from..rows.min(from + BATCH) {
            told = told.wrapping_add(store.remove(&key_of(i, shuffled)) as u64);
        }
        store.commit();
    }
    println!("{name} remove {}", start.elapsed().as_nanos());
    println!("{name} told {told} free {} root {}", store.free, store.root);
}

fn main() {
    let rows = std::env::args()
        .nth(1)
        .and_then(|word| word.parse().ok())
        .unwrap_or(200_000);
    run(rows, false);
    run(rows, true);
}
