//! `verify sectors STORE`: reads each sector of a file once, by one `pread` each, and adds up its words, as a program must that has a sum
//! of each page to compare. It prints the sum.
//!
//! `verify pages STORE`: reads each page of a store once, as a program must that finds them by the store's own links: the header, the list
//! of free pages, each of which has no bytes but its link, and the tree, whose entries lie in their pages and whose keys rise. It prints how
//! many pages and rows there are.
use std::{env, fs::File, os::unix::fs::FileExt};

type Page = [u8; 4096];

fn sectors(file: &File) {
    let sectors = file.metadata().expect("its size").len() / 4096;
    let mut page = [0u8; 4096];
    let mut sum = 0u64;
    for sector in 0..sectors {
        file.read_exact_at(&mut page, 4096 * sector).expect("a sector");
        for word in page.chunks_exact(8) {
            sum = sum.rotate_left(1) ^ u64::from_le_bytes(word.try_into().unwrap());
        }
    }
    println!("{sum:016x}");
}

fn word(page: &Page, k: usize) -> u32 {
    u32::from_be_bytes(page[4 * k..4 * k + 4].try_into().unwrap())
}

struct Store {
    file: File,
    home: u64,
    seen: Vec<bool>,
    rows: u64,
}

impl Store {
    fn read(&self, p: u32, page: &mut Page) {
        self.file.read_exact_at(page, 4096 * (self.home + p as u64)).expect("a page");
    }

    fn name(&mut self, p: u32) {
        assert!(!self.seen[p as usize], "page {p} has two owners");
        self.seen[p as usize] = true;
    }

    fn list(&mut self, first: u32, count: u32) {
        let mut page = [0u8; 4096];
        let mut next = first;
        for _ in 0..count {
            self.name(next);
            self.read(next, &mut page);
            assert!(page[4..].iter().fold(0, |all, byte| all | byte) == 0, "page {next} isn't free");
            next = word(&page, 0);
        }
        assert!(next == 0, "the list goes on");
    }

    fn tree(&mut self, p: u32, level: u8) {
        self.name(p);
        let mut page = [0u8; 4096];
        self.read(p, &mut page);
        assert!(page[0] == level, "page {p} has another level");
        let count = u16::from_be_bytes([page[2], page[3]]);
        let mut at = 4;
        let mut before: &[u8] = &[];
        let mut children = Vec::new();
        for k in 0..count {
            let key = at + 3;
            let value = key + page[at] as usize;
            let end = value + u16::from_be_bytes([page[at + 1], page[at + 2]]) as usize;
            assert!(k == 0 || before < &page[key..value], "the keys of page {p} don't rise");
            before = &page[key..value];
            if level > 0 {
                children.push(u32::from_be_bytes(page[value..end].try_into().expect("a child")));
            }
            at = end;
        }
        if level == 0 {
            self.rows += count as u64;
        }
        for child in children {
            self.tree(child, level - 1);
        }
    }
}

fn pages(file: File) {
    let mut page = [0u8; 4096];
    file.read_exact_at(&mut page, 0).expect("the header");
    let (journal, count) = (word(&page, 3), word(&page, 4));
    let home = (2 + (journal + 1024) / 1024 + journal) as u64;
    let mut store = Store { file, home, seen: vec![false; count as usize], rows: 0 };
    store.name(0);
    store.read(0, &mut page);
    store.list(word(&page, 1), word(&page, 2));
    let root = word(&page, 0);
    if root > 0 {
        store.read(root, &mut page);
        store.tree(root, page[0]);
    }
    assert!(store.seen.iter().all(|seen| *seen), "a page is lost");
    println!("pages {count}\nrows {}", store.rows);
}

fn main() {
    let mut words = env::args().skip(1);
    let what = words.next().expect("sectors or pages");
    let file = File::open(words.next().expect("a store")).expect("the store");
    match what.as_str() {
        "sectors" => sectors(&file),
        _ => pages(file),
    }
}
