// The plain counterpart of the job `gal` of bench/programs, for bench/gal alone: it also makes the file that both read.
use std::env;
use std::fmt::Write;
use std::fs;
use std::time::Instant;

const WIDTH: usize = 419;
const FIRST: u64 = 190_010_000_000_000;

fn made(count: usize) -> String {
    let mut text = format!("0 {count} made id\n");
    for i in 0..count {
        let mut others = Vec::new();
        if i > WIDTH && i % WIDTH != 0 && (i - WIDTH - 1) % 7 < 4 { others.push(i - WIDTH - 1); }
        if i >= WIDTH { others.push(i - WIDTH); }
        if i % WIDTH != 0 { others.push(i - 1); }
        if (i + 1) % WIDTH != 0 && i + 1 < count { others.push(i + 1); }
        if i + WIDTH < count { others.push(i + WIDTH); }
        if (i + 1) % WIDTH != 0 && i % 7 < 4 && i + WIDTH + 1 < count { others.push(i + WIDTH + 1); }
        writeln!(text, "{} {}", FIRST + i as u64, others.len()).unwrap();
        let listed: Vec<String> = others.iter().map(|o| (FIRST + *o as u64).to_string()).collect();
        writeln!(text, "{}", listed.join(" ")).unwrap();
    }
    text
}

#[derive(Debug)]
enum Fault { Utf8, Header, Count, Unknown, RepeatedUnit, Missing, Own, OneWay, TooMany, Trailing, Early, RepeatedNeighbour }

fn block(ids: &[u64], word: Option<&str>) -> Result<(usize, u64), Fault> {
    let word = word.ok_or(Fault::Early)?;
    if word.len() != 15 || !word.bytes().all(|b| b.is_ascii_digit()) { return Err(Fault::Unknown); }
    let id = word.parse().map_err(|_| Fault::Unknown)?;
    let place = ids.binary_search(&id).map_err(|_| Fault::Unknown)?;
    Ok((place, id))
}

fn count(word: Option<&str>) -> Result<usize, Fault> {
    let word = word.ok_or(Fault::Early)?;
    if word.len() > 10 || !word.bytes().all(|b| b.is_ascii_digit()) { return Err(Fault::Count); }
    word.parse().map_err(|_| Fault::Count)
}

fn read(text: &[u8], ids: &[u64]) -> Result<Vec<(u64, u64)>, Fault> {
    let text = std::str::from_utf8(text).map_err(|_| Fault::Utf8)?;
    let (line, rest) = text.split_once('\n').ok_or(Fault::Header)?;
    let header: Vec<&str> = line.split_ascii_whitespace().collect();
    let units = match header.len() { 1 => count(Some(header[0]))?, 0 | 2 | 3 => return Err(Fault::Header), _ => count(Some(header[1]))? };
    let mut words = rest.split_ascii_whitespace();
    let mut seen = vec![false; ids.len()];
    let mut links: Vec<(u64, u64)> = Vec::new();
    for _ in 0..units {
        let (place, unit) = block(ids, words.next())?;
        if std::mem::replace(&mut seen[place], true) { return Err(Fault::RepeatedUnit); }
        let many = count(words.next())?;
        if many > 4096 { return Err(Fault::TooMany); }
        let first = links.len();
        for _ in 0..many {
            let (_, other) = block(ids, words.next())?;
            if other == unit { return Err(Fault::Own); }
            if links[first..].contains(&(unit, other)) { return Err(Fault::RepeatedNeighbour); }
            links.push((unit, other));
        }
    }
    if words.next().is_some() { return Err(Fault::Trailing); }
    if seen.contains(&false) { return Err(Fault::Missing); }
    let mut back: Vec<(u64, u64)> = links.iter().map(|l| (l.1, l.0)).collect();
    links.sort_unstable();
    back.sort_unstable();
    if links != back { return Err(Fault::OneWay); }
    links.retain(|l| l.0 < l.1);
    Ok(links)
}

fn main() {
    let words: Vec<String> = env::args().collect();
    let blocks: usize = words[3].parse().unwrap();
    if words[1] == "make" {
        fs::write(&words[2], made(blocks)).unwrap();
        return;
    }
    let text = fs::read(&words[2]).unwrap();
    let ids: Vec<u64> = (0..blocks as u64).map(|i| FIRST + i).collect();
    let (mut best, mut told) = (u128::MAX, 0u64);
    for _ in 0..10 {
        let t = Instant::now();
        let pairs = read(&text, &ids).unwrap();
        best = best.min(t.elapsed().as_nanos());
        told = pairs.len() as u64;
        for (a, b) in pairs { told = told.wrapping_mul(31).wrapping_add(a).wrapping_mul(31).wrapping_add(b); }
    }
    println!("{} {best} {told}", text.len());
}
