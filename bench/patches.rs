// Posts patches of one county each to one plan, whose revisions share the pieces of 512 districts that stay.
use std::hint::black_box;
use std::sync::Arc;

const COUNTY: usize = 1_770;
const PIECE: usize = 512;
const DISTRICTS: u32 = 50;

type Revision = Vec<Arc<Vec<u16>>>;

fn made_counties(count: usize) -> Vec<u64> {
    (0..count as u64).map(|i| 190_010_000_000_000 + i / 1_770 * 10_000_000_000 + i).collect()
}

fn put_digits<const N: usize>(text: &mut Vec<u8>, mut number: u64) {
    let mut digits = [b'0'; N];
    for digit in digits.iter_mut().rev() {
        *digit += (number % 10) as u8;
        number /= 10;
    }
    text.extend_from_slice(&digits);
}

fn body_of(ids: &[u64], district: u32) -> Vec<u8> {
    let mut text = Vec::with_capacity(17 + ids.len() * 20);
    text.extend_from_slice(b"BLOCKID|DISTRICT\n");
    for id in ids {
        put_digits::<15>(&mut text, *id);
        text.push(b'|');
        put_digits::<3>(&mut text, district as u64);
        text.push(b'\n');
    }
    text
}

fn digits(text: &[u8]) -> Option<u64> {
    text.iter().try_fold(0, |number, byte| byte.is_ascii_digit().then(|| number * 10 + (byte - b'0') as u64))
}

/// The places that a body lists with their districts, rising: the first line of a block counts.
fn read(ids: &[u64], body: &[u8]) -> Option<Vec<(usize, u16)>> {
    let mut lines = body.split(|byte| *byte == b'\n');
    if lines.next()? != b"BLOCKID|DISTRICT" {
        return None;
    }
    let mut listed = Vec::new();
    for line in lines.filter(|line| !line.is_empty()) {
        if line.len() < 17 || line[15] != b'|' {
            return None;
        }
        let id = digits(&line[..15])?;
        let district = digits(&line[16..])? as u16;
        let place = match listed.last() {
            Some(&(last, _)) if ids.get(last + 1) == Some(&id) => last + 1,
            _ => ids.binary_search(&id).ok()?,
        };
        if district as u32 > DISTRICTS {
            return None;
        }
        listed.push((place, district));
    }
    if !listed.is_sorted_by_key(|entry| entry.0) {
        listed.sort_by_key(|entry| entry.0);
    }
    Some(listed)
}

/// Whether each county that is listed is listed whole.
fn are_whole(ids: &[u64], listed: &[(usize, u16)]) -> bool {
    let county = |place: usize| ids[place] / 10_000_000_000;
    let mut at = 0;
    while at < listed.len() {
        let here = county(listed[at].0);
        let first = ids.partition_point(|id| id / 10_000_000_000 < here);
        let behind = ids.partition_point(|id| id / 10_000_000_000 <= here);
        if listed.len() - at < behind - first || listed[at].0 != first || listed[at + behind - first - 1].0 != behind - 1 {
            return false;
        }
        at += behind - first;
    }
    true
}

fn whole(count: usize, listed: &[(usize, u16)]) -> Revision {
    let mut districts = vec![0; count];
    for &(place, district) in listed {
        districts[place] = district;
    }
    districts.chunks(PIECE).map(|piece| Arc::new(piece.to_vec())).collect()
}

fn patched(last: &Revision, listed: &[(usize, u16)]) -> Revision {
    let mut next = last.clone();
    for &(place, district) in listed {
        Arc::make_mut(&mut next[place / PIECE])[place % PIECE] = district;
    }
    next
}

fn main() {
    let mut words = std::env::args().skip(1).map(|word| word.parse::<usize>().unwrap());
    let (count, blocks) = (words.next().unwrap(), words.next().unwrap());
    let ids = made_counties(blocks);
    let counties = blocks / COUNTY;
    let mut revisions: Vec<Revision> = Vec::new();
    for after in 0..count {
        let district = after as u32 % DISTRICTS + 1;
        if after == 0 {
            let body = body_of(&ids, district);
            revisions.push(whole(blocks, &read(&ids, &body).unwrap()));
            continue;
        }
        let first = after % counties * COUNTY;
        let body = body_of(&ids[first..(first + COUNTY).min(blocks)], district);
        let listed = read(&ids, &body).unwrap();
        assert!(are_whole(&ids, &listed));
        let next = patched(&revisions[after - 1], &listed);
        revisions.push(next);
    }
    let sum: u64 = revisions.last().unwrap().iter().flat_map(|piece| piece.iter()).map(|d| *d as u64).sum();
    println!("{} revisions, {}", black_box(&revisions).len(), sum);
}
