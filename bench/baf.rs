// The plain counterpart of bench/programs, for bench/baf alone.
use std::time::Instant;
use std::io::Write;
#[derive(Clone, Copy)]
struct Row { id: u64, _city: Option<u32>, _population: u32 }

// plain Rust as one would write it: split into lines, split at the bar, parse
fn read(text: &[u8], blocks: &[Row], n: u16) -> Result<Vec<Option<u16>>, (u8, u64)> {
    let mut listed = vec![None; blocks.len()];
    let mut next = 0;
    let mut lines = text.split(|b| *b == b'\n');
    let strip = |l: &'_ [u8]| -> usize { if l.last() == Some(&b'\r') { l.len() - 1 } else { l.len() } };
    match lines.next() { Some(l) if &l[..strip(l)] == b"BLOCKID|DISTRICT" => {}, _ => return Err((1, 1)) }
    for (i, l) in lines.enumerate() {
        let l = &l[..strip(l)];
        if l.is_empty() { continue; }
        let at = i as u64 + 2;
        let Some(bar) = l.iter().position(|b| *b == b'|') else { return Err((2, at)) };
        let (id, code) = (&l[..bar], &l[bar + 1..]);
        if id.len() != 15 || !id.iter().all(u8::is_ascii_digit) { return Err((2, at)); }
        let id: u64 = std::str::from_utf8(id).unwrap().parse().unwrap();
        let d = if code.is_empty() || code == b"ZZ" || code == b"ZZZ" { None }
            else if code.len() <= 3 && code.iter().all(u8::is_ascii_digit) { Some(std::str::from_utf8(code).unwrap().parse::<u16>().unwrap()) }
            else { return Err((2, at)) };
        let place = if next < blocks.len() && blocks[next].id == id { next } else {
            match blocks.binary_search_by_key(&id, |b| b.id) { Ok(p) => p, Err(_) => return Err((3, at)) } };
        if listed[place].is_some() { return Err((4, at)); }
        let d = match d { None => 0, Some(d) if d >= 1 && d <= n => d, _ => return Err((5, at)) };
        listed[place] = Some(d);
        next = place + 1;
    }
    Ok(listed)
}

// hand made digits, one pass
fn write(f: &[u16], blocks: &[Row]) -> Vec<u8> {
    let mut text = Vec::with_capacity(17 + blocks.len() * 20);
    text.extend_from_slice(b"BLOCKID|DISTRICT\n");
    for (b, d) in blocks.iter().zip(f) {
        let mut row = [b'0'; 20];
        let mut rest = b.id;
        for k in (0..15).rev() { row[k] = b'0' + (rest % 10) as u8; rest /= 10; }
        row[15] = b'|';
        if *d == 0 { row[16..19].copy_from_slice(b"ZZZ"); }
        else { row[16] = b'0' + (d / 100) as u8; row[17] = b'0' + (d / 10 % 10) as u8; row[18] = b'0' + (d % 10) as u8; }
        row[19] = b'\n';
        text.extend_from_slice(&row);
    }
    text
}
fn write_fmt(f: &[u16], blocks: &[Row]) -> Vec<u8> {
    let mut text = Vec::with_capacity(17 + blocks.len() * 20);
    text.extend_from_slice(b"BLOCKID|DISTRICT\n");
    for (b, d) in blocks.iter().zip(f) {
        if *d == 0 { writeln!(text, "{:015}|ZZZ", b.id).unwrap(); } else { writeln!(text, "{:015}|{:03}", b.id, d).unwrap(); }
    }
    text
}
fn main() {
    const COUNT: u64 = 175_199;
    let blocks: Vec<Row> = (0..COUNT).map(|i| Row { id: 190_010_000_000_000 + i, _city: None, _population: 0 }).collect();
    let f: Vec<u16> = (0..COUNT).map(|i| (i * 200 / COUNT % 100) as u16 + 1).collect();
    let same = |l: Vec<Option<u16>>| assert!(l.iter().zip(&f).all(|(a, b)| *a == Some(*b)));
    let (mut wb, mut wf, mut rb, mut ob) = (u128::MAX, u128::MAX, u128::MAX, u128::MAX);
    let mut size = 0;
    // more bytes than the caches hold
    let mut other = vec![0u8; 48_000_000];
    for _ in 0..30 {
        let t = Instant::now(); let text = write(&f, &blocks); wb = wb.min(t.elapsed().as_nanos());
        let t = Instant::now(); let text2 = write_fmt(&f, &blocks); wf = wf.min(t.elapsed().as_nanos());
        assert!(text == text2); size = text.len();
        let t = Instant::now(); let l = read(&text, &blocks, 100).unwrap(); rb = rb.min(t.elapsed().as_nanos());
        same(l);
        let copy = text.clone();
        for b in other.iter_mut() { *b = b.wrapping_add(1); }
        std::hint::black_box(&mut other);
        let t = Instant::now(); let l = read(&copy, &blocks, 100).unwrap(); ob = ob.min(t.elapsed().as_nanos());
        same(l);
    }
    println!("{size} bytes: write {wb} ns, write by writeln {wf} ns, read {rb} ns, read once behind other work {ob} ns");
}
