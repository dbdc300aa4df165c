// For bench/sweep alone: makes plans at a served store and takes them away again.
// fill PORT PLAN NAME COUNT PATCHES: so many plans, each of a whole revision and of so many patches of one county behind it;
// retire PORT NAME COUNT: takes them away;
// patch PORT PLAN NAME AFTER COUNT: so many patches of a plan one after the other, and prints the milliseconds of each, the least first.
#[allow(dead_code)]
mod client;

use client::{Connection, with_body};
use std::env;
use std::fs;
use std::time::Instant;

// one request, whose answer is to be a success
fn ask(connection: &mut Connection, words: &str, body: &[u8]) {
    let status = connection.ask(&with_body(words, body), None);
    assert!((200..300).contains(&status), "{words}: {status}");
}

// the plan's text whole, and of each county its blocks twice: all in the district of its first block, and all in none
fn texts_of(path: &str) -> (String, Vec<[String; 2]>) {
    let text = fs::read_to_string(path).unwrap();
    let mut counties: Vec<(String, String, [String; 2])> = Vec::new();
    for line in text.lines().skip(1) {
        let (block, district) = line.split_once('|').unwrap();
        if counties.last().is_none_or(|(county, _, _)| *county != block[..5]) {
            let first = String::from("BLOCKID|DISTRICT\n");
            counties.push((block[..5].to_string(), district.to_string(), [first.clone(), first]));
        }
        let (_, one, texts) = counties.last_mut().unwrap();
        texts[0] += &format!("{block}|{one}\n");
        texts[1] += &format!("{block}|\n");
    }
    (text, counties.into_iter().map(|(_, _, texts)| texts).collect())
}

fn main() {
    let words: Vec<String> = env::args().skip(1).collect();
    let words: Vec<&str> = words.iter().map(String::as_str).collect();
    let mut connection = Connection::new(words[1].parse().unwrap());
    match words[0] {
        "fill" => {
            let (text, counties) = texts_of(words[2]);
            let (count, patches): (usize, usize) = (words[4].parse().unwrap(), words[5].parse().unwrap());
            for plan in 0..count {
                let name = format!("{}-{plan}", words[3]);
                ask(&mut connection, &format!("PUT /plans/{name}?kind=house&districts=100"), b"");
                ask(&mut connection, &format!("POST /plans/{name}/revisions?after=0"), text.as_bytes());
                for patch in 0..patches {
                    let county = &counties[(plan + 7 * patch) % counties.len()];
                    let body = &county[(patch / counties.len() + 1) % 2];
                    ask(&mut connection, &format!("POST /plans/{name}/counties?after={}", patch + 1), body.as_bytes());
                }
            }
        }
        "retire" => {
            for plan in 0..words[3].parse::<usize>().unwrap() {
                ask(&mut connection, &format!("DELETE /plans/{}-{plan}", words[2]), b"");
            }
        }
        "patch" => {
            let (_, counties) = texts_of(words[2]);
            let (after, count): (usize, usize) = (words[4].parse().unwrap(), words[5].parse().unwrap());
            let mut times: Vec<f64> = (0..count)
                .map(|patch| {
                    let body = &counties[7 * patch % counties.len()][(patch / counties.len() + 1) % 2];
                    let began = Instant::now();
                    ask(&mut connection, &format!("POST /plans/{}/counties?after={}", words[3], after + patch), body.as_bytes());
                    began.elapsed().as_secs_f64() * 1e3
                })
                .collect();
            times.sort_by(f64::total_cmp);
            println!("{}", times.iter().map(|time| format!("{time:.3}")).collect::<Vec<_>>().join(" "));
        }
        word => panic!("what is {word}?"),
    }
}
