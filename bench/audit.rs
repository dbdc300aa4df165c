// The plain counterpart of bench/programs, for bench/audit alone: the same audits of the same made state; with a third word
// the whole audit.
use std::env;
use std::time::Instant;

const WIDTH: usize = 419;

struct Block { id: u64, city: Option<u32>, population: u32 }

struct Pair { first: u32, second: u32 }

struct Break { district: u16, gap: Option<(u64, u64)> }

// the trees of the parts that hold together, each under its lowest block
struct Forest { parents: Vec<u32> }

impl Forest {
    fn new(count: usize) -> Forest {
        Forest { parents: (0..count as u32).collect() }
    }

    fn root(&mut self, mut block: u32) -> u32 {
        while self.parents[block as usize] != block {
            let parent = self.parents[block as usize];
            self.parents[block as usize] = self.parents[parent as usize];
            block = self.parents[block as usize];
        }
        block
    }

    fn join(&mut self, one: u32, other: u32) {
        let (one, other) = (self.root(one), self.root(other));
        if one != other {
            self.parents[one.max(other) as usize] = one.min(other);
        }
    }
}

fn breaks(blocks: &[Block], pairs: &[Pair], districts: u16, plan: &[u16]) -> Vec<Break> {
    let mut forest = Forest::new(blocks.len());
    for pair in pairs {
        let district = plan[pair.first as usize];
        if district != 0 && district == plan[pair.second as usize] {
            forest.join(pair.first, pair.second);
        }
    }
    let mut lowest: Vec<(Option<usize>, Option<usize>)> = vec![(None, None); districts as usize];
    for (place, district) in plan.iter().enumerate() {
        if *district == 0 || *district > districts || forest.parents[place] as usize != place {
            continue;
        }
        let roots = &mut lowest[*district as usize - 1];
        if roots.0.is_none() { roots.0 = Some(place) } else if roots.1.is_none() { roots.1 = Some(place) }
    }
    let mut told = Vec::new();
    for (i, roots) in lowest.iter().enumerate() {
        let district = i as u16 + 1;
        match *roots {
            (None, _) => told.push(Break { district, gap: None }),
            (Some(from), Some(to)) => told.push(Break { district, gap: Some((blocks[from].id, blocks[to].id)) }),
            _ => {}
        }
    }
    told
}

// the same by a flood fill from each district's least block, over lists of neighbours that are made first
fn flooded(blocks: &[Block], starts: &[u32], neighbours: &[u32], districts: u16, plan: &[u16]) -> Vec<Break> {
    let mut least: Vec<Option<usize>> = vec![None; districts as usize];
    for (place, district) in plan.iter().enumerate() {
        if (1..=districts).contains(district) { least[*district as usize - 1].get_or_insert(place); }
    }
    let mut reached = vec![false; blocks.len()];
    let mut open = Vec::new();
    for start in least.iter().flatten() {
        reached[*start] = true;
        open.push(*start);
        while let Some(at) = open.pop() {
            for other in &neighbours[starts[at] as usize..starts[at + 1] as usize] {
                let other = *other as usize;
                if !reached[other] && plan[other] == plan[at] { reached[other] = true; open.push(other); }
            }
        }
    }
    let mut missed: Vec<Option<usize>> = vec![None; districts as usize];
    for (place, district) in plan.iter().enumerate() {
        if (1..=districts).contains(district) && !reached[place] { missed[*district as usize - 1].get_or_insert(place); }
    }
    let mut told = Vec::new();
    for i in 0..districts as usize {
        let district = i as u16 + 1;
        match (least[i], missed[i]) {
            (None, _) => told.push(Break { district, gap: None }),
            (Some(from), Some(to)) => told.push(Break { district, gap: Some((blocks[from].id, blocks[to].id)) }),
            _ => {}
        }
    }
    told
}

fn populations(blocks: &[Block], districts: u16, plan: &[u16]) -> Vec<u32> {
    let mut people = vec![0; districts as usize];
    for (block, district) in blocks.iter().zip(plan) {
        if *district != 0 && *district <= districts {
            people[*district as usize - 1] += block.population;
        }
    }
    people
}

// whether each county has blocks of two districts, and each city, in one pass
fn divided(blocks: &[Block], plan: &[u16]) -> (Vec<u16>, Vec<u32>) {
    let cities = blocks.iter().filter_map(|b| b.city).max().map_or(0, |c| c as usize + 1);
    let (mut county, mut city) = (vec![(None, false); 1000], vec![(None, false); cities]);
    let note = |mark: &mut (Option<u16>, bool), district: u16| mark.1 |= *mark.0.get_or_insert(district) != district;
    for (block, district) in blocks.iter().zip(plan) {
        note(&mut county[(block.id / 10_000_000_000 % 1000) as usize], *district);
        if let Some(code) = block.city { note(&mut city[code as usize], *district); }
    }
    ((0..1000).filter(|c| county[*c as usize].1).collect(), (0..cities as u32).filter(|c| city[*c as usize].1).collect())
}

// what the whole audit of a senate plan finds, as a number
fn report(blocks: &[Block], pairs: &[Pair], districts: u16, plan: &[u16]) -> u64 {
    let people = populations(blocks, districts, plan);
    let total: u32 = blocks.iter().map(|b| b.population).sum();
    let ideal = total as u64 / districts as u64;
    let off: u64 = people.iter().map(|p| (*p as u64).abs_diff(ideal)).sum();
    let (counties, cities) = divided(blocks, plan);
    let broken = breaks(blocks, pairs, districts, plan);
    let unassigned = plan.iter().filter(|d| **d == 0).count() as u64;
    std::hint::black_box((off, people.iter().max(), people.iter().min(), cities));
    let mut told = unassigned;
    let mut add = |n: u64| told = told.wrapping_mul(31).wrapping_add(n);
    for part in &broken {
        add(part.district as u64);
        if let Some((from, to)) = part.gap { add(from); add(to); }
    }
    for number in &people { add(*number as u64); }
    for county in &counties { add(*county as u64); }
    told
}

fn told_of(broken: &[Break], people: &[u32]) -> u64 {
    let mut told = 0u64;
    let mut add = |n: u64| told = told.wrapping_mul(31).wrapping_add(n);
    for part in broken {
        add(part.district as u64);
        if let Some((from, to)) = part.gap { add(from); add(to); }
    }
    for number in people { add(*number as u64); }
    told
}

fn main() {
    let words: Vec<String> = env::args().collect();
    let (count, districts): (usize, u16) = (words[1].parse().unwrap(), words[2].parse().unwrap());
    let blocks: Vec<Block> = (0..count).map(|i| Block { id: 190_010_000_000_000 + i as u64, city: None, population: (i % 97) as u32 }).collect();
    let mut pairs = Vec::new();
    for i in 0..count {
        if (i + 1) % WIDTH != 0 && i + 1 < count { pairs.push(Pair { first: i as u32, second: i as u32 + 1 }); }
        if i + WIDTH < count { pairs.push(Pair { first: i as u32, second: (i + WIDTH) as u32 }); }
        if (i + 1) % WIDTH != 0 && i % 7 < 4 && i + WIDTH + 1 < count { pairs.push(Pair { first: i as u32, second: (i + WIDTH + 1) as u32 }); }
    }
    let mut starts = vec![0u32; count + 1];
    for p in &pairs { starts[p.first as usize + 1] += 1; starts[p.second as usize + 1] += 1; }
    for i in 0..count { starts[i + 1] += starts[i]; }
    let mut next = starts.clone();
    let mut neighbours = vec![0u32; 2 * pairs.len()];
    for p in &pairs {
        for (a, b) in [(p.first, p.second), (p.second, p.first)] { neighbours[next[a as usize] as usize] = b; next[a as usize] += 1; }
    }
    eprintln!("{} blocks, {} pairs", count, pairs.len());
    for (name, stripes) in [("whole", districts as u64), ("parted", 2 * districts as u64)] {
        let plan: Vec<u16> = (0..count as u64).map(|i| (i * stripes / count as u64 % districts as u64) as u16 + 1).collect();
        if words.len() > 3 {
            let (mut best, mut told) = (u128::MAX, 0);
            for _ in 0..20 {
                let t = Instant::now(); told = report(&blocks, &pairs, districts, &plan); best = best.min(t.elapsed().as_nanos());
            }
            println!("{name} {best} {told}");
            continue;
        }
        let (mut joined, mut filled, mut counted, mut told) = (u128::MAX, u128::MAX, u128::MAX, 0);
        for _ in 0..20 {
            let t = Instant::now(); let broken = breaks(&blocks, &pairs, districts, &plan); joined = joined.min(t.elapsed().as_nanos());
            let t = Instant::now(); let again = flooded(&blocks, &starts, &neighbours, districts, &plan); filled = filled.min(t.elapsed().as_nanos());
            let t = Instant::now(); let people = populations(&blocks, districts, &plan); counted = counted.min(t.elapsed().as_nanos());
            told = told_of(&broken, &people);
            assert_eq!(told, told_of(&again, &people));
        }
        println!("{name} {joined} {filled} {counted} {told}");
    }
}
