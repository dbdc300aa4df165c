// Creates plans and posts revisions to one plan, in a map and vectors that are changed in place.
use std::collections::BTreeMap;
use std::hint::black_box;

struct Plan {
    kind: u8,
    n: u16,
    revisions: Vec<Vec<u16>>,
}

fn name_of(number: u32) -> String {
    format!("plan-{number:05}")
}

fn created(count: u32, step: u32) -> BTreeMap<String, Plan> {
    let mut plans = BTreeMap::new();
    let mut number = 0;
    for _ in 0..count {
        let plan = Plan { kind: 1, n: 4, revisions: Vec::new() };
        assert!(plans.insert(name_of(number), plan).is_none());
        number = (number + step) % 65_535;
    }
    plans
}

fn main() {
    let mut words = std::env::args().skip(1).map(|word| word.parse::<u32>().unwrap());
    let (count, step) = (words.next().unwrap(), words.next().unwrap());
    if step > 0 {
        let plans = created(count, step);
        assert_eq!(plans.len(), count as usize);
        black_box(plans.values().map(|plan| plan.kind as usize + plan.n as usize + plan.revisions.len()).sum::<usize>());
        return;
    }
    let mut plans = created(1, 1);
    for _ in 0..count {
        plans.get_mut(&name_of(0)).unwrap().revisions.push(black_box(vec![1; 14]));
    }
    assert_eq!(plans[&name_of(0)].revisions.len(), count as usize);
}
