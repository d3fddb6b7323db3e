//! What finding a missing decision costs a commit: plain Rust copies of the searches of `vpg_desk::commit`, before and
//! after. `rustc -O --edition 2024 commits.rs`, then `./commits DECISIONS LIFTS`: each decision of a page, 100 say, is followed by so
//! many lifts, and a harvest of all of them is committed after each. Seconds of the processor.
use std::hint::black_box;

#[derive(Clone, Copy, PartialEq)]
struct Decision {
    serial: u64,
    session: u32,
    feature: u16,
    value: bool,
}

#[allow(dead_code)]
enum Entry {
    Decide(Decision),
    Lift { vertex: u32, old: u64, new: u64, under: usize },
}

fn made(entries: &[Entry]) -> impl Iterator<Item = &Decision> {
    entries.iter().filter_map(|entry| match entry {
        Entry::Decide(made) => Some(made),
        _ => None,
    })
}

/// A pass over the entries for each decision.
fn first_not_among(entries: &[Entry], decisions: &[Decision]) -> Option<u16> {
    let missing = decisions.iter().find(|it| !made(entries).any(|made| made.feature == it.feature && made.value == it.value));
    missing.map(|it| it.feature)
}

/// One pass, and then one over the decisions for each.
fn first_missing(entries: &[Entry], decisions: &[Decision]) -> Option<u16> {
    let all: Vec<Decision> = made(entries).copied().collect();
    let missing = decisions.iter().find(|it| !all.iter().any(|made| made.feature == it.feature && made.value == it.value));
    missing.map(|it| it.feature)
}

/// Seconds of the processor so far.
fn spent() -> f64 {
    let text = std::fs::read_to_string("/proc/self/schedstat").unwrap();
    text.split(' ').next().unwrap().parse::<f64>().unwrap() / 1e9
}

fn main() {
    let words: Vec<u64> = std::env::args().skip(1).map(|word| word.parse().unwrap()).collect();
    let [count, lifts] = words[..] else { panic!("./commits DECISIONS LIFTS") };
    let mut entries = Vec::new();
    let mut decisions = Vec::new();
    let mut seconds = [0.0, 0.0];
    for serial in 1..=count {
        let decision = Decision { serial, session: 0, feature: serial as u16, value: true };
        entries.push(Entry::Decide(decision));
        decisions.push(decision);
        for (which, search) in [first_not_among, first_missing].into_iter().enumerate() {
            let start = spent();
            assert!(search(black_box(&entries), black_box(&decisions)).is_none());
            seconds[which] += spent() - start;
        }
        entries.extend((0..lifts).map(|v| Entry::Lift { vertex: v as u32, old: serial - 1, new: serial, under: 0 }));
    }
    println!("before {:.2} s, after {:.2} s, {} entries", seconds[0], seconds[1], entries.len());
}
