//! What a board costs one lifter at least: the same rounds by a plain program on plain words, and on shared ones as a board's steps need them.
//!
//!     rustc -O atomics.rs && ./atomics
//!
//! 40 rounds of both tables of 65,536 vertices from zero, on a random game and on a ladder, each a line: plain words; shared words with a claim
//! for each vertex (one atomic addition), atomic loads, and an atomic maximum for each lift or only where the word is less; and the same with
//! claims of 64 vertices at once. Every sweep copies the tables in and out, as a board does when it is opened and closed.
use std::sync::atomic::{AtomicU64, Ordering::SeqCst};
use std::time::Instant;

const VERTICES: usize = 65_536;
const ROUNDS: usize = 40;
const TOP: u64 = u64::MAX / 4;

struct Game {
    starts: Vec<usize>,
    successors: Vec<usize>,
    priority: Vec<u64>,
    even: Vec<bool>,
}

fn game(successors_of: impl Fn(usize, &mut dyn FnMut() -> usize) -> (u64, bool, Vec<usize>)) -> Game {
    let mut seed = 12_345u64;
    let mut next = || {
        seed ^= seed << 13;
        seed ^= seed >> 7;
        seed ^= seed << 17;
        (seed >> 20) as usize
    };
    let mut made = Game { starts: vec![0], successors: vec![], priority: vec![], even: vec![] };
    for v in 0..VERTICES {
        let (priority, even, successors) = successors_of(v, &mut next);
        made.successors.extend(successors);
        made.starts.push(made.successors.len());
        made.priority.push(priority);
        made.even.push(even);
    }
    made
}

impl Game {
    fn lift(&self, v: usize, value: impl Fn(usize) -> u64) -> u64 {
        let mut best = if self.even[v] { TOP } else { 0 };
        for &w in &self.successors[self.starts[v]..self.starts[v + 1]] {
            best = if self.even[v] { best.min(value(w)) } else { best.max(value(w)) };
        }
        match self.priority[v] {
            1 => (best + 1).min(TOP),
            3 => ((best / 100 + 1) * 100).min(TOP),
            _ => best,
        }
    }

    fn rounds(&self) {
        for mut table in [vec![0u64; VERTICES], vec![0u64; VERTICES]] {
            for _ in 0..ROUNDS {
                for v in 0..VERTICES {
                    let lifted = self.lift(v, |w| table[w]);
                    table[v] = table[v].max(lifted);
                }
            }
        }
    }

    fn sweeps(&self, run: u64, always: bool) {
        let mut tables = vec![0u64; 2 * VERTICES];
        for _ in 0..ROUNDS {
            let words: Vec<AtomicU64> = tables.iter().map(|value| AtomicU64::new(*value)).collect();
            let claimed = AtomicU64::new(0);
            let (mut place, mut end) = (0, 0);
            loop {
                if place == end {
                    place = claimed.fetch_add(run, SeqCst);
                    end = place + run;
                }
                if place >= 2 * VERTICES as u64 {
                    break;
                }
                let first = if place < VERTICES as u64 { 0 } else { VERTICES };
                let word = &words[place as usize];
                let before = word.load(SeqCst);
                let lifted = self.lift(place as usize - first, |w| words[first + w].load(SeqCst));
                if always || before < lifted {
                    word.fetch_max(lifted, SeqCst);
                }
                place += 1;
            }
            tables = words.iter().map(|word| word.load(SeqCst)).collect();
        }
    }
}

fn main() {
    let random = game(|_, next| {
        let successors = (0..1 + next() % 4).map(|_| next() % VERTICES).collect();
        (next() as u64 % 4, next() % 2 == 0, successors)
    });
    let ladder = game(|v, _| (v as u64 % 2, v % 2 == 0, vec![(v + 2) % VERTICES, (v + 1 - v % 2) % VERTICES]));
    for (name, game) in [("random", random), ("ladder", ladder)] {
        let timed = |what: &str, call: &dyn Fn()| {
            let start = Instant::now();
            call();
            println!("{name}, {what}: {} ms", start.elapsed().as_millis());
        };
        timed("plain words", &|| game.rounds());
        timed("shared words, a claim and a maximum each", &|| game.sweeps(1, true));
        timed("shared words, a claim each", &|| game.sweeps(1, false));
        timed("shared words, claims of 64", &|| game.sweeps(64, false));
    }
}
