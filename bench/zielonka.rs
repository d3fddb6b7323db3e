//! A plain program that reads a game of `families.py` or `hard.py` and finds who wins where by Zielonka's recursion (Zielonka 1998), without
//! any proof: in the game where Even has all moves that may be left, and in the one where Odd has.
//!
//!     rustc -O zielonka.rs && ./zielonka GAME [SECONDS]
//!
//! It knows the guards f, g and their negations, all open. It prints one line: milliseconds of processor time of the recursion on both games
//! (`more` where SECONDS a game, 2 if left out, were not enough), and how many vertices Odd wins in each.
use std::time::Instant;

const NOBODY: u8 = 2;

struct Game {
    priority: Vec<u32>,
    owner: Vec<u8>,
    successors: Vec<Vec<u32>>,
    predecessors: Vec<Vec<u32>>,
}

/// The game that the player of this number is hopeful in: it keeps its guarded moves, and the other loses them.
fn read(text: &str, hopeful: u8) -> Game {
    let mut game = Game { priority: vec![], owner: vec![], successors: vec![], predecessors: vec![] };
    for entry in text.split(';').skip(1) {
        let mut words = entry.split_whitespace();
        let Some(_) = words.next() else { continue };
        game.priority.push(words.next().unwrap().parse().unwrap());
        let owner = words.next().unwrap().parse().unwrap();
        game.owner.push(owner);
        let moves = words.next().unwrap_or("").split(',').filter(|w| !w.is_empty());
        let kept = moves.filter(|w| owner == hopeful || !w.contains('['));
        game.successors.push(kept.map(|w| w.split('[').next().unwrap().parse().unwrap()).collect());
    }
    game.predecessors = vec![vec![]; game.owner.len()];
    for (v, successors) in game.successors.iter().enumerate() {
        for w in successors {
            game.predecessors[*w as usize].push(v as u32);
        }
    }
    game
}

enum Frame {
    Open { all: Vec<u32>, gone: Vec<u32> },
    Inner { all: Vec<u32>, gone: Vec<u32>, attracted: Vec<u32>, player: u8 },
}

struct Solver<'a> {
    game: &'a Game,
    priority: Vec<u32>,
    alive: Vec<bool>,
    winner: Vec<u8>,
    mark: Vec<u32>,
    seen: Vec<u32>,
    left: Vec<u32>,
    stamp: u32,
}

/// Priorities of one parity with none of the other between them become the same.
fn merged(priority: &[u32]) -> Vec<u32> {
    let most = priority.iter().max().copied().unwrap_or(0) as usize;
    let mut occurs = vec![false; most + 1];
    priority.iter().for_each(|p| occurs[*p as usize] = true);
    let (mut merged, mut last) = (vec![0; most + 1], 0u32);
    for p in 0..=most {
        if occurs[p] {
            last += (last % 2 + p as u32 % 2) % 2;
            merged[p] = last;
        }
    }
    priority.iter().map(|p| merged[*p as usize]).collect()
}

impl Solver<'_> {
    fn attract(&mut self, player: u8, seed: Vec<u32>) -> Vec<u32> {
        self.stamp += 1;
        let (game, stamp) = (self.game, self.stamp);
        let mut taken = seed;
        taken.iter().for_each(|v| self.mark[*v as usize] = stamp);
        let mut at = 0;
        while at < taken.len() {
            for &u in &game.predecessors[taken[at] as usize] {
                let i = u as usize;
                if !self.alive[i] || self.mark[i] == stamp {
                    continue;
                }
                if game.owner[i] != player {
                    if self.seen[i] != stamp {
                        self.seen[i] = stamp;
                        self.left[i] = game.successors[i].iter().filter(|w| self.alive[**w as usize]).count() as u32;
                    }
                    self.left[i] -= 1;
                    if self.left[i] > 0 {
                        continue;
                    }
                }
                self.mark[i] = stamp;
                taken.push(u);
            }
            at += 1;
        }
        taken.iter().for_each(|v| self.alive[*v as usize] = false);
        taken
    }

    /// Who stands without a move loses.
    fn win_dead_ends(&mut self, player: u8) {
        let game = self.game;
        let is_dead = |v: &u32| {
            let i = *v as usize;
            self.alive[i] && game.owner[i] != player && !game.successors[i].iter().any(|w| self.alive[*w as usize])
        };
        let dead = (0..game.owner.len() as u32).filter(is_dead).collect();
        let taken = self.attract(player, dead);
        taken.iter().for_each(|v| self.winner[*v as usize] = player);
    }

    fn revive(&mut self, vertices: &[u32]) {
        vertices.iter().for_each(|v| self.alive[*v as usize] = true);
    }

    /// Says whether the time sufficed.
    fn solve(&mut self, all: Vec<u32>, start: Instant, seconds: f64) -> bool {
        let mut stack = vec![Frame::Open { all, gone: vec![] }];
        while let Some(frame) = stack.pop() {
            if start.elapsed().as_secs_f64() > seconds {
                return false;
            }
            match frame {
                Frame::Open { all, gone } if all.is_empty() => self.revive(&gone),
                Frame::Open { all, gone } => {
                    let greatest = all.iter().map(|v| self.priority[*v as usize]).max().unwrap();
                    let player = (greatest % 2) as u8;
                    let seed = all.iter().copied().filter(|v| self.priority[*v as usize] == greatest).collect();
                    let attracted = self.attract(player, seed);
                    let inner = all.iter().copied().filter(|v| self.alive[*v as usize]).collect();
                    stack.push(Frame::Inner { all, gone, attracted, player });
                    stack.push(Frame::Open { all: inner, gone: vec![] });
                }
                Frame::Inner { all, mut gone, attracted, player } => {
                    let lost: Vec<u32> = all.iter().copied().filter(|v| self.alive[*v as usize] && self.winner[*v as usize] == 1 - player).collect();
                    self.revive(&attracted);
                    if lost.is_empty() {
                        attracted.iter().for_each(|v| self.winner[*v as usize] = player);
                        self.revive(&gone);
                        continue;
                    }
                    let taken = self.attract(1 - player, lost);
                    taken.iter().for_each(|v| self.winner[*v as usize] = 1 - player);
                    gone.extend_from_slice(&taken);
                    let all = all.into_iter().filter(|v| self.alive[*v as usize]).collect();
                    stack.push(Frame::Open { all, gone });
                }
            }
        }
        true
    }
}

#[repr(C)]
struct Time {
    seconds: i64,
    nanoseconds: i64,
}

unsafe extern "C" {
    fn clock_gettime(clock: i32, time: *mut Time) -> i32;
}

/// Milliseconds of processor time of this process until now, by Linux' clock for them (2), which counts between ticks, too.
fn spent() -> f64 {
    let mut time = Time { seconds: 0, nanoseconds: 0 };
    unsafe { clock_gettime(2, &mut time) };
    time.seconds as f64 * 1e3 + time.nanoseconds as f64 / 1e6
}

/// Milliseconds of the recursion, and how many vertices Odd wins; nothing where the time did not suffice.
fn solved(game: &Game, seconds: f64) -> (f64, Option<usize>) {
    let (start, before) = (Instant::now(), spent());
    let n = game.owner.len();
    let mut solver = Solver {
        game,
        priority: merged(&game.priority),
        alive: vec![true; n],
        winner: vec![NOBODY; n],
        mark: vec![0; n],
        seen: vec![0; n],
        left: vec![0; n],
        stamp: 0,
    };
    solver.win_dead_ends(0);
    solver.win_dead_ends(1);
    let all = (0..n as u32).filter(|v| solver.alive[*v as usize]).collect();
    let done = solver.solve(all, start, seconds);
    let won = solver.winner.iter().filter(|w| **w == 1).count();
    (spent() - before, done.then_some(won))
}

fn main() {
    let words: Vec<String> = std::env::args().collect();
    let text = std::fs::read_to_string(&words[1]).unwrap();
    let seconds = words.get(2).map_or(2.0, |s| s.parse().unwrap());
    let (hopeful, won) = solved(&read(&text, 0), seconds);
    let (dual, lost) = solved(&read(&text, 1), seconds);
    let more = if won.is_none() || lost.is_none() { " more" } else { "" };
    println!("zielonka {:.1} ms{more}, Odd wins {} and {}", hopeful + dual, won.unwrap_or(0), lost.unwrap_or(0));
}
