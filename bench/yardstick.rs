//! The yardstick: a plain program that reads a game of `families.py`, settles both tables by the same rounds as `settle N`, and finds
//! who wins where by Zielonka's recursion (Zielonka 1998), without any proof.
//!
//!     rustc -O yardstick.rs && ./yardstick GAME ROUNDS [open|in|out] [SECONDS]
//!     ./yardstick GAME write hopeful|dual [open|in|out]
//!
//! It knows only the guards that `families.py` writes, and takes f as open, in or out. It prints one line: seconds of reading, seconds of
//! settling (`more` where SECONDS a table, 10 if left out, were not enough), rounds, lifts tried and vertices raised, then seconds of the
//! recursion on both games and how many vertices Odd wins in each. With `write` it writes the plain game instead, for other solvers.
use std::time::Instant;

struct Vertex {
    priority: usize,
    even: bool,
    edges: Vec<(usize, char)>,
}

fn read(text: &str) -> Vec<Vertex> {
    let mut vertices = Vec::new();
    for entry in text.split(';').skip(1) {
        let mut words = entry.split_whitespace();
        let Some(_) = words.next() else { continue };
        let priority = words.next().unwrap().parse().unwrap();
        let even = words.next().unwrap() == "0";
        let edges = match words.next() {
            None => Vec::new(),
            Some(list) => list
                .split(',')
                .map(|s| match s.split_once('[') {
                    None => (s.parse().unwrap(), ' '),
                    Some((to, guard)) => {
                        let sign = if guard.starts_with('!') { '!' } else { guard.chars().next().unwrap() };
                        (to.parse().unwrap(), sign)
                    }
                })
                .collect(),
        };
        vertices.push(Vertex { priority, even, edges });
    }
    vertices
}

/// Weights of the odd priorities below each priority, and the top.
fn shape(priorities: &[usize]) -> (Vec<u64>, u64) {
    let most = priorities.iter().max().unwrap() + 2;
    let mut count = vec![0u64; most];
    for &p in priorities {
        count[p] += 1;
    }
    let mut below = vec![1u64; most];
    let mut top = 1u64;
    for p in 0..most {
        below[p] = top;
        if p % 2 == 1 && count[p] > 0 {
            top *= count[p] + 1;
        }
    }
    (below, top)
}

struct Game {
    priority: Vec<usize>,
    even: Vec<bool>,
    kept: Vec<Vec<usize>>,
    below: Vec<u64>,
    top: u64,
}

/// `None` for open, `Some(true)` for in.
fn game(vertices: &[Vertex], f: Option<bool>, dual: bool) -> Game {
    let known = |guard: char| match guard {
        ' ' => Some(true),
        'f' => f,
        _ => None,
    };
    let priority: Vec<usize> = vertices.iter().map(|v| v.priority + dual as usize).collect();
    let even: Vec<bool> = vertices.iter().map(|v| v.even != dual).collect();
    let kept = vertices
        .iter()
        .zip(&even)
        .map(|(v, &even)| {
            let keeps = |g: char| if even { known(g) != Some(false) } else { known(g) == Some(true) };
            v.edges.iter().filter(|e| keeps(e.1)).map(|e| e.0).collect()
        })
        .collect();
    let (below, top) = shape(&priority);
    Game { priority, even, kept, below, top }
}

fn lift(g: &Game, table: &[u64], v: usize) -> u64 {
    let p = g.priority[v];
    let m = g.below[p];
    let prog = |w: &usize| {
        let r = table[*w];
        if r == g.top {
            g.top
        } else if p % 2 == 1 {
            ((r / m + 1) * m).min(g.top)
        } else {
            r / m * m
        }
    };
    let values = g.kept[v].iter().map(prog);
    if g.even[v] {
        values.min().unwrap_or(g.top)
    } else {
        values.max().unwrap_or(0)
    }
}

/// Rounds until one raises nothing, at most so many and for at most so many seconds.
fn settle(g: &Game, rounds: u64, seconds: f64) -> (u64, u64, usize, bool) {
    let start = Instant::now();
    let mut table = vec![0u64; g.kept.len()];
    let mut tried = 0;
    let mut done = 0;
    let mut settled = false;
    while done < rounds && !settled && start.elapsed().as_secs_f64() < seconds {
        settled = true;
        done += 1;
        for v in 0..table.len() {
            let value = lift(g, &table, v);
            tried += 1;
            if value > table[v] {
                table[v] = value;
                settled = false;
            }
        }
    }
    (done, tried, table.iter().filter(|&&n| n > 0).count(), settled)
}

/// Zielonka's recursion.
struct Solver<'a> {
    game: &'a Game,
    before: Vec<Vec<usize>>,
    alive: Vec<bool>,
    even_wins: Vec<bool>,
    // the last attractor that took the vertex, and the last that counted its edges
    taken: Vec<u32>,
    counted: Vec<u32>,
    left: Vec<usize>,
    stamp: u32,
}

impl<'a> Solver<'a> {
    fn new(game: &'a Game) -> Solver<'a> {
        let n = game.kept.len();
        let mut before = vec![Vec::new(); n];
        for v in 0..n {
            for &w in &game.kept[v] {
                before[w].push(v);
            }
        }
        Solver {
            game,
            before,
            alive: vec![true; n],
            even_wins: vec![false; n],
            taken: vec![0; n],
            counted: vec![0; n],
            left: vec![0; n],
            stamp: 0,
        }
    }

    /// Whether an edge to what was taken takes u, too.
    fn takes(&mut self, even: bool, u: usize) -> bool {
        if !self.alive[u] || self.taken[u] == self.stamp {
            return false;
        }
        if self.game.even[u] == even {
            return true;
        }
        if self.counted[u] != self.stamp {
            self.counted[u] = self.stamp;
            self.left[u] = self.game.kept[u].iter().filter(|&&w| self.alive[w]).count();
        }
        self.left[u] -= 1;
        self.left[u] == 0
    }

    /// What the player forces into the seed; it leaves the game.
    fn attract(&mut self, even: bool, seed: Vec<usize>) -> Vec<usize> {
        self.stamp += 1;
        let mut all = seed;
        for &v in &all {
            self.taken[v] = self.stamp;
        }
        let mut at = 0;
        while at < all.len() {
            let v = all[at];
            at += 1;
            for i in 0..self.before[v].len() {
                let u = self.before[v][i];
                if self.takes(even, u) {
                    self.taken[u] = self.stamp;
                    all.push(u);
                }
            }
        }
        for &v in &all {
            self.alive[v] = false;
        }
        all
    }

    fn give(&mut self, even: bool, vertices: &[usize]) {
        for &v in vertices {
            self.even_wins[v] = even;
        }
    }

    fn living(&self, vertices: &[usize]) -> Vec<usize> {
        vertices.iter().copied().filter(|&v| self.alive[v]).collect()
    }

    fn solve(&mut self, vertices: Vec<usize>) {
        let mut all = vertices;
        let mut gone = Vec::new();
        while let Some(greatest) = all.iter().map(|&v| self.game.priority[v]).max() {
            let even = greatest % 2 == 0;
            let seed = all.iter().copied().filter(|&v| self.game.priority[v] == greatest).collect();
            let attracted = self.attract(even, seed);
            let inner = self.living(&all);
            self.solve(inner.clone());
            let lost: Vec<usize> = inner.into_iter().filter(|&v| self.even_wins[v] != even).collect();
            for &v in &attracted {
                self.alive[v] = true;
            }
            if lost.is_empty() {
                self.give(even, &attracted);
                break;
            }
            let taken = self.attract(!even, lost);
            self.give(!even, &taken);
            gone.extend(taken);
            all = self.living(&all);
        }
        for &v in &gone {
            self.alive[v] = true;
        }
    }

    /// Who stands without a move loses.
    fn run(&mut self) -> usize {
        for even in [true, false] {
            let n = self.game.kept.len();
            let dead = (0..n)
                .filter(|&v| self.alive[v] && self.game.even[v] != even && !self.game.kept[v].iter().any(|&w| self.alive[w]))
                .collect();
            let taken = self.attract(even, dead);
            self.give(even, &taken);
        }
        let rest = self.living(&(0..self.game.kept.len()).collect::<Vec<_>>());
        self.solve(rest);
        self.even_wins.iter().filter(|&&even| !even).count()
    }
}

fn write(g: &Game) {
    println!("parity {};", g.kept.len() - 1);
    for v in 0..g.kept.len() {
        let to: Vec<String> = g.kept[v].iter().map(usize::to_string).collect();
        println!("{v} {} {} {};", g.priority[v], !g.even[v] as u8, to.join(","));
    }
}

/// Seconds of the recursion, and how many vertices Odd wins.
fn regions(g: &Game) -> (f64, usize) {
    let start = Instant::now();
    let odd = Solver::new(g).run();
    (start.elapsed().as_secs_f64(), odd)
}

fn known(word: Option<&String>) -> Option<bool> {
    match word.map(String::as_str) {
        Some("in") => Some(true),
        Some("out") => Some(false),
        _ => None,
    }
}

fn main() {
    let words: Vec<String> = std::env::args().collect();
    let start = Instant::now();
    let vertices = read(&std::fs::read_to_string(&words[1]).unwrap());
    let read = start.elapsed().as_secs_f64();
    if words[2] == "write" {
        return write(&game(&vertices, known(words.get(4)), words[3] == "dual"));
    }
    let rounds = words[2].parse().unwrap();
    let seconds = words.get(4).map_or(10.0, |w| w.parse().unwrap());
    let games = [false, true].map(|dual| game(&vertices, known(words.get(3)), dual));
    let start = Instant::now();
    let [a, b] = games.each_ref().map(|g| settle(g, rounds, seconds));
    let settled = start.elapsed().as_secs_f64();
    let more = if a.3 && b.3 { "" } else { " more" };
    let [c, d] = games.each_ref().map(regions);
    println!(
        "read {read:.3} s, rounds {settled:.3} s{more}, rounds {} {}, tried {}, raised {}, regions {:.3} s, odd {} {}",
        a.0,
        b.0,
        a.1 + b.1,
        a.2 + b.2,
        c.0 + d.0,
        c.1,
        d.1
    );
}
