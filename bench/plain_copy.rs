// What plain_copy.py puts around the functions of vpg_regions and vpg_guess: types of the same names, and a `main`.
#![allow(unused, dead_code, private_interfaces)]

macro_rules! vec {
    (in $alloc:expr; $value:expr; $count:expr) => {
        $crate::shim::Vec::filled($value, $count)
    };
}

pub mod shim {
    use std::ops::{Deref, DerefMut};

    #[derive(Clone, Copy)]
    pub struct Global;

    #[derive(Debug)]
    pub struct AllocError;

    /// A vector whose growths have results.
    pub struct Vec<T>(pub std::vec::Vec<T>);

    impl<T> Deref for Vec<T> {
        type Target = [T];
        fn deref(&self) -> &[T] {
            &self.0
        }
    }

    impl<T> DerefMut for Vec<T> {
        fn deref_mut(&mut self) -> &mut [T] {
            &mut self.0
        }
    }

    impl<T: Clone> Vec<T> {
        pub fn filled(value: T, count: usize) -> Result<Vec<T>, AllocError> {
            Ok(Vec(std::vec![value; count]))
        }
        pub fn from_slice(_alloc: Global, slice: &[T]) -> Result<Vec<T>, AllocError> {
            Ok(Vec(slice.to_vec()))
        }
        pub fn extend_from_slice(&mut self, slice: &[T]) -> Result<(), AllocError> {
            self.0.extend_from_slice(slice);
            Ok(())
        }
    }

    impl<T: Ord> Vec<T> {
        pub fn sort(&mut self) -> Result<(), AllocError> {
            self.0.sort();
            Ok(())
        }
    }

    impl<T> Vec<T> {
        pub fn new(_alloc: Global) -> Vec<T> {
            Vec(std::vec::Vec::new())
        }
        pub fn with_capacity(_alloc: Global, room: usize) -> Result<Vec<T>, AllocError> {
            Ok(Vec(std::vec::Vec::with_capacity(room)))
        }
        pub fn push(&mut self, value: T) -> Result<(), AllocError> {
            self.0.push(value);
            Ok(())
        }
        pub fn pop(&mut self) -> Option<T> {
            self.0.pop()
        }
        pub fn clear(&mut self) {
            self.0.clear()
        }
        pub fn as_slice(&self) -> &[T] {
            &self.0
        }
    }

    impl<T> IntoIterator for Vec<T> {
        type Item = T;
        type IntoIter = std::vec::IntoIter<T>;
        fn into_iter(self) -> Self::IntoIter {
            self.0.into_iter()
        }
    }

    impl<'a, T> IntoIterator for &'a Vec<T> {
        type Item = &'a T;
        type IntoIter = std::slice::Iter<'a, T>;
        fn into_iter(self) -> Self::IntoIter {
            self.0.iter()
        }
    }

    impl<'a, T> IntoIterator for &'a mut Vec<T> {
        type Item = &'a mut T;
        type IntoIter = std::slice::IterMut<'a, T>;
        fn into_iter(self) -> Self::IntoIter {
            self.0.iter_mut()
        }
    }

    pub struct VecDeque<T>(std::collections::VecDeque<T>);

    impl<T> VecDeque<T> {
        pub fn new(_alloc: Global) -> VecDeque<T> {
            VecDeque(std::collections::VecDeque::new())
        }
        pub fn push_back(&mut self, value: T) -> Result<(), AllocError> {
            self.0.push_back(value);
            Ok(())
        }
        pub fn pop_front(&mut self) -> Option<T> {
            self.0.pop_front()
        }
        pub fn clear(&mut self) {
            self.0.clear()
        }
        pub fn len(&self) -> usize {
            self.0.len()
        }
    }

    #[derive(Clone, Copy, PartialEq, Eq, Debug)]
    pub enum Player {
        Even,
        Odd,
    }

    impl Player {
        pub fn opponent(self) -> Player {
            match self {
                Player::Even => Player::Odd,
                Player::Odd => Player::Even,
            }
        }
    }

    #[derive(Clone, Copy)]
    pub struct Level {
        pub priority: u32,
        pub count: u64,
    }

    pub const TOP_LIMIT: u64 = 1 << 62;

    pub fn odd_counts(_alloc: Global, priorities: &[u32]) -> Result<Vec<u64>, AllocError> {
        let mut counts = std::vec![0u64; priorities.iter().max().map_or(0, |p| *p as usize + 1)];
        priorities.iter().filter(|p| **p % 2 == 1).for_each(|p| counts[*p as usize] += 1);
        Ok(Vec(counts))
    }

    pub struct GuardedGame {
        pub priorities: std::vec::Vec<u32>,
    }

    impl GuardedGame {
        pub fn vertices(&self) -> usize {
            self.priorities.len()
        }
        pub fn priority(&self, v: u32) -> u32 {
            self.priorities[v as usize]
        }
    }

    /// As the row of an arena of vpg_hope.
    #[derive(Clone, Copy)]
    struct Row {
        owner: Player,
        is_own: bool,
        priority: u32,
        start: u32,
        end: u32,
    }

    pub struct Arena {
        rows: std::vec::Vec<Row>,
        shared: std::vec::Vec<u32>,
        own: std::vec::Vec<u32>,
    }

    impl Arena {
        pub fn over(vertices: &[(Player, u32, std::vec::Vec<u32>)]) -> Arena {
            let mut arena = Arena { rows: std::vec![], shared: std::vec![], own: std::vec![] };
            for (owner, priority, kept) in vertices {
                let start = arena.shared.len() as u32;
                arena.shared.extend_from_slice(kept);
                let end = arena.shared.len() as u32;
                arena.rows.push(Row { owner: *owner, is_own: false, priority: *priority, start, end });
            }
            arena
        }
        pub fn vertices(&self) -> u32 {
            self.rows.len() as u32
        }
        pub fn owner(&self, v: u32) -> Player {
            self.rows[v as usize].owner
        }
        pub fn priority(&self, v: u32) -> u32 {
            self.rows[v as usize].priority
        }
        pub fn kept(&self, v: u32) -> &[u32] {
            let row = self.rows[v as usize];
            let list: &[u32] = if row.is_own { &self.own } else { &self.shared };
            &list[row.start as usize..row.end as usize]
        }
    }
}

// The crates stand here.

use shim::{Arena, Global, GuardedGame, Player};
use vpg_guess::ground::{Groundwork, shape_in};
use vpg_guess::raising::Raising;
use vpg_measure::lifts::settle_alone;
use vpg_measure::{Shape, Table, is_progress};
use vpg_regions::Budget;
use vpg_values::TableGround;

const BUDGET: u64 = 1 << 27;

/// An edge, and its guard: none, or whether it names f, and a negation.
struct Edge {
    to: u32,
    guard: Option<(bool, bool)>,
}

struct Vertex {
    priority: u32,
    is_even: bool,
    edges: std::vec::Vec<Edge>,
}

fn edge(word: &str) -> Edge {
    match word.split_once('[') {
        None => Edge { to: word.parse().unwrap(), guard: None },
        Some((to, guard)) => {
            Edge { to: to.parse().unwrap(), guard: Some((guard.contains('f'), guard.starts_with('!'))) }
        }
    }
}

fn read(text: &str) -> std::vec::Vec<Vertex> {
    let mut vertices = std::vec![];
    for entry in text.split(';').skip(1) {
        let mut words = entry.split_whitespace().skip(1);
        let Some(priority) = words.next() else { continue };
        let is_even = words.next().unwrap() == "0";
        let edges = words.next().unwrap_or("").split(',').filter(|word| !word.is_empty()).map(edge).collect();
        vertices.push(Vertex { priority: priority.parse().unwrap(), is_even, edges });
    }
    vertices
}

/// The hopeful game, or that of the dual, where f is open or out.
fn arena(vertices: &[Vertex], dual: bool, f_is_out: bool) -> Arena {
    let kept = |vertex: &Vertex| {
        let is_even = vertex.is_even != dual;
        let value = |edge: &&Edge| match edge.guard {
            None => Some(true),
            Some((true, negated)) if f_is_out => Some(negated),
            Some(_) => None,
        };
        let keeps = |edge: &&Edge| if is_even { value(edge) != Some(false) } else { value(edge) == Some(true) };
        let owner = if is_even { Player::Even } else { Player::Odd };
        (owner, vertex.priority + dual as u32, vertex.edges.iter().filter(keeps).map(|edge| edge.to).collect())
    };
    Arena::over(&vertices.iter().map(kept).collect::<std::vec::Vec<_>>())
}

#[repr(C)]
struct Time {
    seconds: i64,
    nanoseconds: i64,
}

unsafe extern "C" {
    fn clock_gettime(clock: i32, time: *mut Time) -> i32;
}

/// Milliseconds of processor time of this process until now.
fn spent() -> f64 {
    let mut time = Time { seconds: 0, nanoseconds: 0 };
    unsafe { clock_gettime(2, &mut time) };
    time.seconds as f64 * 1e3 + time.nanoseconds as f64 / 1e6
}

/// A game whose tables are raised.
struct Page {
    game: GuardedGame,
    shapes: [Shape; 2],
    arenas: [Arena; 2],
}

impl Page {
    fn of(vertices: &[Vertex], f_is_out: bool) -> Page {
        let priorities = |more: u32| vertices.iter().map(|v| v.priority + more).collect::<std::vec::Vec<_>>();
        Page {
            game: GuardedGame { priorities: priorities(0) },
            shapes: [0, 1].map(|more| Shape::over(Global, &priorities(more)).unwrap()),
            arenas: [false, true].map(|dual| arena(vertices, dual, f_is_out)),
        }
    }

    fn is_settled(&self, tables: &[Table; 2]) -> bool {
        (0..2).all(|k| is_progress(&self.shapes[k], &self.arenas[k], &tables[k]))
    }

    fn raised(
        &self,
        k: usize,
        dual: &Shape,
        kept: &mut Option<TableGround>,
        table: &Table,
        budget: &mut Budget,
    ) -> (Table, bool) {
        let table = table.copy(Global).unwrap();
        let (shape, arena) = (&self.shapes[k], &self.arenas[k]);
        let mut raising = Raising { alloc: Global, shape, dual_shape: dual, arena, table };
        let settled = raising.raise(kept, budget).unwrap();
        (raising.into_table(), settled)
    }

    /// As `harvest_by_bounds`.
    fn guessed(&self, tables: &[Table; 2], kept: &mut Groundwork) -> ([Table; 2], bool) {
        let again = shape_in(Global, &self.game, &mut kept.dual_of_dual).unwrap();
        let mut budget = Budget::new(BUDGET);
        let mut share = budget.take_half();
        let (hopeful, one) = self.raised(0, &self.shapes[1], &mut kept.hopeful, &tables[0], &mut share);
        budget.give_back(share);
        let (dual, other) = self.raised(1, again, &mut kept.dual, &tables[1], &mut budget);
        ([hopeful, dual], one && other)
    }

    /// As a line `settle`: a sweep comes first where the tables are of zeros.
    fn settled(&self, tables: &[Table; 2], kept: &mut Groundwork) -> ([Table; 2], bool) {
        let mut swept = [0, 1].map(|k| tables[k].copy(Global).unwrap());
        if self.is_settled(&swept) {
            return (swept, true);
        }
        if tables.iter().any(|table| table.values().iter().any(|value| *value != 0)) {
            return self.guessed(tables, kept);
        }
        for k in 0..2 {
            settle_alone(&self.shapes[k], &self.arenas[k], &mut swept[k], 1);
        }
        if self.is_settled(&swept) { (swept, true) } else { self.guessed(&swept, kept) }
    }
}

/// One number for both tables.
fn mixed(tables: &[Table; 2]) -> u64 {
    let mix = |so_far: u64, value: &u64| (so_far ^ value).wrapping_mul(0x100000001b3).rotate_left(17);
    tables.iter().flat_map(|table| table.values()).fold(0, mix)
}

fn told(before: f64, found: &([Table; 2], bool)) -> String {
    let ended = if found.1 { "settled" } else { "open" };
    format!("{:.2} {ended} {:016x}", spent() - before, mixed(&found.0))
}

fn main() {
    let words: std::vec::Vec<String> = std::env::args().collect();
    let vertices = read(&std::fs::read_to_string(&words[1]).unwrap());
    let (page, without_f) = (Page::of(&vertices, false), Page::of(&vertices, true));
    let zeros = [0, 1].map(|k| Table::zero(Global, &page.shapes[k], vertices.len() as u32).unwrap());
    let (mut kept, before) = (Groundwork::none(), spent());
    if words[2] == "zeros" {
        println!("{}", told(before, &page.guessed(&zeros, &mut kept)));
    } else {
        let first = page.settled(&zeros, &mut kept);
        let line = told(before, &first);
        let before = spent();
        println!("{line} {}", told(before, &without_f.settled(&first.0, &mut kept)));
    }
}
