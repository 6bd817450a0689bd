//! The sides of a case, checked and timed in turns.

use crate::allocations;
use crate::cases::{Case, Turns};
use crate::table::Row;
use std::iter;
use std::time::Instant;

/// The room for what a run writes.
const ROOM: usize = 4096;

fn run(side: &mut Turns, turns: u32) -> (u64, [u8; ROOM]) {
    let mut out = [0; ROOM];
    let count = side(turns, &mut out);
    (count, out)
}

/// Stops where a side differs from the proved one after some number of turns.
pub fn check(case: &mut Case) {
    for turns in (0..40).chain([100, 300, case.warm + case.turns]) {
        let proved = run(&mut case.proved, turns);
        let tight = case.tight.iter_mut().map(|side| ("tight", side));
        for (side, turned) in iter::once(("plain", &mut case.plain)).chain(tight) {
            let alike = run(turned, turns) == proved;
            assert!(
                alike,
                "{}: the {side} side differs after {turns} turns",
                case.name
            );
        }
    }
}

/// One side's runs without the timed turns, which only build what these need, and its runs with them.
struct Least {
    before: f64,
    full: f64,
    allocations: u64,
}

impl Least {
    fn new() -> Least {
        Least {
            before: f64::MAX,
            full: f64::MAX,
            allocations: 0,
        }
    }

    /// The nanoseconds of a run, and how often it took memory.
    fn timed(side: &mut Turns, turns: u32) -> (f64, u64) {
        let before = allocations::calls();
        let mut out = [0; ROOM];
        let start = Instant::now();
        std::hint::black_box(side(turns, &mut out));
        let nanos = start.elapsed().as_nanos() as f64;
        (nanos, allocations::calls() - before)
    }

    fn round(&mut self, side: &mut Turns, warm: u32, turns: u32) {
        let (before, few) = Least::timed(side, warm);
        let (full, all) = Least::timed(side, warm + turns);
        self.before = before.min(self.before);
        self.full = full.min(self.full);
        self.allocations += all - few;
    }

    /// The nanoseconds of a turn.
    fn nanos(&self, turns: u32) -> f64 {
        (self.full - self.before) / f64::from(turns)
    }
}

/// Measures the proved, the plain and the tight side, in so many rounds, and prints their line.
pub fn measure(case: &mut Case, rounds: u32) {
    let mut sides: Vec<(&mut Turns, Least)> = [&mut case.proved, &mut case.plain]
        .into_iter()
        .chain(&mut case.tight)
        .map(|side| (side, Least::new()))
        .collect();
    for _ in 0..rounds {
        for (side, least) in &mut sides {
            least.round(side, case.warm, case.turns);
        }
    }
    let nanos: Vec<f64> = sides.iter().map(|(_, least)| least.nanos(case.turns)).collect();
    let allocations: Vec<u64> = sides.iter().map(|(_, least)| least.allocations).collect();
    Row {
        name: &case.name,
        proved: nanos[0],
        plain: Some(nanos[1]),
        tight: nanos.get(2).copied(),
        bar: case.bar,
        allocations: &allocations,
    }
    .print();
}
