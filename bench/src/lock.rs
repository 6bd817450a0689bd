//! The lock and the outbox under load: the proved program, which times itself since threads need the runtime, beside the
//! same loads in plain Rust. A figure is the least of some rounds.

use crate::plain::shared::{applied, called, queued, read, read_beside_calls, read_beside_save};
use crate::table::Row;
use std::io;
use std::path::Path;
use std::process::Command;
use std::time::Duration;

/// How often each side runs each load, in turns with the other.
const ROUNDS: u32 = 10;

/// The calls of one load.
const CALLS: u32 = 16_384;

/// The reads of each watch.
const READS: u32 = 400_000;

/// The datagrams through the ring.
const DATAGRAMS: u32 = 200_000;

/// What plain Rust does: so many turns on so many threads.
type Plain = fn(u32, u32) -> Duration;

/// One line of the table.
struct Load {
    name: String,
    /// Its word for the proved program.
    word: &'static str,
    threads: u32,
    /// The turns of each thread.
    count: u32,
    /// None where plain Rust has no such load.
    plain: Option<Plain>,
    bar: Option<f64>,
}

/// The least nanoseconds of a turn.
#[derive(Clone, Copy)]
struct Figure {
    proved: f64,
    plain: Option<f64>,
}

fn load(name: &str, word: &'static str, count: u32, plain: Option<Plain>) -> Load {
    Load {
        name: name.to_string(),
        word,
        threads: 1,
        count,
        plain,
        bar: None,
    }
}

/// The name of a load on so many threads.
fn named(name: &str, threads: u32) -> String {
    format!("{name}, {threads} at once")
}

/// A load on so many threads.
fn on_threads(threads: u32, load: Load) -> Load {
    Load {
        name: named(&load.name, threads),
        threads,
        ..load
    }
}

const APPLY: &str = "tick by Node::apply";
const CALL: &str = "tick as a call";
const READ: &str = "read of a watch";
const READ_BESIDE_CALLS: &str = "read beside calls";
const READ_BESIDE_SAVE: &str = "read beside a held save";
const DIRECT: &str = "call whose send takes 1 ms";
const OUTBOX: &str = "the same call with an outbox";
const RING: &str = "datagram through ring and sender";

/// All loads.
fn loads() -> Vec<Load> {
    let mut loads = vec![load(APPLY, "apply", CALLS, Some(applied))];
    for threads in [1, 2, 4] {
        loads.push(on_threads(
            threads,
            load(CALL, "calls", CALLS / threads, Some(called)),
        ));
    }
    let reads: [(&str, &str, Plain); 3] = [
        (READ, "reads", read),
        (READ_BESIDE_CALLS, "reads_beside_calls", read_beside_calls),
        (READ_BESIDE_SAVE, "reads_beside_save", read_beside_save),
    ];
    for (name, word, plain) in reads {
        loads.extend([1, 2, 4].map(|threads| on_threads(threads, load(name, word, READS, Some(plain)))));
    }
    loads.push(on_threads(2, load(DIRECT, "direct_sends", 25, None)));
    loads.push(on_threads(2, load(OUTBOX, "outbox_sends", 100, None)));
    loads.push(Load {
        bar: Some(1.5),
        ..load(RING, "ring", DATAGRAMS, Some(queued))
    });
    loads
}

impl Load {
    /// The time that the proved program took.
    fn time_proved(&self, program: &Path) -> io::Result<f64> {
        let words = [
            self.word.to_string(),
            self.threads.to_string(),
            self.count.to_string(),
        ];
        let output = Command::new(program).args(words).output()?;
        let text = String::from_utf8(output.stdout).map_err(io::Error::other)?;
        text.trim().parse().map_err(io::Error::other)
    }

    /// Runs both sides once.
    fn measure(&self, program: &Path) -> io::Result<Figure> {
        let turns = f64::from(self.threads * self.count);
        let plain = self.plain.map(|run| run(self.threads, self.count));
        Ok(Figure {
            proved: self.time_proved(program)? / turns,
            plain: plain.map(|took| took.as_nanos() as f64 / turns),
        })
    }
}

impl Figure {
    /// The least of both.
    fn min(self, other: Figure) -> Figure {
        Figure {
            proved: self.proved.min(other.proved),
            plain: self.plain.zip(other.plain).map(|(one, another)| one.min(another)),
        }
    }
}

/// What was measured, by name.
struct Figures(Vec<(String, Figure)>);

impl Figures {
    fn proved(&self, name: &str) -> Option<f64> {
        let found = self.0.iter().find(|(known, _)| known == name);
        found.map(|(_, figure)| figure.proved)
    }

    /// Prints how often one load is done in the time of another one, if both were measured.
    fn print_times(&self, one: &str, other: &str, bar: f64) {
        if let Some((found, base)) = self.proved(one).zip(self.proved(other)) {
            println!(
                "- {one}: {:.2} times as often as {other}, at least {bar} wanted",
                base / found
            );
        }
    }

    /// Prints what is wanted of the proved figures among one another.
    fn print_bars(&self) {
        if let Some((call, apply)) = self.proved(&named(CALL, 1)).zip(self.proved(APPLY)) {
            println!(
                "- {CALL}: {:.0} ns over {APPLY}, at most 1500 wanted",
                call - apply
            );
        }
        self.print_times(&named(CALL, 4), &named(CALL, 1), 0.8);
        for watches in [1, 2, 4] {
            self.print_times(&named(READ_BESIDE_SAVE, watches), &named(READ, watches), 0.8);
        }
        self.print_times(&named(OUTBOX, 2), &named(DIRECT, 2), 50.0);
    }
}

/// Measures the loads whose name has this part, all of them in each round.
pub fn run(program: &Path, part: &str) -> io::Result<()> {
    let loads: Vec<Load> = loads()
        .into_iter()
        .filter(|load| load.name.contains(part))
        .collect();
    let mut figures = Figures(Vec::new());
    for load in &loads {
        figures.0.push((load.name.clone(), load.measure(program)?));
    }
    for _ in 1..ROUNDS {
        for (load, (_, least)) in loads.iter().zip(&mut figures.0) {
            *least = least.min(load.measure(program)?);
        }
    }
    for (load, (_, least)) in loads.iter().zip(&figures.0) {
        Row {
            name: &load.name,
            proved: least.proved,
            plain: least.plain,
            bar: load.bar,
            ..Row::default()
        }
        .print();
    }
    println!();
    figures.print_bars();
    Ok(())
}
