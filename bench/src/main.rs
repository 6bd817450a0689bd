//! The proved crates beside plain and tight Rust of the same work: nanoseconds, ratios, allocations. `bench/run` builds and
//! runs it, with the program that saves, the one that calls a shared member and a folder for the state files as its words, and
//! then a part of the cases' names, if any. Built by `bench/bytes` it counts bytes in place of nanoseconds.

#![cfg_attr(feature = "bytes", allow(dead_code))]

mod allocations;
#[cfg(feature = "bytes")]
mod bytes;
mod cases;
mod lock;
mod measure;
mod plain;
mod proved;
mod save;
mod scene;
mod table;
mod tight;

use crate::table::Row;
use std::env;
use std::io;
use std::path::Path;
use std::process::ExitCode;

/// How often each side runs a case, in turns with the other.
const ROUNDS: u32 = 100;

/// How often each side runs its saves.
const SAVE_ROUNDS: u32 = 400;

const SAVE: &str = "save of the state file";

/// How many numbers a save reserves, case by case.
const BLOCKS: [u64; 2] = [1, 64];

/// Measures the cases whose name has this part.
fn run(saving: &Path, calling: &Path, folder: &Path, part: &str) -> io::Result<()> {
    table::head();
    for mut case in cases::cases() {
        if case.name.contains(part) {
            measure::check(&mut case);
            measure::measure(&mut case, ROUNDS);
        }
    }
    if SAVE.contains(part) {
        let (proved, plain) = save::measure(saving, folder, SAVE_ROUNDS)?;
        Row {
            name: SAVE,
            proved,
            plain: Some(plain),
            bar: Some(1.05),
            ..Row::default()
        }
        .print();
    }
    for block in BLOCKS {
        let name = format!("refutation over a file, blocks of {block}");
        if name.contains(part) {
            let proved = save::refute(saving, folder, block, ROUNDS)?;
            Row {
                name: &name,
                proved,
                ..Row::default()
            }
            .print();
        }
    }
    lock::run(calling, part)?;
    if "apply".contains(part) || part.contains("apply") {
        println!();
        cases::print_entries();
    }
    Ok(())
}

#[cfg(feature = "bytes")]
fn start(words: &[String]) -> ExitCode {
    bytes::print(words.first().map_or("", String::as_str));
    ExitCode::SUCCESS
}

#[cfg(not(feature = "bytes"))]
fn start(words: &[String]) -> ExitCode {
    let (saving, calling, folder, part) = match words {
        [saving, calling, folder] => (saving, calling, folder, ""),
        [saving, calling, folder, part] => (saving, calling, folder, part.as_str()),
        _ => {
            eprintln!("usage: bench SAVING-PROGRAM CALLING-PROGRAM FOLDER [PART]");
            return ExitCode::from(2);
        }
    };
    match run(Path::new(saving), Path::new(calling), Path::new(folder), part) {
        Ok(()) => ExitCode::SUCCESS,
        Err(error) => {
            eprintln!("bench: {error}");
            ExitCode::FAILURE
        }
    }
}

fn main() -> ExitCode {
    start(&env::args().skip(1).collect::<Vec<String>>())
}
