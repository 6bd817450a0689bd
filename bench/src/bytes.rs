//! How many bytes are moved and cleared. The linker sends each call of these functions of C here, from all sides
//! (`build.rs`). Short copies that a compiler writes out as instructions are not counted.

use crate::cases::{Case, Turns, cases};
use std::ffi::{c_int, c_void};
use std::sync::atomic::{AtomicU64, Ordering};

static MOVED: AtomicU64 = AtomicU64::new(0);
static CLEARED: AtomicU64 = AtomicU64::new(0);

/// The room for what a run writes.
const ROOM: usize = 4096;

unsafe extern "C" {
    fn __real_memcpy(to: *mut c_void, from: *const c_void, len: usize) -> *mut c_void;
    fn __real_memmove(to: *mut c_void, from: *const c_void, len: usize) -> *mut c_void;
    fn __real_memset(at: *mut c_void, byte: c_int, len: usize) -> *mut c_void;
}

// SAFETY of each: it does what it stands for, with the arguments that it was given.

#[unsafe(no_mangle)]
unsafe extern "C" fn __wrap_memcpy(to: *mut c_void, from: *const c_void, len: usize) -> *mut c_void {
    MOVED.fetch_add(len as u64, Ordering::Relaxed);
    unsafe { __real_memcpy(to, from, len) }
}

#[unsafe(no_mangle)]
unsafe extern "C" fn __wrap_memmove(to: *mut c_void, from: *const c_void, len: usize) -> *mut c_void {
    MOVED.fetch_add(len as u64, Ordering::Relaxed);
    unsafe { __real_memmove(to, from, len) }
}

#[unsafe(no_mangle)]
unsafe extern "C" fn __wrap_memset(at: *mut c_void, byte: c_int, len: usize) -> *mut c_void {
    CLEARED.fetch_add(len as u64, Ordering::Relaxed);
    unsafe { __real_memset(at, byte, len) }
}

fn counted(side: &mut Turns, turns: u32) -> [u64; 2] {
    let before = [&MOVED, &CLEARED].map(|count| count.load(Ordering::Relaxed));
    side(turns, &mut [0; ROOM]);
    [
        MOVED.load(Ordering::Relaxed) - before[0],
        CLEARED.load(Ordering::Relaxed) - before[1],
    ]
}

/// The bytes that a timed turn of a side moves and clears.
fn of_turn(side: &mut Turns, warm: u32, turns: u32) -> String {
    let [before, full] = [counted(side, warm), counted(side, warm + turns)];
    let [moved, cleared] = [0, 1].map(|at| (full[at] - before[at]) / u64::from(turns));
    format!("{moved:>7} + {cleared:<7}")
}

/// Prints the bytes of each side, of the cases whose name has this part.
pub fn print(part: &str) {
    println!(
        "| {:<44} | {:<17} | {:<17} | {:<17} |",
        "Bytes moved + cleared", "proved", "plain", "tight"
    );
    println!("|{:-<46}|{:-<19}|{:-<19}|{:-<19}|", "", "", "", "");
    for case in cases().into_iter().filter(|case| case.name.contains(part)) {
        let Case {
            name,
            warm,
            turns,
            mut proved,
            mut plain,
            tight,
            ..
        } = case;
        let [proved, plain] = [&mut proved, &mut plain].map(|side| of_turn(side, warm, turns));
        let tight = tight.map_or(String::new(), |mut side| of_turn(&mut side, warm, turns));
        println!("| {name:<44} | {proved} | {plain} | {tight:<17} |");
    }
}
