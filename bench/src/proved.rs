//! The proved library: its exports, behind safe functions that ask for what their contracts require.

use crate::scene::ERA;

mod exports {
    unsafe extern "C" {
        pub fn swim_bench_decode(text: *const u8, len: usize, turns: u32) -> u64;
        pub fn swim_bench_encode(text: *const u8, len: usize, turns: u32, out: *mut u8, room: usize)
        -> usize;
        pub fn swim_bench_pings(
            before: *const u8,
            before_len: usize,
            text: *const u8,
            len: usize,
            turns: u32,
            out: *mut u8,
            room: usize,
        ) -> u64;
        pub fn swim_bench_newer_pings(
            before: *const u8,
            before_len: usize,
            text: *mut u8,
            len: usize,
            turns: u32,
            out: *mut u8,
            room: usize,
        ) -> u64;
        pub fn swim_bench_ticks(
            before: *const u8,
            before_len: usize,
            period: u64,
            turns: u32,
            out: *mut u8,
            room: usize,
        ) -> u64;
        pub fn swim_bench_entry_bytes() -> usize;
        pub fn swim_bench_node_pings(
            before: *const u8,
            before_len: usize,
            text: *const u8,
            len: usize,
            era: u32,
            turns: u32,
            out: *mut u8,
            room: usize,
        ) -> u64;
        pub fn swim_bench_node_newer_pings(
            before: *const u8,
            before_len: usize,
            text: *mut u8,
            len: usize,
            era: u32,
            turns: u32,
            out: *mut u8,
            room: usize,
        ) -> u64;
        pub fn swim_bench_node_ticks(
            before: *const u8,
            before_len: usize,
            period: u64,
            era: u32,
            turns: u32,
            out: *mut u8,
            room: usize,
        ) -> u64;
        pub fn swim_bench_picks(members: u32, turns: u32, out: *mut u8, room: usize) -> u64;
        pub fn swim_bench_offers(members: u32, turns: u32, out: *mut u8, room: usize) -> u64;
        pub fn swim_bench_removals(members: u32, turns: u32, out: *mut u8, room: usize) -> u64;
        pub fn swim_bench_hear(
            before: *const u8,
            before_len: usize,
            step: u32,
            turns: u32,
            out: *mut u8,
            room: usize,
        ) -> u64;
    }
}

/// The room that the exports require of `out`, and `newer_ping_turns` of its text.
const ROOM: usize = 512;

/// The room that the exports of a node require of `out`.
const SHOWN: usize = 1664;

pub fn decode_turns(text: &[u8], turns: u32) -> u64 {
    // SAFETY: a slice crosses as pointer and length, and the contract requires nothing.
    unsafe { exports::swim_bench_decode(text.as_ptr(), text.len(), turns) }
}

pub fn encode_turns(text: &[u8], turns: u32, out: &mut [u8]) -> u64 {
    assert!(out.len() >= ROOM);
    // SAFETY: as above, and there is room.
    let written =
        unsafe { exports::swim_bench_encode(text.as_ptr(), text.len(), turns, out.as_mut_ptr(), out.len()) };
    written as u64
}

pub fn ping_turns(before: &[u8], text: &[u8], turns: u32, out: &mut [u8]) -> u64 {
    assert!(out.len() >= ROOM);
    let (before, before_len) = (before.as_ptr(), before.len());
    // SAFETY: as above.
    unsafe {
        exports::swim_bench_pings(
            before,
            before_len,
            text.as_ptr(),
            text.len(),
            turns,
            out.as_mut_ptr(),
            out.len(),
        )
    }
}

pub fn newer_ping_turns(before: &[u8], text: &mut [u8], turns: u32, out: &mut [u8]) -> u64 {
    assert!(out.len() >= ROOM && text.len() >= ROOM);
    let (before, before_len) = (before.as_ptr(), before.len());
    // SAFETY: as above.
    unsafe {
        let (text, len) = (text.as_mut_ptr(), text.len());
        exports::swim_bench_newer_pings(before, before_len, text, len, turns, out.as_mut_ptr(), out.len())
    }
}

pub fn tick_turns(before: &[u8], period: u64, turns: u32, out: &mut [u8]) -> u64 {
    assert!(out.len() >= ROOM);
    // SAFETY: as above.
    unsafe {
        exports::swim_bench_ticks(
            before.as_ptr(),
            before.len(),
            period,
            turns,
            out.as_mut_ptr(),
            out.len(),
        )
    }
}

/// The bytes of an entry.
pub fn entry_bytes() -> usize {
    // SAFETY: the contract requires nothing.
    unsafe { exports::swim_bench_entry_bytes() }
}

pub fn node_ping_turns(before: &[u8], text: &[u8], turns: u32, out: &mut [u8]) -> u64 {
    assert!(out.len() >= SHOWN);
    let (before, before_len) = (before.as_ptr(), before.len());
    // SAFETY: as above. What the contract takes by value, the right to call C's `malloc`, has no bytes.
    unsafe {
        exports::swim_bench_node_pings(
            before,
            before_len,
            text.as_ptr(),
            text.len(),
            ERA as u32,
            turns,
            out.as_mut_ptr(),
            out.len(),
        )
    }
}

pub fn node_newer_ping_turns(before: &[u8], text: &mut [u8], turns: u32, out: &mut [u8]) -> u64 {
    assert!(out.len() >= SHOWN && text.len() >= ROOM);
    let (before, before_len) = (before.as_ptr(), before.len());
    // SAFETY: as above.
    unsafe {
        let (text, len) = (text.as_mut_ptr(), text.len());
        exports::swim_bench_node_newer_pings(
            before,
            before_len,
            text,
            len,
            ERA as u32,
            turns,
            out.as_mut_ptr(),
            out.len(),
        )
    }
}

pub fn node_tick_turns(before: &[u8], period: u64, turns: u32, out: &mut [u8]) -> u64 {
    assert!(out.len() >= SHOWN);
    // SAFETY: as above.
    unsafe {
        exports::swim_bench_node_ticks(
            before.as_ptr(),
            before.len(),
            period,
            ERA as u32,
            turns,
            out.as_mut_ptr(),
            out.len(),
        )
    }
}

pub fn hear_turns(before: &[u8], step: u32, turns: u32, out: &mut [u8]) -> u64 {
    // SAFETY: as above, and the contract requires nothing.
    unsafe {
        exports::swim_bench_hear(
            before.as_ptr(),
            before.len(),
            step,
            turns,
            out.as_mut_ptr(),
            out.len(),
        )
    }
}

pub fn pick_turns(members: u32, turns: u32, out: &mut [u8]) -> u64 {
    // SAFETY: as above.
    unsafe { exports::swim_bench_picks(members, turns, out.as_mut_ptr(), out.len()) }
}

pub fn offer_turns(members: u32, turns: u32, out: &mut [u8]) -> u64 {
    // SAFETY: as above.
    unsafe { exports::swim_bench_offers(members, turns, out.as_mut_ptr(), out.len()) }
}

pub fn removal_turns(members: u32, turns: u32, out: &mut [u8]) -> u64 {
    // SAFETY: as above.
    unsafe { exports::swim_bench_removals(members, turns, out.as_mut_ptr(), out.len()) }
}
