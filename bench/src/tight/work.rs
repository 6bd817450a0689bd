//! The turns of each case, as `plain/work.rs` has them.

use super::buffer::{Buffer, LIMIT_MAX};
use super::wire::{
    ALIVE, DATAGRAM_MAX, Datagram, HEAD_LEN, Head, Room, UPDATES_MAX, Update, decode, member, put_update,
    room, written,
};
use crate::scene::{OTHERS, PORT};
use std::hint::black_box;

/// The first bytes as room for a datagram.
fn room_in(out: &mut [u8]) -> &mut Room {
    assert!(out.len() >= DATAGRAM_MAX);
    // SAFETY: there are as many bytes, and only bytes are written over them.
    unsafe { &mut *out.as_mut_ptr().cast::<Room>() }
}

/// In how many turns the text was a datagram. Its updates stay in the text.
pub fn decode_turns(text: &[u8], turns: u32) -> u64 {
    let mut good = 0;
    for _ in 0..turns {
        good += u64::from(black_box(&decode(black_box(text))).is_ok());
    }
    good
}

/// A datagram's fields, its updates in room of their own.
struct Parts {
    head: Head,
    updates: [Update; UPDATES_MAX],
    count: usize,
}

fn parts_of(datagram: Datagram<'_>) -> Parts {
    let mut parts = Parts {
        head: Head {
            version: datagram.version(),
            kind: datagram.kind(),
            group: datagram.group(),
            seq: datagram.seq(),
            sender: datagram.sender(),
            subject: datagram.subject(),
        },
        updates: [Update::default(); UPDATES_MAX],
        count: 0,
    };
    for (place, update) in parts.updates.iter_mut().zip(datagram.updates()) {
        *place = update;
        parts.count += 1;
    }
    parts
}

fn encode(parts: &Parts, room: &mut Room) -> usize {
    for (number, update) in parts.updates[..parts.count].iter().enumerate() {
        // SAFETY: there are at most 30.
        unsafe { put_update(room, number, *update) };
    }
    parts.head.put(room, parts.count)
}

/// Writes the datagram that the text spells in each turn, where it is wanted, and gives its length.
pub fn encode_turns(text: &[u8], turns: u32, out: &mut [u8]) -> u64 {
    let Ok(datagram) = decode(text) else { return 0 };
    let parts = parts_of(datagram);
    let mut written = 0;
    for _ in 0..turns {
        written = encode(black_box(&parts), room_in(black_box(&mut *out)));
    }
    written as u64
}

/// The member of this number, from 0 to 256, about whom an update waits. The number is its id, as a table would have it.
fn begin(buffer: &mut Buffer, number: u32, begun: u64) {
    let id = number % 257;
    let update = Update::new(ALIVE, member(OTHERS + id, PORT), begun);
    buffer.offer(black_box(id as u16), black_box(update));
}

fn buffer_of(members: u32) -> Buffer {
    let mut buffer = Buffer::new();
    for number in 0..members {
        begin(&mut buffer, number, 0);
    }
    buffer
}

/// The member of a turn.
fn member_of(turn: u32, members: u32) -> u32 {
    turn.wrapping_mul(97) % members
}

/// Writes what is picked next.
fn write_next(buffer: &mut Buffer, out: &mut [u8]) {
    let mut room = room();
    let count = buffer.pick(LIMIT_MAX, &mut room);
    // SAFETY: so many updates have been written behind the room of the head.
    let text = &unsafe { written(&room, HEAD_LEN + 16 * count) }[HEAD_LEN..];
    for (part, update) in out.chunks_exact_mut(16).zip(text.chunks_exact(16)) {
        part[..8].copy_from_slice(&update[8..]);
        part[8..].fill(0);
        part[12..].copy_from_slice(&update[2..6]);
    }
}

/// Picks in each turn what a datagram carries, as its text, and gives how many updates that were.
pub fn pick_turns(members: u32, turns: u32, out: &mut [u8]) -> u64 {
    let mut buffer = buffer_of(members);
    let mut room = room();
    let mut picked = 0;
    for _ in 0..turns {
        picked += buffer.pick(black_box(LIMIT_MAX), &mut room) as u64;
        black_box(&mut room);
    }
    write_next(&mut buffer, out);
    picked
}

/// Offers in each turn an update about a member of whom one waits, and gives how many wait at the end.
pub fn offer_turns(members: u32, turns: u32, out: &mut [u8]) -> u64 {
    let mut buffer = buffer_of(members);
    for turn in 0..turns {
        begin(&mut buffer, member_of(turn, members), u64::from(turn));
    }
    write_next(&mut buffer, out);
    buffer.len() as u64
}

/// The same, with the update that waits removed before each offer.
pub fn removal_turns(members: u32, turns: u32, out: &mut [u8]) -> u64 {
    let mut buffer = buffer_of(members);
    for turn in 0..turns {
        let member = member_of(turn, members);
        buffer.remove(black_box(member as u16));
        begin(&mut buffer, member, u64::from(turn));
    }
    write_next(&mut buffer, out);
    buffer.len() as u64
}
