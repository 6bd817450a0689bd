//! What both sides are given: the members, the texts and the deal of the ticks.

use crate::plain::wire::{Datagram, Endpoint, Kind, Rules, Update, UpdateKind, Updates, encode};

pub const GROUP: u64 = 7;
/// By which all members live.
pub const RULES: Rules = Rules::One;
pub const HELPERS: usize = 3;
pub const PORT: u16 = 7000;
/// The address of the member, 10.0.0.1.
pub const ME: u32 = 0x0a00_0001;
/// The address of the first of the 256 others, 10.0.1.0, who sends all pings.
pub const OTHERS: u32 = 0x0a00_0100;
/// The length of a full datagram.
pub const TEXT_LEN: usize = 512;
/// The number of each row before the first turn.
pub const NUMBER: u64 = 9;

/// The most rows.
pub const ROWS: u32 = 256;
/// The entries of an era. A run takes fewer turns.
pub const ERA: usize = 1024;

fn member(address: u32) -> Endpoint {
    Endpoint { address, port: PORT }
}

/// A ping of the first other, with updates about `count` of the first `rows` others from this one on.
pub fn ping(rows: u32, from: u32, count: u32, number: u64) -> Vec<u8> {
    let mut updates = Updates::new();
    for at in from..from + count {
        updates.push(Update {
            kind: UpdateKind::Alive,
            who: member(OTHERS + at % rows),
            number,
        });
    }
    let (sender, subject) = (member(OTHERS), member(ME));
    let ping = Datagram {
        version: RULES,
        kind: Kind::Ping,
        group: GROUP,
        seq: 1,
        sender,
        subject,
        updates,
    };
    encode(&ping).as_slice().to_vec()
}

/// Nine full pings, after which a table has so many rows.
pub fn before(rows: u32) -> Vec<u8> {
    (0..9)
        .flat_map(|text| ping(rows, text * 30, 30, NUMBER))
        .collect()
}

/// Makes the updates of a full ping newer than all earlier ones, about others than in the turn before.
pub fn newer_text(text: &mut [u8], turn: u32) {
    for (at, part) in text[32..].chunks_exact_mut(16).enumerate() {
        let address = OTHERS + turn.wrapping_mul(15).wrapping_add(at as u32) % ROWS;
        part[2..6].copy_from_slice(&address.to_be_bytes());
        part[8..16].copy_from_slice(&(1000 + u64::from(turn)).to_be_bytes());
    }
}

/// The numbers 0 to 255 in some order: in which the members of a new turn list are probed.
pub type Deal = [u8; 256];

/// The deal of each tick.
pub fn deal() -> Deal {
    std::array::from_fn(|at| (13 + at) as u8)
}
