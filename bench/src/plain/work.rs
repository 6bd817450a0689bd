//! The turns of each case, as `crates/swim_bench` has them for the proved crates.

use super::buckets::{BUCKETS_MAX, Buckets};
use super::list::List;
use super::member::{Member, Settings};
use super::node::{Entry, Event, Link, Node, Reply, Save, Tag};
use super::table::{Heard, Table};
use super::wire::{Endpoint, Packet, Update, UpdateKind, decode, encode};
use crate::scene::{ERA, GROUP, HELPERS, ME, OTHERS, PORT, RULES, TEXT_LEN, deal, newer_text};
use std::hint::black_box;

const PEER: Endpoint = Endpoint {
    address: OTHERS,
    port: PORT,
};

fn write(packet: &Packet, out: &mut [u8]) -> usize {
    let bytes = packet.as_slice();
    out[..bytes.len()].copy_from_slice(bytes);
    bytes.len()
}

/// In how many turns the text was a datagram.
pub fn decode_turns(text: &[u8], turns: u32) -> u64 {
    let mut good = 0;
    for _ in 0..turns {
        good += u64::from(black_box(&decode(black_box(text))).is_ok());
    }
    good
}

/// Writes the datagram that the text spells in each turn, and gives the length of what was written last.
pub fn encode_turns(text: &[u8], turns: u32, out: &mut [u8]) -> u64 {
    let Ok(datagram) = decode(text) else { return 0 };
    let mut written = 0;
    for _ in 0..turns {
        written = write(&encode(black_box(&datagram)), out);
    }
    written as u64
}

pub fn settings_of(period: u64) -> Settings {
    Settings {
        group: GROUP,
        me: Endpoint {
            address: ME,
            port: PORT,
        },
        lambda: 3,
        period,
        direct: period - 1,
        suspect: 100_000,
        forget: 1_000_000,
        helpers: HELPERS,
        rules: RULES,
    }
}

fn full_member(before: &[u8], period: u64) -> Member {
    let mut member = Member::new(settings_of(period), 1);
    for text in before.chunks_exact(TEXT_LEN) {
        black_box(member.receive(PEER, text, 1).is_ok());
    }
    member
}

/// Answers the same ping in each turn, and gives the count of acks.
pub fn ping_turns(before: &[u8], text: &[u8], turns: u32, out: &mut [u8]) -> u64 {
    let mut member = full_member(before, 1000);
    let mut acks = 0;
    for _ in 0..turns {
        if let Ok(ack) = member.receive(PEER, black_box(text), 1) {
            write(&encode(&ack), out);
            acks += 1;
        }
    }
    acks
}

/// Answers pings whose updates are newer in each turn, and gives the count of acks.
pub fn newer_ping_turns(before: &[u8], text: &mut [u8], turns: u32, out: &mut [u8]) -> u64 {
    let mut member = full_member(before, 1000);
    let mut acks = 0;
    for turn in 0..turns {
        newer_text(text, turn);
        if let Ok(ack) = member.receive(PEER, black_box(text), 1) {
            write(&encode(&ack), out);
            acks += 1;
        }
    }
    acks
}

/// Takes ticks, and gives the count of datagrams that were sent.
pub fn tick_turns(before: &[u8], period: u64, turns: u32, out: &mut [u8]) -> u64 {
    let mut member = full_member(before, period);
    let deal = deal();
    let mut sent = 0;
    for _ in 0..turns {
        member.tick(black_box(&deal), |to, datagram| {
            black_box(to);
            write(&encode(datagram), out);
            sent += 1;
        });
    }
    sent
}

fn full_table(before: &[u8]) -> Table {
    let mut table = Table::new(RULES);
    for text in before.chunks_exact(TEXT_LEN) {
        if let Ok(datagram) = decode(text) {
            for update in datagram.updates.as_slice() {
                table.hear(*update, 0);
            }
        }
    }
    table
}

/// Tells a table one update in each turn, with a number that grows by `step`, and gives how many were accepted.
pub fn hear_turns(before: &[u8], step: u32, turns: u32, out: &mut [u8]) -> u64 {
    let mut table = full_table(before);
    let mut accepted = 0;
    for turn in 0..turns {
        let who = Endpoint {
            address: OTHERS + turn.wrapping_mul(97) % 256,
            port: PORT,
        };
        let update = Update {
            kind: UpdateKind::Alive,
            who,
            number: 1 + u64::from(turn) * u64::from(step),
        };
        accepted += u64::from(table.hear(black_box(update), 1) == Heard::Accepted);
    }
    for (row, part) in table.rows().iter().zip(out.chunks_exact_mut(8)) {
        part.copy_from_slice(&row.update.number.to_be_bytes());
    }
    accepted
}

/// The member of this number, from 0 to 256, about whom an update waits.
fn waiting_member(number: u32) -> Endpoint {
    Endpoint {
        address: OTHERS + number % 257,
        port: PORT,
    }
}

/// Lets an update about this member begin to wait.
fn begin(buckets: &mut Buckets, member: u32, number: u64) {
    buckets.offer(black_box(Update {
        kind: UpdateKind::Alive,
        who: waiting_member(member),
        number,
    }));
}

/// Buckets in which updates about so many members wait.
fn buckets_of(members: u32) -> Buckets {
    let mut buckets = Buckets::new();
    for member in 0..members {
        begin(&mut buckets, member, 0);
    }
    buckets
}

/// The member of a turn.
fn member_of(turn: u32, members: u32) -> u32 {
    turn.wrapping_mul(97) % members
}

/// Writes what is picked next.
fn write_next(buckets: &mut Buckets, out: &mut [u8]) {
    let updates = buckets.pick(BUCKETS_MAX);
    for (part, update) in out.chunks_exact_mut(16).zip(updates.as_slice()) {
        part[..8].copy_from_slice(&update.number.to_be_bytes());
        part[8..].copy_from_slice(&u64::from(update.who.address).to_be_bytes());
    }
}

/// Picks in each turn what a datagram carries, and gives how many updates that were.
pub fn pick_turns(members: u32, turns: u32, out: &mut [u8]) -> u64 {
    let mut buckets = buckets_of(members);
    let mut picked = 0;
    for _ in 0..turns {
        picked += black_box(buckets.pick(black_box(BUCKETS_MAX))).as_slice().len() as u64;
    }
    write_next(&mut buckets, out);
    picked
}

/// Offers in each turn an update about a member of whom one waits, and gives how many wait at the end.
pub fn offer_turns(members: u32, turns: u32, out: &mut [u8]) -> u64 {
    let mut buckets = buckets_of(members);
    for turn in 0..turns {
        begin(&mut buckets, member_of(turn, members), u64::from(turn));
    }
    write_next(&mut buckets, out);
    buckets.len() as u64
}

/// The same, with the update that waits removed before each offer.
pub fn removal_turns(members: u32, turns: u32, out: &mut [u8]) -> u64 {
    let mut buckets = buckets_of(members);
    for turn in 0..turns {
        let member = member_of(turn, members);
        buckets.remove(black_box(waiting_member(member)));
        begin(&mut buckets, member, u64::from(turn));
    }
    write_next(&mut buckets, out);
    buckets.len() as u64
}

fn received(text: &[u8]) -> Event {
    Event::Datagram {
        from: PEER,
        bytes: List::copied(black_box(text)),
    }
}

/// One call. Whether it was entered.
fn call(node: &mut Node, link: &mut Link, event: Event) -> bool {
    let tag = Tag {
        caller: 0,
        turn: node.turns(0) + 1,
    };
    black_box(node.apply(link, tag, event)).is_ok()
}

/// Fills an era with texts that are no datagrams, and begins the next, whose memory has then been written.
fn fill_era(node: &mut Node, link: &mut Link) {
    node.rebase();
    for _ in 0..ERA {
        call(node, link, received(&[]));
    }
    node.rebase();
}

fn full_node(before: &[u8], period: u64) -> Node {
    let mut node = Node::new(settings_of(period), ERA);
    let mut link = Link::new();
    for text in before.chunks_exact(TEXT_LEN) {
        call(&mut node, &mut link, received(text));
    }
    fill_era(&mut node, &mut link);
    node
}

/// The numbers of an entry.
fn numbers_of(entry: &Entry) -> [u64; 16] {
    let Reply {
        status,
        notes,
        page,
        sent,
        lost,
    } = &entry.reply;
    let source = match &entry.event {
        Event::Tick { deal } => u32::from(deal[0]),
        Event::Datagram { from, .. } => from.address,
    };
    let target = entry.outs.as_slice().last().map_or(0, |out| out.to.address);
    [
        u64::from(entry.tag.turn),
        entry.granted,
        u64::from(entry.save == Save::Kept),
        status.number,
        status.counts.alive as u64,
        status.counts.suspect as u64,
        status.counts.confirmed as u64,
        status.length as u64,
        entry.outs.as_slice().len() as u64,
        entry.outcomes.as_slice().len() as u64,
        *sent as u64,
        *lost as u64,
        notes.as_slice().len() as u64,
        page.as_slice().len() as u64,
        u64::from(source),
        u64::from(target),
    ]
}

/// Writes the last entry: the last datagram that it has, the received bytes, what the link took last, and the numbers.
fn write_last(node: &Node, link: &Link, out: &mut [u8]) {
    out[1024..1536].copy_from_slice(&link.bytes);
    let Some(entry) = node.journal().last() else {
        return;
    };
    if let Some(last) = entry.outs.as_slice().last() {
        write(&encode(&last.datagram), out);
    }
    if let Event::Datagram { bytes, .. } = &entry.event {
        let bytes = bytes.as_slice();
        out[512..512 + bytes.len()].copy_from_slice(bytes);
    }
    for (number, part) in numbers_of(entry).iter().zip(out[1536..].chunks_exact_mut(8)) {
        part.copy_from_slice(&number.to_be_bytes());
    }
}

/// Hands an event to a node in each turn, and gives how many calls were entered.
fn node_turns(
    before: &[u8],
    period: u64,
    turns: u32,
    out: &mut [u8],
    mut event: impl FnMut(u32) -> Event,
) -> u64 {
    let mut node = full_node(before, period);
    let mut link = Link::new();
    let mut entered = 0;
    for turn in 0..turns {
        entered += u64::from(call(&mut node, &mut link, event(turn)));
    }
    write_last(&node, &link, out);
    entered
}

/// The same ping in each turn.
pub fn node_ping_turns(before: &[u8], text: &[u8], turns: u32, out: &mut [u8]) -> u64 {
    node_turns(before, 1000, turns, out, |_| received(text))
}

/// Pings whose updates are newer in each turn.
pub fn node_newer_ping_turns(before: &[u8], text: &mut [u8], turns: u32, out: &mut [u8]) -> u64 {
    node_turns(before, 1000, turns, out, |turn| {
        newer_text(text, turn);
        received(text)
    })
}

/// Ticks.
pub fn node_tick_turns(before: &[u8], period: u64, turns: u32, out: &mut [u8]) -> u64 {
    let deal = deal();
    node_turns(before, period, turns, out, |_| Event::Tick { deal })
}
