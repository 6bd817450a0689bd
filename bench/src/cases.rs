//! What is measured.

use crate::scene::{NUMBER, ROWS, before, ping};
use crate::{plain, proved, tight};

/// So many turns, whose bytes go to the slice, and a count that all sides must answer alike.
pub type Turns = Box<dyn FnMut(u32, &mut [u8]) -> u64>;

/// One line of the table.
pub struct Case {
    pub name: String,
    /// The greatest ratio that is wanted, if one is.
    pub bar: Option<f64>,
    /// The turns before the timed ones, which let what waits be sent.
    pub warm: u32,
    /// The timed turns of one run.
    pub turns: u32,
    pub proved: Turns,
    pub plain: Turns,
    /// None where nobody has written the case as tight as it gets.
    pub tight: Option<Turns>,
}

fn case<F, G>(name: &str, bar: Option<f64>, turns: u32, proved: F, plain: G) -> Case
where
    F: FnMut(u32, &mut [u8]) -> u64 + 'static,
    G: FnMut(u32, &mut [u8]) -> u64 + 'static,
{
    Case {
        name: name.to_string(),
        bar,
        warm: 0,
        turns,
        proved: Box::new(proved),
        plain: Box::new(plain),
        tight: None,
    }
}

impl Case {
    fn beside(self, tight: impl FnMut(u32, &mut [u8]) -> u64 + 'static) -> Case {
        Case {
            tight: Some(Box::new(tight)),
            ..self
        }
    }
}

/// Enough turns for all 257 updates to be sent as often as they are.
const SENT_OUT: u32 = 300;

fn decoding(count: u32) -> Case {
    let text = ping(ROWS, 0, count, NUMBER);
    let [same, again] = [text.clone(), text.clone()];
    case(
        &format!("decode, {count} updates"),
        Some(1.5),
        20_000,
        move |turns, _| proved::decode_turns(&text, turns),
        move |turns, _| plain::work::decode_turns(&same, turns),
    )
    .beside(move |turns, _| tight::work::decode_turns(&again, turns))
}

fn encoding(count: u32) -> Case {
    let text = ping(ROWS, 0, count, NUMBER);
    let [same, again] = [text.clone(), text.clone()];
    case(
        &format!("encode, {count} updates"),
        Some(1.5),
        20_000,
        move |turns, out| proved::encode_turns(&text, turns, out),
        move |turns, out| plain::work::encode_turns(&same, turns, out),
    )
    .beside(move |turns, out| tight::work::encode_turns(&again, turns, out))
}

fn pinging(name: &str, bar: f64, count: u32, number: u64, turns: u32) -> Case {
    let (texts, text) = (before(ROWS), ping(ROWS, 0, count, number));
    let (same_texts, same) = (texts.clone(), text.clone());
    let pings = case(
        name,
        Some(bar),
        turns,
        move |turns, out| proved::ping_turns(&texts, &text, turns, out),
        move |turns, out| plain::work::ping_turns(&same_texts, &same, turns, out),
    );
    Case {
        warm: SENT_OUT,
        ..pings
    }
}

fn newer_pinging() -> Case {
    let (texts, mut text) = (before(ROWS), ping(ROWS, 0, 30, NUMBER));
    let (same_texts, mut same) = (texts.clone(), text.clone());
    case(
        "ping with 30 accepted updates to a full ack",
        Some(1.35),
        200,
        move |turns, out| proved::newer_ping_turns(&texts, &mut text, turns, out),
        move |turns, out| plain::work::newer_ping_turns(&same_texts, &mut same, turns, out),
    )
}

fn ticking(name: &str, bar: Option<f64>, period: u64, turns: u32) -> Case {
    let texts = before(ROWS);
    let same = texts.clone();
    case(
        name,
        bar,
        turns,
        move |turns, out| proved::tick_turns(&texts, period, turns, out),
        move |turns, out| plain::work::tick_turns(&same, period, turns, out),
    )
}

/// The second tick of a member, at which it makes its first turn list.
fn listing() -> Case {
    Case {
        warm: 1,
        ..ticking("tick that lists 256 rows", Some(2.0), 2, 1)
    }
}

/// The timed turns of a node: with those before them fewer than an era has.
const CALLS: u32 = 700;

fn node_pinging(name: &str, bar: Option<f64>, rows: u32, count: u32) -> Case {
    let (texts, text) = (before(rows), ping(rows, 0, count, NUMBER));
    let (same_texts, same) = (texts.clone(), text.clone());
    let pings = case(
        name,
        bar,
        CALLS,
        move |turns, out| proved::node_ping_turns(&texts, &text, turns, out),
        move |turns, out| plain::work::node_ping_turns(&same_texts, &same, turns, out),
    );
    Case {
        warm: SENT_OUT,
        ..pings
    }
}

fn node_newer_pinging(name: &str, bar: Option<f64>) -> Case {
    let (texts, mut text) = (before(ROWS), ping(ROWS, 0, 30, NUMBER));
    let (same_texts, mut same) = (texts.clone(), text.clone());
    case(
        name,
        bar,
        CALLS,
        move |turns, out| proved::node_newer_ping_turns(&texts, &mut text, turns, out),
        move |turns, out| plain::work::node_newer_ping_turns(&same_texts, &mut same, turns, out),
    )
}

fn node_ticking(name: &str, bar: Option<f64>, period: u64) -> Case {
    let texts = before(ROWS);
    let same = texts.clone();
    case(
        name,
        bar,
        CALLS,
        move |turns, out| proved::node_tick_turns(&texts, period, turns, out),
        move |turns, out| plain::work::node_tick_turns(&same, period, turns, out),
    )
}

fn hearing(name: &str, step: u32) -> Case {
    let texts = before(ROWS);
    let same = texts.clone();
    case(
        name,
        None,
        50_000,
        move |turns, out| proved::hear_turns(&texts, step, turns, out),
        move |turns, out| plain::work::hear_turns(&same, step, turns, out),
    )
}

/// Picks of 30 while so many wait, whose counts stay below the limit for all the turns.
fn picking(members: u32, bar: Option<f64>, turns: u32) -> Case {
    case(
        &format!("pick of 30, {members} wait"),
        bar,
        turns,
        move |turns, out| proved::pick_turns(members, turns, out),
        move |turns, out| plain::work::pick_turns(members, turns, out),
    )
    .beside(move |turns, out| tight::work::pick_turns(members, turns, out))
}

fn offering(members: u32) -> Case {
    case(
        &format!("offer, {members} wait"),
        None,
        5_000,
        move |turns, out| proved::offer_turns(members, turns, out),
        move |turns, out| plain::work::offer_turns(members, turns, out),
    )
    .beside(move |turns, out| tight::work::offer_turns(members, turns, out))
}

fn removing(members: u32) -> Case {
    case(
        &format!("remove and offer, {members} wait"),
        None,
        5_000,
        move |turns, out| proved::removal_turns(members, turns, out),
        move |turns, out| plain::work::removal_turns(members, turns, out),
    )
    .beside(move |turns, out| tight::work::removal_turns(members, turns, out))
}

/// All that run in this process.
pub fn cases() -> Vec<Case> {
    let mut cases: Vec<Case> = [0, 10, 30].map(decoding).into();
    cases.extend([0, 10, 30].map(encoding));
    cases.push(pinging("ping without updates to an ack", 1.5, 0, NUMBER, 3_000));
    cases.push(pinging("ping with 30 kept updates", 2.0, 30, NUMBER, 2_000));
    cases.push(newer_pinging());
    cases.push(ticking("tick over 256 rows", None, 1000, 3_000));
    cases.push(ticking("tick of a probe, 256 rows", Some(1.5), 2, 500));
    cases.push(listing());
    cases.push(picking(10, None, 140));
    cases.push(picking(100, None, 400));
    cases.push(picking(257, Some(1.5), 1_200));
    cases.extend([10, 100, 256].map(offering));
    cases.extend([10, 100, 257].map(removing));
    cases.push(hearing("one update heard by 256 rows, accepted", 1));
    cases.push(hearing("one update heard by 256 rows, kept", 0));
    cases.extend(node_cases());
    cases
}

/// Calls of a node.
fn node_cases() -> Vec<Case> {
    let mut cases: Vec<Case> = [1, 16, 64]
        .map(|rows| {
            let noun = if rows == 1 { "row" } else { "rows" };
            let name = format!("apply of a ping without updates, {rows} {noun}");
            node_pinging(&name, None, rows, 0)
        })
        .into();
    cases.push(node_pinging(
        "apply of a ping without updates",
        Some(1.5),
        ROWS,
        0,
    ));
    cases.push(node_pinging(
        "apply of a ping with 30 kept updates",
        None,
        ROWS,
        30,
    ));
    cases.push(node_newer_pinging(
        "apply of a ping with 30 accepted updates",
        Some(1.5),
    ));
    cases.push(node_ticking("apply of a tick", None, 1000));
    cases.push(node_ticking("apply of a tick of a probe", Some(1.5), 2));
    cases
}

/// Prints the bytes of an entry.
pub fn print_entries() {
    let [proved, plain] = [proved::entry_bytes(), size_of::<plain::node::Entry>()];
    println!("- bytes of an entry: {proved} proved, {plain} plain");
}
