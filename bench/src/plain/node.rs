//! A member with the ceiling of its state file and a journal of all calls. An entry has the proved one's shape: lists with
//! their whole room inside, so that a call takes its memory before it does anything.

use super::list::List;
use super::member::{Member, Refusal, Settings};
use super::table::Counts;
use super::wire::{Datagram, Endpoint, Packet, Update, encode};
use crate::scene::Deal;

const CALLERS: usize = 16;

/// Who calls, and for which time in this era.
#[derive(Clone, Copy)]
pub struct Tag {
    pub caller: u8,
    pub turn: u32,
}

#[expect(
    clippy::large_enum_variant,
    reason = "an entry has its bytes inside, as the proved one has"
)]
pub enum Event {
    Tick { deal: Deal },
    Datagram { from: Endpoint, bytes: List<u8, 513> },
}

#[derive(Clone, Copy, PartialEq, Eq)]
pub enum Save {
    Kept,
    Done,
}

#[derive(Clone, Copy, Default, PartialEq, Eq)]
pub enum Outcome {
    #[default]
    Lost,
    Taken,
}

/// A datagram and where it goes.
#[derive(Clone, Copy, Default)]
pub struct Out {
    pub to: Endpoint,
    pub datagram: Datagram,
}

#[derive(Clone, Copy)]
pub struct Status {
    pub number: u64,
    pub counts: Counts,
    pub length: usize,
}

/// What a caller is told.
#[derive(Clone)]
pub struct Reply {
    pub status: Status,
    pub notes: List<Refusal, 32>,
    pub page: List<Update, 30>,
    pub sent: usize,
    pub lost: usize,
}

/// One answered call.
pub struct Entry {
    pub tag: Tag,
    pub event: Event,
    pub granted: u64,
    pub save: Save,
    pub outs: List<Out, 10>,
    pub outcomes: List<Outcome, 10>,
    pub reply: Reply,
}

/// Why a call is refused.
#[derive(Clone, Copy, Debug, PartialEq, Eq)]
pub enum Fault {
    OutOfTurn,
    EraFull,
    NoMemory,
}

/// What a step gives.
struct Answer {
    outs: List<Out, 10>,
    notes: List<Refusal, 32>,
    page: List<Update, 30>,
}

impl Answer {
    fn new() -> Answer {
        Answer {
            outs: List::new(),
            notes: List::new(),
            page: List::new(),
        }
    }
}

/// What takes datagrams: it keeps the bytes of the last one.
pub struct Link {
    pub bytes: [u8; 512],
}

impl Link {
    pub fn new() -> Link {
        Link { bytes: [0; 512] }
    }

    pub fn send(&mut self, _to: Endpoint, packet: &Packet) -> bool {
        let bytes = packet.as_slice();
        self.bytes[..bytes.len()].copy_from_slice(bytes);
        true
    }
}

pub struct Node {
    member: Member,
    ceiling: u64,
    limit: usize,
    turns: [u32; CALLERS],
    journal: Vec<Entry>,
}

impl Node {
    pub fn new(settings: Settings, limit: usize) -> Node {
        Node {
            member: Member::new(settings, 1),
            ceiling: 1,
            limit,
            turns: [0; CALLERS],
            journal: Vec::new(),
        }
    }

    pub fn journal(&self) -> &[Entry] {
        &self.journal
    }

    pub fn turns(&self, caller: u8) -> u32 {
        self.turns[usize::from(caller)]
    }

    /// Begins the next era, in the same memory.
    pub fn rebase(&mut self) {
        self.journal.clear();
        self.turns = [0; CALLERS];
    }

    fn judge(&self, tag: Tag) -> Result<(), Fault> {
        if tag.turn != self.turns(tag.caller) + 1 {
            return Err(Fault::OutOfTurn);
        }
        if self.journal.len() >= self.limit {
            return Err(Fault::EraFull);
        }
        Ok(())
    }

    /// Raises the ceiling where more is wanted. No case wants more, so no file is written.
    fn save(&mut self, wanted: Option<u64>) -> Save {
        match wanted {
            Some(number) if number > self.ceiling => {
                self.ceiling = number;
                Save::Done
            }
            _ => Save::Kept,
        }
    }

    fn receive(&mut self, from: Endpoint, bytes: &[u8], answer: &mut Answer) -> Save {
        let datagram = match self.member.accept(from, bytes) {
            Ok(datagram) => datagram,
            Err(refusal) => {
                answer.notes.push(refusal);
                return Save::Kept;
            }
        };
        let save = self.save(self.member.wanted(datagram.updates.as_slice()));
        match self.member.act(&datagram, self.ceiling) {
            Ok(ack) => answer.outs.push(Out {
                to: from,
                datagram: ack,
            }),
            Err(refusal) => answer.notes.push(refusal),
        }
        save
    }

    fn step(&mut self, event: &Event) -> (Save, Answer) {
        let mut answer = Answer::new();
        let save = match event {
            Event::Tick { deal } => {
                let outs = &mut answer.outs;
                self.member.tick(deal, |to, datagram| {
                    outs.push(Out {
                        to,
                        datagram: *datagram,
                    })
                });
                Save::Kept
            }
            Event::Datagram { from, bytes } => self.receive(*from, bytes.as_slice(), &mut answer),
        };
        (save, answer)
    }

    /// Enters one call: plans, saves, steps, sends and journals.
    pub fn apply(&mut self, link: &mut Link, tag: Tag, event: Event) -> Result<Reply, Fault> {
        self.judge(tag)?;
        self.journal.try_reserve(1).map_err(|_| Fault::NoMemory)?;
        let (save, answer) = self.step(&event);
        let outcomes = send_all(link, answer.outs.as_slice());
        let sent = outcomes
            .as_slice()
            .iter()
            .filter(|outcome| **outcome == Outcome::Taken)
            .count();
        let reply = Reply {
            status: Status {
                number: self.member.number(),
                counts: self.member.counts(),
                length: self.journal.len() + 1,
            },
            notes: answer.notes,
            page: answer.page,
            sent,
            lost: outcomes.as_slice().len() - sent,
        };
        let told = reply.clone();
        self.turns[usize::from(tag.caller)] += 1;
        self.journal.push(Entry {
            tag,
            event,
            granted: self.ceiling,
            save,
            outs: answer.outs,
            outcomes,
            reply,
        });
        Ok(told)
    }
}

fn send_all(link: &mut Link, outs: &[Out]) -> List<Outcome, 10> {
    let mut outcomes = List::new();
    for out in outs {
        let is_taken = link.send(out.to, &encode(&out.datagram));
        outcomes.push(if is_taken { Outcome::Taken } else { Outcome::Lost });
    }
    outcomes
}
