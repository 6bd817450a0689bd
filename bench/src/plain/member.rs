//! The part of a member that pings and ticks need: the own number, table, buffer, the probe, the acks.

use super::buffer::Buffer;
use super::list::List;
use super::table::{Counts, Heard, ROWS_MAX, Row, Table};
use super::wire::{Datagram, Endpoint, Kind, NUMBER_MAX, Rules, Update, UpdateKind, WireFault, decode};
use crate::scene::Deal;

const LEAP: u64 = 1 << 20;
const HELPERS_MAX: usize = 8;

/// What a member is told at its start.
#[derive(Clone, Copy)]
pub struct Settings {
    pub group: u64,
    pub me: Endpoint,
    pub lambda: u32,
    pub period: u64,
    pub direct: u64,
    pub suspect: u64,
    pub forget: u64,
    pub helpers: usize,
    pub rules: Rules,
}

/// Why a datagram is not answered.
#[derive(Clone, Copy, Debug, Default, PartialEq, Eq)]
pub enum Refusal {
    BadDatagram(WireFault),
    OtherGroup,
    OtherVersion,
    NotSender,
    FromSelf,
    Expelled,
    Misdirected,
    #[default]
    NotMeasured,
}

/// A ping that waits for its ack.
struct Probe {
    target: Endpoint,
    seq: u32,
}

/// The members that are probed in this turn, and how many of them were probed or passed over.
struct Turn {
    listed: List<Endpoint, ROWS_MAX>,
    place: usize,
}

/// A member of a group, as far as the cases need it.
pub struct Member {
    settings: Settings,
    number: u64,
    time: u64,
    seq: u32,
    probe: Option<Probe>,
    turn: Turn,
    table: Table,
    buffer: Buffer,
}

impl Member {
    pub fn new(settings: Settings, number: u64) -> Member {
        let mut buffer = Buffer::new();
        buffer.offer(Update {
            kind: UpdateKind::Alive,
            who: settings.me,
            number,
        });
        Member {
            settings,
            number,
            time: 0,
            seq: 1,
            probe: None,
            turn: Turn {
                listed: List::new(),
                place: 0,
            },
            table: Table::new(settings.rules),
            buffer,
        }
    }

    /// The own number.
    pub fn number(&self) -> u64 {
        self.number
    }

    /// How many members are held for alive or suspected.
    pub fn eligible_count(&self) -> usize {
        self.table.eligible_count()
    }

    /// How many rows there are of each kind.
    pub fn counts(&self) -> Counts {
        self.table.counts()
    }

    fn hear(&mut self, update: Update) {
        if self.table.hear(update, self.time) == Heard::Accepted {
            self.buffer.offer(update);
        }
    }

    /// `lambda * bits(n)`, n being 1 plus the eligible rows.
    fn limit(&self) -> u32 {
        self.settings.lambda * (usize::BITS - (1 + self.table.eligible_count()).leading_zeros())
    }

    /// A ping, a ping-req or an ack, with what waits.
    fn send(&mut self, kind: Kind, seq: u32, subject: Endpoint) -> Datagram {
        let updates = self.buffer.pick(self.limit());
        let Settings { group, me, rules, .. } = self.settings;
        Datagram {
            version: rules,
            kind,
            group,
            seq,
            sender: me,
            subject,
            updates,
        }
    }

    fn refuse(&self, from: Endpoint, datagram: &Datagram) -> Result<(), Refusal> {
        if datagram.group != self.settings.group {
            return Err(Refusal::OtherGroup);
        }
        if datagram.version != self.settings.rules {
            return Err(Refusal::OtherVersion);
        }
        if datagram.sender != from {
            return Err(Refusal::NotSender);
        }
        if datagram.sender == self.settings.me {
            return Err(Refusal::FromSelf);
        }
        Ok(())
    }

    /// The datagram that the bytes spell, or why it is not taken.
    pub fn accept(&self, from: Endpoint, bytes: &[u8]) -> Result<Datagram, Refusal> {
        let datagram = decode(bytes).map_err(Refusal::BadDatagram)?;
        self.refuse(from, &datagram)?;
        Ok(datagram)
    }

    /// Whether an update of this kind about oneself asks for a greater number.
    fn asks(&self, kind: UpdateKind) -> bool {
        match kind {
            UpdateKind::Alive => false,
            UpdateKind::Suspect => true,
            UpdateKind::Confirm => self.settings.rules == Rules::Two,
        }
    }

    /// The own number that the updates want, if any.
    pub fn wanted(&self, updates: &[Update]) -> Option<u64> {
        let own = updates.iter().filter(|update| {
            update.who == self.settings.me
                && self.asks(update.kind)
                && update.number >= self.number
                && update.number - self.number <= LEAP
                && update.number < NUMBER_MAX
        });
        own.map(|update| update.number + 1).max()
    }

    /// Hears the updates, and takes the number that they want where it is granted.
    fn hear_all(&mut self, updates: &[Update], granted: u64) -> Result<(), Refusal> {
        let me = self.settings.me;
        let wanted = self.wanted(updates);
        let mut expelled = false;
        for update in updates {
            if update.who != me {
                self.hear(*update);
            } else if update.kind == UpdateKind::Confirm && self.settings.rules == Rules::One {
                expelled = true;
            }
        }
        if expelled {
            return Err(Refusal::Expelled);
        }
        if let Some(number) = wanted.filter(|number| *number <= granted) {
            self.number = number;
            self.buffer.offer(Update {
                kind: UpdateKind::Alive,
                who: me,
                number,
            });
        }
        Ok(())
    }

    /// Takes an accepted datagram: the ack to a ping, or why there is none.
    pub fn act(&mut self, datagram: &Datagram, granted: u64) -> Result<Datagram, Refusal> {
        self.hear_all(datagram.updates.as_slice(), granted)?;
        if datagram.kind != Kind::Ping {
            return Err(Refusal::NotMeasured);
        }
        let me = self.settings.me;
        if datagram.subject != me {
            return Err(Refusal::Misdirected);
        }
        Ok(self.send(Kind::Ack, datagram.seq, me))
    }

    /// One received datagram: the ack to a ping, or why there is none.
    pub fn receive(&mut self, from: Endpoint, bytes: &[u8], granted: u64) -> Result<Datagram, Refusal> {
        let datagram = self.accept(from, bytes)?;
        self.act(&datagram, granted)
    }

    /// Suspects and confirms in time, and forgets.
    fn age(&mut self) {
        let Settings { suspect, forget, .. } = self.settings;
        self.table
            .expire(suspect, self.time, |update| self.buffer.offer(update));
        self.table
            .forget(forget, self.time, |who| self.buffer.remove(who));
    }

    /// Suspects the target of a probe that was not answered.
    fn blame(&mut self) {
        let Some(probe) = &self.probe else { return };
        let Some(row) = self.table.get(probe.target) else {
            return;
        };
        if row.update.kind == UpdateKind::Alive {
            self.hear(Update {
                kind: UpdateKind::Suspect,
                ..row.update
            });
        }
    }

    /// The next listed member that is eligible.
    fn go_on(&mut self) -> Option<Endpoint> {
        let left = &self.turn.listed.as_slice()[self.turn.place..];
        let over = left
            .iter()
            .position(|who| self.table.get(*who).is_some_and(Row::is_eligible))?;
        self.turn.place += over + 1;
        Some(left[over])
    }

    /// Lists the eligible members in the order of the deal, and gives the first of them.
    fn begin_turn(&mut self, deal: &Deal) -> Option<Endpoint> {
        let mut names: List<Endpoint, ROWS_MAX> = List::new();
        for row in self.table.rows().iter().filter(|row| row.is_eligible()) {
            names.push(row.update.who);
        }
        self.turn.listed = List::new();
        for number in deal {
            if let Some(name) = names.as_slice().get(usize::from(*number)) {
                self.turn.listed.push(*name);
            }
        }
        let first = self.turn.listed.as_slice().first().copied();
        self.turn.place = usize::from(first.is_some());
        first
    }

    /// Pings the member to which the turn comes.
    fn probe_next(&mut self, deal: &Deal, sent: &mut impl FnMut(Endpoint, &Datagram)) {
        self.probe = None;
        let Some(target) = self.go_on().or_else(|| self.begin_turn(deal)) else {
            return;
        };
        let seq = self.seq;
        self.seq = seq.wrapping_add(1);
        self.probe = Some(Probe { target, seq });
        sent(target, &self.send(Kind::Ping, seq, target));
    }

    /// The eligible members after the target, around the end of the rows, and how many there are.
    fn helpers_about(&self, target: Endpoint) -> ([Endpoint; HELPERS_MAX], usize) {
        let beside = |later: bool| {
            let eligible = self.table.rows().iter().filter(|row| row.is_eligible());
            eligible
                .map(|row| row.update.who)
                .filter(move |who| *who != target && (*who > target) == later)
        };
        let mut helpers = [Endpoint::default(); HELPERS_MAX];
        let mut count = 0;
        for who in beside(true).chain(beside(false)).take(self.settings.helpers) {
            helpers[count] = who;
            count += 1;
        }
        (helpers, count)
    }

    /// Asks others about the target of the probe.
    fn ask_all(&mut self, sent: &mut impl FnMut(Endpoint, &Datagram)) {
        let Some(Probe { target, seq }) = self.probe else {
            return;
        };
        if !self.table.get(target).is_some_and(Row::is_eligible) {
            return;
        }
        let (helpers, count) = self.helpers_about(target);
        for helper in &helpers[..count] {
            sent(*helper, &self.send(Kind::PingReq, seq, target));
        }
    }

    /// One tick, with what it sends.
    pub fn tick(&mut self, deal: &Deal, mut sent: impl FnMut(Endpoint, &Datagram)) {
        self.time += 1;
        self.age();
        let Settings { period, direct, .. } = self.settings;
        let moment = self.time % period;
        if moment == 0 {
            self.blame();
            self.probe_next(deal, &mut sent);
        }
        if moment == direct {
            self.ask_all(&mut sent);
        }
    }
}
