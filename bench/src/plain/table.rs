//! What is known of each other member.

use super::wire::{Endpoint, Rules, Update, UpdateKind};

pub const ROWS_MAX: usize = 256;

/// Whether the new update overrides the old one about the same member, by these rules.
pub fn overrides(new: &Update, old: &Update, rules: Rules) -> bool {
    match (rules, new.kind, old.kind) {
        (Rules::One, _, UpdateKind::Confirm) => false,
        (Rules::One, UpdateKind::Confirm, _) => true,
        (Rules::Two, _, UpdateKind::Confirm) => new.number > old.number,
        (Rules::Two, UpdateKind::Confirm, _) => new.number >= old.number,
        (_, UpdateKind::Suspect, UpdateKind::Alive) => new.number >= old.number,
        _ => new.number > old.number,
    }
}

#[derive(Clone, Copy, Debug, PartialEq, Eq)]
pub enum Heard {
    Accepted,
    Kept,
    Unknown,
    Full,
}

#[derive(Clone, Copy, Default)]
pub struct Row {
    pub update: Update,
    pub since: u64,
}

impl Row {
    fn is_due(&self, kind: UpdateKind, ticks: u64, now: u64) -> bool {
        self.update.kind == kind && now - self.since >= ticks
    }

    pub fn is_eligible(&self) -> bool {
        self.update.kind != UpdateKind::Confirm
    }
}

/// How many rows there are of each kind.
#[derive(Clone, Copy, Default)]
pub struct Counts {
    pub alive: usize,
    pub suspect: usize,
    pub confirmed: usize,
}

impl Counts {
    fn of(&mut self, kind: UpdateKind) -> &mut usize {
        match kind {
            UpdateKind::Alive => &mut self.alive,
            UpdateKind::Suspect => &mut self.suspect,
            UpdateKind::Confirm => &mut self.confirmed,
        }
    }
}

/// The rows in the order of their endpoints, and how many there are of each kind.
pub struct Table {
    rows: [Row; ROWS_MAX],
    len: usize,
    counts: Counts,
    rules: Rules,
}

impl Table {
    pub fn new(rules: Rules) -> Table {
        Table {
            rows: [Row::default(); ROWS_MAX],
            len: 0,
            counts: Counts::default(),
            rules,
        }
    }

    pub fn rows(&self) -> &[Row] {
        &self.rows[..self.len]
    }

    pub fn counts(&self) -> Counts {
        self.counts
    }

    pub fn eligible_count(&self) -> usize {
        self.counts.alive + self.counts.suspect
    }

    fn find(&self, who: Endpoint) -> Result<usize, usize> {
        self.rows().binary_search_by(|row| row.update.who.cmp(&who))
    }

    pub fn get(&self, who: Endpoint) -> Option<&Row> {
        self.find(who).ok().map(|at| &self.rows[at])
    }

    pub fn hear(&mut self, update: Update, now: u64) -> Heard {
        match self.find(update.who) {
            Ok(at) => {
                if !overrides(&update, &self.rows[at].update, self.rules) {
                    return Heard::Kept;
                }
                *self.counts.of(self.rows[at].update.kind) -= 1;
                *self.counts.of(update.kind) += 1;
                self.rows[at] = Row { update, since: now };
                Heard::Accepted
            }
            Err(_) if update.kind == UpdateKind::Confirm => Heard::Unknown,
            Err(_) if self.len == ROWS_MAX => Heard::Full,
            Err(at) => {
                self.rows.copy_within(at..self.len, at + 1);
                self.rows[at] = Row { update, since: now };
                self.len += 1;
                *self.counts.of(update.kind) += 1;
                Heard::Accepted
            }
        }
    }

    /// Turns each Suspect of so many ticks into a Confirm.
    pub fn expire(&mut self, ticks: u64, now: u64, mut expired: impl FnMut(Update)) {
        for row in &mut self.rows[..self.len] {
            if row.is_due(UpdateKind::Suspect, ticks, now) {
                row.update.kind = UpdateKind::Confirm;
                row.since = now;
                self.counts.suspect -= 1;
                self.counts.confirmed += 1;
                expired(row.update);
            }
        }
    }

    /// Removes each Confirm of so many ticks.
    pub fn forget(&mut self, ticks: u64, now: u64, mut forgotten: impl FnMut(Endpoint)) {
        let mut at = 0;
        while at < self.len {
            if self.rows[at].is_due(UpdateKind::Confirm, ticks, now) {
                forgotten(self.rows[at].update.who);
                self.rows.copy_within(at + 1..self.len, at);
                self.len -= 1;
                self.counts.confirmed -= 1;
            } else {
                at += 1;
            }
        }
    }
}
