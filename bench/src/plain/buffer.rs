//! The updates that wait to be sent.

use super::table::ROWS_MAX;
use super::wire::{Endpoint, UPDATES_MAX, Update, Updates};

const WAITING_MAX: usize = ROWS_MAX + 1;

#[derive(Clone, Copy, Default)]
struct Waiting {
    update: Update,
    count: u32,
    began: u64,
}

/// The updates with their counts of sends, in endpoint order; `began` keeps who began to wait earlier.
pub struct Buffer {
    entries: [Waiting; WAITING_MAX],
    len: usize,
    clock: u64,
}

impl Buffer {
    fn find(&self, who: Endpoint) -> Result<usize, usize> {
        self.entries[..self.len].binary_search_by(|entry| entry.update.who.cmp(&who))
    }

    pub fn new() -> Buffer {
        Buffer {
            entries: [Waiting::default(); WAITING_MAX],
            len: 0,
            clock: 0,
        }
    }

    /// Lets an update begin to wait, in the place of the one about the same member.
    pub fn offer(&mut self, update: Update) {
        let entry = Waiting {
            update,
            count: 0,
            began: self.clock,
        };
        self.clock += 1;
        match self.find(update.who) {
            Ok(at) => self.entries[at] = entry,
            Err(at) => {
                self.entries.copy_within(at..self.len, at + 1);
                self.entries[at] = entry;
                self.len += 1;
            }
        }
    }

    pub fn remove(&mut self, who: Endpoint) {
        if let Ok(at) = self.find(who) {
            self.entries.copy_within(at + 1..self.len, at);
            self.len -= 1;
        }
    }

    /// The first 30 of those with a count below `limit`, by count, then by who began earlier.
    pub fn pick(&mut self, limit: u32) -> Updates {
        let mut order = [(0u32, 0u64, 0u16); WAITING_MAX];
        let mut found = 0;
        for (at, entry) in self.entries[..self.len].iter().enumerate() {
            if entry.count < limit {
                order[found] = (entry.count, entry.began, at as u16);
                found += 1;
            }
        }
        let order = &mut order[..found];
        let room = UPDATES_MAX.min(found);
        if room < found {
            order.select_nth_unstable(room);
        }
        order[..room].sort_unstable();
        let mut updates = Updates::new();
        for &(_, _, at) in &order[..room] {
            let entry = &mut self.entries[usize::from(at)];
            entry.count += 1;
            updates.push(entry.update);
        }
        updates
    }
}
