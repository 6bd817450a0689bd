//! The updates that wait, in slots in the order in which they began. What began earlier was sent as often or more often, so each
//! bucket is a run of slots, the lowest one last. What is removed leaves a gap, and a hint says where the update about a member may
//! stand. That is what the proved crates do, with nothing counted.

use super::table::ROWS_MAX;
use super::wire::{Endpoint, UPDATES_MAX, Update, Updates};

const SLOTS_MAX: usize = ROWS_MAX + 112;

/// The gaps are closed too where they are so many more than what waits.
const GAPS: usize = 32;

const HINTS_MAX: usize = 1024;

/// The greatest limit of a pick.
pub const BUCKETS_MAX: u32 = 144;

/// How many places are passed at once, at first, on the way to the begin of a bucket.
const STRIDE: usize = 16;

#[derive(Clone, Copy, Default)]
struct Slot {
    update: Update,
    count: u32,
    waits: bool,
}

pub struct Buckets {
    slots: [Slot; SLOTS_MAX],
    /// How many slots are taken, gaps among them.
    end: usize,
    len: usize,
    hints: [u16; HINTS_MAX],
}

/// Which hint is that of a member.
fn hint_of(who: Endpoint) -> usize {
    let number = u64::from(who.address) << 16 | u64::from(who.port);
    (number.wrapping_mul(0x9e37_79b9_7f4a_7c15) >> 32) as usize % HINTS_MAX
}

/// The first place of the bucket that ends before `end`, or of gaps before it.
fn begin_of(slots: &[Slot], end: usize) -> usize {
    let mut begin = end - 1;
    let count = slots[begin].count;
    while STRIDE <= begin && slots[begin - STRIDE].waits && slots[begin - STRIDE].count == count {
        begin -= STRIDE;
    }
    while 0 < begin && !(slots[begin - 1].waits && slots[begin - 1].count != count) {
        begin -= 1;
    }
    begin
}

impl Buckets {
    fn place_of(&self, who: Endpoint) -> Option<usize> {
        let slots = &self.slots[..self.end];
        let hint = usize::from(self.hints[hint_of(who)]);
        let is_about = |slot: &Slot| slot.waits && slot.update.who == who;
        if slots.get(hint).is_some_and(is_about) {
            return Some(hint);
        }
        slots.iter().position(is_about)
    }

    fn close_gaps(&mut self) {
        let mut kept = 0;
        for place in 0..self.end {
            if self.slots[place].waits {
                self.hints[hint_of(self.slots[place].update.who)] = kept as u16;
                self.slots[kept] = self.slots[place];
                kept += 1;
            }
        }
        self.end = kept;
    }

    pub fn new() -> Buckets {
        Buckets {
            slots: [Slot::default(); SLOTS_MAX],
            end: 0,
            len: 0,
            hints: [0; HINTS_MAX],
        }
    }

    pub fn len(&self) -> usize {
        self.len
    }

    pub fn remove(&mut self, who: Endpoint) {
        if let Some(place) = self.place_of(who) {
            self.slots[place].waits = false;
            self.len -= 1;
        }
    }

    /// Lets an update begin to wait, in the place of the one about the same member.
    pub fn offer(&mut self, update: Update) {
        self.remove(update.who);
        if self.end == SLOTS_MAX || self.end > 2 * self.len + GAPS {
            self.close_gaps();
        }
        self.hints[hint_of(update.who)] = self.end as u16;
        self.slots[self.end] = Slot {
            update,
            count: 0,
            waits: true,
        };
        self.end += 1;
        self.len += 1;
    }

    /// The first 30 of those with a count below `limit`, by count, then by who began earlier.
    pub fn pick(&mut self, limit: u32) -> Updates {
        let mut updates = Updates::new();
        let mut end = self.end;
        while 0 < end && !self.slots[end - 1].waits {
            end -= 1;
        }
        while 0 < end && self.slots[end - 1].count < limit && updates.as_slice().len() < UPDATES_MAX {
            let begin = begin_of(&self.slots, end);
            for slot in &mut self.slots[begin..end] {
                if updates.as_slice().len() == UPDATES_MAX {
                    break;
                }
                if slot.waits {
                    slot.count += 1;
                    updates.push(slot.update);
                }
            }
            end = begin;
        }
        updates
    }
}
