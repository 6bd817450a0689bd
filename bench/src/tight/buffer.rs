//! The updates that wait to be sent: slots in the order in which they began, with one byte each for the count of sends. An
//! update that begins anew takes the next slot and leaves its old one empty. Full slots are moved together.

use super::wire::{Room, UPDATES_MAX, Update, put_update};
use std::arch::x86_64::{_mm_cmpeq_epi8, _mm_loadu_si128, _mm_min_epu8, _mm_movemask_epi8, _mm_set1_epi8};

/// All rows and the own update.
const IDS: usize = 257;

/// At least twice as many as can wait, and full parts of 16.
const SLOTS: usize = 528;

/// The greatest limit of a pick.
pub const LIMIT_MAX: usize = 144;

/// The count of an empty slot.
const EMPTY: u8 = u8::MAX;

/// No slot.
const NONE: u16 = u16::MAX;

pub struct Buffer {
    counts: [u8; SLOTS],
    ids: [u16; SLOTS],
    slots: [u16; IDS],
    updates: [Update; IDS],
    end: usize,
    /// How many wait with each count.
    waiting: [u16; LIMIT_MAX + 1],
    /// No update waits with a lower count.
    least: usize,
    len: usize,
}

impl Buffer {
    pub fn new() -> Buffer {
        Buffer {
            counts: [EMPTY; SLOTS],
            ids: [0; SLOTS],
            slots: [NONE; IDS],
            updates: [Update::default(); IDS],
            end: 0,
            waiting: [0; LIMIT_MAX + 1],
            least: LIMIT_MAX,
            len: 0,
        }
    }

    pub fn len(&self) -> usize {
        self.len
    }

    /// Removes the update of this id, which is below 257.
    pub fn remove(&mut self, id: u16) {
        let slot = self.slots[usize::from(id)];
        if slot == NONE {
            return;
        }
        let count = std::mem::replace(&mut self.counts[usize::from(slot)], EMPTY);
        self.waiting[usize::from(count)] -= 1;
        self.slots[usize::from(id)] = NONE;
        self.len -= 1;
    }

    /// Moves the full slots together.
    fn compact(&mut self) {
        let mut end = 0;
        for slot in 0..self.end {
            if self.counts[slot] != EMPTY {
                self.counts[end] = self.counts[slot];
                self.ids[end] = self.ids[slot];
                self.slots[usize::from(self.ids[end])] = end as u16;
                end += 1;
            }
        }
        self.counts[end..].fill(EMPTY);
        self.end = end;
    }

    pub fn offer(&mut self, id: u16, update: Update) {
        self.remove(id);
        if self.end == SLOTS {
            self.compact();
        }
        let slot = self.end;
        self.end += 1;
        self.counts[slot] = 0;
        self.ids[slot] = id;
        self.slots[usize::from(id)] = slot as u16;
        self.updates[usize::from(id)] = update;
        self.waiting[0] += 1;
        self.least = 0;
        self.len += 1;
    }

    /// The greatest count among the next 30 below the limit, how many of it are among them, and where each count begins
    /// there. None where nothing waits.
    #[expect(
        clippy::needless_range_loop,
        reason = "two lists by the same count, in the order of a bucket sort"
    )]
    fn share(&mut self, limit: usize, starts: &mut [u8; LIMIT_MAX + 1]) -> Option<(usize, usize, usize)> {
        while self.least < limit && self.waiting[self.least] == 0 {
            self.least += 1;
        }
        let (mut taken, mut last) = (0, None);
        for count in self.least..limit {
            let share = usize::from(self.waiting[count]).min(UPDATES_MAX - taken);
            if share > 0 {
                starts[count] = taken as u8;
                taken += share;
                last = Some((count, share));
            }
            if taken == UPDATES_MAX.min(self.len) {
                break;
            }
        }
        last.map(|(count, share)| (count, share, taken))
    }

    /// Writes the next 30 of those with a count below the limit, by count, then by who began earlier, and gives how many
    /// they are.
    pub fn pick(&mut self, limit: usize, room: &mut Room) -> usize {
        let mut starts = [0; LIMIT_MAX + 1];
        let Some((last, mut share, taken)) = self.share(limit.min(LIMIT_MAX), &mut starts) else {
            return 0;
        };
        let mut left = taken;
        for from in (0..self.end).step_by(16) {
            let mut mask = self.at_most(from, last as u8);
            while mask != 0 {
                let slot = from + mask.trailing_zeros() as usize;
                mask &= mask - 1;
                // SAFETY: the slot is below 528, its count at most 144, its id below 257, and a number below 30: the starts
                // are those of 30 and fewer.
                unsafe {
                    let count = usize::from(*self.counts.get_unchecked(slot));
                    if count == last {
                        if share == 0 {
                            continue;
                        }
                        share -= 1;
                    }
                    let start = starts.get_unchecked_mut(count);
                    let id = usize::from(*self.ids.get_unchecked(slot));
                    put_update(room, usize::from(*start), *self.updates.get_unchecked(id));
                    *start += 1;
                    *self.counts.get_unchecked_mut(slot) += 1;
                    *self.waiting.get_unchecked_mut(count) -= 1;
                    *self.waiting.get_unchecked_mut(count + 1) += 1;
                }
                left -= 1;
                if left == 0 {
                    return taken;
                }
            }
        }
        taken
    }

    /// Which of the 16 slots from here on have at most this count.
    fn at_most(&self, from: usize, count: u8) -> u32 {
        // SAFETY: the slots are full parts of 16.
        unsafe {
            let counts = _mm_loadu_si128(self.counts.as_ptr().add(from).cast());
            let least = _mm_min_epu8(counts, _mm_set1_epi8(count as i8));
            _mm_movemask_epi8(_mm_cmpeq_epi8(least, counts)) as u32
        }
    }
}
