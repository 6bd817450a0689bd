//! The datagram as the bytes that it is. They are checked once and stay where they are; an update is the two words of its text.

use crate::plain::wire as plain;
use std::mem::MaybeUninit;

use crate::plain::wire::NUMBER_MAX;
pub use crate::plain::wire::{DATAGRAM_MAX, UPDATES_MAX, WireFault};

pub const HEAD_LEN: usize = 32;
const UPDATE_LEN: usize = 16;

const JOIN: u8 = 4;
const KIND_MAX: u8 = 5;
const VERSION_MAX: u8 = 2;

pub const ALIVE: u8 = 1;

/// The bits of a member, address and port, in a word.
const WHO: u64 = (1 << 48) - 1;

/// Room for one datagram.
pub type Room = [MaybeUninit<u8>; DATAGRAM_MAX];

/// A member as a word, which has the order of addresses and then ports.
pub fn member(address: u32, port: u16) -> u64 {
    u64::from(address) << 16 | u64::from(port)
}

/// An update as its text is: kind, zero and member in one word, the number in the other.
#[derive(Clone, Copy, Default, PartialEq, Eq)]
pub struct Update {
    head: u64,
    pub number: u64,
}

impl Update {
    pub fn new(kind: u8, who: u64, number: u64) -> Update {
        Update {
            head: u64::from(kind) << 56 | who,
            number,
        }
    }

    fn is_bad(self) -> bool {
        let kind_and_zero = self.head >> 48;
        (kind_and_zero & 0xff != 0)
            | (kind_and_zero.wrapping_sub(0x100) > 0x2ff)
            | (self.head as u16 == 0)
            | (self.number > NUMBER_MAX)
    }
}

/// SAFETY: eight bytes from `at` on are there.
unsafe fn word(bytes: &[u8], at: usize) -> u64 {
    unsafe { bytes.as_ptr().add(at).cast::<u64>().read_unaligned() }.swap_bytes()
}

/// SAFETY: eight bytes from `at` on may be written.
unsafe fn put_word(at: *mut u8, word: u64) {
    unsafe { at.cast::<u64>().write_unaligned(word.swap_bytes()) }
}

/// A text that is known to be a datagram.
#[derive(Clone, Copy)]
pub struct Datagram<'a>(&'a [u8]);

impl<'a> Datagram<'a> {
    pub fn version(self) -> u8 {
        self.0[4]
    }

    pub fn kind(self) -> u8 {
        self.0[5]
    }

    pub fn group(self) -> u64 {
        // SAFETY of each: the head is there.
        unsafe { word(self.0, 8) }
    }

    pub fn seq(self) -> u32 {
        unsafe { (word(self.0, 16) >> 32) as u32 }
    }

    pub fn sender(self) -> u64 {
        unsafe { word(self.0, 20) >> 16 }
    }

    pub fn subject(self) -> u64 {
        unsafe { word(self.0, 24) & WHO }
    }

    pub fn updates(self) -> impl Iterator<Item = Update> + 'a {
        updates(self.0)
    }
}

/// The updates of a text with a head.
fn updates(bytes: &[u8]) -> impl Iterator<Item = Update> {
    bytes[HEAD_LEN..].chunks_exact(UPDATE_LEN).map(|part| {
        // SAFETY: a part has 16 bytes.
        unsafe {
            Update {
                head: word(part, 0),
                number: word(part, 8),
            }
        }
    })
}

/// Whether the bytes are a datagram. All updates are looked at, for all of their faults at once.
fn is_datagram(bytes: &[u8]) -> bool {
    if bytes.len() < HEAD_LEN || bytes.len() > DATAGRAM_MAX {
        return false;
    }
    // SAFETY: the head is there.
    let first = unsafe { word(bytes, 0) };
    let (version, kind, count) = ((first >> 24) as u8, (first >> 16) as u8, (first >> 8) as u8);
    if first & 0xffff_ffff_0000_00ff != 0x5357_494d_0000_0000
        || version.wrapping_sub(1) >= VERSION_MAX
        || kind.wrapping_sub(1) >= KIND_MAX
        || bytes.len() != HEAD_LEN + UPDATE_LEN * usize::from(count)
    {
        return false;
    }
    let datagram = Datagram(bytes);
    let subject = datagram.subject();
    let is_bad_subject = subject as u16 == 0 && !(kind >= JOIN && subject == 0);
    if datagram.sender() as u16 == 0 || is_bad_subject {
        return false;
    }
    !updates(bytes).fold(false, |bad, update| bad | update.is_bad())
}

/// The datagram that the bytes spell, or the first fault, which a second and slower look finds.
pub fn decode(bytes: &[u8]) -> Result<Datagram<'_>, WireFault> {
    if is_datagram(bytes) {
        return Ok(Datagram(bytes));
    }
    match plain::decode(bytes) {
        Err(fault) => Err(fault),
        Ok(_) => Ok(Datagram(bytes)),
    }
}

/// What a head says beside the count.
#[derive(Clone, Copy)]
pub struct Head {
    pub version: u8,
    pub kind: u8,
    pub group: u64,
    pub seq: u32,
    pub sender: u64,
    pub subject: u64,
}

impl Head {
    /// Writes the head of a datagram with so many updates, and gives the length of the whole.
    pub fn put(self, room: &mut Room, count: usize) -> usize {
        let at = room.as_mut_ptr().cast::<u8>();
        let codes = u64::from(self.version) << 24 | u64::from(self.kind) << 16;
        let first = 0x5357_494d_0000_0000 | codes | (count as u64) << 8;
        // SAFETY: the head has 32 bytes, and the room more.
        unsafe {
            put_word(at, first);
            put_word(at.add(8), self.group);
            put_word(at.add(16), u64::from(self.seq) << 32 | self.sender >> 16);
            put_word(at.add(24), self.sender << 48 | self.subject);
        }
        HEAD_LEN + UPDATE_LEN * count
    }
}

/// Writes the update of this number, from 0. SAFETY: the number is below 30.
pub unsafe fn put_update(room: &mut Room, number: usize, update: Update) {
    // SAFETY: the last of 30 updates ends at the room's end.
    unsafe {
        let at = room.as_mut_ptr().cast::<u8>().add(HEAD_LEN + UPDATE_LEN * number);
        put_word(at, update.head);
        put_word(at.add(8), update.number);
    }
}

/// The first bytes of a room. SAFETY: they have been written.
pub unsafe fn written(room: &Room, len: usize) -> &[u8] {
    unsafe { std::slice::from_raw_parts(room.as_ptr().cast::<u8>(), len) }
}

/// Room that holds nothing yet.
pub fn room() -> Room {
    [MaybeUninit::uninit(); DATAGRAM_MAX]
}
