//! The tight side beside the plain one, where no case goes: refused texts.

use super::wire::{self, DATAGRAM_MAX};
use crate::plain::wire::decode;
use crate::scene::ping;

/// Numbers that look random.
struct Numbers(u64);

impl Numbers {
    /// The next one, below `limit`.
    fn below(&mut self, limit: u64) -> u64 {
        self.0 = self.0.wrapping_mul(6_364_136_223_846_793_005).wrapping_add(1);
        (self.0 >> 33) % limit
    }
}

#[test]
fn texts_have_the_same_faults() {
    let mut numbers = Numbers(2);
    for _ in 0..100_000 {
        let mut text = ping(256, 0, numbers.below(31) as u32, 9);
        for _ in 0..numbers.below(3) {
            let at = numbers.below(text.len() as u64) as usize;
            text[at] = numbers.below(256) as u8;
        }
        let len = numbers.below(20) as usize * 16 + numbers.below(2) as usize;
        text.truncate(if numbers.below(4) == 0 { len } else { DATAGRAM_MAX });
        let (plain, tight) = (decode(&text), wire::decode(&text));
        assert_eq!(plain.as_ref().err(), tight.as_ref().err());
        if let (Ok(plain), Ok(tight)) = (plain, tight) {
            let read: Vec<u64> = tight.updates().map(|update| update.number).collect();
            let wanted: Vec<u64> = plain
                .updates
                .as_slice()
                .iter()
                .map(|update| update.number)
                .collect();
            assert_eq!(read, wanted);
        }
    }
}
