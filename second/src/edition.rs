//! "The neighbour's carts" (document 02, Req 07): the two editions of a pool, and the two owners of
//! its records.

use crate::choose::MOST_ENTRIES;
use crate::pool::Slot;

/// "Slots N: 1 to 4,096."
pub const MOST_SLOTS: usize = 4_096;
pub const HEAD_WORDS: usize = 8;

/// What a call returns that is told a number for which there is no kind, edition or rule. The
/// documents give no number for it; nothing is written.
pub const NO_SUCH: i32 = -1;

/// "13 for another owner"
pub const OTHER_OWNER: i32 = 13;

/// The layouts there are.
#[derive(Clone, Copy, Debug, PartialEq, Eq)]
pub enum Edition {
    One,
    Two,
}

pub const EDITIONS: [Edition; 2] = [Edition::One, Edition::Two];

impl Edition {
    /// Word 0 of a pool, and the first word of a file.
    pub fn number(self) -> i32 {
        match self {
            Edition::One => 1,
            Edition::Two => 2,
        }
    }

    /// The edition by which a pool is measured: "a pool whose word 0 isn't 2 is measured as edition
    /// 1", and so is one that has no word.
    #[inline]
    pub fn of(pool: &[i32]) -> Edition {
        match pool.first() {
            Some(2) => Edition::Two,
            _ => Edition::One,
        }
    }

    /// "8 entries of five words: low x, low y, high x, high y, pointer"; in edition 2 "an owner ..
    /// as a sixth word".
    #[inline]
    pub fn entry_words(self) -> usize {
        match self {
            Edition::One => 5,
            Edition::Two => 6,
        }
    }

    /// "level, count, then 8 entries": 42 words, or "slots of 50 words".
    #[inline]
    pub fn slot_words(self) -> usize {
        2 + MOST_ENTRIES * self.entry_words()
    }

    /// 8 + 42N, or "length 8 + 50N".
    #[inline]
    pub fn words(self, slots: usize) -> usize {
        HEAD_WORDS + self.slot_words() * slots
    }

    /// N for a pool of so many words, with N from 1 to 4,096; none for any other length.
    pub fn slots_of(self, length: usize) -> Option<usize> {
        (1..=MOST_SLOTS).find(|&slots| self.words(slots) == length)
    }

    /// "Slot s (from 1) takes 42 words from word 8 + 42(s - 1)", or 50 in edition 2.
    #[inline]
    pub fn slot_start(self, slot: Slot) -> usize {
        self.words(slot.0 - 1)
    }
}

/// "an owner, 1 or 2"
#[derive(Clone, Copy, Debug, PartialEq, Eq, PartialOrd, Ord)]
pub enum Owner {
    One,
    Two,
}

pub const OWNERS: [Owner; 2] = [Owner::One, Owner::Two];

impl Owner {
    pub fn number(self) -> i32 {
        match self {
            Owner::One => 1,
            Owner::Two => 2,
        }
    }

    pub fn numbered(number: i32) -> Option<Owner> {
        OWNERS.into_iter().find(|owner| owner.number() == number)
    }

    /// The neighbour.
    pub fn other(self) -> Owner {
        match self {
            Owner::One => Owner::Two,
            Owner::Two => Owner::One,
        }
    }
}

/// "Blanking and reading are told the edition, by an enum that has no other", and the rule, of which
/// there is one, 0. None where there is no such edition, or no such rule.
pub fn told(edition: i32, rule: i32) -> Option<Edition> {
    let edition = EDITIONS.into_iter().find(|known| known.number() == edition)?;
    (rule == 0).then_some(edition)
}
