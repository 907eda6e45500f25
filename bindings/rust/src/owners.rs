//! What blanking, reading and a batch are told: an edition, a rule, an owner. Each is an enum that has no other case, so that a call
//! cannot be told a number that there is none of.

use crate::HEAD_WORDS;

/// The edition of a pool, or of a file. In edition 2 each record has an owner.
#[repr(i32)]
#[derive(Clone, Copy, Debug, Default, PartialEq, Eq, PartialOrd, Ord, Hash)]
pub enum Edition {
    #[default]
    One = 1,
    Two = 2,
}

/// Whose a batch is.
#[repr(i32)]
#[derive(Clone, Copy, Debug, Default, PartialEq, Eq, PartialOrd, Ord, Hash)]
pub enum Owner {
    #[default]
    One = 1,
    Two = 2,
}

/// The rules there are for a split. A match over them has a case for others too, so that it is compiled where there are more.
#[repr(i32)]
#[derive(Clone, Copy, Debug, Default, PartialEq, Eq, PartialOrd, Ord, Hash)]
#[non_exhaustive]
pub enum Rule {
    #[default]
    Quadratic = 0,
}

impl Edition {
    /// How a call that is not told the edition measures a pool: "a pool whose word 0 isn't 2 is measured as edition 1".
    pub fn of(pool: &[i32]) -> Edition {
        match pool {
            [2, ..] => Edition::Two,
            _ => Edition::One,
        }
    }

    /// The words of an entry: a rectangle and a pointer, and in edition 2 an owner.
    pub const fn entry_words(self) -> usize {
        match self {
            Edition::One => 5,
            Edition::Two => 6,
        }
    }

    /// The words of a slot: level, count, and eight entries.
    pub const fn slot_words(self) -> usize {
        2 + 8 * self.entry_words()
    }

    /// The words of a pool of so many slots.
    pub const fn words(self, slots: usize) -> usize {
        HEAD_WORDS + self.slot_words() * slots
    }

    /// Bytes that are always enough for the file of a pool of so many slots, which holds at most eight records for each: 12 for the
    /// first frame, 4 and those of an entry for each record, 4 for the last frame.
    pub const fn file_bytes(self, slots: usize) -> usize {
        12 + (4 + 4 * self.entry_words()) * 8 * slots + 4
    }
}

impl Owner {
    pub const BOTH: [Owner; 2] = [Owner::One, Owner::Two];

    pub const fn other(self) -> Owner {
        match self {
            Owner::One => Owner::Two,
            Owner::Two => Owner::One,
        }
    }
}

/// The edition that a number names, as one that comes from elsewhere; the error is that number.
impl TryFrom<i32> for Edition {
    type Error = i32;

    fn try_from(number: i32) -> Result<Edition, i32> {
        match number {
            1 => Ok(Edition::One),
            2 => Ok(Edition::Two),
            other => Err(other),
        }
    }
}

/// The owner that a number names, as that of a pool's word; the error is that number.
impl TryFrom<i32> for Owner {
    type Error = i32;

    fn try_from(number: i32) -> Result<Owner, i32> {
        match number {
            1 => Ok(Owner::One),
            2 => Ok(Owner::Two),
            other => Err(other),
        }
    }
}
