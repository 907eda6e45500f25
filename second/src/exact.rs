//! "the double's exact value defined as a whole fraction from its bits"
//!
//! The smallest double above zero is 2^-1074, and every finite double is a whole number of it.
//! So a value is kept as that whole number, over 2^1074: one large integer, with room for the
//! largest double. Nothing here is rounded but where floor or ceiling is asked for.

use std::cmp::Ordering;

/// Words of 64 bits, 2,112 bits in all. The largest double is less than 2^1024, which is 2^2098
/// units, so sums of a few doubles have room too.
const WORDS: usize = 33;

/// 2^1074 units make one.
const UNIT_PLACES: usize = 1_074;

/// A double has 52 bits of fraction; one that is not subnormal has a 1 before them.
const FRACTION_PLACES: u32 = 52;

/// The exponent of NaNs and infinities: all eleven bits.
const NO_VALUE: u64 = 0x7FF;

/// A whole number of units of 2^-1074, as two's complement, the lowest word first.
#[derive(Clone, Copy, Debug, PartialEq, Eq)]
pub struct Exact {
    words: [u64; WORDS],
}

impl Exact {
    /// The value of a double. A NaN and an infinity have none. Both zeros are 0.
    pub fn of(double: f64) -> Option<Exact> {
        let bits = double.to_bits();
        let before_fraction = 1 << FRACTION_PLACES;
        let fraction = bits % before_fraction;
        let size = match (bits >> FRACTION_PLACES) & NO_VALUE {
            NO_VALUE => return None,
            // Zeros and subnormals: so many units.
            0 => Exact::shifted(fraction, 0),
            // The least exponent, 1, has the units of the subnormals; each further one doubles.
            exponent => Exact::shifted(before_fraction + fraction, exponent as usize - 1),
        };
        let negative = bits >> 63 == 1;
        Some(if negative { size.negated() } else { size })
    }

    pub fn whole(number: i64) -> Exact {
        let size = Exact::shifted(number.unsigned_abs(), UNIT_PLACES);
        if number < 0 {
            size.negated()
        } else {
            size
        }
    }

    /// So many units, doubled so many times: at most 2,045 times, for the largest doubles.
    fn shifted(units: u64, places: usize) -> Exact {
        let (word, within) = (places / 64, places % 64);
        let wide = u128::from(units) << within;
        let mut words = [0; WORDS];
        words[word] = wide as u64;
        words[word + 1] = (wide >> 64) as u64;
        Exact { words }
    }

    pub fn plus(&self, other: &Exact) -> Exact {
        let mut carry = 0;
        let words = std::array::from_fn(|place| {
            let sum = u128::from(self.words[place]) + u128::from(other.words[place]) + carry;
            carry = sum >> 64;
            sum as u64
        });
        Exact { words }
    }

    /// Two's complement: every bit turned, and one unit more.
    pub fn negated(&self) -> Exact {
        Exact { words: self.words.map(|word| !word) }.plus(&Exact::shifted(1, 0))
    }

    pub fn minus(&self, other: &Exact) -> Exact {
        self.plus(&other.negated())
    }

    /// "the largest whole number not above it": in two's complement the places below the whole
    /// ones only ever add, for negative numbers too, so they are cleared.
    pub fn floor(&self) -> Exact {
        let mut words = self.words;
        words[..UNIT_PLACES / 64].fill(0);
        words[UNIT_PLACES / 64] &= u64::MAX << (UNIT_PLACES % 64);
        Exact { words }
    }

    /// "the smallest not below": the floor, seen from the other side of zero.
    pub fn ceiling(&self) -> Exact {
        self.negated().floor().negated()
    }

    pub fn is_negative(&self) -> bool {
        self.highest() < 0
    }

    /// Whether it is further from zero than a limit.
    pub fn beyond(&self, limit: i64) -> bool {
        *self > Exact::whole(limit) || *self < Exact::whole(-limit)
    }

    /// As a word, if it is a whole number that fits one.
    pub fn to_word(&self) -> Option<i32> {
        let place = UNIT_PLACES / 64;
        let wide = u128::from(self.words[place + 1]) << 64 | u128::from(self.words[place]);
        let number = (wide >> (UNIT_PLACES % 64)) as u64 as i64;
        let word = i32::try_from(number).ok()?;
        (*self == Exact::whole(number)).then_some(word)
    }

    /// The word that has the sign.
    fn highest(&self) -> i64 {
        self.words[WORDS - 1] as i64
    }
}

impl Ord for Exact {
    fn cmp(&self, other: &Exact) -> Ordering {
        let downward = |exact: &Exact| exact.words.into_iter().rev();
        // Once the signs are equal, the words compare as they are.
        let signs = other.is_negative().cmp(&self.is_negative());
        signs.then_with(|| downward(self).cmp(downward(other)))
    }
}

impl PartialOrd for Exact {
    fn partial_cmp(&self, other: &Exact) -> Option<Ordering> {
        Some(self.cmp(other))
    }
}
