//! Every set of faults of a call that is told an owner, in pools of an edition: the first in the order of checks decides, 9, 13, 1, 2, -1. Besides
//! being compared, the number is held to the one that is due.

use crate::both::lend_as;
use crate::history::NO_OWNERS;
use crate::lent::Lent;
use crate::seen::{Seen, CALL_REFUSALS};
use crate::spoil::{garbage_answers, garbage_found, garbage_words};
use crate::tally::Tally;
use second::call::MOST_REQUESTS;
use second::dice::Dice;
use second::edition::OWNERS;
use second::generate::{history, SEARCHES};
use second::neighbours::shared_pool;
use second::style::{whole_site, STYLES};
use second::{Edition, Request};

/// Ways to make each set of faults: so many requests that are right, and a kind that is none.
const WAYS: [(usize, i32); 4] = [(0, 0), (1, 7), (2, -1), (3, i32::MIN)];

/// Each of these owners that are none has to be refused.
pub const REFUSED_OWNERS: [i32; 4] = [0, 3, -1, i32::MIN];

pub fn all(edition: Edition, dice: &mut Dice, tally: &mut Tally, seen: &mut Seen) {
    for set in 0..1 << CALL_REFUSALS.len() {
        let in_set = |place: &usize| set >> place & 1 == 1;
        let faults: Vec<i32> =
            (0..CALL_REFUSALS.len()).filter(in_set).map(|place| CALL_REFUSALS[place]).collect();
        for way in WAYS {
            with(edition, &faults, way, dice, tally, seen);
        }
    }
    for owner in REFUSED_OWNERS.into_iter().chain(NO_OWNERS) {
        let lent = Call::drawn(edition, WAYS[3], dice).lists(&[], dice);
        let number = lend_as("an owner that is none", &lent, owner, tally, seen).number;
        tally.hold(number == 13, || format!("owner {owner}: {number}, and 13 is due"));
        seen.note(format!("13 for owner {owner}"));
    }
}

/// A call with these faults and no others.
fn with(
    edition: Edition,
    faults: &[i32],
    way: (usize, i32),
    dice: &mut Dice,
    tally: &mut Tally,
    seen: &mut Seen,
) {
    let lent = Call::drawn(edition, way, dice).lists(faults, dice);
    let owner = match faults.contains(&13) {
        true => dice.pick(&NO_OWNERS),
        false => dice.pick(&OWNERS).number(),
    };
    let what = format!("faults {faults:?} in edition {}", edition.number());
    let number = lend_as(&what, &lent, owner, tally, seen).number;
    let due = faults.first().copied().unwrap_or(0);
    tally.hold(number == due, || format!("{what}, owner {owner}: {number}, and {due} is due"));
    if lent.requests.is_empty() {
        seen.note(format!("batch of 0, {number}"));
    }
}

/// A pool and a batch that are right.
struct Call {
    pool: Vec<i32>,
    requests: Vec<Request>,
    /// What is pushed where a kind that is none is asked for.
    no_kind: i32,
}

impl Call {
    fn drawn(edition: Edition, (requests, no_kind): (usize, i32), dice: &mut Dice) -> Call {
        let ((_, style), slots) = (dice.pick(&STYLES), dice.between(1, 4) as usize);
        let (seed, count) = (dice.below(1 << 40), dice.below(30) as usize);
        let pool = match edition {
            Edition::One => history(style, seed, slots, count).pool,
            Edition::Two => shared_pool(style, seed, slots, count),
        };
        let search = dice.pick(&SEARCHES)(whole_site().to_words());
        let all = [Request::insert(9, [1, 2, 3, 4]), search, Request::delete(9, [1, 2, 3, 4])];
        Call { pool, requests: all[..requests].to_vec(), no_kind }
    }

    /// The lists of the call, with faults. What is wrong with the pool is not the fault of its length, and the other way round.
    fn lists(mut self, faults: &[i32], dice: &mut Dice) -> Lent {
        let has = |fault| faults.contains(&fault);
        if has(-1) {
            self.requests.push(Request { kind: self.no_kind, ..Request::search([0; 4]) });
        }
        if has(2) {
            self.spoil_pool(dice);
        }
        let words = self.pool.len();
        let mut work = words;
        if has(1) {
            work = self.spoil_lengths(dice);
        }
        let mut answers = self.requests.len();
        if has(9) {
            answers = self.spoil_batch(dice);
        }
        Lent {
            work: garbage_words(dice, work),
            answers: garbage_answers(dice, answers),
            found: garbage_found(dice, 40),
            requests: self.requests,
            pool: self.pool,
        }
    }

    /// A word of the head; in edition 1 also a word 0 that no edition has. That of edition 2 stays, since by any other the pool would be measured
    /// as edition 1, and its length would be the fault.
    fn spoil_pool(&mut self, dice: &mut Dice) {
        let records = self.pool[3];
        let (place, word) = dice.pick(&[(3, records + 1), (3, -1), (7, 1), (4, 1), (2, 0), (1, 0)]);
        self.pool[place] = word;
        if Edition::of(&self.pool) == Edition::One && dice.chance(30) {
            self.pool[0] = dice.pick(&[0, 3, -1, i32::MIN]);
        }
    }

    /// A pool or a workspace of another length, also of the other edition's. Gives the workspace's.
    fn spoil_lengths(&mut self, dice: &mut Dice) -> usize {
        let (words, edition) = (self.pool.len(), Edition::of(&self.pool));
        let other = if edition == Edition::One { Edition::Two } else { Edition::One };
        let slots = edition.slots_of(words).expect("a pool of valid length");
        let wrong = dice.pick(&[words - 1, words + 1, other.words(slots), 8, 1]);
        if dice.chance(50) {
            return wrong;
        }
        self.pool.resize(wrong, 0);
        // The same fault twice is still the fault of the lengths.
        dice.pick(&[wrong, wrong, words])
    }

    /// An answer list of another length, or too many requests. Gives the answer list's.
    fn spoil_batch(&mut self, dice: &mut Dice) -> usize {
        let length = self.requests.len();
        if dice.chance(70) {
            return dice.pick(&[length + 1, length + 7, length.checked_sub(1).unwrap_or(1)]);
        }
        let one = self.requests.first().copied().unwrap_or(Request::search([0; 4]));
        self.requests.resize(MOST_REQUESTS + 1, one);
        MOST_REQUESTS + 1
    }
}
