//! Pools of edition 2 that are damaged, hostile or measured otherwise than they were made: what the check says of them, what a room, a write and
//! a call of an owner make of them.

use crate::both::lend_as;
use crate::carry::Carrying;
use crate::checks::{ask, pools_of};
use crate::lent::Lent;
use crate::owners_blank::SLOTS_ALIKE;
use crate::room::Asking;
use crate::seen::Seen;
use crate::spoil::{garbage_answers, garbage_found, garbage_words};
use crate::tally::Tally;
use second::damage::damaged_pool_of;
use second::dice::Dice;
use second::edition::OWNERS;
use second::generate::history;
use second::neighbours::{shared_pool, widened};
use second::pool::{blank_pool_of, slot_words, slots_of, Slot};
use second::style::{whole_site, STYLES};
use second::{Edition, Request};

/// Slots, and how many pools of each sort.
const PLAN: [(usize, usize); 5] = [(1, 4), (2, 4), (3, 5), (12, 5), (128, 1)];

/// Pools whose owner words, word 0 and length are changed: slots of each.
const CHANGED: [usize; 10] = [1, 2, 3, 4, 6, 9, 12, 21, 25, 42];

pub fn all(dice: &mut Dice, tally: &mut Tally, seen: &mut Seen) {
    let mut trying = Trying { dice, tally, seen, asked: 0 };
    for (slots, count) in PLAN {
        trying.hostile(slots, count);
    }
    for slots in CHANGED {
        for pool in [trying.drawn(slots), blank_pool_of(Edition::Two, slots)] {
            trying.owner_words(&pool);
            trying.measured_otherwise(&pool);
        }
        trying.said_to_be_edition_2(slots);
    }
    for k in [1, 2, 163] {
        trying.of_both_lengths(k);
    }
}

/// Pools in question.
struct Trying<'a> {
    dice: &'a mut Dice,
    tally: &'a mut Tally,
    seen: &'a mut Seen,
    asked: u64,
}

impl Trying<'_> {
    /// A pool of two owners, filled so that there are inner nodes where there is room for them.
    fn drawn(&mut self, slots: usize) -> Vec<i32> {
        let ((_, style), seed) = (self.dice.pick(&STYLES), self.dice.below(1 << 40));
        shared_pool(style, seed, slots, 6 * slots)
    }

    /// What all four calls make of a pool; nothing may be written where it is refused. The number of the check is held to one that is due.
    fn pool(&mut self, what: &str, pool: &[i32], due: i32) {
        let number = second::check(pool);
        self.tally.hold(number == due, || format!("{what}: {number}, and {due} is due"));
        self.any_pool(what, pool);
    }

    fn any_pool(&mut self, what: &str, pool: &[i32]) {
        ask(what, pool, self.tally, self.seen);
        let mut office =
            Carrying { edition: Edition::Two, dice: self.dice, tally: self.tally, seen: self.seen };
        office.write_any(&format!("a write, {what}"), pool);
        let rect = self.dice.pick(&[[1, 2, 3, 4], [0, 0, 0, 0], [5, 0, 4, 0]]);
        let asked = Dice::new(self.asked);
        let mut asking =
            Asking { dice: asked, calls: self.asked, tally: self.tally, seen: self.seen };
        asking.ask(what, pool, rect);
        self.asked = asking.calls;
        self.call(what, pool);
        self.seen.note(format!("pool: {what}"));
    }

    /// An insert, and searches, by one of the owners.
    fn call(&mut self, what: &str, pool: &[i32]) {
        let everything = whole_site().to_words();
        let requests = vec![
            Request::insert(9, [1, 2, 3, 4]),
            Request::search(everything),
            Request::enclosing([2, 3, 2, 3]),
        ];
        let lent = Lent {
            pool: pool.to_vec(),
            work: garbage_words(self.dice, pool.len()),
            answers: garbage_answers(self.dice, requests.len()),
            found: garbage_found(self.dice, 60),
            requests,
        };
        let owner = self.dice.pick(&OWNERS).number();
        lend_as(&format!("a call, {what}"), &lent, owner, self.tally, self.seen);
    }

    /// The pools of edition 1 that a careless walk would fail at, laid out as edition 2; and damaged ones.
    fn hostile(&mut self, slots: usize, count: usize) {
        for (what, pool) in pools_of(slots, count, self.dice) {
            let wide = widened(&pool, || self.dice.pick(&OWNERS).number());
            self.any_pool(what, &wide);
        }
        for _ in 0..3 * count {
            let pool = damaged_pool_of(Edition::Two, self.dice.below(1 << 40), slots);
            self.any_pool("damaged", &pool);
        }
    }

    /// "an owner, 1 or 2, as a sixth word (zero in inner entries; anything else and the pool isn't sound)": in each sort of entry of a slot of
    /// each level.
    fn owner_words(&mut self, pool: &[i32]) {
        let slots = slots_of(pool).expect("a pool of valid length");
        for level in 0..=pool[2] {
            let of_level = |&s: &Slot| slot_words(pool, s)[0] == level;
            let Some(slot) = (1..=slots).map(Slot).rfind(of_level) else {
                continue;
            };
            let count = slot_words(pool, slot)[1];
            let mut places = vec![0, count - 1, count, 7];
            places.retain(|place| (0..8).contains(place));
            places.dedup();
            for place in places {
                let at = Edition::Two.slot_start(slot) + 2 + 6 * place as usize + 5;
                self.owner_word(pool, at, level, place < count);
            }
        }
    }

    /// The owner's word of an entry of a level, in use or not.
    fn owner_word(&mut self, pool: &[i32], at: usize, level: i32, used: bool) {
        let (what, wrong) = match (level, used) {
            (0, _) => ("an owner in a free slot", [1, 2, -1]),
            (1, true) => ("an owner of a record that is none", [0, 3, i32::MIN]),
            (1, false) => ("an owner in an unused leaf entry", [1, 2, 3]),
            (_, true) => ("an owner in an inner entry", [1, 2, -1]),
            (_, false) => ("an owner in an unused inner entry", [1, 2, 256]),
        };
        let mut changed = pool.to_vec();
        changed[at] = self.dice.pick(&wrong);
        self.pool(what, &changed, 2);
        if (level, used) == (1, true) {
            changed[at] = 3 - pool[at];
            self.pool("a record that goes to the other owner", &changed, 0);
        }
    }

    /// Another word 0, and lengths one off: a pool whose word 0 isn't 2 is measured as edition 1.
    fn measured_otherwise(&mut self, pool: &[i32]) {
        let edition_1 = Edition::One.slots_of(pool.len());
        for word in [1, 0, 3, -1, i32::MIN, 258] {
            let mut changed = pool.to_vec();
            changed[0] = word;
            let due = if edition_1.is_some() { second::check(&changed) } else { 1 };
            self.pool("word 0 was 2", &changed, due);
        }
        for length in [pool.len() - 1, pool.len() + 1, pool.len() + 42, 8, 1, 0] {
            let mut changed = pool.to_vec();
            changed.resize(length, 0);
            let due = if Edition::Two.slots_of(length).is_some() { 0 } else { 1 };
            self.pool("another length", &changed, due);
        }
    }

    /// A pool of edition 1 whose word 0 is made 2, and then what it was.
    fn said_to_be_edition_2(&mut self, slots: usize) {
        let (_, style) = self.dice.pick(&STYLES);
        let mut pool = history(style, self.dice.below(1 << 40), slots, 5 * slots).pool;
        pool[0] = 2;
        let due =
            if Edition::Two.slots_of(pool.len()).is_some() { second::check(&pool) } else { 1 };
        self.pool("word 0 was 1", &pool, due);
        pool[0] = 1;
        self.pool("word 0 is 1 again", &pool, 0);
    }

    /// A length that both editions have: a blank pool of the one is a blank pool of the other with another word 0, and a filled one is not sound.
    fn of_both_lengths(&mut self, k: usize) {
        let (first, second) = (SLOTS_ALIKE.0 * k, SLOTS_ALIKE.1 * k);
        let (_, style) = self.dice.pick(&STYLES);
        for (mut pool, other) in
            [(blank_pool_of(Edition::One, first), 2), (blank_pool_of(Edition::Two, second), 1)]
        {
            self.pool("blank, of a length that both editions have", &pool, 0);
            pool[0] = other;
            self.pool("blank, of a length that both editions have", &pool, 0);
            pool[0] = 3;
            self.pool("blank, of a length that both editions have", &pool, 2);
        }
        let seed = self.dice.below(1 << 40);
        for (mut pool, other) in
            [(history(style, seed, first, 60).pool, 2), (shared_pool(style, seed, second, 60), 1)]
        {
            self.pool("of a length that both editions have", &pool, 0);
            pool[0] = other;
            self.any_pool("of a length that both editions have, with the other word 0", &pool);
        }
    }
}
