//! "Take two histories of batches from blank edition 2 pools of one length with the same batches, lists and workspaces lent for owner 1, and no
//! request refused 7: owner 1's answers and found lists are the same." Every call is made to both programs, and then the histories are held to
//! each other.

use crate::both::lend_as;
use crate::lent::Lent;
use crate::seen::Seen;
use crate::spoil::{garbage_answers, garbage_found, garbage_words};
use crate::tally::Tally;
use second::dice::Dice;
use second::edition::OWNERS;
use second::neighbours::Neighbours;
use second::pool::blank_pool_of;
use second::style::{Style, STYLES};
use second::{Answer, Edition, Found, Owner, Request};

/// Slots of the pools, and how many records each owner mostly has, in slots. The second are small enough for some requests to be refused 7.
const SIZES: [(usize, usize); 2] = [(30, 5), (4, 2)];

/// Batches of owner 1 in each history.
const BATCHES: usize = 6;

/// What owner 2 does between the batches of owner 1.
#[derive(Clone, Copy, Debug)]
enum Neighbour {
    Idle,
    /// The same requests.
    Alike,
    /// Requests of its own.
    Busy,
}

const NEIGHBOURS: [Neighbour; 4] =
    [Neighbour::Idle, Neighbour::Alike, Neighbour::Busy, Neighbour::Busy];

pub fn all(dice: &mut Dice, tally: &mut Tally, seen: &mut Seen) {
    for (slots, each) in SIZES {
        for (name, style) in STYLES {
            let seed = dice.below(1 << 40);
            let mut trial = Trial {
                title: format!("apart, {name}, {slots} slots, seed {seed}"),
                slots,
                own: own_batches(style, seed, slots, each, dice),
                given: Vec::new(),
            };
            for (which, neighbour) in NEIGHBOURS.into_iter().enumerate() {
                let seed = seed.wrapping_add(1 + which as u64);
                let others = Neighbours::new(Edition::Two, style, seed, each);
                trial.history(neighbour, others, dice, tally, seen);
            }
            trial.held_together(tally, seen);
        }
    }
}

/// The lists of a batch of owner 1, all but the pool.
fn own_batches(style: Style, seed: u64, slots: usize, each: usize, dice: &mut Dice) -> Vec<Lent> {
    let mut neighbours = Neighbours::new(Edition::Two, style, seed, each);
    let (mut pool, mut batches) = (blank_pool_of(Edition::Two, slots), Vec::new());
    for _ in 0..BATCHES {
        let size = dice.between(1, 14) as usize;
        let requests: Vec<Request> =
            (0..size).map(|_| neighbours.step(&mut pool, Owner::One)).collect();
        let places = dice.below(40) as usize;
        batches.push(Lent {
            pool: Vec::new(),
            work: garbage_words(dice, pool.len()),
            answers: garbage_answers(dice, size),
            found: garbage_found(dice, places),
            requests,
        });
    }
    batches
}

/// Histories of one length with the same batches of owner 1.
struct Trial {
    title: String,
    slots: usize,
    own: Vec<Lent>,
    /// Of each history what came back to owner 1 and the requests of owner 2; none where a request was refused 7.
    given: Vec<Option<Given>>,
}

#[derive(Default)]
struct Given {
    own: Vec<(i32, Vec<Answer>, Vec<Found>)>,
    others: usize,
}

impl Trial {
    fn history(
        &mut self,
        neighbour: Neighbour,
        mut others: Neighbours,
        dice: &mut Dice,
        tally: &mut Tally,
        seen: &mut Seen,
    ) {
        let mut pool = blank_pool_of(Edition::Two, self.slots);
        let (mut given, mut refused_7) = (Given::default(), false);
        let title = format!("{}, {neighbour:?}", self.title);
        for own in &self.own {
            for owner in OWNERS {
                let lent = match owner {
                    Owner::One => Lent { pool: pool.clone(), ..own.clone() },
                    Owner::Two => beside(neighbour, own, &mut others, &pool, dice),
                };
                let left = lend_as(&title, &lent, owner.number(), tally, seen);
                tally.hold(left.number == 0, || format!("{title}: refused {}", left.number));
                refused_7 |= left.lent.answers.iter().any(|answer| answer.number == 7);
                match owner {
                    Owner::One => {
                        given.own.push((left.number, left.lent.answers, left.lent.found));
                    }
                    Owner::Two => given.others += lent.requests.len(),
                }
                pool = left.lent.pool;
            }
        }
        self.given.push((!refused_7).then_some(given));
    }

    /// Each two of the histories in which nothing was refused 7.
    fn held_together(&self, tally: &mut Tally, seen: &mut Seen) {
        for (place, first) in self.given.iter().enumerate() {
            for second in &self.given[place + 1..] {
                let (Some(first), Some(second)) = (first, second) else {
                    seen.note("pair of histories of which one met 7");
                    continue;
                };
                let same = first.own == second.own;
                tally.hold(same, || format!("{}: owner 1 sees what owner 2 did", self.title));
                seen.note("pair of histories that owner 1 cannot tell apart");
                let found = first.own.iter().any(|(_, answers, _)| {
                    answers.iter().any(|answer| answer.number == 0 && answer.found > 0)
                });
                let eight =
                    first.own.iter().any(|(_, answers, _)| answers.iter().any(|a| a.number == 8));
                let apart = first.others != second.others;
                seen.note_those([
                    ("such a pair, with records found", found),
                    ("such a pair, with a search refused 8", eight),
                    ("such a pair, of which the other owner made more requests in one", apart),
                ]);
            }
        }
    }
}

/// A batch of owner 2 over the pool that a batch of owner 1 left.
fn beside(
    neighbour: Neighbour,
    own: &Lent,
    others: &mut Neighbours,
    pool: &[i32],
    dice: &mut Dice,
) -> Lent {
    let mut copy = pool.to_vec();
    let requests: Vec<Request> = match neighbour {
        Neighbour::Idle => Vec::new(),
        Neighbour::Alike => own.requests.clone(),
        Neighbour::Busy => {
            (0..dice.between(0, 12)).map(|_| others.step(&mut copy, Owner::Two)).collect()
        }
    };
    Lent {
        pool: pool.to_vec(),
        work: garbage_words(dice, pool.len()),
        answers: garbage_answers(dice, requests.len()),
        found: garbage_found(dice, 20),
        requests,
    }
}
