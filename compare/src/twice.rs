//! Pools that hold a pair twice. "Soundness doesn't ask that pairs differ": no requests make such a pool from blank, but one
//! may be lent. In a pool of edition 2 one owner may hold it twice, and the other once more.

use crate::both::{lend, lend_as};
use crate::carry::Carrying;
use crate::lent::{Left, Lent};
use crate::seen::{kind_name, Seen};
use crate::spoil::{garbage_answers, garbage_found, garbage_words};
use crate::tally::Tally;
use second::call::{DELETE, INSERT, UPDATE};
use second::dice::Dice;
use second::edition::OWNERS;
use second::files_kept::pool_holding;
use second::generate::{pair_of, SEARCHES};
use second::neighbours::widened;
use second::pool::{slots_of, Slot};
use second::script::blank_pool;
use second::style::whole_site;
use second::{call, records_in_leaves, Answer, Edition, Owned, Owner, Request};

const CALLS: usize = 10;
const SIZES: [usize; 9] = [1, 2, 3, 4, 5, 6, 7, 12, 40];
const POOLS_OF_A_SIZE: usize = 10;
const SHARED_POOLS_OF_A_SIZE: usize = 3;

/// Short histories that start from such pools, of several sizes.
pub fn all(dice: &mut Dice, tally: &mut Tally, seen: &mut Seen) {
    for slots in SIZES {
        for _ in 0..POOLS_OF_A_SIZE {
            history(doubled(dice, slots), dice, tally, seen);
        }
    }
}

/// The same of two owners.
pub fn shared(dice: &mut Dice, tally: &mut Tally, seen: &mut Seen) {
    for slots in SIZES {
        for _ in 0..SHARED_POOLS_OF_A_SIZE {
            let pool = doubled(dice, slots);
            let pool = widened(&pool, || dice.pick(&OWNERS).number());
            history(pool, dice, tally, seen);
        }
    }
    for owner in OWNERS {
        of_one_owner(owner, dice, tally, seen);
    }
}

/// One owner holds a pair twice, and another pair of the same number once; the other holds both. Each request is a call of its own.
fn of_one_owner(owner: Owner, dice: &mut Dice, tally: &mut Tally, seen: &mut Seen) {
    let (own, other) = (owner.number(), owner.other().number());
    let held = [[own, 1, 0, 0, 5, 5], [other, 1, 0, 0, 5, 5], [other, 1, 7, 7, 9, 9]];
    let pool = pool_holding(1, &[held[1], held[0], held[2], [own, 1, 7, 7, 9, 9], held[0]]);
    let (twice, once) = ([0, 0, 5, 5], [7, 7, 9, 9]);
    let requests = [
        Request::update(1, once, twice),
        Request::insert(1, twice),
        Request::delete(1, twice),
        Request::update(1, twice, [1, 1, 2, 2]),
    ];
    for request in requests.into_iter().chain(SEARCHES.map(|search| search(twice))) {
        call_over(
            "a pair held twice by one owner",
            &pool,
            vec![request],
            Some(owner),
            dice,
            tally,
            seen,
        );
    }
}

fn history(mut pool: Vec<i32>, dice: &mut Dice, tally: &mut Tally, seen: &mut Seen) {
    let (edition, slots) = (Edition::of(&pool), slots_of(&pool).expect("a pool of valid length"));
    let title = format!("pairs held twice, {slots} slots, edition {}", edition.number());
    tally.hold(dustmap::check(&pool) == 0, || format!("{title}: not sound"));
    Carrying { edition, dice, tally, seen }.round_trip(&title, &pool);
    for _ in 0..CALLS {
        let owner = (edition == Edition::Two).then(|| dice.pick(&OWNERS));
        pool = step(&title, pool, owner, dice, tally, seen);
    }
}

/// Records with a number each and rectangles from a few, which are then all given the number 1 or 2: soundness asks of a
/// number only that it is 1 or more.
fn doubled(dice: &mut Dice, slots: usize) -> Vec<i32> {
    let mut pool = blank_pool(slots);
    let side = dice.between(1, 3);
    let count = dice.between(4, slots as i64 * 8) as i32;
    let inserts: Vec<Request> =
        (1..=count).map(|number| Request::insert(number, square(dice, side))).collect();
    let (mut work, mut answers) = (pool.clone(), vec![Answer::default(); inserts.len()]);
    call(&mut pool, &mut work, &inserts, &mut answers, &mut []);
    let numbers = dice.pick(&[1, 1, 2]);
    for at in (1..=slots).map(|s| Edition::One.slot_start(Slot(s))) {
        let records = if pool[at] == 1 { pool[at + 1] as usize } else { 0 };
        for entry in pool[at + 2..].chunks_exact_mut(5).take(records) {
            entry[4] = 1 + entry[4] % numbers;
        }
    }
    pool
}

/// A square of a grid of touching squares, with so many on each side.
fn square(dice: &mut Dice, side: i64) -> [i32; 4] {
    let (x, y) = (dice.below(side as u64) as i32 * 10, dice.below(side as u64) as i32 * 10);
    [x, y, x + 10, y + 10]
}

/// A batch over the records that are in the pool, by an owner where they have owners.
fn step(
    title: &str,
    pool: Vec<i32>,
    owner: Option<Owner>,
    dice: &mut Dice,
    tally: &mut Tally,
    seen: &mut Seen,
) -> Vec<i32> {
    let records = records_in_leaves(&pool);
    let size = dice.between(1, 6) as usize;
    let requests: Vec<Request> = (0..size).map(|_| draw(dice, &records)).collect();
    call_over(title, &pool, requests, owner, dice, tally, seen)
}

/// These requests over a pool. What is left of it comes back.
fn call_over(
    title: &str,
    pool: &[i32],
    requests: Vec<Request>,
    owner: Option<Owner>,
    dice: &mut Dice,
    tally: &mut Tally,
    seen: &mut Seen,
) -> Vec<i32> {
    let places = 10 * slots_of(pool).expect("a pool of valid length");
    let lent = Lent {
        work: garbage_words(dice, pool.len()),
        answers: garbage_answers(dice, requests.len()),
        found: garbage_found(dice, places),
        requests,
        pool: pool.to_vec(),
    };
    let left = match owner {
        None => lend(title, &lent, tally, seen),
        Some(owner) => lend_as(title, &lent, owner.number(), tally, seen),
    };
    note(&lent, &left, owner, &records_in_leaves(pool), seen);
    left.lent.pool
}

/// A request, mostly about a pair that is there.
fn draw(dice: &mut Dice, records: &[Owned]) -> Request {
    let words = |Owned { pair: p, .. }: Owned| (p.number.0 as i32, p.rect.to_words());
    let fresh = (dice.between(1, 3) as i32, square(dice, 4));
    let mut any =
        || if records.is_empty() || dice.chance(15) { fresh } else { words(dice.pick(records)) };
    let ((number, rect), (_, other)) = (any(), any());
    match dice.below(8) {
        0 | 1 => Request::insert(fresh.0, fresh.1),
        2 => Request::insert(number, rect),
        3 | 4 => Request::delete(number, rect),
        5 => Request::update(number, rect, dice.pick(&[other, rect, fresh.1])),
        6 => dice.pick(&SEARCHES)(rect),
        _ => dice.pick(&SEARCHES)(dice.pick(&[whole_site().to_words(), middle(rect)])),
    }
}

/// The point in the middle of a rectangle.
fn middle([low_x, low_y, high_x, high_y]: [i32; 4]) -> [i32; 4] {
    let (x, y) = ((low_x + high_x) / 2, (low_y + high_y) / 2);
    [x, y, x, y]
}

/// What a call met of pairs that its owner held twice when it began: the first request that names one, and any search that shows one.
fn note(lent: &Lent, left: &Left, owner: Option<Owner>, before: &[Owned], seen: &mut Seen) {
    let Some((request, answer)) = lent.requests.iter().zip(&left.lent.answers).next() else {
        return;
    };
    let held_twice = |number: i32, rect: [i32; 4]| {
        let own = Owned { owner, pair: pair_of(number, rect) };
        before.iter().filter(|&&record| record == own).count() > 1
    };
    let (old, new) =
        (held_twice(request.number, request.first), held_twice(request.number, request.second));
    match (request.kind, answer.number) {
        (INSERT, 6) if old => seen.note("pair held twice: insert 6"),
        (DELETE, 0) if old => seen.note("pair held twice: one deleted"),
        (UPDATE, 0) if old => seen.note("pair held twice: one updated"),
        (UPDATE, 6) if new => seen.note("pair held twice: update 6"),
        (_, 0) if twice_in(left, answer.found as usize) => {
            seen.note(format!("pair held twice: found by {}", kind_name(request)));
        }
        _ => (),
    }
}

/// Whether the first search shows a pair twice: in found order equal pairs are side by side.
fn twice_in(left: &Left, found: usize) -> bool {
    left.lent.found[..found].windows(2).any(|w| w[0] == w[1])
}
