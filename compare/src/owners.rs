//! "The neighbour's carts" (document 02, Req 07): pools of edition 2, which two owners share, and the calls that are told an owner or an
//! edition. What is met of pools of edition 1 by the call that is told an owner has names of its own, and so has what is met of edition 2.

use crate::both::lend_as;
use crate::carry::Carrying;
use crate::checks;
use crate::histories;
use crate::lent::Lent;
use crate::owners_apart;
use crate::owners_blank;
use crate::owners_calls;
use crate::owners_files;
use crate::owners_pools;
use crate::owners_rooms;
use crate::scripts;
use crate::seen::Seen;
use crate::spoil::{garbage_answers, garbage_found, garbage_words};
use crate::tally::Tally;
use crate::twice;
use second::carry::{distinct_records, record_words};
use second::dice::Dice;
use second::edition::{MOST_SLOTS, OWNERS};
use second::files_kept::{bytes_of, frames_of_edition};
use second::neighbours::widened;
use second::style::{whole_site, Style};
use second::{records_in_leaves, Edition, Owner, Request};
use std::time::Instant;

/// Edition 1 pools, "served on, for owners 1 and 2 alike", by the call that is told an owner.
pub const ALIKE: &str = "alike: ";

/// Edition 2 pools.
pub const SHARED: &str = "shared: ";

/// A round of both parts.
pub fn all(seed: u64, tally: &mut Tally, seen: &mut Seen) {
    let (mut dice, began) = (Dice::new(seed ^ 0x0007), Instant::now());
    seen.part(ALIKE, |seen| {
        histories::alike(seed, tally, seen);
        owners_calls::all(Edition::One, &mut dice, tally, seen);
    });
    seen.part(SHARED, |seen| {
        owners_blank::all(&mut dice, tally, seen);
        scripts::shared(tally, seen);
        histories::shared(seed, tally, seen);
        twice::shared(&mut dice, tally, seen);
        owners_calls::all(Edition::Two, &mut dice, tally, seen);
        owners_pools::all(&mut dice, tally, seen);
        owners_rooms::all(&mut dice, tally, seen);
        owners_apart::all(&mut dice, tally, seen);
        owners_files::all(&mut Carrying { edition: Edition::Two, dice: &mut dice, tally, seen });
    });
    println!("the calls of owners, made to both programs: {} ms", began.elapsed().as_millis());
}

/// The largest pool, as full as it gets, laid out for two owners: each searches for everything and changes a few records of its own; and the
/// map is written to a file.
pub fn largest(full: &[i32], dice: &mut Dice, tally: &mut Tally, seen: &mut Seen) {
    if !second::sound(full) {
        // That was reported when it was filled.
        return;
    }
    let mut pool = widened(full, || dice.pick(&OWNERS).number());
    seen.part(SHARED, |seen| {
        checks::ask("the largest pool", &pool, tally, seen);
        for owner in OWNERS {
            let lent = over_the_largest(&pool, owner, dice);
            let left = lend_as("the largest pool", &lent, owner.number(), tally, seen);
            pool = left.lent.pool;
        }
        let mut office = Carrying { edition: Edition::Two, dice, tally, seen };
        office.written("the largest pool, carried", &pool);
        // As many of its records as make a file of a moderate length; there is room for more.
        let records: Vec<Vec<i32>> =
            distinct_records(&pool).iter().step_by(15).map(record_words).collect();
        let part = bytes_of(&frames_of_edition(Edition::Two, &records));
        office.due("read into the largest pool", 0, MOST_SLOTS, &part);
    });
}

/// A search for everything, which has just enough places, and requests about records of the owner and of the other.
fn over_the_largest(pool: &[i32], owner: Owner, dice: &mut Dice) -> Lent {
    let records = records_in_leaves(pool);
    let own = records.iter().filter(|record| record.owner == Some(owner)).count();
    let mut requests = vec![Request::search(whole_site().to_words())];
    for _ in 0..4 {
        let pair = dice.pick(&records).pair;
        let (number, rect) = (pair.number.0 as i32, pair.rect.to_words());
        let mut fresh = || Style::Random.rect(dice).to_words();
        requests.extend([
            Request::insert(number, rect),
            Request::update(number, rect, fresh()),
            Request::insert(number, fresh()),
            Request::delete(number, rect),
        ]);
    }
    Lent {
        pool: pool.to_vec(),
        work: garbage_words(dice, pool.len()),
        answers: garbage_answers(dice, requests.len()),
        found: garbage_found(dice, own),
        requests,
    }
}
