//! The largest pool, as full as it gets: calls over it, and the time of a search that finds everything.

use crate::both::lend;
use crate::lent::Lent;
use crate::seen::Seen;
use crate::spoil::{garbage_answers, garbage_found, garbage_words};
use crate::tally::Tally;
use dustmap::{Answer, Found, Rect, Request};
use second::dice::Dice;
use second::pool::{entries, pairs_in_leaves, slot_words, Slot};
use second::style::{whole_site, window_within, Style};
use std::time::Instant;

const SLOTS: usize = 4_096;
const BATCH: usize = 1_024;

/// A search that takes longer than this many sorts has something wrong with it; what is usual is printed.
const MOST_SORTS: f64 = 10.0;

/// A pool filled by inserts, through the library alone, until one is refused 7.
pub fn filled(tally: &mut Tally) -> Vec<i32> {
    let mut dice = Dice::new(20_000);
    let mut pool = dustmap::blank_pool(SLOTS).expect("a right number of slots");
    let mut work = pool.clone();
    let mut answers = vec![Answer::default(); BATCH];
    // Eight records in every slot, and no inner node, would be more than any tree holds.
    for _ in 0..8 * SLOTS / BATCH {
        let requests: Vec<Request> = (0..BATCH).map(|_| insert(&mut dice)).collect();
        let number = dustmap::call(&mut pool, &mut work, &requests, &mut answers, &mut []);
        if number != 0 || answers.iter().any(|answer| answer.number == 7) {
            break;
        }
    }
    tally.hold(answers.iter().any(|answer| answer.number == 7), || {
        "filling: never refused 7".into()
    });
    tally.hold(second::sound(&pool), || "filling: the pool left is not sound".into());
    pool
}

fn insert(dice: &mut Dice) -> Request {
    let number = dice.between(1, i64::from(i32::MAX)) as i32;
    Request::insert(number, Rect::from_words(Style::Random.rect(dice).to_words()))
}

/// Batches with requests of every kind over the full pool, made to both programs. There is room for two searches that find everything, and a
/// little more.
pub fn calls(full: &[i32], dice: &mut Dice, tally: &mut Tally, seen: &mut Seen) {
    use second::Request; // and not the library's
    let pairs = pairs_in_leaves(full);
    let everything = whole_site().to_words();
    let mut requests = vec![Request::search(everything), Request::inside(everything)];
    for _ in 0..12 {
        let pair = dice.pick(&pairs);
        let (number, rect) = (pair.number.0 as i32, pair.rect.to_words());
        let part = window_within(&dice.pick(&pairs).rect, dice).to_words();
        let mut fresh = || Style::Random.rect(dice).to_words();
        requests.extend([
            Request::insert(number, fresh()),
            Request::enclosing(rect),
            Request::update(number, rect, fresh()),
            Request::delete(number, rect),
            Request::search(fresh()),
            Request::inside(fresh()),
            Request::enclosing(part),
        ]);
    }
    let lent = Lent {
        pool: full.to_vec(),
        work: garbage_words(dice, full.len()),
        answers: garbage_answers(dice, requests.len()),
        found: garbage_found(dice, 2 * pairs.len() + 60),
        requests,
    };
    lend("the largest pool, full", &lent, tally, seen);
}

/// Prints how a search for everything compares with one sort of what it finds, starting from the order in which a walk meets it. Inside the
/// whole site lies everything that meets it.
pub fn time(full: &[i32], tally: &mut Tally) {
    if !second::sound(full) {
        // That was reported when it was filled, and a walk over it might not end.
        return;
    }
    let mut unsorted = Vec::new();
    walk(full, full[1] as usize, &mut unsorted);
    let everything = Rect::from_words(whole_site().to_words());
    time_search("search", Request::search(everything), full, &unsorted, tally);
    time_search("search inside", Request::search_inside(everything), full, &unsorted, tally);
    if !cfg!(target_arch = "x86_64") {
        println!("left out on this processor: that these are at most {MOST_SORTS} times, since the search runs under an emulator and the sort does not");
    }
}

fn time_search(
    name: &str,
    everything: Request,
    full: &[i32],
    unsorted: &[Found],
    tally: &mut Tally,
) {
    let mut pool = full.to_vec();
    let (mut found, mut sorted) = (vec![Found::default(); unsorted.len()], Vec::new());
    let (mut search, mut nothing, mut sort) = (f64::INFINITY, f64::INFINITY, f64::INFINITY);
    // The least of many, since anything else that runs at the time can only add. They take turns, so that it adds to all three.
    for _ in 0..40 {
        search = search.min(call(&mut pool, &[everything], &mut found));
        nothing = nothing.min(call(&mut pool, &[], &mut []));
        sort = sort.min(sorted_copy(unsorted, &mut sorted));
    }
    let ratio = (search - nothing) / sort;
    println!("a {name} that finds {} records: {search:.0} us", found.len());
    println!("  a call with no request: {nothing:.0} us; the sort of Rust's library: {sort:.0} us");
    println!(
        "  the search, less a call with no request, takes {ratio:.1} times as long as the sort"
    );
    tally.hold(found == sorted, || format!("the {name} for everything: not what a sort gives"));
    if cfg!(target_arch = "x86_64") {
        tally.hold(ratio <= MOST_SORTS, || {
            format!("the {name} for everything: more than {MOST_SORTS} times as long as a sort")
        });
    }
}

/// One call, timed in microseconds; infinite where it is refused, so that the bound fails.
fn call(pool: &mut [i32], requests: &[Request], found: &mut [Found]) -> f64 {
    let mut work = vec![0; pool.len()];
    let mut answers = vec![Answer::default(); requests.len()];
    let began = Instant::now();
    let number = dustmap::call(pool, &mut work, requests, &mut answers, found);
    let took = began.elapsed().as_secs_f64() * 1e6;
    let accepted = number == 0 && answers.iter().all(|answer| answer.number == 0);
    if accepted {
        took
    } else {
        f64::INFINITY
    }
}

fn sorted_copy(unsorted: &[Found], sorted: &mut Vec<Found>) -> f64 {
    *sorted = unsorted.to_vec();
    let began = Instant::now();
    std::hint::black_box(&mut *sorted).sort();
    began.elapsed().as_secs_f64() * 1e6
}

/// The records below a slot, in stored order: the order in which a search meets them.
fn walk(pool: &[i32], slot: usize, records: &mut Vec<Found>) {
    let level = slot_words(pool, Slot(slot))[0];
    for entry in entries(pool, Slot(slot)) {
        if level == 1 {
            records.push(Found { number: entry.pointer, rect: Rect::from_words(entry.rect) });
        } else {
            walk(pool, entry.pointer as usize, records);
        }
    }
}
