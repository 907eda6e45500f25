//! The three modes of a search over the same windows. Besides being compared, what is listed is held to the words of document 02 themselves,
//! asked of the four words of a rectangle: what meeting lists says what inside and enclosing have to list, and all three open as many nodes.

use crate::both::lend;
use crate::lent::Lent;
use crate::pools::sound_pool;
use crate::seen::Seen;
use crate::spoil::{garbage_answers, garbage_found, garbage_words};
use crate::tally::Tally;
use second::call::MOST_REQUESTS;
use second::dice::Dice;
use second::generate::SEARCHES as MODES;
use second::pool::{pairs_in_leaves, Pair};
use second::style::{whole_site, window_one_off, window_within};
use second::{joint_cover, Answer, Found, Request};
use std::ops::RangeInclusive;

/// Where the sides of records are on each axis, and where those of windows are: before, at, between and after those of a record, so that
/// on each axis a record lies to a window in every way there is.
const RECORDS: RangeInclusive<i32> = 0..=3;
const WINDOWS: RangeInclusive<i32> = -1..=4;

/// Slots of the pools that windows are drawn about, pools of each size, and windows for each.
const SLOTS: [usize; 6] = [1, 2, 3, 6, 12, 40];
const POOLS_OF_A_SIZE: usize = 6;
const WINDOWS_OF_A_POOL: usize = 30;

/// Every way to lie, and windows about the records of pools that histories left.
pub fn all(dice: &mut Dice, tally: &mut Tally, seen: &mut Seen) {
    every_way(dice, tally, seen);
    for slots in SLOTS {
        for _ in 0..POOLS_OF_A_SIZE {
            let pool = sound_pool(dice, slots, slots as i64 * 9);
            let pairs = pairs_in_leaves(&pool);
            let windows: Vec<_> = (0..WINDOWS_OF_A_POOL).map(|_| about(dice, &pairs)).collect();
            ask(&format!("modes, {slots} slots"), &pool, &windows, dice, tally, seen);
        }
    }
}

/// A pool with every record that has its sides at a few places, and every window of a few more.
fn every_way(dice: &mut Dice, tally: &mut Tally, seen: &mut Seen) {
    let mut pool = dustmap::blank_pool(60).expect("slots are 1 to 4,096");
    let mut work = pool.clone();
    let record = |rect| dustmap::Request::insert(7, dustmap::Rect::from_words(rect));
    let inserts: Vec<_> = rectangles(RECORDS).into_iter().map(record).collect();
    let mut answers = vec![dustmap::Answer::default(); inserts.len()];
    dustmap::call(&mut pool, &mut work, &inserts, &mut answers, &mut []);
    let held = pairs_in_leaves(&pool).len();
    tally.hold(held == inserts.len(), || format!("modes: {held} records are held"));
    for windows in rectangles(WINDOWS).chunks(MOST_REQUESTS / MODES.len()) {
        ask("modes, every way to lie", &pool, windows, dice, tally, seen);
    }
    seen.note("every way for a record to lie to a window");
}

/// Every rectangle with its sides at these places.
fn rectangles(places: RangeInclusive<i32>) -> Vec<[i32; 4]> {
    let from = |low: i32| (low..=*places.end()).map(move |high| (low, high));
    let spans: Vec<(i32, i32)> = places.clone().flat_map(from).collect();
    let all_y = |&(low_x, high_x): &(i32, i32)| {
        spans.iter().map(move |&(low_y, high_y)| [low_x, low_y, high_x, high_y])
    };
    spans.iter().flat_map(all_y).collect()
}

/// One of the records, one but for a side, a part of one, or what holds two.
fn about(dice: &mut Dice, pairs: &[Pair]) -> [i32; 4] {
    if pairs.is_empty() {
        return whole_site().to_words();
    }
    let (one, other) = (dice.pick(pairs).rect, dice.pick(pairs).rect);
    let window = match dice.below(4) {
        0 => one,
        1 => window_one_off(&one, dice),
        2 => window_within(&one, dice),
        _ => joint_cover(&one, &other),
    };
    window.to_words()
}

/// A search of each mode over each window, in one call, with room for all.
fn ask(
    title: &str,
    pool: &[i32],
    windows: &[[i32; 4]],
    dice: &mut Dice,
    tally: &mut Tally,
    seen: &mut Seen,
) {
    let all_modes = |&window: &[i32; 4]| MODES.map(|mode| mode(window));
    let requests: Vec<Request> = windows.iter().flat_map(all_modes).collect();
    let lent = Lent {
        pool: pool.to_vec(),
        work: garbage_words(dice, pool.len()),
        answers: garbage_answers(dice, requests.len()),
        found: garbage_found(dice, requests.len() * pairs_in_leaves(pool).len()),
        requests,
    };
    let left = lend(title, &lent, tally, seen).lent;
    for (window, answers) in windows.iter().zip(left.answers.chunks_exact(MODES.len())) {
        let fault = fault(window, answers, &left.found);
        tally.hold(fault.is_none(), || format!("{title}, {window:?}: {}", fault.unwrap_or("")));
    }
}

/// What is wrong with what the three modes found. "Equal counts as inside and as enclosing", and "All modes open the nodes whose cover
/// meets the window".
fn fault(window: &[i32; 4], answers: &[Answer], found: &[Found]) -> Option<&'static str> {
    let [meeting, inside, enclosing] = answers else {
        return Some("not three answers");
    };
    if answers.iter().any(|a| a.number != 0 || a.opened != meeting.opened) {
        return Some("a mode was refused, or opened other nodes");
    }
    let listed = |a: &Answer| &found[a.start as usize..][..a.found as usize];
    let those = |so: &dyn Fn(&[i32; 4]) -> bool| {
        let so = |f: &&Found| so(&[f.low_x, f.low_y, f.high_x, f.high_y]);
        listed(meeting).iter().filter(so).copied().collect::<Vec<Found>>()
    };
    if listed(inside) != those(&|record| lies_in(record, window)) {
        return Some("inside lists others than those inside");
    }
    if listed(enclosing) != those(&|record| lies_in(window, record)) {
        return Some("enclosing lists others than those that enclose");
    }
    None
}

/// Whether no side of the first is beyond the same side of the second.
fn lies_in(first: &[i32; 4], second: &[i32; 4]) -> bool {
    second[0] <= first[0] && second[1] <= first[1] && first[2] <= second[2] && first[3] <= second[3]
}
