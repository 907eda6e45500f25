//! Survey queries: the window that the library gives for a point, box or disc in doubles, or 12, against the second program's.

use crate::both::lend;
use crate::lent::Lent;
use crate::pools::sound_pool;
use crate::seen::{kind_name, Seen};
use crate::spoil::{garbage_answers, garbage_found, garbage_words};
use crate::tally::Tally;
use second::dice::Dice;
use second::generate::SEARCHES as MODES;
use second::pool::{pairs_in_leaves, Pair};
use second::queries::{double, drawn, kept, line, stepped};
use second::survey::{window, window_or_causes, Query, BAD_SURVEY};
use second::Request;
use std::time::Instant;

/// Queries drawn in a round, and queries of any bits at all.
const DRAWN: usize = 160_000;
const OF_ANY_BITS: usize = 40_000;

/// Fewer calls than this in a round would say that something was left out.
const LEAST_CALLS: u64 = 300_000;

/// Neighbours are taken up to so many steps on each side.
const STEPS: i64 = 3;

const LIMIT: f64 = 1e9;

/// Slots of the pools that windows are searched in, pools of each size, and searches in each.
const SEARCHED: [usize; 5] = [1, 3, 6, 12, 40];
const POOLS_OF_A_SIZE: usize = 12;
const SEARCHES: usize = 30;

mod exported {
    // `rect` is a pointer to four words, written only beside 0.
    extern "C" {
        pub fn dustmap_box(low_x: f64, low_y: f64, high_x: f64, high_y: f64, rect: *mut i32)
            -> i32;
        pub fn dustmap_point(x: f64, y: f64, rect: *mut i32) -> i32;
        pub fn dustmap_disc(x: f64, y: f64, radius: f64, rect: *mut i32) -> i32;
    }
}

/// The library's number. Its four words are those in the middle of the six: the first and the last are not its own.
fn library(query: &Query, words: &mut [i32; 6]) -> i32 {
    // SAFETY: the pointer leads to the second of six words that are lent to be written, so the four that the function may
    // write are there. The doubles go by value and may be any.
    unsafe {
        let rect = words.as_mut_ptr().add(1);
        match *query {
            Query::Point { x, y } => exported::dustmap_point(x, y, rect),
            Query::Box { low_x, low_y, high_x, high_y } => {
                exported::dustmap_box(low_x, low_y, high_x, high_y, rect)
            }
            Query::Disc { x, y, radius } => exported::dustmap_disc(x, y, radius, rect),
        }
    }
}

/// A round: the list of the second program, every neighbour, drawn queries, and searches by the windows that come back.
pub fn all(seed: u64, tally: &mut Tally, seen: &mut Seen) {
    let mut dice = Dice::new(seed);
    let mut asking = Asking { calls: 0, tally, seen };
    let began = Instant::now();
    kept().iter().for_each(|query| asking.ask(query));
    neighbours(&mut dice, &mut asking);
    (0..DRAWN).for_each(|_| asking.ask(&drawn(&mut dice)));
    (0..OF_ANY_BITS).for_each(|_| asking.ask(&of_any_bits(&mut dice)));
    let (calls, took) = (asking.calls, began.elapsed().as_millis());
    println!("{calls} survey queries asked of both programs: {took} ms");
    tally.hold(calls >= LEAST_CALLS, || format!("only {calls} survey queries asked"));
    searches(&mut dice, tally, seen);
}

/// Questions in progress.
struct Asking<'a> {
    calls: u64,
    tally: &'a mut Tally,
    seen: &'a mut Seen,
}

impl Asking<'_> {
    /// Asks both. Beside 0 the four words have to be the second program's window, beside 12 what they were before; the words
    /// before and after them have to stay in any case.
    fn ask(&mut self, query: &Query) {
        self.calls += 1;
        let due = window_or_causes(query);
        let old = old_words(self.calls);
        let (mut left, mut expected) = (old, old);
        let number = library(query, &mut left);
        let due_number = if due.is_ok() { 0 } else { BAD_SURVEY };
        if let Ok(rect) = &due {
            expected[1..5].copy_from_slice(rect);
        }
        self.tally.hold(number == due_number && left == expected, || {
            let ours = format!("returned {number} and made {left:?} of {old:?}");
            let query = format!("{}, {query:?}", line(query));
            format!("survey {query}: {ours}, and the second program {due_number} and {expected:?}")
        });
        self.seen.survey.note(query, &due);
    }
}

/// Old content, other words in each call, none of which is a coordinate: what is written over them shows.
fn old_words(call: u64) -> [i32; 6] {
    let sign = if call.is_multiple_of(2) { 1 } else { -1 };
    std::array::from_fn(|k| sign * (i32::MAX - ((6 * call + k as u64) % 1_000_000_000) as i32))
}

/// Whole numbers and halves of every size, the limits and what is far beyond, each with its neighbours in every place.
fn neighbours(dice: &mut Dice, asking: &mut Asking) {
    for anchor in anchors(dice) {
        for steps in -STEPS..=STEPS {
            let double = stepped(anchor, steps);
            let other = stepped(double, dice.between(-1, 1));
            places(double, other).iter().for_each(|query| asking.ask(query));
        }
    }
}

/// Numbers of each size, from 0 to 2^64, with both signs, and the halves beside them.
fn anchors(dice: &mut Dice) -> Vec<f64> {
    let limits = (-3..=3).map(|k| LIMIT + k as f64);
    let powers = (30..=64).map(|k| 2.0_f64.powi(k));
    let mut wholes: Vec<f64> = limits.chain(powers).chain([0.0]).collect();
    for size in 0..30 {
        let least = 1_i64 << size;
        wholes.push(least as f64);
        wholes.extend((0..14).map(|_| dice.between(least, 2 * least - 1) as f64));
    }
    wholes.into_iter().flat_map(|whole| [whole, whole + 0.5, -whole, -whole - 0.5]).collect()
}

/// A double in every place of every sort of query; the other one, which is near it, makes a thin box with it.
fn places(double: f64, other: f64) -> [Query; 11] {
    let boxed =
        |[low_x, low_y, high_x, high_y]: [f64; 4]| Query::Box { low_x, low_y, high_x, high_y };
    [
        Query::Point { x: double, y: -0.25 },
        Query::Point { x: 0.25, y: double },
        boxed([double, -1.0, LIMIT, 1.0]),
        boxed([-1.0, double, 1.0, LIMIT]),
        boxed([-LIMIT, -1.0, double, 1.0]),
        boxed([-1.0, -LIMIT, 1.0, double]),
        boxed([double, other, other, double]),
        Query::Disc { x: double, y: 0.5, radius: 0.25 },
        Query::Disc { x: -0.5, y: double, radius: 1.0 },
        Query::Disc { x: 0.25, y: 0.5, radius: double },
        Query::Disc { x: double, y: other, radius: double.abs() },
    ]
}

/// All 2^64 patterns alike, in each place.
fn of_any_bits(dice: &mut Dice) -> Query {
    let mut any = || f64::from_bits(dice.bits());
    let (a, b, c, d) = (any(), any(), any(), any());
    match dice.below(3) {
        0 => Query::Point { x: a, y: b },
        1 => Query::Box { low_x: a, low_y: b, high_x: c, high_y: d },
        _ => Query::Disc { x: a, y: b, radius: c },
    }
}

/// Windows that come back are searched: none of them may be refused 3.
fn searches(dice: &mut Dice, tally: &mut Tally, seen: &mut Seen) {
    for slots in SEARCHED {
        for _ in 0..POOLS_OF_A_SIZE {
            let pool = sound_pool(dice, slots, slots as i64 * 9);
            search(pool, dice, tally, seen);
        }
    }
}

/// A batch of searches of any mode by the library's windows for queries about the records of a pool.
fn search(pool: Vec<i32>, dice: &mut Dice, tally: &mut Tally, seen: &mut Seen) {
    let pairs = pairs_in_leaves(&pool);
    let mut any_search = || {
        let window = library_window(dice, &pairs, tally);
        dice.pick(&MODES)(window)
    };
    let requests: Vec<Request> = (0..SEARCHES).map(|_| any_search()).collect();
    let lent = Lent {
        work: garbage_words(dice, pool.len()),
        answers: garbage_answers(dice, requests.len()),
        found: garbage_found(dice, pairs.len() * SEARCHES),
        requests,
        pool,
    };
    let left = lend("searches by survey windows", &lent, tally, seen);
    for (request, answer) in lent.requests.iter().zip(&left.lent.answers) {
        tally.hold(answer.number == 0, || format!("a survey window refused {}", answer.number));
        let found = if answer.found > 0 { "records" } else { "nothing" };
        seen.note(format!("{} by a survey window found {found}", kind_name(request)));
    }
}

/// The library's window for a query that the second program accepts.
fn library_window(dice: &mut Dice, pairs: &[Pair], tally: &mut Tally) -> [i32; 4] {
    let mut queries = std::iter::repeat_with(|| about(dice, pairs));
    let query = queries.find(|query| window(query).is_ok()).expect("they do not end");
    let mut words = [0; 6];
    let number = library(&query, &mut words);
    tally.hold(number == 0, || format!("survey {}: refused {number}", line(&query)));
    [words[1], words[2], words[3], words[4]]
}

/// A query near a record, to a part of a millimetre; one time in five any query at all.
fn about(dice: &mut Dice, pairs: &[Pair]) -> Query {
    if pairs.is_empty() || dice.chance(20) {
        return drawn(dice);
    }
    let [low_x, low_y, high_x, high_y] = dice.pick(pairs).rect.to_words().map(f64::from);
    let mut part = || dice.between(-2_000, 2_000) as f64 / 1_000.0;
    let (x, y) = (low_x + part(), low_y + part());
    match dice.below(3) {
        0 => Query::Point { x, y },
        1 => Query::Box { low_x: x, low_y: y, high_x: high_x + 2.5, high_y: high_y + 2.5 },
        _ => Query::Disc { x, y, radius: double(dice).abs().min(50.0) },
    }
}
