//! Found lists of every size from none to some thousands, with many equal numbers and with few: what puts them in order takes other ways by
//! how many there are and how their numbers lie.

use crate::both::lend;
use crate::lent::Lent;
use crate::seen::Seen;
use crate::spoil::{garbage_answers, garbage_found, garbage_words};
use crate::tally::Tally;
use second::dice::Dice;
use second::Request;

/// How numbers are drawn, and up to which size every size is searched for.
const PLAN: [(&str, Numbers, usize); 6] = [
    ("numbers from 1 to 3", |dice, _| dice.between(1, 3) as i32, 3_000),
    ("all numbers equal", |_, _| 5, 300),
    ("any numbers", any_number, 900),
    ("numbers falling", |_, k| 1_000_000 - k, 400),
    ("numbers close together, far from 1", |dice, _| i32::MAX - dice.between(0, 40) as i32, 600),
    (
        "one number in ten far from the others",
        |dice, k| if k % 10 == 0 { i32::MAX } else { dice.between(1, 9) as i32 },
        400,
    ),
];

/// Up to this size every size is searched for inside a window too. What puts a list in order is not told the mode.
const INSIDE: usize = 600;

/// So many squares lie one in the other.
const NESTED: i32 = 300;

type Numbers = fn(&mut Dice, i32) -> i32;

/// Searches in a call: the second program reads the pool once for each call.
const SEARCHES: usize = 64;

/// One pool for each way to draw numbers, and a search for every size.
pub fn all(dice: &mut Dice, tally: &mut Tally, seen: &mut Seen) {
    for (name, numbers, most) in PLAN {
        let pool = filled(numbers, point, most as i32, dice);
        let mut sizes = Sizes { pool, tally, seen, dice };
        sizes.every(&format!("found, {name}"), 0..=most, |n| Request::search(up_to(n)));
        sizes.every(&format!("found inside, {name}"), 0..=most.min(INSIDE), |n| {
            Request::inside(up_to(n))
        });
    }
    let pool = filled(any_number, square, NESTED, dice);
    let (name, most) = ("one record in the other", NESTED as usize);
    let mut sizes = Sizes { pool, tally, seen, dice };
    sizes.every(&format!("found inside, {name}"), 0..=most, |n| Request::inside(square(n)));
    sizes.every(&format!("found enclosing, {name}"), 0..=most, |n| {
        Request::enclosing(square(NESTED + 1 - n))
    });
}

fn any_number(dice: &mut Dice, _: i32) -> i32 {
    dice.between(1, i64::from(i32::MAX)) as i32
}

/// A point on a line. They stand at each whole x from 1 on.
fn point(x: i32) -> [i32; 4] {
    [x, 0, x, 0]
}

/// The window that meets the first so many points, all of which lie inside it.
fn up_to(n: i32) -> [i32; 4] {
    [0, -1, n, 1]
}

/// A square around the middle. Each lies in those that come after it: taken as a window, so many lie inside it, and the others enclose it.
fn square(n: i32) -> [i32; 4] {
    [-n, -n, n, n]
}

/// A pool of the records 1 to the most. They go in in any order.
fn filled(numbers: Numbers, rect: fn(i32) -> [i32; 4], most: i32, dice: &mut Dice) -> Vec<i32> {
    let mut pool = dustmap::blank_pool(most as usize / 2 + 8).expect("slots are 1 to 4,096");
    let mut work = pool.clone();
    let mut places: Vec<i32> = (1..=most).collect();
    for k in (1..places.len()).rev() {
        places.swap(k, dice.below(k as u64 + 1) as usize);
    }
    for part in places.chunks(1_024) {
        let insert = |&k: &i32| {
            dustmap::Request::insert(numbers(dice, k), dustmap::Rect::from_words(rect(k)))
        };
        let requests: Vec<_> = part.iter().map(insert).collect();
        let mut answers = vec![dustmap::Answer::default(); requests.len()];
        dustmap::call(&mut pool, &mut work, &requests, &mut answers, &mut []);
    }
    pool
}

/// Searches of one pool.
struct Sizes<'a> {
    pool: Vec<i32>,
    tally: &'a mut Tally,
    seen: &'a mut Seen,
    dice: &'a mut Dice,
}

impl Sizes<'_> {
    /// A search for every size; `search` gives the one that finds so many.
    fn every(
        &mut self,
        what: &str,
        sizes: std::ops::RangeInclusive<usize>,
        search: impl Fn(i32) -> Request,
    ) {
        let sound = dustmap::check(&self.pool) == 0;
        self.tally.hold(sound, || format!("{what}: the pool is not sound"));
        let sizes: Vec<usize> = sizes.collect();
        for part in sizes.chunks(SEARCHES) {
            let title = format!("{} and more {what}", part[0]);
            let requests = part.iter().map(|&n| search(n as i32)).collect();
            let lent = self.lists(requests, part.iter().sum());
            let left = lend(&title, &lent, self.tally, self.seen);
            let found = left.lent.answers.iter().map(|answer| answer.found as usize);
            self.tally.hold(found.eq(part.iter().copied()), || format!("{title}: not so many"));
        }
        self.seen.note(format!("every size {what}"));
    }

    fn lists(&mut self, requests: Vec<Request>, places: usize) -> Lent {
        Lent {
            pool: self.pool.clone(),
            work: garbage_words(self.dice, self.pool.len()),
            answers: garbage_answers(self.dice, requests.len()),
            found: garbage_found(self.dice, places),
            requests,
        }
    }
}
