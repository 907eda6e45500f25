//! Roads drawn as lines and points (document 02, Req 05), in trees of hundreds of records. They are laid out in fixed ways, so that what takes a
//! deep tree without area is met for certain, whatever is drawn elsewhere.

use crate::both::lend;
use crate::lent::Lent;
use crate::seen::Seen;
use crate::spoil::{garbage_answers, garbage_found, garbage_words};
use crate::tally::Tally;
use second::dice::Dice;
use second::generate::SEARCHES;
use second::pool::Map;
use second::script::blank_pool;
use second::{area, Request};

/// Records of a layout. As many as this always go into half as many slots.
const RECORDS: i32 = 400;

/// Requests in a call.
const BATCH: usize = 100;

/// The rectangle of a record, by its number.
type Layout = fn(i32) -> [i32; 4];

const LAYOUTS: [(&str, Layout); 11] = [
    ("points of a level road, in order", |k| [10 * k, 3, 10 * k, 3]),
    ("points of an upright road, out of order", |k| [7, shuffled(k), 7, shuffled(k)]),
    ("points of a road, each twice", |k| [shuffled(k / 2), 0, shuffled(k / 2), 0]),
    ("pieces of a road, end to end", |k| [10 * k, 3, 10 * k + 10, 3]),
    ("pieces of a road, one over the other, out of order", |k| {
        [5, shuffled(k), 5, shuffled(k) + 40]
    }),
    ("roads that begin where others begin, each longer", |k| [0, 0, shuffled(k), 0]),
    ("one line under many numbers", |_| [0, 4, 100, 4]),
    ("one point under many numbers", |_| [2, 4, 2, 4]),
    ("two roads that cross", |k| piece(k % 2 == 0, 10 * shuffled(k) - 2_000, 0)),
    ("a grid of roads, and a block for each tenth", grid),
    ("a road from limit to limit", |k| [far(k), 0, far(k) + FAR, 0]),
];

/// Far from its neighbours in number: 37 and 401 have no divisor in common.
fn shuffled(k: i32) -> i32 {
    (37 * k) % (RECORDS + 1)
}

/// A piece of a level or an upright road, ten long.
fn piece(level: bool, along: i32, across: i32) -> [i32; 4] {
    if level {
        [along, across, along + 10, across]
    } else {
        [across, along, across, along + 10]
    }
}

fn grid(k: i32) -> [i32; 4] {
    let (along, across) = (10 * (shuffled(k) / 20), 10 * (shuffled(k) % 20));
    match k % 10 {
        0 => [along, across, along + 10, across + 10],
        1 => [along, across, along, across],
        _ => piece(k % 2 == 0, along, across),
    }
}

/// Pieces as long as this reach from the lower limit to the upper.
const FAR: i32 = 2_000_000_000 / RECORDS;

fn far(k: i32) -> i32 {
    -1_000_000_000 + FAR * (shuffled(k) - 1)
}

/// Each layout: filled, and then changed and searched.
pub fn all(dice: &mut Dice, tally: &mut Tally, seen: &mut Seen) {
    for (name, layout) in LAYOUTS {
        let mut roads = Roads { name, pool: blank_pool(RECORDS as usize / 2), dice, tally, seen };
        roads.requests((1..=RECORDS).map(|k| Request::insert(k, layout(k))).collect());
        roads.note_flat();
        roads.requests((1..=RECORDS).map(|k| change(k, layout)).collect());
    }
}

/// Something that is done to the record of a number, or asked about it.
fn change(k: i32, layout: Layout) -> Request {
    let (rect, other) = (layout(k), layout(RECORDS + 1 - k));
    match k % 4 {
        0 => Request::delete(k, rect),
        1 => Request::update(k, rect, other),
        2 => Request::insert(RECORDS + k, other),
        _ => SEARCHES[k as usize % SEARCHES.len()](rect),
    }
}

/// A layout in progress.
struct Roads<'a> {
    name: &'static str,
    pool: Vec<i32>,
    dice: &'a mut Dice,
    tally: &'a mut Tally,
    seen: &'a mut Seen,
}

impl Roads<'_> {
    /// The requests in turn, so many to a call.
    fn requests(&mut self, all: Vec<Request>) {
        for requests in all.chunks(BATCH) {
            let lent = Lent {
                pool: self.pool.clone(),
                work: garbage_words(self.dice, self.pool.len()),
                answers: garbage_answers(self.dice, requests.len()),
                found: garbage_found(self.dice, 2 * RECORDS as usize),
                requests: requests.to_vec(),
            };
            let left = lend(self.name, &lent, self.tally, self.seen);
            self.tally.hold(left.number == 0, || format!("{}: refused {}", self.name, left.number));
            self.pool = left.lent.pool;
        }
    }

    /// Every record is held, and the tree is deep. Where the root's cover has no area, no other has.
    fn note_flat(&mut self) {
        let map = Map::read(&self.pool);
        self.tally.hold(map.records == i64::from(RECORDS), || {
            format!("{}: {} records are held", self.name, map.records)
        });
        if map.height >= 4 && area(&map.node(map.root).cover()) == 0 {
            self.seen.note("tree of four levels without area");
        }
    }
}
