//! Histories in pools that are full or nearly: before every insert both programs are asked for its room, and the insert has to find it so. In
//! calls of one request, and in batches.

use crate::room::{bad_rect, Asking};
use second::call::INSERT;
use second::dice::Dice;
use second::generate::Generator;
use second::pool::Pair;
use second::rooms_kept::pool_over;
use second::script::blank_pool;
use second::style::{whole_site, Style, STYLES};
use second::{call, Answer, Found, Request};

/// Slots of the pools; in each, one history of each style.
const SLOTS: std::ops::RangeInclusive<usize> = 1..=24;

/// Requests that fill the pool first, by the second program alone: for each slot up to so many.
const FILLING: i64 = 12;

/// Requests that follow, each in a call of its own, and batches after those.
const STEPS: usize = 24;
const BATCHES: usize = 2;

/// Of a hundred inserts, so many after which the room of another rectangle is asked too.
const ANOTHER: u64 = 35;

pub fn all(seed: u64, asking: &mut Asking) {
    for slots in SLOTS {
        for (name, style) in STYLES {
            let mut history = History {
                title: format!("{name}, {slots} slots, seed {seed}"),
                style,
                generator: Generator::new(style, seed.wrapping_add(slots as u64), slots),
                pool: blank_pool(slots),
            };
            for _ in 0..asking.dice.between(0, FILLING * slots as i64) {
                history.quietly();
            }
            (0..STEPS).for_each(|_| history.step(asking));
            (0..BATCHES).for_each(|_| history.batch(asking));
        }
    }
    moved_by_a_batch(asking);
}

/// A history in progress.
struct History {
    title: String,
    style: Style,
    generator: Generator,
    pool: Vec<i32>,
}

impl History {
    /// The next request, done by the second program alone.
    fn quietly(&mut self) -> Request {
        let request = self.generator.draw();
        self.done(request);
        request
    }

    fn done(&mut self, request: Request) {
        let mut work = self.pool.clone();
        let (mut answers, mut found) = ([Answer::default()], [Found::default(); 40]);
        call(&mut self.pool, &mut work, &[request], &mut answers, &mut found);
        self.generator.answered(&request, answers[0].number);
    }

    /// The next request; an insert is asked about, and made to both programs.
    fn step(&mut self, asking: &mut Asking) {
        let request = self.generator.draw();
        if request.kind != INSERT {
            return self.done(request);
        }
        let (number, pool) = asking.insert(&self.title, &self.pool, request);
        self.generator.answered(&request, number);
        self.pool = pool;
        if asking.dice.chance(ANOTHER) {
            let rect = self.another(&mut asking.dice);
            asking.ask(&self.title, &self.pool, rect);
        }
    }

    /// The next few requests as one call. Each is drawn over what those before it left.
    fn batch(&mut self, asking: &mut Asking) {
        let before = self.pool.clone();
        let size = asking.dice.between(2, 12);
        let requests: Vec<Request> = (0..size).map(|_| self.quietly()).collect();
        asking.batch(&self.title, &before, &requests);
    }

    /// A rectangle of the style, that of a record, the whole site, or a bad one.
    fn another(&self, dice: &mut Dice) -> [i32; 4] {
        let held: &[Pair] = self.generator.in_force();
        match dice.below(10) {
            0..=3 if !held.is_empty() => dice.pick(held).rect.to_words(),
            4 => whole_site().to_words(),
            5 | 6 => bad_rect(dice),
            _ => self.style.rect(dice).to_words(),
        }
    }
}

/// What is rare in drawn batches: a slot that is free before the batch and taken in it; room that a delete in the batch makes, by a place in the
/// leaf or by a slot that it frees; and inserts that are refused for something else, where there is no room either.
fn moved_by_a_batch(asking: &mut Asking) {
    let [one, two, three] = [0, 900, 1_000].map(|x| [x, 0, x + 10, 10]);
    let insert = |rect| Request::insert(77, rect);
    let full = [(8, one), (8, two), (3, three)];
    let thin = [(8, one), (3, two), (4, three)];
    // Records are numbered through the leaves, so 9 is the first of the second.
    let batches = [
        ("two inserts, a slot for one", pool_over(&full, 1), [insert(one), insert(two)], [0, 7]),
        ("a place made", pool_over(&full, 0), [Request::delete(4, one), insert(one)], [0, 0]),
        ("a place elsewhere", pool_over(&full, 0), [Request::delete(4, one), insert(two)], [0, 7]),
        ("a slot freed", pool_over(&thin, 0), [Request::delete(9, two), insert(one)], [0, 0]),
        ("4 and 6", pool_over(&full, 0), [0, 1].map(|n| Request::insert(n, one)), [4, 6]),
    ];
    for (what, pool, requests, due) in batches {
        let answers = asking.batch(what, &pool, &requests);
        asking.tally.hold(answers == due, || format!("room, {what}: {answers:?}, not {due:?}"));
    }
}
