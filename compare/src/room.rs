//! "Know before the truck leaves": the slots that an insert needs and the slots free, as the proved library tells them and as the second program
//! does; and then the insert itself, whose answer has to be the one that was told.

use crate::both::lend;
use crate::detached;
use crate::lent::{Left, Lent};
use crate::offices::packed;
use crate::pools;
use crate::room_histories;
use crate::room_met;
use crate::seen::Seen;
use crate::spoil::{garbage_answers, garbage_found, garbage_word, garbage_words};
use crate::tally::Tally;
use dustmap::words;
use second::call::INSERT;
use second::damage::damaged_pool;
use second::dice::Dice;
use second::edition::MOST_SLOTS;
use second::generate::pair_of;
use second::pool::pairs_in_leaves;
use second::rooms::{line, outcome, Case};
use second::rooms_drawn::drawn;
use second::rooms_kept::kept;
use second::script::blank_pool;
use second::style::Style;
use second::Request;
use std::ops::RangeInclusive;
use std::time::Instant;

/// Calls in a round. Fewer would say that something was left out, and more would make the run longer than it is worth.
const CALLS: RangeInclusive<u64> = 8_000..=15_000;

/// Cases that the second program draws, in a round.
const DRAWN: usize = 2_000;

/// Slots of the pools that are not sound, and how often each sort of a size.
const HOSTILE: [usize; 5] = [1, 2, 3, 12, 40];
const OF_A_SIZE: usize = 20;

/// Leaves of trees with eight entries in every node, by height: 1, 2, 3 and 4.
const PACKED: [usize; 4] = [1, 8, 64, 512];

/// Such a tree with 4,096 slots; its root has seven.
const LARGEST_PACKED: usize = 3_584;

/// A difference is shown with its case, as a line for `second room`, where that is no longer than this.
const LONGEST_SHOWN: usize = 3_000;

mod exported {
    // Declared here and not taken from `bindings/rust`, so that the words beside the two are seen too, and the two beside a refusal.
    // `rect` is a pointer to four words, `slots` to two, which are written only beside 0.
    extern "C" {
        pub fn dustmap_room(
            pool: *const i32,
            pool_len: usize,
            rect: *const i32,
            slots: *mut u32,
        ) -> i32;
    }
}

/// What was told: a number, and beside 0 the slots needed and the slots free.
#[derive(Clone, Copy, Debug, Default)]
pub struct Told {
    pub number: i32,
    pub needed: u32,
    pub free: u32,
}

impl Told {
    /// "exceeds the free slots"
    pub fn fits(&self) -> bool {
        self.needed <= self.free
    }
}

/// What a call leaves: its number, and four words of which the two in the middle were lent.
type Words = [u32; 4];

/// The library's. The pool and the rectangle are lent for reading: they have to stay, and so do the words before and after the two.
fn library(pool: &[i32], rect: [i32; 4], mut left: Words) -> Result<(i32, Words), String> {
    let (mut lent, mut sides) = (pool.to_vec(), rect);
    // SAFETY: the first pointer and its count are those of one list that may hold anything, the second leads to four words, and the third to the
    // second of four words that are lent to be written, so the two that the function may write are there. No two overlap.
    let number = unsafe {
        exported::dustmap_room(
            lent.as_mut_ptr(),
            pool.len(),
            sides.as_mut_ptr(),
            left.as_mut_ptr().add(1),
        )
    };
    if lent != pool || sides != rect {
        return Err("wrote to the pool or the rectangle".into());
    }
    Ok((number, left))
}

/// The second program's.
fn second_program(pool: &[i32], rect: [i32; 4], mut left: Words) -> (i32, Words) {
    let mut slots = [left[1], left[2]];
    let number = second::room(pool, rect, &mut slots);
    left[1..3].copy_from_slice(&slots);
    (number, left)
}

/// Old content, other words in each call, none of them zero and all far above any number of slots: what is written over them shows.
fn old_words(call: u64) -> Words {
    std::array::from_fn(|k| u32::MAX - (4 * (call % 100_000_000) as u32 + k as u32))
}

/// A round: the list of the second program and what it draws, histories, pools that are no pools, and full ones.
pub fn all(seed: u64, tally: &mut Tally, seen: &mut Seen) {
    let mut asking = Asking { dice: Dice::new(seed ^ 0x0006), calls: 0, tally, seen };
    let began = Instant::now();
    asking.listed();
    room_histories::all(seed, &mut asking);
    asking.every_length();
    HOSTILE.iter().for_each(|&slots| asking.hostile(slots));
    PACKED.iter().for_each(|&leaves| asking.packed(leaves));
    let (calls, took) = (asking.calls, began.elapsed().as_millis());
    println!("{calls} rooms asked of both programs, and the inserts: {took} ms");
    tally.hold(CALLS.contains(&calls), || format!("{calls} rooms asked, not {CALLS:?}"));
}

/// Questions in progress.
pub struct Asking<'a> {
    pub dice: Dice,
    pub calls: u64,
    pub tally: &'a mut Tally,
    pub seen: &'a mut Seen,
}

impl Asking<'_> {
    /// Asks both. They have to return the same number and to leave the same words.
    pub fn ask(&mut self, what: &str, pool: &[i32], rect: [i32; 4]) -> Told {
        self.calls += 1;
        let old = old_words(self.calls);
        let ours = library(pool, rect, old);
        let (number, [before, needed, free, after]) = second_program(pool, rect, old);
        let due = Ok((number, [before, needed, free, after]));
        self.tally.hold(ours == due, || {
            let case = Case { pool: pool.to_vec(), rect };
            let case = Some(line(&case)).filter(|line| line.len() <= LONGEST_SHOWN);
            let both = format!("{ours:?}, and the second program {due:?}, where {old:?} was");
            format!("room, {what}: {both}\n  {}", case.unwrap_or_default())
        });
        let told = match number {
            0 => Told { number, needed, free },
            _ => Told { number, ..Told::default() },
        };
        room_met::told(pool, rect, &told, self.seen);
        told
    }

    /// Asks, then inserts. What comes back is the number of the answer and the pool that is left.
    pub fn insert(&mut self, what: &str, pool: &[i32], insert: Request) -> (i32, Vec<i32>) {
        let told = self.ask(what, pool, insert.first);
        let left = self.call(what, pool, vec![insert]);
        let (number, after) = (left.lent.answers[0].number, left.lent.pool);
        self.hold_to(what, pool, &insert, &told, number);
        // Where no slot was needed none was taken either, which is asked now and then.
        if number == 0 && (told.needed > 0 || self.dice.chance(10)) {
            let left = self.ask(what, &after, insert.first);
            self.tally.hold(left.free + told.needed == told.free, || {
                format!("room, {what}: {told:?} before the insert, and {left:?} after it")
            });
        }
        (number, after)
    }

    /// "an insert otherwise acceptable is refused 7 exactly when" more slots are needed than free. "So with h + 1 slots free it is never refused
    /// 7": no more are ever needed. The pool is the one that the insert meets.
    fn hold_to(&mut self, what: &str, pool: &[i32], insert: &Request, told: &Told, number: i32) {
        let due = due(pool, insert, told);
        self.tally.hold(number == due, || {
            format!("room, {what}: {told:?}, and an insert of {:?}: {number}", insert.first)
        });
        let height = pool[2] as u32;
        self.tally.hold(told.needed <= height + 1, || {
            format!("room, {what}: {told:?} in a tree of height {height}")
        });
        room_met::answered(height, told, number, self.seen);
    }

    /// A batch over a pool: what decides the answer of an insert is the room in the pool that the requests before it leave, in a call of their
    /// own. What comes back is the number of each answer.
    pub fn batch(&mut self, what: &str, pool: &[i32], requests: &[Request]) -> Vec<i32> {
        let answers = self.call(what, pool, requests.to_vec()).lent.answers;
        for (place, insert) in requests.iter().enumerate().filter(|(_, r)| r.kind == INSERT) {
            let number = answers[place].number;
            let before = self.ask(what, pool, insert.first);
            let pool = self.call(what, pool, requests[..place].to_vec()).lent.pool;
            let moment = self.ask(what, &pool, insert.first);
            self.hold_to(what, &pool, insert, &moment, number);
            let earlier = requests.iter().zip(&answers).take(place);
            room_met::in_a_batch(&before, &moment, number, earlier, self.seen);
        }
        answers.iter().map(|answer| answer.number).collect()
    }

    /// Requests over a sound pool, made to both programs.
    fn call(&mut self, what: &str, pool: &[i32], requests: Vec<Request>) -> Left {
        let lent = Lent {
            pool: pool.to_vec(),
            work: garbage_words(&mut self.dice, pool.len()),
            answers: garbage_answers(&mut self.dice, requests.len()),
            found: garbage_found(&mut self.dice, 40),
            requests,
        };
        let left = lend(&format!("room, {what}"), &lent, self.tally, self.seen);
        self.tally.hold(left.number == 0, || format!("room, {what}: refused {}", left.number));
        left
    }

    /// An insert under the least number that does not hold the rectangle yet, so that nothing but 7 can be due.
    fn fresh(&mut self, what: &str, pool: &[i32], rect: [i32; 4]) {
        let held = pairs_in_leaves(pool);
        let number = (1..).find(|&number| !held.contains(&pair_of(number, rect)));
        self.insert(what, pool, Request::insert(number.expect("there are more"), rect));
    }

    fn listed(&mut self) {
        let drawn: Vec<Case> = (0..DRAWN).map(|_| drawn(&mut self.dice)).collect();
        for case in kept().into_iter().chain(drawn) {
            match outcome(&case) {
                Ok(_) => self.fresh("listed", &case.pool, case.rect),
                Err(_) => drop(self.ask("listed", &case.pool, case.rect)),
            }
        }
    }

    /// Pools of every length up to four slots, and of lengths around the longest: blank as far as they go, so that nothing else is wrong. The
    /// rectangle is right, and then it is not.
    fn every_length(&mut self) {
        let longest = words(MOST_SLOTS);
        let mut pool = blank_pool(MOST_SLOTS);
        pool.resize(words(MOST_SLOTS + 1), 0);
        for length in (0..=words(4)).chain([longest - 1, longest, longest + 1, pool.len()]) {
            let what = format!("{length} words");
            let bad = bad_rect(&mut self.dice);
            self.ask(&what, &pool[..length], [0, 0, 1, 1]);
            self.ask(&what, &pool[..length], bad);
        }
        self.seen.note("room in a pool of every length");
    }

    /// Damaged pools, garbage, nodes that are not one tree, and towers that would make a careless walk run on.
    fn hostile(&mut self, slots: usize) {
        let mut asked = vec![
            ("shared child", pools::shared_child(slots)),
            ("cycle", pools::cycle(slots)),
            ("chain", pools::chain(slots)),
        ];
        for _ in 0..OF_A_SIZE {
            let sound = pools::sound_pool(&mut self.dice, slots, slots as i64 * 9);
            asked.extend(detached::all(&sound));
            asked.push(("wrong at the end", pools::wrong_at_the_end(sound)));
            asked.push(("damaged", damaged_pool(self.dice.below(1 << 40), slots)));
            asked.push(("garbage", pools::garbage(&mut self.dice, slots)));
        }
        for (what, pool) in asked {
            let rect = any_rect(&mut self.dice);
            self.ask(what, &pool, rect);
            self.seen.note(format!("room in a pool: {what}"));
        }
    }

    /// Eight entries in every node: each way is full up to the root, so one more is needed than the tree is high. From no free slot to one more
    /// than that.
    fn packed(&mut self, leaves: usize) {
        let full = packed(leaves, |k| [k, k, -k, k + 9, 5]);
        for free in 0..=full[2] as usize + 2 {
            let mut pool = full.clone();
            pool.resize(full.len() + words(free) - words(0), 0);
            let k = self.dice.between(1, 8 * leaves as i64) as i32;
            self.fresh(&format!("{leaves} full leaves, {free} free"), &pool, [k, -k, k + 9, 5]);
        }
    }
}

/// What an insert is answered by what was told just before it: the table's order of checks, with 7 last.
fn due(pool: &[i32], insert: &Request, told: &Told) -> i32 {
    let held = || pairs_in_leaves(pool).contains(&pair_of(insert.number, insert.first));
    match told.number {
        0 if insert.number < 1 => 4,
        0 if held() => 6,
        0 if !told.fits() => 7,
        number => number,
    }
}

/// Low above high, or a coordinate out of range.
pub fn bad_rect(dice: &mut Dice) -> [i32; 4] {
    let mut rect = [-3, -3, 3, 3];
    let place = dice.below(4) as usize;
    let crossed = if place < 2 { 4 } else { -4 };
    rect[place] = dice.pick(&[crossed, crossed, 1_000_000_001, -1_000_000_001, i32::MIN, i32::MAX]);
    rect
}

/// Mostly right; else with one fault, or any words.
fn any_rect(dice: &mut Dice) -> [i32; 4] {
    match dice.below(10) {
        0..=6 => Style::Random.rect(dice).to_words(),
        7 | 8 => bad_rect(dice),
        _ => std::array::from_fn(|_| garbage_word(dice)),
    }
}

/// The largest pool: as full as it gets, blank, with eight entries in every node but the root, with a record too many counted, and a word short.
pub fn largest(full: &[i32], seed: u64, tally: &mut Tally, seen: &mut Seen) {
    if !second::sound(full) {
        // That was reported when it was filled.
        return;
    }
    let mut asking = Asking { dice: Dice::new(seed ^ 0x4096), calls: 0, tally, seen };
    let what = "the largest pool";
    let pair = asking.dice.pick(&pairs_in_leaves(full));
    let drawn = [0; 3].map(|_| Style::Random.rect(&mut asking.dice));
    for rect in drawn.into_iter().chain([pair.rect]) {
        asking.fresh(what, full, rect.to_words());
    }
    asking.fresh(what, &blank_pool(MOST_SLOTS), [0, 0, 1, 1]);
    asking.fresh(what, &packed(LARGEST_PACKED, |k| [k, k, -k, k + 9, 5]), [7, -7, 16, 5]);
    let bad = bad_rect(&mut asking.dice);
    let mut damaged = full.to_vec();
    damaged[3] += 1;
    for (pool, due) in [(full, 3), (&damaged, 2), (&full[1..], 1)] {
        let number = asking.ask(what, pool, bad).number;
        asking.tally.hold(number == due, || format!("{what}: {number}, and {due} is due"));
    }
}
