//! Cases of the call of Req 06 drawn from a seed.

use crate::call::{call, Answer, Request};
use crate::damage::damaged_pool;
use crate::dice::Dice;
use crate::generate::history;
use crate::pool::pairs_in_leaves;
use crate::rooms::{outcome, Case};
use crate::script::blank_pool;
use crate::sound::sound;
use crate::style::{Style, STYLES};

/// "small pools": up to so many slots.
const MOST_SLOTS: i64 = 16;

/// A pool that is full or nearly, mostly, and a rectangle that is new, held already or bad.
pub fn drawn(dice: &mut Dice) -> Case {
    let (_, style) = dice.pick(&STYLES);
    let slots = dice.between(1, MOST_SLOTS) as usize;
    let pool = match dice.weighted(&[40, 40, 12, 8]) {
        0 => after_a_history(style, slots, dice),
        1 => filled(style, slots, dice),
        2 => damaged_pool(dice.below(1_000_000), slots),
        _ => of_wrong_length(after_a_history(style, slots, dice), dice),
    };
    if dice.chance(15) {
        let rect = bad_rect(dice);
        return Case { pool, rect };
    }
    // Of a few rectangles the one that needs most slots, so that a run is there more often.
    let few = dice.between(1, 5);
    let cases: Vec<Case> = (0..few).map(|_| with_a_rect(&pool, style, dice)).collect();
    let needed = |case: &Case| outcome(case).map_or(0, |[needed, _]| needed);
    cases.into_iter().max_by_key(needed).expect("one at least")
}

/// What an ordinary history leaves.
fn after_a_history(style: Style, slots: usize, dice: &mut Dice) -> Vec<i32> {
    let count = dice.between(0, 14 * slots as i64) as usize;
    history(style, dice.below(1_000_000), slots, count).pool
}

/// What inserts alone leave: those that have no slot are refused, so there is hardly a place left
/// where many are drawn.
fn filled(style: Style, slots: usize, dice: &mut Dice) -> Vec<i32> {
    let count = dice.between(0, 10 * slots as i64) as i32;
    let insert = |number| Request::insert(number, style.rect(dice).to_words());
    let inserts: Vec<Request> = (1..=count).map(insert).collect();
    let mut pool = blank_pool(slots);
    let (mut work, mut answers) = (pool.clone(), vec![Answer::default(); inserts.len()]);
    let number = call(&mut pool, &mut work, &inserts, &mut answers, &mut []);
    assert_eq!(number, 0, "slots are 1 to 4,096");
    pool
}

fn of_wrong_length(mut pool: Vec<i32>, dice: &mut Dice) -> Vec<i32> {
    let length = pool.len();
    let other = dice.pick(&[length - 1, length + 1, length - 21, length + 21, 8, 1, 0]);
    pool.resize(other, 0);
    pool
}

/// A rectangle of the style, or one time in three that of a record.
fn with_a_rect(pool: &[i32], style: Style, dice: &mut Dice) -> Case {
    let held = if sound(pool) { pairs_in_leaves(pool) } else { Vec::new() };
    let rect = match held.is_empty() || dice.chance(67) {
        true => style.rect(dice),
        false => dice.pick(&held).rect,
    };
    Case { pool: pool.to_vec(), rect: rect.to_words() }
}

/// Low above high, or a coordinate out of range.
fn bad_rect(dice: &mut Dice) -> [i32; 4] {
    let mut rect = [-5, -5, 5, 5];
    let place = dice.below(4) as usize;
    let beyond = 1_000_000_001;
    let by_far = if place < 2 { 6 } else { -6 };
    rect[place] = dice.pick(&[by_far, by_far, beyond, -beyond, i32::MIN, i32::MAX]);
    rect
}
