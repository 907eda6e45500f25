//! Sound pools with one or two words changed, to try the check for 2.

use crate::dice::Dice;
use crate::edition::{Edition, HEAD_WORDS, OWNERS};
use crate::generate::{history, SEARCHES};
use crate::neighbours::shared_pool;
use crate::pool::{slots_of, Slot};
use crate::script::{pool_line, request_line};
use crate::style::{whole_site, STYLES};

/// A damaged pool and a search of the whole site in one of the modes, as a script. Of edition 2 one
/// of the owners searches it.
pub fn script(edition: Edition, seed: u64, slots: usize) -> String {
    let pool = damaged_pool_of(edition, seed, slots);
    let mut dice = Dice::new(seed.wrapping_add(1));
    let search = dice.pick(&SEARCHES)(whole_site().to_words());
    let owner = match edition {
        Edition::One => String::new(),
        Edition::Two => format!("owner {}\n", dice.pick(&OWNERS).number()),
    };
    format!(
        "# damaged pool, seed {seed}\n{}\nwork same\nfound {}\n{owner}{}\n",
        pool_line(&pool),
        slots * 8,
        request_line(&search)
    )
}

/// A pool of edition 1 made by a history, then changed in one or two words. Some are still sound.
pub fn damaged_pool(seed: u64, slots: usize) -> Vec<i32> {
    damaged_pool_of(Edition::One, seed, slots)
}

/// The same of either edition.
pub fn damaged_pool_of(edition: Edition, seed: u64, slots: usize) -> Vec<i32> {
    let mut dice = Dice::new(seed);
    let (_, style) = dice.pick(&STYLES);
    let count = dice.between(0, (slots as i64 * 9).min(1_000)) as usize;
    let mut pool = match edition {
        Edition::One => history(style, seed, slots, count).pool,
        Edition::Two => shared_pool(style, seed, slots, count),
    };
    damage(&mut pool, &mut dice);
    pool
}

/// Changes one or two words of a sound pool, of either edition.
fn damage(pool: &mut [i32], dice: &mut Dice) {
    let (edition, slots) = (Edition::of(pool), slots_of(pool).expect("a pool of valid length"));
    for _ in 0..dice.between(1, 2) {
        let place = if dice.chance(15) {
            dice.below(HEAD_WORDS as u64) as usize
        } else {
            let slot = slot_to_damage(pool, edition, slots, dice);
            edition.slot_start(slot) + word_in_slot(pool, edition, slot, dice)
        };
        pool[place] = other_value(pool, place, slots, dice);
    }
}

/// Nine times in ten a slot in use, if one is met in a few draws. The edition is that of the pool
/// before it was damaged.
fn slot_to_damage(pool: &[i32], edition: Edition, slots: usize, dice: &mut Dice) -> Slot {
    let any = dice.chance(10);
    let mut slot = Slot(dice.between(1, slots as i64) as usize);
    for _ in 0..20 {
        if any || pool[edition.slot_start(slot)] != 0 {
            break;
        }
        slot = Slot(dice.between(1, slots as i64) as usize);
    }
    slot
}

/// The level, the count, a pointer, a side of a rectangle, a word not used, or in edition 2 an
/// owner.
fn word_in_slot(pool: &[i32], edition: Edition, slot: Slot, dice: &mut Dice) -> usize {
    let count = (pool[edition.slot_start(slot) + 1] as i64).clamp(0, 8);
    let used = dice.between(1, count.max(1)) as usize;
    let unused = dice.between((count + 1).min(8), 8) as usize;
    let words = edition.entry_words();
    let entry = |place: usize| 2 + words * (place - 1);
    let of_owners = if edition == Edition::Two { 30 } else { 0 };
    match dice.weighted(&[18, 18, 24, 24, 16, of_owners]) {
        0 => 0,
        1 => 1,
        2 => entry(used) + 4,
        3 => entry(used) + dice.below(4) as usize,
        4 => entry(unused) + dice.below(words as u64) as usize,
        _ => entry(used) + 5,
    }
}

/// A value near the old one, a small one, another word of the pool, or one far off.
fn other_value(pool: &[i32], place: usize, slots: usize, dice: &mut Dice) -> i32 {
    let old = pool[place];
    let other = pool[dice.below(pool.len() as u64) as usize];
    let by_one = [old.saturating_add(1), old.saturating_sub(1)];
    match dice.below(12) {
        0..=4 => dice.pick(&by_one),
        5 => 0,
        6 | 7 => dice.between(0, 9) as i32,
        8 | 9 => dice.between(0, slots as i64 + 1) as i32,
        10 => other,
        _ => dice.pick(&[-1, i32::MAX, i32::MIN, 1_000_000_001, -old.max(-i32::MAX)]),
    }
}
