//! Pools to be asked about: sound ones, damaged ones, garbage, and hostile shapes that would make a careless walk run on.

use second::dice::Dice;
use second::generate::history;
use second::pool::{slots_of, Slot};
use second::style::STYLES;
use second::Edition;

/// The pools made here are of edition 1. `second::neighbours::widened` makes pools of edition 2 of them.
const OF: Edition = Edition::One;
const ENTRY: usize = 5;

/// A pool made by a history of requests from blank.
pub fn sound_pool(dice: &mut Dice, slots: usize, most: i64) -> Vec<i32> {
    let (_, style) = dice.pick(&STYLES);
    let count = dice.between(0, most) as usize;
    history(style, dice.below(1 << 40), slots, count).pool
}

/// Any words at all, small ones mostly.
pub fn garbage(dice: &mut Dice, slots: usize) -> Vec<i32> {
    let mut pool: Vec<i32> = (0..OF.words(slots))
        .map(|_| match dice.below(10) {
            0..=5 => 0,
            6..=8 => dice.between(0, 9) as i32,
            _ => dice.between(i32::MIN as i64, i32::MAX as i64) as i32,
        })
        .collect();
    if dice.chance(60) {
        pool[..8].copy_from_slice(&[1, 1, 1, 0, 0, 0, 0, 0]);
    }
    pool
}

/// A chain through every slot, each one level lower, whose other entries lead nowhere: a walk that goes where it is led goes deep.
pub fn chain(slots: usize) -> Vec<i32> {
    tower(slots, slots, |level, place| if place == 0 { level - 1 } else { 0 })
}

/// A tower of nodes, each with eight entries that all lead to the next one down: a walk with no memory would take 8^levels steps.
pub fn shared_child(slots: usize) -> Vec<i32> {
    tower(slots, slots.min(12), |level, _| level - 1)
}

/// Nodes that lead back up to the root.
pub fn cycle(slots: usize) -> Vec<i32> {
    let top = slots.min(12);
    tower(slots, top, move |_, place| if place == 0 { top } else { 1 })
}

/// Slot s has level s, up to the top; `child` gives the slot that an entry leads to.
fn tower(slots: usize, top: usize, child: impl Fn(usize, usize) -> usize) -> Vec<i32> {
    let mut pool = vec![0; OF.words(slots)];
    pool[..4].copy_from_slice(&[1, top as i32, top as i32, 8]);
    for level in 1..=top {
        let at = OF.slot_start(Slot(level));
        pool[at] = level as i32;
        pool[at + 1] = 8;
        for place in 0..8 {
            let pointer = if level == 1 { place + 1 } else { child(level, place) };
            let entry = at + 2 + ENTRY * place;
            pool[entry..entry + ENTRY].copy_from_slice(&[0, 0, 1, 1, pointer as i32]);
        }
    }
    pool
}

/// The same pool with its last leaf wrong, so that the fault is met late.
pub fn wrong_at_the_end(mut pool: Vec<i32>) -> Vec<i32> {
    let slots = slots_of(&pool).expect("a pool of valid length");
    let leaf = (1..=slots).rev().find(|&s| pool[OF.slot_start(Slot(s))] == 1);
    if let Some(s) = leaf {
        pool[OF.slot_start(Slot(s)) + 2] -= 1;
    }
    pool
}
