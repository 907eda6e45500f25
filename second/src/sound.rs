//! "A pool is sound when ..": a direct reading of those sentences over the words.
//!
//! The document defines a sound node by its entries and a sound inner entry by its node. Here
//! every node in use is looked at by itself: as every node in use has to be sound, and each
//! entry leads one level lower, the one follows from the other, and no node is visited twice.

use crate::edition::{Edition, Owner};
use crate::geometry::{cover, Rect};
use crate::pool::{entries, slot_words, slots_of, EntryWords, Slot};

/// 1 for a length that no pool of its edition has, 2 for a pool that is not sound, else 0: the rows
/// of the table that are about the pool alone.
pub fn check(pool: &[i32]) -> i32 {
    match slots_of(pool) {
        None => 1,
        Some(_) if sound(pool) => 0,
        Some(_) => 2,
    }
}

/// Whether a pool of valid length is sound. A pool of any other length is not.
pub fn sound(pool: &[i32]) -> bool {
    let Some(slots) = slots_of(pool) else {
        return false;
    };
    head_as_above(pool)
        && height_and_root(pool, slots)
        && every_slot(slots, |s| level_in_range(pool, s))
        && every_slot(slots, |s| count_in_range(pool, s))
        && every_slot(slots, |s| unused_words_zero(pool, s))
        && every_slot(slots, |s| entries_sound(pool, slots, s))
        && each_child_of_exactly_one(pool, slots)
        && records_counted(pool, slots)
}

/// "word 0 edition, 1; .. words 4 to 7 zero". A word 0 of 2 is edition 2; any other leaves a pool
/// that is measured as edition 1 and is not sound.
fn head_as_above(pool: &[i32]) -> bool {
    pool[0] == Edition::of(pool).number() && all_zero(&pool[4..8])
}

/// "height is 1 or more; root is a slot of level equal to the height"
fn height_and_root(pool: &[i32], slots: usize) -> bool {
    height(pool) >= 1
        && (1..=slots as i64).contains(&i64::from(pool[1]))
        && level(pool, root(pool)) == height(pool)
}

/// "levels are 0 to the height"
fn level_in_range(pool: &[i32], slot: Slot) -> bool {
    (0..=height(pool)).contains(&level(pool, slot))
}

/// "with a count of 3 to 8, but for the root 0 to 8 if a leaf and 2 to 8 otherwise"
fn count_in_range(pool: &[i32], slot: Slot) -> bool {
    let least = match (in_use(pool, slot), slot == root(pool), level(pool, slot) == 1) {
        (false, _, _) => return true,
        (true, false, _) => 3,
        (true, true, true) => 0,
        (true, true, false) => 2,
    };
    (least..=8).contains(&count(pool, slot))
}

/// "unused entries and free slots are all zero"
fn unused_words_zero(pool: &[i32], slot: Slot) -> bool {
    let words = slot_words(pool, slot);
    if !in_use(pool, slot) {
        return all_zero(words);
    }
    let used = 2 + Edition::of(pool).entry_words() * count(pool, slot) as usize;
    all_zero(&words[used..])
}

/// Without a stop at the first that is not zero, this is several at a time for the processor: most
/// words that the self-test looks at are of free slots.
fn all_zero(words: &[i32]) -> bool {
    words.iter().fold(0, |any, word| any | word) == 0
}

/// "A node is sound when its entries are".
fn entries_sound(pool: &[i32], slots: usize, slot: Slot) -> bool {
    let node_level = level(pool, slot);
    entries(pool, slot).into_iter().all(|words| {
        if node_level == 1 {
            leaf_entry_sound(Edition::of(pool), &words)
        } else {
            inner_entry_sound(pool, slots, node_level, &words)
        }
    })
}

/// "A leaf entry needs a valid rectangle and number", and in edition 2 "an owner, 1 or 2".
fn leaf_entry_sound(edition: Edition, words: &EntryWords) -> bool {
    let owner_sound = edition == Edition::One || Owner::numbered(words.owner).is_some();
    words.rect().valid() && words.pointer >= 1 && owner_sound
}

/// "its pointer is a slot from 1 to N whose node is sound and one level lower, and its
/// rectangle is the smallest holding that node's entries"; the owner is "zero in inner entries".
fn inner_entry_sound(pool: &[i32], slots: usize, node_level: i64, words: &EntryWords) -> bool {
    let Some(child) = pointer_as_slot(words, slots) else {
        return false;
    };
    let rects: Vec<Rect> = entries(pool, child).iter().map(EntryWords::rect).collect();
    let tight = cover(&rects) == Some(words.rect());
    level(pool, child) == node_level - 1 && tight && words.owner == 0
}

/// "each non-root node in use is the child of exactly one entry"
fn each_child_of_exactly_one(pool: &[i32], slots: usize) -> bool {
    let mut parents = vec![0; slots + 1];
    for slot in (1..=slots).map(Slot).filter(|&s| level(pool, s) > 1) {
        for words in entries(pool, slot) {
            if let Some(child) = pointer_as_slot(&words, slots) {
                parents[child.0] += 1;
            }
        }
    }
    every_slot(slots, |s| !in_use(pool, s) || s == root(pool) || parents[s.0] == 1)
}

/// "records counted in leaves equal word 3"
fn records_counted(pool: &[i32], slots: usize) -> bool {
    let leaves = (1..=slots).map(Slot).filter(|&s| level(pool, s) == 1);
    leaves.map(|s| count(pool, s)).sum::<i64>() == i64::from(pool[3])
}

fn every_slot(slots: usize, holds: impl Fn(Slot) -> bool) -> bool {
    (1..=slots).map(Slot).all(holds)
}

fn root(pool: &[i32]) -> Slot {
    Slot(usize::try_from(pool[1]).unwrap_or(0))
}

fn height(pool: &[i32]) -> i64 {
    i64::from(pool[2])
}

#[inline]
fn level(pool: &[i32], slot: Slot) -> i64 {
    i64::from(pool[Edition::of(pool).slot_start(slot)])
}

#[inline]
fn count(pool: &[i32], slot: Slot) -> i64 {
    i64::from(pool[Edition::of(pool).slot_start(slot) + 1])
}

fn in_use(pool: &[i32], slot: Slot) -> bool {
    level(pool, slot) != 0
}

fn pointer_as_slot(words: &EntryWords, slots: usize) -> Option<Slot> {
    let slot = usize::try_from(words.pointer).ok()?;
    (1..=slots).contains(&slot).then_some(Slot(slot))
}
