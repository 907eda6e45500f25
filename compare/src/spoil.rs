//! Lists as a caller might lend them: with old content, with fields that nobody looks at, with several faults at once.

use crate::lent::Lent;
use second::call::{DELETE, ENCLOSING, INSERT, INSIDE, MOST_REQUESTS, SEARCH, UPDATE};
use second::dice::Dice;
use second::edition::MOST_SLOTS;
use second::{Answer, Edition, Found, Request};

/// What is no kind of a request: what stands beside the kinds, and what would be one of them with its sign or its upper bits left out.
const UNKNOWN: [i32; 13] =
    [0, 7, 7, 8, 9, -1, -5, 257, 262, 1 << 16, (1 << 16) + 5, i32::MIN, i32::MAX];

/// Any word, the ends of the range among them.
pub fn garbage_word(dice: &mut Dice) -> i32 {
    match dice.below(8) {
        0 => dice.pick(&[0, 1, -1, i32::MIN, i32::MAX]),
        1..=3 => dice.between(-9, 99) as i32,
        _ => dice.between(i32::MIN as i64, i32::MAX as i64) as i32,
    }
}

pub fn garbage_words(dice: &mut Dice, length: usize) -> Vec<i32> {
    (0..length).map(|_| garbage_word(dice)).collect()
}

/// Any bytes; one list in four is all of one byte.
pub fn garbage_bytes(dice: &mut Dice, length: usize) -> Vec<u8> {
    if dice.chance(25) {
        return vec![dice.below(256) as u8; length];
    }
    (0..length).map(|_| dice.below(256) as u8).collect()
}

pub fn garbage_answers(dice: &mut Dice, length: usize) -> Vec<Answer> {
    let mut word = || garbage_word(dice);
    (0..length)
        .map(|_| Answer { number: word(), found: word(), start: word(), opened: word() })
        .collect()
}

pub fn garbage_found(dice: &mut Dice, length: usize) -> Vec<Found> {
    let mut word = || garbage_word(dice);
    let place =
        |_| Found { number: word(), low_x: word(), low_y: word(), high_x: word(), high_y: word() };
    (0..length).map(place).collect()
}

fn garbage_rect(dice: &mut Dice) -> [i32; 4] {
    std::array::from_fn(|_| garbage_word(dice))
}

/// "fields that its kind doesn't use are not looked at": they may hold anything.
pub fn fill_unused(dice: &mut Dice, request: &mut Request) {
    if request.kind != UPDATE {
        request.second = garbage_rect(dice);
    }
    if request.is_search() {
        request.number = garbage_word(dice);
    }
}

/// Several faults in one request, so that the order of its checks shows: it has to be the table's.
pub fn muddle(dice: &mut Dice, request: &mut Request, other: &Request) {
    if dice.chance(40) {
        request.kind = dice.pick(&[INSERT, DELETE, UPDATE, SEARCH, INSIDE, ENCLOSING]);
    }
    if dice.chance(30) {
        request.number = dice.pick(&[0, -1, i32::MIN, other.number]);
    }
    if dice.chance(30) {
        request.second = other.first;
    }
    if dice.chance(20) {
        std::mem::swap(&mut request.first, &mut request.second);
    }
    if dice.chance(25) {
        let place = dice.below(4) as usize;
        request.first[place] = dice.pick(&[1_000_000_001, -1_000_000_001, i32::MIN, i32::MAX]);
    }
    if dice.chance(15) {
        request.second = garbage_rect(dice);
    }
}

/// One to three faults of the whole call. Some leave a call that is accepted after all.
pub fn spoil(dice: &mut Dice, lent: &mut Lent) {
    for _ in 0..dice.between(1, 3) {
        match dice.below(7) {
            0 => wrong_answers(dice, lent),
            1 => too_many(dice, lent),
            2 => wrong_work(dice, lent),
            3 => wrong_pool_length(dice, lent),
            4 | 5 => unsound_pool(dice, lent),
            _ => unknown_kind(dice, lent),
        }
    }
}

fn wrong_answers(dice: &mut Dice, lent: &mut Lent) {
    let length = lent.answers.len();
    let other =
        dice.pick(&[length + 1, length.saturating_sub(1), 0, length * 2, MOST_REQUESTS + 1]);
    lent.answers = garbage_answers(dice, other);
}

/// More than 1,024 requests, with as many answers.
fn too_many(dice: &mut Dice, lent: &mut Lent) {
    let one = lent.requests.first().copied().unwrap_or(Request::search([0; 4]));
    let length = MOST_REQUESTS + dice.pick(&[1, 1, 2, 1_000]);
    lent.requests.resize(length, one);
    lent.answers = garbage_answers(dice, length);
}

fn wrong_work(dice: &mut Dice, lent: &mut Lent) {
    let (length, slot) = (lent.pool.len(), Edition::of(&lent.pool).slot_words());
    let other = dice.pick(&[
        length + 1,
        length.saturating_sub(1),
        0,
        length + slot,
        length.saturating_sub(slot),
    ]);
    lent.work = garbage_words(dice, other);
}

/// The workspace mostly has the pool's length, so that the fault is the pool's alone.
fn wrong_pool_length(dice: &mut Dice, lent: &mut Lent) {
    let (length, too_long) = (lent.pool.len(), Edition::of(&lent.pool).words(MOST_SLOTS + 1));
    let other = dice.pick(&[length + 1, length.saturating_sub(1), 0, 8, 49, length + 21, too_long]);
    lent.pool.resize(other, 0);
    if dice.chance(80) {
        lent.work = garbage_words(dice, other);
    }
}

/// A word of the head or of the slots is changed; most such pools are not sound.
fn unsound_pool(dice: &mut Dice, lent: &mut Lent) {
    if lent.pool.is_empty() {
        return;
    }
    let reach = if dice.chance(30) { lent.pool.len().min(8) } else { lent.pool.len() };
    let place = dice.below(reach as u64) as usize;
    lent.pool[place] = match dice.below(3) {
        0 => garbage_word(dice),
        1 => lent.pool[place].wrapping_add(1),
        _ => lent.pool[place].wrapping_sub(1),
    };
}

fn unknown_kind(dice: &mut Dice, lent: &mut Lent) {
    if lent.requests.is_empty() {
        lent.requests.push(Request::search([0; 4]));
        lent.answers = garbage_answers(dice, 1);
    }
    let place = dice.below(lent.requests.len() as u64) as usize;
    lent.requests[place].kind = dice.pick(&UNKNOWN);
}
