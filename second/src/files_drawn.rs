//! Cases of the two calls of Req 02 drawn from a seed, and of their like for edition 2 (Req 07).

use crate::carry::{distinct_records, record_words};
use crate::damage::damaged_pool_of;
use crate::dice::Dice;
use crate::edition::Edition;
use crate::files::Case;
use crate::files_kept::{bytes_of, frames_of_edition, Apart};
use crate::generate::history;
use crate::neighbours::shared_pool;
use crate::pool::{blank_pool_of, records_in_leaves, Map};
use crate::sound::sound;
use crate::style::STYLES;

/// A write or a read: two reads for each write.
pub fn drawn(edition: Edition, dice: &mut Dice) -> Case {
    match dice.below(3) {
        0 => drawn_write(edition, dice),
        _ => drawn_read(edition, dice),
    }
}

/// A pool with what a writer can meet, and a buffer that is just long enough, or nearly.
fn drawn_write(edition: Edition, dice: &mut Dice) -> Case {
    let mut pool = match dice.weighted(&[50, 35, 10, 5]) {
        0 => drawn_pool(edition, dice),
        1 => some_held_twice(drawn_pool(edition, dice), dice),
        2 => damaged_pool_of(edition, dice.below(1_000_000), 3),
        _ => any_words(of_wrong_length(edition, dice), dice),
    };
    if dice.chance(2) {
        pool.pop();
    }
    let records = if sound(&pool) { distinct_records(&pool).len() } else { 0 };
    // A record's frame: its length, its kind, its words.
    let exact = 16 + 4 * (1 + edition.entry_words()) * records;
    let length = match dice.weighted(&[40, 25, 20, 10, 5]) {
        0 => exact,
        1 => exact - 1,
        2 => exact + dice.between(1, 60) as usize,
        3 => dice.below(exact as u64) as usize,
        _ => 0,
    };
    Case::Write { pool, buffer: any_bytes(length, dice) }
}

/// A file with up to three faults, and a pool that has room for it, or nearly.
fn drawn_read(edition: Edition, dice: &mut Dice) -> Case {
    let source = drawn_pool(edition, dice);
    let records: Vec<Vec<i32>> = distinct_records(&source).iter().map(record_words).collect();
    let file = drawn_file(edition, &records, dice);
    let needed = records.len() / 3 + 2;
    let slots = match dice.weighted(&[40, 40, 20]) {
        0 => needed,
        1 => dice.between(1, needed as i64) as usize,
        _ => records.len() / 8 + 1,
    };
    let pool = pool_to_read_into(edition, slots, dice);
    let length = if dice.chance(4) { of_wrong_length(edition, dice) } else { pool.len() };
    let work = any_words(length, dice);
    match edition {
        Edition::One => Case::Read { pool, work, file },
        Edition::Two => {
            let (edition, rule) = drawn_told(dice);
            Case::ReadAs { pool, work, file, edition, rule }
        }
    }
}

/// The edition and the rule that a reader is told: mostly those there are.
fn drawn_told(dice: &mut Dice) -> (i32, i32) {
    match dice.below(20) {
        0 => (1, 0),
        1 => (dice.pick(&[0, 3, -1, i32::MIN]), dice.pick(&[0, 1])),
        2 => (2, dice.pick(&[1, 2, 3, -1])),
        _ => (2, 0),
    }
}

/// What an ordinary history leaves.
fn drawn_pool(edition: Edition, dice: &mut Dice) -> Vec<i32> {
    let (_, style) = dice.pick(&STYLES);
    let slots = dice.pick(&[1, 1, 2, 3, 4, 6, 10]);
    let count = dice.between(0, 14 * slots) as usize;
    let seed = dice.below(1_000_000);
    match edition {
        Edition::One => history(style, seed, slots as usize, count).pool,
        Edition::Two => shared_pool(style, seed, slots as usize, count),
    }
}

/// The pool with up to four of its records inserted once more, where there is room.
fn some_held_twice(mut pool: Vec<i32>, dice: &mut Dice) -> Vec<i32> {
    for _ in 0..dice.between(1, 4) {
        let mut map = Map::read(&pool);
        let held = records_in_leaves(&pool);
        if !held.is_empty() && map.insert(&dice.pick(&held)).is_ok() {
            map.write(&mut pool);
        }
    }
    pool
}

/// Only the length of such a pool counts: it is blank, a map, or no pool at all.
fn pool_to_read_into(edition: Edition, slots: usize, dice: &mut Dice) -> Vec<i32> {
    let (_, style) = STYLES[0];
    match dice.weighted(&[30, 30, 36, 4]) {
        0 => blank_pool_of(edition, slots),
        1 if edition == Edition::Two => shared_pool(style, dice.below(1_000_000), slots, 10),
        1 => history(style, dice.below(1_000_000), slots, 10).pool,
        2 => any_words(edition.words(slots), dice),
        _ => any_words(of_wrong_length(edition, dice), dice),
    }
}

/// A length that no pool of the edition has; some are of the other edition.
fn of_wrong_length(edition: Edition, dice: &mut Dice) -> usize {
    let lengths = [0, 1, 8, 42, 49, 50, 51, 58, 91, 92, 93, 108];
    let wrong = lengths.into_iter().filter(|&length| edition.slots_of(length).is_none());
    dice.pick(&wrong.collect::<Vec<usize>>())
}

fn any_words(length: usize, dice: &mut Dice) -> Vec<i32> {
    (0..length).map(|_| dice.pick(&[0, 1, 2, 3, -1, 17, i32::MIN])).collect()
}

fn any_bytes(length: usize, dice: &mut Dice) -> Vec<u8> {
    (0..length).map(|_| dice.below(256) as u8).collect()
}

/// A file of these records: one in three as a writer makes it, the others with faults in frames,
/// then in bytes.
fn drawn_file(edition: Edition, records: &[Vec<i32>], dice: &mut Dice) -> Vec<u8> {
    let mut frames = frames_of_edition(edition, records);
    let (in_frames, in_bytes) = dice.pick(&[(0, 0), (0, 0), (1, 0), (2, 0), (0, 1), (1, 1)]);
    for _ in 0..in_frames {
        spoil_frames(&mut frames, dice);
    }
    let mut bytes = bytes_of(&frames);
    for _ in 0..in_bytes {
        spoil_bytes(&mut bytes, dice);
    }
    bytes
}

/// One fault in the frames; often the count is made to fit again, so that it is the only one.
fn spoil_frames(frames: &mut Vec<Apart>, dice: &mut Dice) {
    if frames.is_empty() {
        return;
    }
    let place = dice.below(frames.len() as u64) as usize;
    let other = dice.below(frames.len() as u64) as usize;
    match dice.below(8) {
        0 => frames.swap(place, other),
        1 => frames.swap(place, place.saturating_sub(1)),
        2 => frames.insert(other, frames[place].clone()),
        3 => frames.insert(place, frames[place].clone()),
        4 => {
            frames.remove(place);
        }
        5 => frames[place].0 = dice.pick(&[0, 1, 4, 15, 16, 17, 18, 19, 273, 4_352]),
        _ => spoil_words(&mut frames[place].1, dice),
    }
    if dice.chance(80) {
        count_again(frames);
    }
}

/// One word put in, taken out or changed.
fn spoil_words(words: &mut Vec<i32>, dice: &mut Dice) {
    if words.is_empty() || dice.chance(10) {
        return words.push(dice.between(-1, 1) as i32);
    }
    if dice.chance(10) {
        return words.truncate(words.len() - 1);
    }
    // The number of a record, mostly, or the owner that stands before it.
    if dice.chance(15) {
        let owned = words.len() == Edition::Two.entry_words();
        let place = if owned { dice.below(2) as usize } else { 0 };
        words[place] = dice.pick(&[0, -1, i32::MIN]);
        return;
    }
    let place = dice.below(words.len() as u64) as usize;
    let old = words[place];
    let beyond = 1_000_000_001;
    words[place] = match dice.below(7) {
        0..=1 => old.saturating_add(1),
        2..=3 => old.saturating_sub(1),
        4 => dice.pick(&[beyond, -beyond, i32::MIN, i32::MAX]),
        5 => words[dice.below(words.len() as u64) as usize],
        _ => 0,
    };
}

/// Makes the count of the head that of the records, where there is a head.
fn count_again(frames: &mut [Apart]) {
    let records = frames.iter().filter(|(kind, _)| [17, 19].contains(kind)).count();
    if let Some((16, words)) = frames.first_mut() {
        if let Some(count) = words.get_mut(1) {
            *count = records as i32;
        }
    }
}

/// A byte changed, a cut, or bytes after.
fn spoil_bytes(bytes: &mut Vec<u8>, dice: &mut Dice) {
    let more = dice.between(1, 5) as usize;
    if bytes.is_empty() {
        return bytes.extend(any_bytes(more, dice));
    }
    let place = dice.below(bytes.len() as u64) as usize;
    match dice.below(6) {
        0..=2 => bytes[place] ^= 1 << dice.below(8),
        3 => bytes[place] = dice.below(256) as u8,
        4 => bytes.truncate(place),
        _ => bytes.extend(any_bytes(more, dice)),
    }
}
