//! Files with something wrong: cut, changed, put together in another way. Besides being compared, the number is held to the one that is due,
//! wherever that is known from how the file was made.

use crate::carry::Carrying;
use crate::carry_met::{in_one_frame, in_two_frames, FRAME_REFUSALS};
use crate::spoil::{garbage_bytes, garbage_word};
use second::dice::Dice;
use second::files::Case;
use second::files_drawn::drawn;
use second::files_kept::{
    bytes_of, file, frames_of, kept, record_of, row, Apart, Record, IN_ORDER,
};
use second::pool::Map;
use second::script::blank_pool;
use second::style::STYLES;
use second::Edition;
use std::collections::BTreeSet;

/// In a round: cases that the second program draws, files of any bytes, files of any frames, and ways to make each set of faults in one frame.
const DRAWN: usize = 3_000;
const OF_ANY_BYTES: usize = 300;
const OF_ANY_FRAMES: usize = 1_500;
const WAYS: usize = 6;

/// Slots of the pools that are filled up to the first record that has no slot, and how often.
const FILLED: [(usize, usize); 13] = [
    (1, 2),
    (2, 2),
    (3, 4),
    (4, 4),
    (5, 4),
    (6, 4),
    (7, 4),
    (8, 4),
    (9, 4),
    (10, 4),
    (11, 4),
    (12, 4),
    (128, 1),
];

/// So many bytes of a frame are there where it is cut.
const CUTS: [usize; 5] = [0, 1, 4, 20, 23];

pub fn all(office: &mut Carrying) {
    listed(office);
    every_byte(office);
    heads(office);
    frames(office);
    orders(office);
    one_frame(office);
    two_frames(office);
    for (slots, times) in FILLED {
        (0..times).for_each(|_| filled(slots, office));
    }
    anything(office);
}

impl Carrying<'_> {
    /// Reads a file that is refused, or not, with the number that is due.
    pub fn due(&mut self, what: &str, due: i32, slots: usize, file: &[u8]) {
        let number = self.read_into(what, slots, file).number;
        self.tally.hold(number == due, || format!("{what}: {number}, and {due} is due"));
        self.seen.note(what);
    }
}

/// The list of the second program, and what it draws.
fn listed(office: &mut Carrying) {
    let drawn: Vec<Case> = (0..DRAWN).map(|_| drawn(Edition::One, office.dice)).collect();
    kept().into_iter().chain(drawn).for_each(|case| office.case("listed", case));
}

/// A small file with a byte wrong, at every place in every way; and one of twelve records, cut everywhere, of which the slot takes eight.
fn every_byte(office: &mut Carrying) {
    let whole = file(&IN_ORDER[1..4]);
    for place in 0..whole.len() {
        let (front, back) = whole.split_at(place);
        office.due("file cut at every byte", 10, 1, front);
        for other in (0..=u8::MAX).filter(|&byte| byte != back[0]) {
            let changed = [front, &[other], &back[1..]].concat();
            office.read_into("file with every byte changed to every other", 1, &changed);
        }
        let more = garbage_bytes(office.dice, 1);
        let (without, longer) = ([front, &back[1..]].concat(), [front, &more, back].concat());
        office.read_into("file with every byte left out", 1, &without);
        office.read_into("file with a byte put in at every place", 1, &longer);
    }
    office.seen.note("file with every byte changed to every other");
    office.seen.note("file with every byte left out");
    office.seen.note("file with a byte put in at every place");
    let (twelve, ninth_ends) = (file(&row(12)), 12 + 24 * 9);
    for length in 0..=twelve.len() {
        let due = if length < ninth_ends { 10 } else { 7 };
        office.due("file cut at every byte", due, 1, &twelve[..length]);
    }
}

/// Editions and counts. Some would be right with their sign or their upper bits left out, or as a number of bytes in 16 or 32 bits.
fn heads(office: &mut Carrying) {
    let editions = [0, 2, -1, 16, 257, 65_537, 16_777_217, i32::MIN + 1, i32::MAX];
    let below = [-1, -2, -3, -65_533, i32::MIN, i32::MIN + 3];
    let huge = [8_195, 65_539, 16_777_219, 536_870_915, i32::MAX];
    let mut with = |what: &str, place: usize, words: &[i32]| {
        for &word in words {
            let mut frames = frames_of(&row(3));
            frames[0].1[place] = word;
            office.due(what, 10, 1, &bytes_of(&frames));
        }
    };
    with("file with a wrong edition", 0, &editions);
    with("file with a count one too small", 1, &[2]);
    with("file with a count one too large", 1, &[4]);
    with("file with a count below zero", 1, &below);
    with("file with a huge count", 1, &huge);
}

/// Whole frames too few and too many. A record that comes twice is not after itself; but where the last one comes again, the last frame is due.
fn frames(office: &mut Carrying) {
    let right = frames_of(&row(3));
    for place in 0..right.len() {
        let (mut without, mut twice) = (right.clone(), right.clone());
        without.remove(place);
        twice.insert(place, right[place].clone());
        office.due("file with every frame left out", 10, 1, &bytes_of(&without));
        let due = if (1..3).contains(&place) { 11 } else { 10 };
        office.due("file with every frame twice", due, 1, &bytes_of(&twice));
    }
    let whole = bytes_of(&right);
    let after =
        [vec![0], vec![255; 3], file(&row(0))[12..].to_vec(), whole.clone(), vec![0; 1_000]];
    for after in after {
        office.due("file with bytes after the end", 10, 1, &[&whole[..], &after].concat());
    }
}

/// Records in another order than found order, where there are slots for all: those that differ by less and less of a record, and drawn ones.
fn orders(office: &mut Carrying) {
    let many = records(office.dice, 25);
    for right in [&IN_ORDER[..], &many] {
        let slots = right.len();
        for place in 1..right.len() {
            let (mut swapped, mut equal) = (right.to_vec(), right.to_vec());
            swapped.swap(place - 1, place);
            equal.insert(place, right[place]);
            office.due("file with neighbours swapped at every place", 11, slots, &file(&swapped));
            office.due("file with equal neighbours at every place", 11, slots, &file(&equal));
        }
        for _ in 0..20 {
            let shuffled = shuffled(office.dice, right);
            let due = if shuffled == right { 0 } else { 11 };
            office.due("file with records in any order", due, slots, &file(&shuffled));
        }
    }
}

fn shuffled(dice: &mut Dice, records: &[Record]) -> Vec<Record> {
    let mut shuffled = records.to_vec();
    for k in (1..shuffled.len()).rev() {
        shuffled.swap(k, dice.below(k as u64 + 1) as usize);
    }
    shuffled
}

/// Every set of faults in one frame: in the ninth, for which one slot or two have no room, and three have; and in the first, which has no
/// predecessor.
fn one_frame(office: &mut Carrying) {
    for set in 0..16 {
        let in_set = |place: &usize| set >> place & 1 == 1;
        let faults: Vec<i32> = (0..4).filter(in_set).map(|place| FRAME_REFUSALS[place]).collect();
        for (slots, before) in [(1, 8), (2, 8), (3, 8), (1, 0)] {
            let due = all_due(&faults, slots, before);
            let number = due.first().copied().unwrap_or(0);
            for _ in 0..WAYS {
                let mut file = after_row(before, vec![faulty(office.dice, &faults)]);
                maybe_cut(office.dice, &faults, 12 + 24 * before as usize, 24, &mut file);
                office.due("file with faults in one frame", number, slots, &file);
                let later = due.iter().skip(1).map(|&other| in_one_frame(number, other));
                later.for_each(|what| office.seen.note(what));
            }
        }
    }
}

/// What a frame after so many records is refused for. A number below 1 is not after any other.
fn all_due(faults: &[i32], slots: usize, before: i32) -> Vec<i32> {
    let is_due = |number: &i32| match number {
        11 => before > 0 && (faults.contains(&11) || faults.contains(&4)),
        7 => before == 8 && slots < 3,
        number => faults.contains(number),
    };
    FRAME_REFUSALS.into_iter().filter(is_due).collect()
}

/// Faults of two frames: the ninth, and the one after it.
fn two_frames(office: &mut Carrying) {
    for first in FRAME_REFUSALS {
        for other in FRAME_REFUSALS {
            for _ in 0..WAYS {
                let slots = if first == 7 { 1 } else { office.dice.pick(&[1, 3]) };
                let frames = [first, other].map(|fault| faulty(office.dice, &[fault]));
                let mut file = after_row(8, frames.to_vec());
                maybe_cut(office.dice, &[other], 12 + 24 * 9, 24, &mut file);
                office.due(&in_two_frames(first, other), first, slots, &file);
            }
        }
    }
}

/// The file of a row of records and then these frames.
fn after_row(records: i32, frames: Vec<Apart>) -> Vec<u8> {
    let mut all = frames_of(&row(records));
    all[0].1[1] += frames.len() as i32;
    let last = all.len() - 1;
    all.splice(last..last, frames);
    bytes_of(&all)
}

/// The frame of a record with these faults, where eight come before it. 7 is no fault of a frame: the record is right.
fn faulty(dice: &mut Dice, faults: &[i32]) -> Apart {
    let has = |fault| faults.contains(&fault);
    let mut record: Record = [9 + dice.below(9) as i32, -5, 5, 70, 80];
    if has(11) {
        let eighth = row(8)[7];
        let [_, low_x, low_y, high_x, high_y] = eighth;
        let lower = [8, low_x - 1, low_y, high_x, high_y];
        record = dice.pick(&[eighth, lower, row(8)[0], [7, 1, 2, 3, 4]]);
    }
    if has(3) {
        // The number alone decides the order then.
        record[0] = if has(11) { 1 + dice.below(7) as i32 } else { record[0] };
        spoil_rectangle(dice, &mut record);
    }
    if has(4) {
        record[0] = dice.pick(&[0, -1, i32::MIN, -8]);
    }
    let mut frame = (17, record.to_vec());
    if has(10) {
        spoil_frame(dice, &mut frame);
    }
    frame
}

/// A low above its high, or a side beyond the site.
pub fn spoil_rectangle(dice: &mut Dice, record: &mut Record) {
    let axis = 1 + dice.below(2) as usize;
    let beyond = 1_000_000_001;
    match dice.below(5) {
        0 => record[axis] = record[axis + 2] + 1,
        1 => record.swap(axis, axis + 2),
        2 => record[axis] = dice.pick(&[-beyond, i32::MIN]),
        3 => record[axis + 2] = dice.pick(&[beyond, i32::MAX]),
        _ => record[1..].copy_from_slice(&[beyond, beyond, -beyond, -beyond]),
    }
}

/// Another kind, or a word too many or too few.
pub fn spoil_frame(dice: &mut Dice, (kind, words): &mut Apart) {
    let other = if *kind == 17 { 19 } else { 17 };
    match dice.below(4) {
        0 => words.push(garbage_word(dice)),
        1 => words.truncate(4),
        _ => *kind = dice.pick(&[0, 1, 16, 18, other, 273, 4_352]),
    }
}

/// Where 10 is among the faults of the frame that starts at a byte and has so many, the file sometimes ends in that frame.
pub fn maybe_cut(dice: &mut Dice, faults: &[i32], start: usize, bytes: usize, file: &mut Vec<u8>) {
    if faults.contains(&10) && dice.chance(30) {
        file.truncate(start + dice.below(bytes as u64) as usize);
    }
}

/// Files up to the first record that has no slot, and beyond: there 7 comes before what is wrong later, and after what was wrong earlier.
fn filled(slots: usize, office: &mut Carrying) {
    let records = records(office.dice, 8 * slots + 2);
    let taken = first_refused(slots, &records);
    if taken == 8 {
        office.seen.note("read 7 at the ninth record, the first that can have it");
    }
    let (to_the_last, beyond) = (file(&records[..=taken]), file(&records));
    let one_less = file(&records[..taken]);
    office.due("read 0 of as many records as there are slots for", 0, slots, &one_less);
    office.due("read 7 at the last record", 7, slots, &to_the_last);
    office.due("read 7 with records after it", 7, slots, &beyond);
    for cut in CUTS {
        let begins = 12 + 24 * taken;
        let (within, after) = (&beyond[..begins + cut], &beyond[..begins + 24 + cut]);
        office.due("read 10 of the record that has no slot, cut", 10, slots, within);
        office.due("read 7 before a cut frame", 7, slots, after);
    }
    let mut frames = frames_of(&records[..=taken]);
    frames[0].1[1] -= 1;
    let what = "read 10 for a count that leaves out the record with no slot";
    office.due(what, 10, slots, &bytes_of(&frames));
}

/// The place of the first record for which there is no slot.
fn first_refused(slots: usize, records: &[Record]) -> usize {
    let mut map = Map::read(&blank_pool(slots));
    let refused = |record: &Record| map.insert(&record_of(record)).is_err();
    records.iter().position(refused).expect("more than so many slots have room for")
}

/// So many records of one style in found order, some with the same number.
fn records(dice: &mut Dice, count: usize) -> Vec<Record> {
    let (_, style) = dice.pick(&STYLES);
    let mut records = BTreeSet::new();
    while records.len() < count {
        let (number, rect) = (dice.between(1, count as i64) as i32, style.rect(dice));
        let [low_x, low_y, high_x, high_y] = rect.to_words();
        if rect.valid() {
            records.insert([number, low_x, low_y, high_x, high_y]);
        }
    }
    records.into_iter().collect()
}

/// Any bytes, and frames of any kinds with small words.
fn anything(office: &mut Carrying) {
    for _ in 0..OF_ANY_BYTES {
        let length = office.dice.below(300) as usize;
        let bytes = garbage_bytes(office.dice, length);
        office.read_into("file of any bytes", 1, &bytes);
    }
    for _ in 0..OF_ANY_FRAMES {
        let frames = any_frames(office.dice);
        office.read_into("file of any frames", 1, &bytes_of(&frames));
    }
    office.seen.note("file of any bytes");
    office.seen.note("file of any frames");
}

/// A head that may be right, and then frames of which each alone may be right.
fn any_frames(dice: &mut Dice) -> Vec<Apart> {
    let mut frames = vec![(16, vec![1, dice.between(0, 3) as i32])];
    for _ in 0..dice.below(6) {
        let (kind, words) =
            dice.pick(&[(17, 5), (17, 5), (17, 5), (18, 0), (18, 0), (16, 2), (19, 5)]);
        // Highs are one more, so that many rectangles are valid.
        let words = (0..words).map(|k| dice.between(-1, 2) as i32 + i32::from(k > 2)).collect();
        frames.push((kind, words));
    }
    frames
}
