//! Files of edition 2, read by the call that is told the edition, right and with something wrong. Besides being compared, the number is held to
//! the one that is due, wherever that is known from how the file was made.

use crate::carry::{Carrying, Told};
use crate::carry_met::{in_one_frame, in_two_frames};
use crate::files::{maybe_cut, spoil_frame, spoil_rectangle};
use crate::spoil::{garbage_bytes, garbage_words};
use second::dice::Dice;
use second::edition::told as edition_told;
use second::files_drawn::drawn;
use second::files_kept::{
    bytes_of, file, frames_of, pool_holding, record_of, Apart, OwnedRecord, IN_ORDER,
};
use second::files_shared::{kept_shared, owned_row, BY_OWNER, TOLD};
use second::pool::{blank_pool_of, Map};
use second::Edition;

/// What refuses a frame, in the order of checks: "13 .. in a file after 4".
pub const FRAME_REFUSALS: [i32; 6] = [10, 3, 4, 13, 11, 7];

/// In a round: cases that the second program draws, files of any frames, and ways to make each set of faults in one frame.
const DRAWN: usize = 500;
const OF_ANY_FRAMES: usize = 150;
const WAYS: usize = 3;

/// Slots of the pools that are filled up to the first record that has no slot.
const FILLED: [usize; 8] = [1, 2, 3, 4, 6, 9, 12, 128];

/// Owners that are none. Some would be one with their sign or their upper bits left out.
const NO_OWNERS: [i32; 8] = [0, 3, -1, -2, 257, 1 << 16 | 2, i32::MIN, i32::MAX];

pub fn all(office: &mut Carrying) {
    let cases: Vec<_> = (0..DRAWN).map(|_| drawn(Edition::Two, office.dice)).collect();
    kept_shared().into_iter().chain(cases).for_each(|case| office.case("listed", case));
    every_byte(office);
    every_buffer(office);
    told(office);
    heads(office);
    frames(office);
    orders(office);
    one_frame(office);
    two_frames(office);
    FILLED.iter().for_each(|&slots| filled(slots, office));
    any_frames(office);
}

/// A small file cut at every byte, with a bit of every byte changed, with every byte left out.
fn every_byte(office: &mut Carrying) {
    let whole = file(&BY_OWNER[2..4]);
    for place in 0..whole.len() {
        let (front, back) = whole.split_at(place);
        office.due("file cut at every byte", 10, 1, front);
        for bit in 0..8 {
            let changed = [front, &[back[0] ^ 1 << bit], &back[1..]].concat();
            office.read_into("file with every byte changed in every bit", 1, &changed);
        }
        let without = [front, &back[1..]].concat();
        office.read_into("file with every byte left out", 1, &without);
    }
    office.due("file that is whole", 0, 1, &whole);
    office.seen.note("file with every byte changed in every bit");
    office.seen.note("file with every byte left out");
}

/// Buffers from no bytes to more than the file has: of a pair that both owners hold, and of one that an owner holds twice.
fn every_buffer(office: &mut Carrying) {
    let both = [BY_OWNER[3], BY_OWNER[2]];
    let twice = [BY_OWNER[3], BY_OWNER[2], BY_OWNER[3]];
    for (pool, records) in [(pool_holding(1, &both), 2), (pool_holding(1, &twice), 2)] {
        let due = 16 + 28 * records;
        for length in 0..due + 3 {
            let buffer = garbage_bytes(office.dice, length);
            let left = office.write(&format!("a buffer of {length} bytes"), &pool, buffer);
            let number = if length < due { 8 } else { 0 };
            office.tally.hold(left.number == number, || {
                format!("{length} bytes: {}, and {number} is due", left.number)
            });
        }
        // The other owner's pair stays where one of a pair held twice is dropped.
        let bytes = office.written("a pair of both owners", &pool);
        let same = bytes == file(&[BY_OWNER[2], BY_OWNER[3]]);
        office.tally.hold(same, || "a pair of both owners: other bytes".into());
        office.seen.note("write of a pair that both owners hold");
    }
    office.seen.note("write into a buffer of every length");
}

/// Every edition and rule, and none told, with files of either edition, over pools of either edition's length and of both.
fn told(office: &mut Carrying) {
    let files = [(file(&IN_ORDER), 1), (file(&BY_OWNER), 2), (b"no file".to_vec(), 0)];
    for by in TOLD.into_iter().map(Some).chain([None]) {
        let known = by.map_or(Some(Edition::One), |(edition, rule)| edition_told(edition, rule));
        for (bytes, of) in &files {
            for (words, work) in [(50, 50), (58, 58), (57, 57), (1_058, 1_058), (58, 50)] {
                let mut pool = garbage_words(office.dice, words);
                pool[0] = office.dice.pick(&[1, 2, pool[0]]);
                let work = garbage_words(office.dice, work);
                let due = match known.map(|edition| (edition, edition.slots_of(words))) {
                    None => -1,
                    Some((_, None)) => 1,
                    Some(_) if work.len() != words => 1,
                    Some((edition, _)) if edition.number() != *of => 10,
                    Some(_) => 0,
                };
                let what = format!("told {by:?}, {words} words, a file of {of}");
                let number = office.read_by(&what, pool, work, bytes, by).number;
                office.tally.hold(number == due, || format!("{what}: {number}, and {due} is due"));
                note_told(by, *of, number, office);
            }
        }
    }
}

fn note_told(by: Option<Told>, of: i32, number: i32, office: &mut Carrying) {
    let Some((edition, rule)) = by else {
        return office.seen.note_those([
            ("read 0, told nothing", number == 0),
            ("read 1, told nothing", number == 1),
            ("read 10 of a file of edition 2, told nothing", number == 10 && of == 2),
        ]);
    };
    office.seen.note_those([
        ("read -1 for an edition", number == -1 && rule == 0),
        ("read -1 for a rule", number == -1 && (1..=2).contains(&edition)),
        ("read 0, told edition 1", number == 0 && edition == 1),
        ("read 0, told edition 2", number == 0 && edition == 2),
        ("read 10 of a file of edition 1, told 2", number == 10 && (of, edition) == (1, 2)),
        ("read 10 of a file of edition 2, told 1", number == 10 && (of, edition) == (2, 1)),
    ]);
}

/// Editions and counts of the first frame.
fn heads(office: &mut Carrying) {
    let mut with = |what: &str, place: usize, words: &[i32]| {
        for &word in words {
            let mut frames = frames_of(&BY_OWNER);
            frames[0].1[place] = word;
            office.due(what, 10, 1, &bytes_of(&frames));
        }
    };
    with("file with a wrong edition", 0, &[1, 0, 3, -2, 258, 65_538, i32::MIN + 2]);
    with("file with a count one too small", 1, &[5]);
    with("file with a count one too large", 1, &[7]);
    with("file with a count below zero", 1, &[-1, -6, i32::MIN]);
}

/// Records as the other edition has them, whole frames left out and twice, and bytes after the end.
fn frames(office: &mut Carrying) {
    let right = frames_of(&BY_OWNER);
    for place in 1..=BY_OWNER.len() {
        let mut as_17 = right.clone();
        as_17[place].0 = 17;
        office.due("file of edition 2 with kind 17", 10, 1, &bytes_of(&as_17));
        as_17[place].1.remove(0);
        office.due("file of edition 2 with kind 17", 10, 1, &bytes_of(&as_17));
        let mut as_19 = frames_of(&IN_ORDER);
        as_19[place].0 = 19;
        as_one(office, &bytes_of(&as_19));
        as_19[place].1.insert(0, 1);
        as_one(office, &bytes_of(&as_19));
    }
    for place in 0..right.len() {
        let (mut without, mut twice) = (right.clone(), right.clone());
        without.remove(place);
        twice.insert(place, right[place].clone());
        office.due("file with every frame left out", 10, 1, &bytes_of(&without));
        let due = if (1..BY_OWNER.len()).contains(&place) { 11 } else { 10 };
        office.due("file with every frame twice", due, 1, &bytes_of(&twice));
    }
    let whole = bytes_of(&right);
    for after in [vec![0], vec![255; 3], whole[12..40].to_vec(), whole.clone()] {
        office.due("file with bytes after the end", 10, 1, &[&whole[..], &after].concat());
    }
}

/// A file that is refused 10 where edition 1 is told, by either call.
fn as_one(office: &mut Carrying, bytes: &[u8]) {
    let what = "file of edition 1 with kind 19";
    for told in [None, Some((1, 0))] {
        let (pool, work) = (vec![-7; 50], garbage_words(office.dice, 50));
        let number = office.read_by(what, pool, work, bytes, told).number;
        office.tally.hold(number == 10, || format!("{what}: {number}, and 10 is due"));
    }
    office.seen.note(what);
}

/// Owners that are none, at every place; and records in another order than "by owner first", then found order.
fn orders(office: &mut Carrying) {
    for place in 0..BY_OWNER.len() {
        for owner in NO_OWNERS {
            let mut records = BY_OWNER;
            records[place][0] = owner;
            office.due("file with an owner that is none", 13, 1, &file(&records));
        }
    }
    for place in 1..BY_OWNER.len() {
        let (mut swapped, mut equal) = (BY_OWNER.to_vec(), BY_OWNER.to_vec());
        swapped.swap(place - 1, place);
        equal.insert(place, BY_OWNER[place]);
        office.due("file with neighbours swapped at every place", 11, 1, &file(&swapped));
        office.due("file with equal neighbours at every place", 11, 1, &file(&equal));
    }
    let found_order = [[1, 3, 0, 0, 1, 1], [2, 4, 0, 0, 1, 1], [1, 5, 0, 0, 1, 1]];
    office.due("file in found order, the owners mixed", 11, 1, &file(&found_order));
    let larger_first = [[1, 9, 5, 5, 6, 6], [2, 1, 0, 0, 1, 1]];
    office.due("file by owner, the larger number first", 0, 1, &file(&larger_first));
}

/// Every set of faults in one frame: in the ninth, for which one slot has no room, and three have; and in the first, which has no predecessor.
fn one_frame(office: &mut Carrying) {
    for set in 0..32 {
        let in_set = |place: &usize| set >> place & 1 == 1;
        let faults: Vec<i32> = (0..5).filter(in_set).map(|place| FRAME_REFUSALS[place]).collect();
        for (slots, before) in [(1, 8), (3, 8), (1, 0)] {
            let due = all_due(&faults, slots, before);
            let number = due.first().copied().unwrap_or(0);
            for _ in 0..WAYS {
                let mut file = after_row(before, vec![faulty(office.dice, &faults)]);
                maybe_cut(office.dice, &faults, 12 + 28 * before as usize, 28, &mut file);
                office.due("file with faults in one frame", number, slots, &file);
                let later = due.iter().skip(1).map(|&other| in_one_frame(number, other));
                later.for_each(|what| office.seen.note(what));
            }
        }
    }
}

/// What a frame after so many records is refused for.
fn all_due(faults: &[i32], slots: usize, before: i32) -> Vec<i32> {
    let has = |fault| faults.contains(&fault);
    let is_due = |number: &i32| match number {
        11 => before > 0 && (has(11) || has(4) && !has(13)),
        7 => before == 8 && slots < 3,
        number => has(*number),
    };
    FRAME_REFUSALS.into_iter().filter(is_due).collect()
}

/// Faults of two frames: the ninth, and the one after it.
fn two_frames(office: &mut Carrying) {
    for first in FRAME_REFUSALS {
        for other in FRAME_REFUSALS {
            let slots = if first == 7 { 1 } else { office.dice.pick(&[1, 3]) };
            let frames = [first, other].map(|fault| faulty(office.dice, &[fault]));
            let mut file = after_row(8, frames.to_vec());
            maybe_cut(office.dice, &[other], 12 + 28 * 9, 28, &mut file);
            office.due(&in_two_frames(first, other), first, slots, &file);
        }
    }
}

/// The file of a row of owner 2's records and then these frames.
fn after_row(records: i32, frames: Vec<Apart>) -> Vec<u8> {
    let mut all = frames_of(&owned_row(2, records));
    all[0].1[1] += frames.len() as i32;
    let last = all.len() - 1;
    all.splice(last..last, frames);
    bytes_of(&all)
}

/// The frame of a record with these faults, where eight of owner 2 come before it. 7 is no fault of a frame: the record is right.
fn faulty(dice: &mut Dice, faults: &[i32]) -> Apart {
    let has = |fault| faults.contains(&fault);
    let mut record: OwnedRecord = [2, 9 + dice.below(9) as i32, -5, 5, 70, 80];
    if has(11) {
        let eighth = owned_row(2, 8)[7];
        let of_owner_1 = [1, 9, -5, 5, 70, 80];
        record = dice.pick(&[eighth, [2, 7, 1, 2, 3, 4], of_owner_1, of_owner_1]);
    }
    if has(13) {
        // Not after its predecessor by whatever is made of such an owner, where that is asked for too.
        record[0] = if has(11) { dice.pick(&[0, -1, i32::MIN]) } else { dice.pick(&NO_OWNERS) };
    }
    if has(3) {
        let mut number_and_rect = [record[1], record[2], record[3], record[4], record[5]];
        if has(11) && record[0] == 2 {
            // The number alone decides the order then.
            number_and_rect[0] = 1 + dice.below(7) as i32;
        }
        spoil_rectangle(dice, &mut number_and_rect);
        record[1..].copy_from_slice(&number_and_rect);
    }
    if has(4) {
        record[1] = dice.pick(&[0, -1, i32::MIN, -8]);
    }
    let mut frame = (19, record.to_vec());
    if has(10) {
        spoil_frame(dice, &mut frame);
    }
    frame
}

/// Files of both owners up to the first record that has no slot, and beyond.
fn filled(slots: usize, office: &mut Carrying) {
    let half = 4 * slots as i32 + 1;
    let records = [owned_row(1, half), owned_row(2, half)].concat();
    let mut map = Map::read(&blank_pool_of(Edition::Two, slots));
    let refused = |record: &OwnedRecord| map.insert(&record_of(record)).is_err();
    let taken = records.iter().position(refused).expect("more than so many slots have room for");
    let (one_less, to_the_last) = (file(&records[..taken]), file(&records[..=taken]));
    office.due("read 0 of as many records as there are slots for", 0, slots, &one_less);
    office.due("read 7 at the last record", 7, slots, &to_the_last);
    office.due("read 7 with records after it", 7, slots, &file(&records));
    let ends = 12 + 28 * (taken + 1);
    let cut = &file(&records)[..ends + 5];
    office.due("read 7 before a cut frame", 7, slots, cut);
    let within = &file(&records)[..ends - 1];
    office.due("read 10 of the record that has no slot, cut", 10, slots, within);
}

/// A head that may be right, and then frames of which each alone may be right.
fn any_frames(office: &mut Carrying) {
    for _ in 0..OF_ANY_FRAMES {
        let dice = &mut *office.dice;
        let mut frames = vec![(16, vec![dice.pick(&[2, 2, 2, 1]), dice.between(0, 3) as i32])];
        for _ in 0..dice.below(6) {
            let (kind, words) =
                dice.pick(&[(19, 6), (19, 6), (19, 6), (18, 0), (18, 0), (16, 2), (17, 5)]);
            // Owner and number are mostly right, and highs are one more, so that many rectangles are valid.
            let word = |k: i32| dice.between(-1, 2) as i32 + i32::from(k > 3 || k == 1);
            frames.push((kind, (0..words).map(word).collect()));
        }
        office.read_into("file of any frames", 1, &bytes_of(&frames));
    }
    office.seen.note("file of any frames");
}
