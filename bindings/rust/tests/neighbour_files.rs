//! Files of edition 2: "kind 19 (owner, then as 17), ordered by owner first"; what a read of one leaves, and each refusal with what it
//! leaves. Files of edition 1 are in `carry.rs`.

use dustmap::numbers::{ACCEPTED, BAD_FRAME, BAD_LENGTH, BAD_OWNER, NOT_AFTER, NO_ROOM, NO_SLOT};
use dustmap::numbers::{BAD_NUMBER, BAD_RECTANGLE};
use dustmap::{blank_pool_as, call_as, check, plain, read, read_as, write};
use dustmap::{Answer, Edition, Owner, Rect, Request, Rule};

/// What is in a list of bytes before a write.
const BEFORE: u8 = 0x55;

const MOST: i32 = 1_000_000_000;

/// The six words of a record's frame: owner, number, low x, low y, high x, high y.
type Words = [i32; 6];

fn frame(kind: u8, words: &[i32]) -> Vec<u8> {
    let mut bytes = vec![2 + 4 * words.len() as u8, 0, kind, 0];
    bytes.extend(words.iter().flat_map(|word| word.to_le_bytes()));
    bytes
}

/// A file as document 02 has it, with that edition and count.
fn file_with(edition: i32, count: i32, records: &[Words]) -> Vec<u8> {
    let mut file = frame(16, &[edition, count]);
    file.extend(records.iter().flat_map(|words| frame(19, words)));
    file.extend(frame(18, &[]));
    file
}

fn file_of(records: &[Words]) -> Vec<u8> {
    file_with(2, records.len() as i32, records)
}

/// A file of edition 1, of the same records without their owners.
fn plain_file_of(edition: i32, records: &[Words]) -> Vec<u8> {
    let mut file = frame(16, &[edition, records.len() as i32]);
    file.extend(records.iter().flat_map(|words| frame(17, &words[1..])));
    file.extend(frame(18, &[]));
    file
}

/// A pool of so many slots with these records, inserted in this order.
fn pool_of(slots: usize, records: &[Words]) -> Vec<i32> {
    let mut pool = blank_pool_as(slots, Edition::Two, Rule::Quadratic).expect("1 to 4,096 slots");
    let mut work = vec![0; pool.len()];
    for [owner, number, rect @ ..] in records {
        let (owner, rect) = (Owner::try_from(*owner).expect("1 or 2"), Rect::from_words(*rect));
        let mut answers = [Answer::default()];
        let request = [Request::insert(*number, rect)];
        let given = call_as(&mut pool, &mut work, &request, &mut answers, &mut [], owner);
        assert_eq!((given, answers[0].number), (ACCEPTED, 0), "every record is inserted");
    }
    pool
}

/// So many records, the owners and the numbers mixed.
fn mixed(count: i32) -> Vec<Words> {
    let record = |k: i32| [1 + k % 2, 1 + (k * 7) % 50, 10 * k, 0, 10 * k + 5, 5];
    (0..count).map(record).collect()
}

fn sorted(records: &[Words]) -> Vec<Words> {
    let mut records = records.to_vec();
    records.sort();
    records
}

/// The file that a write gives; bytes after it stay, and a byte less is refused 8.
fn written(pool: &[i32]) -> Vec<u8> {
    let slots = (pool.len() - 8) / 50;
    let mut buffer = vec![BEFORE; Edition::Two.file_bytes(slots) + 7];
    let length = write(pool, &mut buffer).expect("a sound pool, and bytes enough");
    assert!(buffer[length..].iter().all(|byte| *byte == BEFORE), "bytes after the file stay");
    let mut short = vec![BEFORE; length - 1];
    assert_eq!(write(pool, &mut short), Err(NO_ROOM));
    assert!(short.iter().all(|byte| *byte == BEFORE), "a refused write writes no byte");
    buffer.truncate(length);
    buffer
}

/// That a file is refused with that number, by a pool of so many slots that holds any words; and what is then left.
fn refused(number: i32, slots: usize, file: &[u8], why: &str) {
    let before: Vec<i32> = (0..).take(Edition::Two.words(slots)).collect();
    let (mut pool, mut work) = (before.clone(), vec![-1; before.len()]);
    let given = read_as(&mut pool, &mut work, file, Edition::Two, Rule::Quadratic);
    assert_eq!(given, Err(number), "{why}");
    assert_eq!(pool, before, "a refused read leaves the pool: {why}");
    assert_eq!(work, before, "and its workspace equal to it: {why}");
}

#[test]
fn a_file_has_owner_1s_records_first() {
    let records = [
        [2, 1, 0, 0, 10, 10],
        [1, 9, 0, 0, 10, 10],
        [2, 9, 0, 0, 10, 10],
        [1, 2, 5, 5, 6, 6],
        [1, 2, -5, 0, 9, 0],
        [2, i32::MAX, -MOST, -MOST, MOST, MOST],
        [1, i32::MAX, -MOST, -MOST, MOST, MOST],
    ];
    assert_eq!(written(&pool_of(1, &records)), file_of(&sorted(&records)));
    assert_eq!(written(&pool_of(1, &[])), file_of(&[]), "an empty map");
    assert_eq!(file_of(&records).len(), 16 + 28 * records.len());
}

#[test]
fn the_file_of_the_example() {
    let file = include_bytes!("../../../examples/neighbour.map");
    let (mut pool, mut work) = (vec![7; 8 + 2 * 50], vec![8; 8 + 2 * 50]);
    assert_eq!(read_as(&mut pool, &mut work, file, Edition::Two, Rule::Quadratic), Ok(()));
    assert_eq!(pool[3], 5, "five records");
    assert_eq!(written(&pool), file);
}

#[test]
fn a_read_file_is_written_again_byte_for_byte() {
    for count in [0, 1, 8, 9, 40, 300] {
        let records = mixed(count);
        let file = written(&pool_of(300, &records));
        assert_eq!(file, file_of(&sorted(&records)));
        // 2N + 1 records always fit N slots
        for slots in [(records.len() / 2).max(1), 300, 4096] {
            let length = Edition::Two.words(slots);
            let (mut pool, mut work) = (vec![-7; length], vec![0; length]);
            let given = read_as(&mut pool, &mut work, &file, Edition::Two, Rule::Quadratic);
            assert_eq!(given, Ok(()));
            assert_eq!(work, pool, "the workspace equals the pool");
            assert_eq!(check(&pool), ACCEPTED);
            assert_eq!(written(&pool), file);
            assert_eq!(pool, pool_of(slots, &sorted(&records)), "what inserts in file order leave");
        }
    }
}

#[test]
fn a_pair_held_twice_by_one_owner_is_written_once() {
    let records = [[1, 3, 0, 0, 1, 1], [1, 4, 2, 2, 3, 3], [2, 3, 0, 0, 1, 1]];
    let mut pool = pool_of(1, &records);
    assert_eq!(written(&pool), file_of(&records), "each owner's own is written");
    // the second entry of the only leaf as the first
    pool.copy_within(10..16, 16);
    assert_eq!(check(&pool), ACCEPTED, "soundness does not ask that pairs differ");
    assert_eq!(written(&pool), file_of(&[records[0], records[2]]));
}

#[test]
fn a_write_is_refused_1_before_2_before_8() {
    let sound = pool_of(2, &mixed(3));
    let mut unsound = sound.clone();
    unsound[8 + 2 + 5] = 3;
    for (number, pool, room) in [
        (1, &sound[..sound.len() - 1], 999),
        (1, &unsound[..sound.len() - 1], 0),
        (2, &unsound[..], 0),
        (2, &unsound[..], 999),
        (8, &sound[..], 16 + 28 * 3 - 1),
    ] {
        let mut buffer = vec![BEFORE; room];
        assert_eq!(write(pool, &mut buffer), Err(number));
        assert!(buffer.iter().all(|byte| *byte == BEFORE));
    }
}

/// "Blanking and reading are told the edition .. and go by it": -1 before all else, then 1 by the edition told.
#[test]
fn a_read_refused_minus_1_or_1_writes_nothing() {
    let file = file_of(&[]);
    for (number, pool_words, work_words, edition, rule) in [
        (-1, 8 + 50, 8 + 50, 0, 0),
        (-1, 8 + 50, 8 + 50, 3, 0),
        (-1, 8 + 50, 8 + 50, 2, -1),
        (-1, 8 + 42, 8 + 42, 1, 99),
        (-1, 7, 9, i32::MAX, 0),
        (BAD_LENGTH, 8 + 42, 8 + 42, 2, 0),
        (BAD_LENGTH, 8 + 50, 8 + 50, 1, 0),
        (BAD_LENGTH, 8 + 50, 8 + 100, 2, 0),
        (BAD_LENGTH, 8 + 50 * 4097, 8 + 50 * 4097, 2, 0),
        (BAD_LENGTH, 0, 0, 2, 0),
    ] {
        // neither a 1 nor a 2 in the pool's first word matters
        for word in [1, 2] {
            let (mut pool, mut work) = (vec![word; pool_words], vec![4; work_words]);
            for bytes in [&file[..], &[]] {
                assert_eq!(plain::read_as(&mut pool, &mut work, bytes, edition, rule), number);
            }
            assert!(pool.iter().all(|w| *w == word) && work.iter().all(|w| *w == 4));
        }
    }
}

#[test]
fn a_read_that_is_told_edition_1_is_a_plain_one() {
    let records = [[1, 3, 0, 0, 1, 1], [1, 4, 2, 2, 3, 3]];
    for file in [plain_file_of(1, &records), plain_file_of(2, &records), file_of(&records)] {
        let length = Edition::One.words(2);
        let (mut plain_pool, mut pool) = (vec![2; length], vec![2; length]);
        let (mut plain_work, mut work) = (vec![0; length], vec![0; length]);
        let due = read(&mut plain_pool, &mut plain_work, &file);
        let given = read_as(&mut pool, &mut work, &file, Edition::One, Rule::Quadratic);
        assert_eq!((given, &pool, &work), (due, &plain_pool, &plain_work));
        let first = file == plain_file_of(1, &records);
        assert_eq!(given, if first { Ok(()) } else { Err(BAD_FRAME) });
        assert_eq!(pool[0], if first { 1 } else { 2 });
    }
}

#[test]
fn a_file_cut_anywhere_is_refused_10() {
    let file = file_of(&sorted(&mixed(4)));
    for length in 0..file.len() {
        refused(BAD_FRAME, 5, &file[..length], &format!("cut after {length} bytes"));
    }
}

#[test]
fn a_wrong_frame_edition_or_count_is_refused_10() {
    let records = sorted(&mixed(2));
    let good = file_of(&records);
    let one_of_17 = [&good[..12], &frame(17, &records[0][1..]), &good[12 + 28..]].concat();
    let wrong = [
        ("a byte after the end", [&good[..], &[0]].concat()),
        ("edition 0", file_with(0, 2, &records)),
        ("edition 1", file_with(1, 2, &records)),
        ("edition 3", file_with(3, 2, &records)),
        ("a file of edition 1", plain_file_of(1, &records)),
        ("an empty file of edition 1", plain_file_of(1, &[])),
        ("records of kind 17", plain_file_of(2, &records)),
        ("one record of kind 17", one_of_17),
        (
            "kind 19 as long as 17",
            [&good[..12], &frame(19, &records[0][1..]), &good[40..]].concat(),
        ),
        ("kind 17 as long as 19", [&good[..12], &frame(17, &records[0]), &good[40..]].concat()),
        ("a count below 0", file_with(2, -1, &[])),
        ("an end too early", file_with(2, 3, &records)),
        ("a record too many", file_with(2, 1, &records)),
        ("an end with a word", [&good[..good.len() - 4], &frame(18, &[0])].concat()),
    ];
    for (why, file) in &wrong {
        refused(BAD_FRAME, 5, file, why);
    }
}

/// "13 for another owner .. in a file after 4"; then 11, by owner first.
#[test]
fn a_record_is_refused_3_then_4_then_13_then_11() {
    let before = [1, 7, 0, 0, 10, 10];
    for (number, bad, why) in [
        (BAD_RECTANGLE, [3, 0, 1, 0, 0, 0], "low above high, a bad number and owner"),
        (BAD_RECTANGLE, [3, 6, 0, 0, MOST + 1, 0], "out of range, and a bad owner"),
        (BAD_NUMBER, [3, 0, 0, 0, 10, 10], "a bad number and owner"),
        (BAD_NUMBER, [0, i32::MIN, 0, 0, 10, 10], "a bad number and owner"),
        (BAD_OWNER, [0, 7, 0, 0, 10, 10], "owner 0, and not after"),
        (BAD_OWNER, [3, 8, 0, 0, 10, 10], "owner 3"),
        (BAD_OWNER, [i32::MIN, 8, 0, 0, 10, 10], "the least owner"),
        (BAD_OWNER, [i32::MAX, 8, 0, 0, 10, 10], "the largest owner"),
        (NOT_AFTER, before, "equal"),
        (NOT_AFTER, [1, 6, 50, 50, 60, 60], "a smaller number"),
        (NOT_AFTER, [1, 7, 0, 0, 10, 9], "a smaller high y"),
    ] {
        refused(number, 5, &file_of(&[before, bad, [2, 9, 0, 0, 1, 1]]), why);
    }
    refused(NOT_AFTER, 5, &file_of(&[[2, 1, 0, 0, 1, 1], [1, 9, 0, 0, 1, 1]]), "a smaller owner");
    let good = file_of(&[[1, 9, 0, 0, 1, 1], [2, 1, 0, 0, 1, 1], [2, 9, 0, 0, 1, 1]]);
    let (mut pool, mut work) = (vec![0; 58], vec![0; 58]);
    let given = read_as(&mut pool, &mut work, &good, Edition::Two, Rule::Quadratic);
    assert_eq!((given, pool[3]), (Ok(()), 3), "a smaller number is after, where its owner is");
}

#[test]
fn a_pool_too_small_is_refused_7() {
    for slots in [1, 2, 3, 30] {
        let records = sorted(&mixed(8 * slots as i32 + 1));
        refused(NO_SLOT, slots, &file_of(&records), "more than 8N records of both owners");
    }
}

#[test]
fn the_first_frame_at_fault_decides() {
    let records = &[1, 2, 3, 4, 5, 6, 7, 8, 9].map(|k| [1 + k / 5, k, 0, 0, 1, 1])[..];
    let (bad, no_owner) = ([2, 1, 1, 0, 0, 0], [3, 9, 0, 0, 1, 1]);
    let file = file_of(records);
    refused(NO_SLOT, 1, &file[..file.len() - 1], "the ninth record has no slot, then a cut end");
    refused(NO_SLOT, 1, &file_of(&[records, &[no_owner]].concat()), "no slot, then a bad owner");
    let early = [&records[..8], &[no_owner, records[8]]].concat();
    refused(BAD_OWNER, 1, &file_of(&early), "before there is no slot");
    refused(BAD_RECTANGLE, 1, &file_of(&[bad, no_owner]), "a bad rectangle, then a bad owner");
    refused(BAD_FRAME, 1, &file_with(1, 1, &[no_owner]), "the head before a record");
    refused(BAD_OWNER, 1, &file_with(2, 3, &[no_owner]), "a record before an end too early");
}
