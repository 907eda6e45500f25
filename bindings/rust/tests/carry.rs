//! "Carry the map between offices": what a file has, what a read leaves, and each refusal with what it leaves.

use dustmap::{blank_pool, call, check, file_bytes, read, words, write};
use dustmap::{Answer, Found, Rect, Request};

/// What is in a list of bytes before a write.
const BEFORE: u8 = 0x55;

const MOST: i32 = 1_000_000_000;

/// A pool of so many slots with these records, inserted in this order.
fn pool_of(slots: usize, records: &[Found]) -> Vec<i32> {
    let mut pool = blank_pool(slots).expect("1 to 4,096 slots");
    let mut work = vec![0; pool.len()];
    let requests: Vec<Request> =
        records.iter().map(|r| Request::insert(r.number, r.rect)).collect();
    let mut answers = vec![Answer::default(); requests.len()];
    assert_eq!(call(&mut pool, &mut work, &requests, &mut answers, &mut []), 0);
    assert!(answers.iter().all(|answer| answer.number == 0), "every record is inserted");
    pool
}

fn record(number: i32, words: [i32; 4]) -> Found {
    Found { number, rect: Rect::from_words(words) }
}

/// So many records, the last number first.
fn row(count: i32) -> Vec<Found> {
    (1..=count).rev().map(|k| record(k, [10 * k, 0, 10 * k + 5, 5])).collect()
}

fn frame(kind: u8, words: &[i32]) -> Vec<u8> {
    let mut bytes = vec![2 + 4 * words.len() as u8, 0, kind, 0];
    bytes.extend(words.iter().flat_map(|word| word.to_le_bytes()));
    bytes
}

/// A file as document 02 has it, with that edition and count.
fn file_with(edition: i32, count: i32, records: &[Found]) -> Vec<u8> {
    let mut file = frame(16, &[edition, count]);
    for Found { number, rect } in records {
        let [low_x, low_y, high_x, high_y] = rect.to_words();
        file.extend(frame(17, &[*number, low_x, low_y, high_x, high_y]));
    }
    file.extend(frame(18, &[]));
    file
}

fn file_of(records: &[Found]) -> Vec<u8> {
    file_with(1, records.len() as i32, records)
}

/// The file that a write gives; bytes after it stay, and a byte less is refused 8.
fn written(pool: &[i32]) -> Vec<u8> {
    let slots = (pool.len() - words(0)) / (words(1) - words(0));
    let mut buffer = vec![BEFORE; file_bytes(slots) + 7];
    let length = write(pool, &mut buffer).expect("a sound pool, and bytes enough");
    assert!(buffer[length..].iter().all(|byte| *byte == BEFORE), "bytes after the file stay");
    let mut short = vec![BEFORE; length - 1];
    assert_eq!(write(pool, &mut short), Err(8));
    assert!(short.iter().all(|byte| *byte == BEFORE), "a refused write writes no byte");
    assert_eq!(write(pool, &mut vec![BEFORE; length]), Ok(length), "its own length is enough");
    buffer.truncate(length);
    buffer
}

/// That a file is refused with that number, by a pool of so many slots that holds any words; and what is then left.
fn refused(number: i32, slots: usize, file: &[u8], why: &str) {
    let before: Vec<i32> = (0..).take(words(slots)).collect();
    let (mut pool, mut work) = (before.clone(), vec![-1; before.len()]);
    assert_eq!(read(&mut pool, &mut work, file), Err(number), "{why}");
    assert_eq!(pool, before, "a refused read leaves the pool: {why}");
    assert_eq!(work, before, "and its workspace equal to it: {why}");
}

#[test]
fn a_file_has_the_records_in_found_order() {
    let mut records = vec![
        record(9, [0, 0, 10, 10]),
        record(2, [5, 5, 6, 6]),
        record(7, [0, 0, 10, 10]),
        record(2, [-5, 0, 9, 0]),
        record(i32::MAX, [-MOST, -MOST, MOST, MOST]),
    ];
    let pool = pool_of(3, &records);
    records.sort();
    assert_eq!(written(&pool), file_of(&records));
    assert_eq!(written(&pool_of(1, &[])), file_of(&[]), "an empty map");
}

#[test]
fn the_file_of_the_example() {
    let file = include_bytes!("../../../examples/carry.map");
    let mut pool = vec![7; words(4)];
    let mut work = vec![8; words(4)];
    assert_eq!(read(&mut pool, &mut work, file), Ok(()));
    assert_eq!(pool[3], 9, "nine records");
    assert_eq!(written(&pool), file);
}

#[test]
fn a_read_file_is_written_again_byte_for_byte() {
    for count in [0, 1, 8, 9, 40, 300] {
        let records = row(count);
        let file = written(&pool_of(300, &records));
        // 2N + 1 records always fit N slots
        for slots in [(records.len() / 2).max(1), 300, 4096] {
            let (mut pool, mut work) = (vec![-7; words(slots)], vec![0; words(slots)]);
            assert_eq!(read(&mut pool, &mut work, &file), Ok(()));
            assert_eq!(work, pool, "the workspace equals the pool");
            assert_eq!(check(&pool), 0);
            assert_eq!(written(&pool), file);
            let in_order: Vec<Found> = records.iter().rev().copied().collect();
            assert_eq!(pool, pool_of(slots, &in_order), "what inserts in file order leave");
        }
    }
}

#[test]
fn a_pair_held_twice_is_written_once() {
    let records = [record(3, [0, 0, 1, 1]), record(4, [2, 2, 3, 3])];
    let mut pool = pool_of(1, &records);
    // the second entry of the only leaf as the first
    pool.copy_within(10..15, 15);
    assert_eq!(check(&pool), 0, "soundness does not ask that pairs differ");
    assert_eq!(written(&pool), file_of(&records[..1]));
}

#[test]
fn a_write_is_refused_1_before_2_before_8() {
    let sound = pool_of(2, &row(3));
    let unsound = vec![3; words(2)];
    let cases: [(i32, &[i32], usize); 6] = [
        (1, &sound[1..], 999),
        (1, &unsound[1..], 0),
        (1, &[], 0),
        (2, &unsound, 0),
        (2, &unsound, 999),
        (8, &sound, 0),
    ];
    for (number, pool, room) in cases {
        let mut buffer = vec![BEFORE; room];
        assert_eq!(write(pool, &mut buffer), Err(number));
        assert!(buffer.iter().all(|byte| *byte == BEFORE));
    }
}

#[test]
fn a_read_refused_1_writes_nothing() {
    let file = file_of(&[]);
    for (pool_words, work_words) in [(words(2), words(3)), (words(2) + 1, words(2) + 1), (0, 0)] {
        let (mut pool, mut work) = (vec![3; pool_words], vec![4; work_words]);
        assert_eq!(read(&mut pool, &mut work, &file), Err(1));
        assert_eq!(read(&mut pool, &mut work, &[]), Err(1), "1 comes before 10");
        assert!(pool.iter().all(|w| *w == 3) && work.iter().all(|w| *w == 4));
    }
}

#[test]
fn a_file_cut_anywhere_is_refused_10() {
    let mut records = row(4);
    records.sort();
    let file = file_of(&records);
    for length in 0..file.len() {
        refused(10, 5, &file[..length], &format!("cut after {length} bytes"));
    }
}

#[test]
fn a_wrong_frame_edition_or_count_is_refused_10() {
    let mut records = row(2);
    records.sort();
    let good = file_of(&records);
    let with = |at: usize, byte: u8| {
        let mut other = good.clone();
        other[at] = byte;
        other
    };
    let wrong = [
        ("a byte after the end", [&good[..], &[0]].concat()),
        ("a second file after the end", [&good[..], &good].concat()),
        ("edition 0", file_with(0, 2, &records)),
        ("edition 2", file_with(2, 2, &records)),
        ("a count below 0", file_with(1, -1, &[])),
        ("an end too early", file_with(1, 3, &records)),
        ("a record too many", file_with(1, 1, &records)),
        ("the largest count", file_with(1, i32::MAX, &records)),
        ("no head", good[12..].to_vec()),
        ("an insert of dustmap", with(14, 1)),
        ("a kind with a second byte", with(15, 1)),
        ("another length", with(12, 23)),
        ("a length with a second byte", with(13, 1)),
        ("an end with a word", [&good[..good.len() - 4], &frame(18, &[0])].concat()),
    ];
    for (why, file) in &wrong {
        refused(10, 5, file, why);
    }
}

#[test]
fn a_record_is_refused_3_then_4_then_11() {
    let before = record(7, [0, 0, 10, 10]);
    let cases = [
        (3, record(0, [1, 0, 0, 0]), "low above high, and a bad number"),
        (3, record(6, [0, 1, 0, 0]), "low above high, and not after"),
        (3, record(8, [0, 0, MOST + 1, 0]), "out of range"),
        (3, record(8, [-MOST - 1, 0, 0, 0]), "out of range"),
        (4, record(0, [0, 0, 10, 10]), "a bad number, and not after"),
        (4, record(i32::MIN, [0, 0, 10, 10]), "the least number"),
        (11, before, "equal"),
        (11, record(6, [50, 50, 60, 60]), "a smaller number"),
        (11, record(7, [-1, 0, 10, 10]), "a smaller low x"),
        (11, record(7, [0, 0, 10, 9]), "a smaller high y"),
    ];
    for (number, bad, why) in cases {
        refused(number, 5, &file_of(&[before, bad, record(9, [0, 0, 1, 1])]), why);
    }
}

#[test]
fn a_pool_too_small_is_refused_7() {
    for slots in [1, 2, 3, 30] {
        let mut records = row(8 * slots as i32 + 1);
        records.sort();
        refused(7, slots, &file_of(&records), "more than 8N records");
    }
}

#[test]
fn the_first_frame_at_fault_decides() {
    let mut records = row(9);
    records.sort();
    let bad = record(1, [1, 0, 0, 0]);
    let file = file_of(&records);
    refused(7, 1, &file[..file.len() - 1], "the ninth record has no slot, then a cut end");
    refused(7, 1, &file_of(&[&records[..], &[bad]].concat()), "no slot, then a bad rectangle");
    refused(
        3,
        1,
        &file_of(&[&records[..8], &[bad, records[8]]].concat()),
        "before there is no slot",
    );
    refused(10, 1, &file_with(2, 1, &[bad]), "the head before a record");
    refused(11, 1, &file_with(1, 3, &[records[0], records[0]]), "a record before an end too early");
}
