//! "Carry the map between offices" (document 02, Req 02), sentence by sentence.

mod common;

use common::{batch, blank_pool, frame, point, put, three_levels};
use second::files::{self, Case};
use second::generate::history;
use second::style::STYLES;
use second::{pairs_in_leaves, read, sound, write, Edition, Request};

/// A record: number, low x, low y, high x, high y.
type Record = [i32; 5];

const LIMIT: i32 = 1_000_000_000;
const FIVE: [Record; 5] =
    [[2, -3, 0, 4, 9], [2, 5, -7, 5, -7], [7, 0, 0, 1, 1], [7, 0, 0, 1, 2], [300, 1, 2, 3, 4]];

/// Records in a row, each on a point of its own.
fn row(count: i32) -> Vec<Record> {
    (1..=count).map(|n| [n, 10 * n, 0, 10 * n, 0]).collect()
}

/// A file by its parts: what the head says, the records, the last frame.
fn file_saying(count: i32, records: &[Record]) -> Vec<u8> {
    let mut file = frame(16, &[1, count]);
    file.extend(records.iter().flat_map(|record| frame(17, record)));
    file.extend(frame(18, &[]));
    file
}

fn file(records: &[Record]) -> Vec<u8> {
    file_saying(records.len() as i32, records)
}

/// What inserts of these records leave in a blank pool of so many slots, and the number of the
/// first that is refused.
fn inserted(slots: usize, records: &[Record]) -> (i32, Vec<i32>) {
    let mut pool = blank_pool(slots);
    for &[number, a, b, c, d] in records {
        let refused = common::number(&mut pool, Request::insert(number, [a, b, c, d]));
        if refused != 0 {
            return (refused, pool);
        }
    }
    (0, pool)
}

/// A pool of one slot with these records as its leaf holds them.
fn leaf(records: &[Record]) -> Vec<i32> {
    let mut pool = blank_pool(1);
    let entries: Vec<_> = records.iter().map(|&[n, a, b, c, d]| ([a, b, c, d], n)).collect();
    put(&mut pool, 1, 1, &entries);
    pool[3] = records.len() as i32;
    assert!(sound(&pool));
    pool
}

/// The file that a pool is written to, from a buffer with room to spare.
fn written(pool: &[i32]) -> Vec<u8> {
    let mut buffer = vec![0x55; 40 + 24 * pool[3] as usize];
    let (number, length) = write(pool, &mut buffer);
    assert_eq!(number, 0);
    assert!(buffer[length..].iter().all(|&byte| byte == 0x55), "bytes after the file stay");
    buffer.truncate(length);
    buffer
}

/// Reads into a pool with a record of its own. Refused, the pool stays and the workspace is equal
/// to it; accepted, both hold the new pool, which is given.
fn read_into(slots: usize, file: &[u8]) -> (i32, Vec<i32>) {
    let (_, before) = inserted(slots, &[[99, 1, 2, 3, 4]]);
    let (mut pool, mut work) = (before.clone(), vec![-5; before.len()]);
    let number = read(&mut pool, &mut work, file);
    assert_eq!(work, pool);
    if number == 0 {
        assert!(sound(&pool));
    } else {
        assert_eq!(pool, before);
    }
    (number, pool)
}

/// The number alone, in a pool with room.
fn number_of(file: &[u8]) -> i32 {
    read_into(12, file).0
}

fn buffer_afterwards(pool: &[i32], length: usize) -> (i32, usize, Vec<u8>) {
    let mut buffer: Vec<u8> = (0..length).map(|place| place as u8 | 0x80).collect();
    let (number, length) = write(pool, &mut buffer);
    (number, length, buffer)
}

/// "kind 16 first (edition 1, record count), then kind 17 per record (number, rectangle) .., kind
/// 18 last with no words": byte for byte.
#[test]
fn the_bytes_of_a_file() {
    let pool = leaf(&[[7, 0, -1, 10, 258]]);
    let due = [
        [10, 0, 16, 0, 1, 0, 0, 0, 1, 0, 0, 0].to_vec(),
        [22, 0, 17, 0, 7, 0, 0, 0, 0, 0, 0, 0].to_vec(),
        [255, 255, 255, 255, 10, 0, 0, 0, 2, 1, 0, 0].to_vec(),
        [2, 0, 18, 0].to_vec(),
    ];
    assert_eq!(written(&pool), due.concat());
    assert_eq!(read_into(1, &due.concat()), (0, pool));
}

#[test]
fn the_bytes_of_no_record() {
    let due = [10, 0, 16, 0, 1, 0, 0, 0, 0, 0, 0, 0, 2, 0, 18, 0];
    assert_eq!(written(&blank_pool(3)), due);
    assert_eq!(read_into(3, &due), (0, blank_pool(3)));
}

/// "in found order": by number, then low x, low y, high x, high y, whatever the order stored.
#[test]
fn records_in_found_order() {
    let stored = [FIVE[4], FIVE[3], FIVE[0], FIVE[2], FIVE[1]];
    assert_eq!(written(&leaf(&stored)), file(&FIVE));
    let numbers: Vec<i32> = (1..=6).flat_map(|s| (0..3).map(move |i| 10 * s + i)).collect();
    let bars = numbers.iter().map(|n| (n, common::bar(100 * (n / 10) + 2 * (n % 10))));
    let due: Vec<Record> = bars.map(|(&n, [a, b, c, d])| [n, a, b, c, d]).collect();
    assert_eq!(written(&three_levels()), file(&due));
}

/// "The writer drops a pair held twice and counts distinct pairs." The buffer need not be longer.
#[test]
fn a_pair_held_twice() {
    let [a, b, c, d, _] = FIVE;
    let held = [
        (vec![c, c], vec![c]),
        (vec![c, a, c], vec![a, c]),
        (vec![b, a, b, a, b], vec![a, b]),
        (vec![c; 8], vec![c]),
        // Same number or same rectangle, and not the same pair.
        (vec![d, c, d, [8, 0, 0, 1, 1]], vec![c, d, [8, 0, 0, 1, 1]]),
    ];
    for (stored, distinct) in held {
        let (pool, due) = (leaf(&stored), file(&distinct));
        assert_eq!(written(&pool), due);
        assert_eq!(buffer_afterwards(&pool, due.len()), (0, due.len(), due.clone()));
        assert_eq!(buffer_afterwards(&pool, due.len() - 1).0, 8);
        assert_eq!(read_into(1, &due), (0, leaf(&distinct)));
    }
}

/// The two of a pair may be in leaves apart.
#[test]
fn a_pair_held_twice_in_two_leaves() {
    let mut pool = vec![0; 8 + 42 * 3];
    pool[..4].copy_from_slice(&[1, 3, 2, 7]);
    let one = [(point(4), 9), (point(1), 1), (point(2), 2)];
    put(&mut pool, 1, 1, &one);
    put(&mut pool, 2, 1, &[(point(5), 5), (point(4), 9), (point(2), 2), (point(4), 3)]);
    put(&mut pool, 3, 2, &[([1, 0, 4, 0], 1), ([2, 0, 5, 0], 2)]);
    assert!(sound(&pool));
    let due = [(1, 1), (2, 2), (3, 4), (5, 5), (9, 4)].map(|(n, x)| [n, x, 0, x, 0]);
    assert_eq!(written(&pool), file(&due));
}

/// "A writer fills the front of a lent buffer"; "8 if its buffer is short". Every length.
#[test]
fn buffers_of_every_length() {
    for records in [&FIVE[..0], &FIVE[..1], &FIVE] {
        let (pool, due) = (leaf(records), file(records));
        for length in 0..due.len() + 30 {
            let before: Vec<u8> = (0..length).map(|place| place as u8 | 0x80).collect();
            let after = if length < due.len() {
                (8, 0, before)
            } else {
                (0, due.len(), [&due[..], &before[due.len()..]].concat())
            };
            assert_eq!(buffer_afterwards(&pool, length), after, "{length} bytes");
        }
    }
}

/// "1 first, then 2 for the writer only; 8 if its buffer is short".
#[test]
fn refusals_of_a_writer_in_order() {
    let pool = leaf(&FIVE);
    let mut not_sound = pool.clone();
    not_sound[3] += 1;
    let long = file(&FIVE).len();
    for (pool, length, due) in [
        (&pool[..], long, 0),
        (&pool, long - 1, 8),
        (&not_sound, long, 2),
        (&not_sound, 0, 2),
        (&not_sound[..49], 0, 1),
        (&pool[..49], long, 1),
        (&[], long, 1),
        (&pool[..8], 0, 1),
    ] {
        let before = buffer_afterwards(&[], length).2;
        let (number, written, buffer) = buffer_afterwards(pool, length);
        assert_eq!(number, due);
        if number != 0 {
            assert_eq!((written, buffer), (0, before));
        }
    }
}

#[test]
fn lengths_of_pools() {
    let good = file(&FIVE);
    for length in [0, 1, 7, 8, 9, 42, 49, 51, 91, 93, 8 + 42 * 4_097] {
        let before = vec![3; length];
        let (mut pool, mut work) = (before.clone(), vec![-5; length]);
        for file in [&good[..], &[]] {
            assert_eq!(read(&mut pool, &mut work, file), 1, "{length} words");
            assert!(pool == before && work.iter().all(|&word| word == -5));
        }
        assert_eq!(write(&pool, &mut [0; 16]), (1, 0));
    }
    for slots in [1, 2, 4_096] {
        let mut pool = vec![3; 8 + 42 * slots];
        let mut work = vec![-5; pool.len()];
        assert_eq!(read(&mut pool, &mut work, &good), 0);
        assert_eq!((&work, written(&pool)), (&pool, good.clone()));
    }
}

/// "1 pool length wrong, or workspace length differs from the pool's": nothing is written, and the
/// file is not looked at.
#[test]
fn lengths_of_workspaces() {
    for file in [file(&FIVE), vec![], vec![1, 2, 3]] {
        for length in [0, 8, 49, 51, 92] {
            let (before, mut work) = (leaf(&FIVE), vec![-5; length]);
            let mut pool = before.clone();
            assert_eq!(read(&mut pool, &mut work, &file), 1);
            assert!(pool == before && work.iter().all(|&word| word == -5));
        }
    }
}

/// "2 for the writer only": of the pool read into only the length is looked at.
#[test]
fn a_pool_to_read_into_need_not_be_sound() {
    let (good, bad) = (file(&FIVE), file(&[FIVE[1], FIVE[0]]));
    let (_, due) = inserted(2, &FIVE);
    for words in [vec![0; 92], vec![-1; 92], vec![i32::MIN; 92], three_levels()[..92].to_vec()] {
        let (mut pool, mut work) = (words.clone(), vec![-5; 92]);
        assert_eq!(read(&mut pool, &mut work, &bad), 11);
        assert_eq!((&pool, &work), (&words, &words));
        assert_eq!(read(&mut pool, &mut work, &good), 0);
        assert_eq!((&pool, &work), (&due, &due));
    }
}

/// "a reader blanks a pool and inserts in file order": word for word what the inserts leave.
#[test]
fn a_read_is_a_blank_and_inserts() {
    for (_, style) in STYLES {
        for (slots, count) in [(3, 40), (6, 80), (20, 300)] {
            let source = history(style, 11, slots, count).pool;
            let file = written(&source);
            let records = records_in(&file);
            for slots in [1, 2, 3, slots, 2 * slots, 4 * slots] {
                let (refused, pool) = inserted(slots, &records);
                let (number, after) = read_into(slots, &file);
                assert_eq!(number, refused);
                assert!(number == 7 || after == pool);
            }
        }
    }
}

/// The records of a file without faults.
fn records_in(file: &[u8]) -> Vec<Record> {
    let word = |at: usize| i32::from_le_bytes(file[at..at + 4].try_into().expect("four bytes"));
    let count = word(8) as usize;
    (0..count).map(|k| std::array::from_fn(|i| word(12 + 24 * k + 4 + 4 * i))).collect()
}

/// "Where a read of a written file is accepted, writing again gives the same bytes."
#[test]
fn round_trips() {
    let (mut accepted, mut refused) = (0, 0);
    for (_, style) in STYLES {
        for (slots, count) in [(1, 20), (3, 60), (4, 60), (8, 150), (40, 400)] {
            for seed in 1..=5 {
                let source = history(style, seed, slots, count).pool;
                let file = written(&source);
                for slots in [slots, 3 * slots] {
                    let (number, pool) = read_into(slots, &file);
                    if number == 0 {
                        assert_eq!(written(&pool), file);
                        assert_eq!(sorted_pairs(&pool), sorted_pairs(&source));
                        accepted += 1;
                    } else {
                        assert_eq!(number, 7);
                        refused += 1;
                    }
                }
            }
        }
    }
    assert!(accepted > 300 && refused > 0, "{accepted} accepted, {refused} refused");
}

fn sorted_pairs(pool: &[i32]) -> Vec<second::Pair> {
    let mut pairs = pairs_in_leaves(pool);
    pairs.sort();
    pairs
}

/// A file is not a batch: it may have more than 1,024 records.
#[test]
fn more_records_than_a_batch_has_requests() {
    let file = file(&row(1_500));
    let (number, pool) = read_into(600, &file);
    assert_eq!((number, pool[3]), (0, 1_500));
    assert_eq!(written(&pool), file);
}

/// Cut at every byte: 10, whether within a frame or between two.
#[test]
fn files_cut_at_every_byte() {
    for records in [&FIVE[..0], &FIVE[..1], &FIVE] {
        let whole = file(records);
        for kept in 0..whole.len() {
            assert_eq!(number_of(&whole[..kept]), 10, "{kept} bytes kept");
        }
        assert_eq!(number_of(&whole), 0);
    }
}

/// "the first frame at fault decides": a cut behind the frame at fault is not looked for, a cut
/// before its end is.
#[test]
fn cut_before_or_behind_a_fault() {
    let faults = [([3, 1, 0, 0, 0], 3), ([0, 0, 0, 0, 0], 4), ([2, 0, 0, 0, 0], 11)];
    for (bad, due) in faults {
        let records = [row(2), vec![bad], row(9)[3..].to_vec()].concat();
        cut_everywhere(12, &file(&records), 12 + 24 * 3, due);
    }
    cut_everywhere(1, &file(&row(11)), 12 + 24 * 9, 7);
}

/// The end is that of the frame at fault.
fn cut_everywhere(slots: usize, whole: &[u8], end: usize, due: i32) {
    for kept in 0..=whole.len() {
        let number = read_into(slots, &whole[..kept]).0;
        assert_eq!(number, if kept < end { 10 } else { due }, "{kept} bytes kept");
    }
}

/// One byte changed at every place to every other value, in a file of three records. A byte of the
/// head, of a length or of a kind makes a wrong frame; one of a record gives another record.
#[test]
fn one_byte_changed_at_every_place() {
    let whole = file(&FIVE[1..4]);
    let mut met = [0; 12];
    for place in 0..whole.len() {
        for value in (0..=255).filter(|&value| value != whole[place]) {
            let mut changed = whole.clone();
            changed[place] = value;
            let due = due_for_changed(&whole, place, &changed);
            assert_eq!(number_of(&changed), due, "byte {place} as {value}");
            met[due as usize] += 1;
        }
    }
    assert!([0, 3, 4, 10, 11].into_iter().all(|number| met[number] > 0), "{met:?}");
}

fn due_for_changed(whole: &[u8], place: usize, changed: &[u8]) -> i32 {
    let in_a_record = (12..whole.len() - 4).contains(&place) && (place - 12) % 24 >= 4;
    if in_a_record {
        due_for_records(&records_in(changed))
    } else {
        10
    }
}

/// The number due for records in a file without wrong frames, where slots are to spare.
fn due_for_records(records: &[Record]) -> i32 {
    for (index, record) in records.iter().enumerate() {
        let [number, low_x, low_y, high_x, high_y] = *record;
        let in_range = |word: &i32| (-LIMIT..=LIMIT).contains(word);
        if !record[1..].iter().all(in_range) || low_x > high_x || low_y > high_y {
            return 3;
        }
        if number <= 0 {
            return 4;
        }
        if index > 0 && *record <= records[index - 1] {
            return 11;
        }
    }
    0
}

/// Every order of the five records: one is the found order.
#[test]
fn records_in_every_order() {
    let mut accepted = 0;
    for order in orders(5) {
        let records: Vec<Record> = order.iter().map(|&place| FIVE[place]).collect();
        let due = if order.is_sorted() { 0 } else { 11 };
        assert_eq!(number_of(&file(&records)), due, "{order:?}");
        accepted += i32::from(due == 0);
    }
    assert_eq!(accepted, 1);
}

/// All orders of so many places.
fn orders(count: usize) -> Vec<Vec<usize>> {
    if count == 0 {
        return vec![vec![]];
    }
    let shorter = orders(count - 1);
    let with = |place: usize| {
        shorter.iter().map(move |order| {
            let mut longer = order.clone();
            longer.insert(place, count - 1);
            longer
        })
    };
    (0..count).flat_map(with).collect()
}

/// "11 for a record not after its predecessor": equal is not after.
#[test]
fn equal_neighbours() {
    for (place, record) in FIVE.into_iter().enumerate() {
        let mut records = FIVE.to_vec();
        records.insert(place, record);
        assert_eq!(number_of(&file(&records)), 11);
        assert_eq!(number_of(&file(&[record, record])), 11);
    }
}

/// After its predecessor in one field by one, and before it in all that come later in the order:
/// number, low x, low y, high x, high y.
#[test]
fn after_in_each_field() {
    let first = [5, -1, -1, 9, 9];
    let others = [
        [6, -8, -8, 0, 0],
        [5, 0, -8, 0, 0],
        [5, -1, 0, 0, 0],
        [5, -1, -1, 10, 0],
        [5, -1, -1, 9, 10],
    ];
    for after in others {
        assert_eq!(number_of(&file(&[first, after])), 0, "{after:?}");
        assert_eq!(number_of(&file(&[after, first])), 11, "{after:?}");
    }
}

/// "10 for a wrong .. count": the head says how many records come.
#[test]
fn wrong_counts() {
    for records in [&FIVE[..0], &FIVE[..1], &FIVE] {
        let right = records.len() as i32;
        let others = [right - 1, right + 1, right + 256, -1, -right, i32::MIN, i32::MAX];
        for count in others.into_iter().filter(|&count| count != right) {
            assert_eq!(number_of(&file_saying(count, records)), 10, "{count} for {right}");
        }
    }
}

/// Where the count is wrong, the frame in the place of the one due is at fault, and frames before
/// it decide. A negative count is at fault in the head.
#[test]
fn wrong_counts_and_another_fault() {
    let faults = [([9, 1, 0, 0, 0], 3), ([0, 0, 0, 0, 0], 4), ([2, 0, 0, 0, 0], 11)];
    for (bad, due) in faults {
        let records = [row(2), vec![bad]].concat();
        for (count, number) in [(3, due), (4, due), (i32::MAX, due), (2, 10), (0, 10), (-1, 10)] {
            assert_eq!(number_of(&file_saying(count, &records)), number, "{count} said");
        }
    }
    // No slot for the ninth record.
    for (count, number) in [(9, 7), (10, 7), (i32::MAX, 7), (8, 10), (-9, 10)] {
        assert_eq!(read_into(2, &file_saying(count, &row(9))).0, number, "{count} said");
    }
    // Eight fit: only the count is wrong.
    assert_eq!(read_into(1, &file_saying(9, &row(8))).0, 10);
}

/// "10 for a wrong .. edition", before anything else is looked at.
#[test]
fn wrong_editions() {
    for edition in [0, 2, -1, 257, 1 << 24 | 1, i32::MAX, i32::MIN] {
        for records in [&FIVE[..], &[[0, 1, 0, 0, 0]], &[]] {
            let mut bytes = file(records);
            bytes[4..8].copy_from_slice(&edition.to_le_bytes());
            assert_eq!(number_of(&bytes), 10, "edition {edition}");
        }
    }
}

/// A frame of another kind or length than the one due, in each place.
#[test]
fn wrong_frames() {
    let frames: Vec<(u16, Vec<i32>)> =
        vec![(16, vec![1, 2]), (17, FIVE[0].to_vec()), (17, FIVE[1].to_vec()), (18, vec![])];
    let bytes = |frames: &[(u16, Vec<i32>)]| -> Vec<u8> {
        frames.iter().flat_map(|(kind, words)| frame(*kind, words)).collect()
    };
    assert_eq!(number_of(&bytes(&frames)), 0);
    for place in 0..frames.len() {
        for kind in (0..=24).chain([256 + 16, 256 + 17, 256 + 18, 65_535]) {
            let mut changed = frames.clone();
            changed[place].0 = kind;
            let due = if kind == frames[place].0 { 0 } else { 10 };
            assert_eq!(number_of(&bytes(&changed)), due, "kind {kind} in place {place}");
        }
        for words in 0..=10 {
            let mut changed = frames.clone();
            changed[place].1.resize(words, 0);
            let due = if words == frames[place].1.len() { 0 } else { 10 };
            assert_eq!(number_of(&bytes(&changed)), due, "{words} words in place {place}");
        }
        let dropped = [&frames[..place], &frames[place + 1..]].concat();
        assert_eq!(number_of(&bytes(&dropped)), 10);
        let doubled = [&frames[..=place], &frames[place..]].concat();
        assert_eq!(number_of(&bytes(&doubled)), if place == 1 { 11 } else { 10 });
    }
}

/// Lengths that leave no whole words, or no kind.
#[test]
fn odd_lengths() {
    let whole = file(&FIVE);
    for start in [0, 12, 12 + 24, 12 + 24 * 5] {
        for length in (0..=40).chain([255, 256 + 22, 256 + 10, 256 + 2, 32_768, 65_535]) {
            let mut changed = whole.clone();
            changed[start..start + 2].copy_from_slice(&u16::to_le_bytes(length));
            let due = if changed == whole { 0 } else { 10 };
            assert_eq!(number_of(&changed), due, "length {length} at {start}");
            changed.extend([0; 70_000]);
            assert_eq!(number_of(&changed), 10);
        }
    }
}

/// "10 for .. bytes after kind 18".
#[test]
fn bytes_after_the_last_frame() {
    let whole = file(&FIVE);
    for after in [vec![0], vec![0; 4], frame(18, &[]), frame(17, &[400, 0, 0, 1, 1]), whole.clone()]
    {
        assert_eq!(number_of(&[whole.clone(), after].concat()), 10);
    }
    // A file of no record, and bytes after it.
    assert_eq!(number_of(&[file(&[]), vec![0]].concat()), 10);
}

/// "a coordinate out of range, or low above high", in each place.
#[test]
fn refused_3() {
    let beyond = LIMIT + 1;
    for bad in [
        [5, 1, 0, 0, 0],
        [5, 0, 1, 0, 0],
        [5, -beyond, 0, 0, 0],
        [5, 0, -beyond, 0, 0],
        [5, 0, 0, beyond, 0],
        [5, 0, 0, 0, beyond],
        [5, i32::MIN, 0, i32::MAX, 0],
    ] {
        assert_eq!(number_of(&file(&[bad])), 3, "{bad:?}");
        assert_eq!(number_of(&file(&[[4, 0, 0, 0, 0], bad])), 3, "{bad:?}");
    }
    let widest = [5, -LIMIT, -LIMIT, LIMIT, LIMIT];
    assert_eq!(number_of(&file(&[widest])), 0);
}

/// "record number below 1".
#[test]
fn refused_4() {
    for number in [0, -1, i32::MIN] {
        assert_eq!(number_of(&file(&[[number, 0, 0, 0, 0]])), 4);
        assert_eq!(number_of(&file(&[FIVE[0], [number, 0, 0, 0, 0]])), 4);
    }
    assert_eq!(number_of(&file(&[[1, 0, 0, 0, 0], [i32::MAX, 0, 0, 0, 0]])), 0);
}

/// Within a frame: 10, 3, 4, 11, 7. The ninth record is at fault in all ways, then in one less and
/// so on; no slot is free for it.
#[test]
fn the_order_within_a_frame() {
    let ninth = [([0, 1, 0, 0, 0], 3), ([0, 0, 0, 0, 0], 4), ([8, 0, 0, 0, 0], 11)];
    for (bad, due) in ninth.into_iter().chain([([9, 0, 0, 0, 0], 7)]) {
        let whole = file(&[row(8), vec![bad]].concat());
        assert_eq!(read_into(1, &whole).0, due);
        assert_eq!(read_into(2, &whole).0, due);
        let mut wrong_kind = whole.clone();
        wrong_kind[12 + 24 * 8 + 2] = 19;
        assert_eq!(read_into(1, &wrong_kind).0, 10);
        assert_eq!(read_into(1, &whole[..12 + 24 * 9 - 1]).0, 10);
    }
}

/// "then 7; the first frame at fault decides": at the last record, and what comes after it.
#[test]
fn refused_7_at_the_last_record() {
    for slots in [1, 2] {
        assert_eq!(read_into(slots, &file(&row(8))).0, 0);
        assert_eq!(read_into(slots, &file(&row(9))).0, 7);
        let behind = [[9, 90, 0, 90, 0], [0, 1, 0, 0, 0], [10, 1, 0, 0, 0]];
        for last in behind {
            let records = [row(9), vec![last]].concat();
            assert_eq!(read_into(slots, &file(&records)).0, 7);
            assert_eq!(read_into(slots, &file_saying(9, &records)).0, 7);
        }
        assert_eq!(read_into(slots, &[file(&row(9)), vec![0]].concat()).0, 7);
    }
    assert_eq!(read_into(3, &file(&row(9))).0, 0);
}

/// The number of records that a pool takes from a file: one more is refused 7 at the last record.
#[test]
fn the_longest_file_that_fits() {
    for slots in [1, 3, 4, 5, 9, 20] {
        let all = row(8 * slots as i32 + 1);
        let fits = (0..all.len()).take_while(|&n| inserted(slots, &all[..=n]).0 == 0).count();
        let (number, pool) = read_into(slots, &file(&all[..fits]));
        assert_eq!((number, pool), inserted(slots, &all[..fits]));
        assert_eq!(read_into(slots, &file(&all[..=fits])).0, 7);
    }
}

/// A pool that was read serves requests.
#[test]
fn requests_after_a_read() {
    let (_, mut pool) = read_into(3, &file(&row(9)));
    let (answers, found) = batch(
        &mut pool,
        &[
            Request::insert(9, point(90)),
            Request::search([80, 0, 90, 0]),
            Request::delete(9, point(90)),
        ],
    );
    assert_eq!(answers.iter().map(|a| a.number).collect::<Vec<_>>(), [6, 0, 0]);
    assert_eq!((found[0].number, found[1].number), (8, 9));
    assert_eq!(written(&pool), file(&row(8)));
}

/// Lines of cases both ways, and the lines kept beside the program.
#[test]
fn lines_of_cases() {
    let case = Case::Read { pool: vec![1, -2], work: vec![], file: vec![0, 255] };
    assert_eq!(files::line(&case), "read 1,-2 - 00ff");
    assert_eq!(files::answered(&case), "read 1,-2 - 00ff -> 1 1,-2 -");
    assert_eq!(files::parse("read 1,-2 - 00ff -> 7 0 0"), Ok(case));
    let kept = include_str!("../examples/carry.cases");
    let due: Vec<&str> = kept.lines().filter(|line| !line.starts_with('#')).collect();
    assert_eq!(files::run(kept).expect("cases").lines().collect::<Vec<_>>(), due);
    let bad = ["write 1", "read - -", "write 1,x -", "write - 0", "read - - 0g", "turn - -"];
    assert!(bad.into_iter().all(|line| files::run(line).is_err()));
}

#[test]
fn drawn_cases_are_the_same_each_time() {
    for edition in [Edition::One, Edition::Two] {
        let text = files::cases(edition, 5, 400);
        assert_eq!(text, files::cases(edition, 5, 400));
        assert_ne!(text, files::cases(edition, 6, 400));
        assert_eq!(files::run(&text), Ok(text));
    }
}

/// Every number happens among the drawn cases of both calls.
#[test]
fn every_number_is_drawn() {
    let (text, kept) = (files::cases(Edition::One, 1, 3_000), second::files_kept::kept().len());
    assert!(kept < 200, "{kept} are the same for every seed");
    let drawn = text.lines().skip(kept);
    let mut numbers: Vec<(&str, i32)> = drawn
        .map(|line| {
            let (case, due) = line.split_once(" -> ").expect("an arrow");
            let number = due.split(' ').next().expect("a number");
            (case.split(' ').next().expect("a name"), number.parse().expect("a number"))
        })
        .collect();
    numbers.sort();
    numbers.dedup();
    let reads = [0, 1, 3, 4, 7, 10, 11].map(|number| ("read", number));
    let writes = [0, 1, 2, 8].map(|number| ("write", number));
    assert_eq!(numbers, [&reads[..], &writes].concat());
}
