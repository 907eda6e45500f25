//! Cases of the two calls of Req 02 that meet every sentence of the request.

use crate::edition::{Edition, Owner};
use crate::files::Case;
use crate::frames::frame;
use crate::generate::pair_of;
use crate::pool::{blank_pool_of, Map, Owned};
use crate::script::blank_pool;

/// A record in words: number, low x, low y, high x, high y.
pub type Record = [i32; 5];

/// "owner, then as 17" (Req 07).
pub type OwnedRecord = [i32; 6];

/// A frame apart: its kind and its words.
pub type Apart = (u16, Vec<i32>);

const LIMIT: i32 = 1_000_000_000;

/// Records in found order. From each to the next one more field is equal, and where the deciding
/// field rises, the one after it mostly falls.
pub const IN_ORDER: [Record; 8] = [
    [1, 50, 0, 60, 60],
    [2, -9, 8, 50, 50],
    [2, 7, -8, 50, 50],
    [2, 7, 6, 40, 50],
    [2, 7, 6, 41, 30],
    [2, 7, 6, 41, 31],
    [3, -LIMIT, -LIMIT, LIMIT, LIMIT],
    [i32::MAX, LIMIT, LIMIT, LIMIT, LIMIT],
];

/// So many records in a row, numbered from 1.
pub fn row(count: i32) -> Vec<Record> {
    (1..=count).map(|n| [n, 10 * n, 0, 10 * n + 10, 10]).collect()
}

/// The edition of a file or a pool whose records are of so many words.
fn edition_of(words: usize) -> Edition {
    match words {
        5 => Edition::One,
        6 => Edition::Two,
        _ => panic!("a record is of five words, or six"),
    }
}

/// The frames of a file of these records, in this order: of edition 2 where the records have owners.
pub fn frames_of<const K: usize>(records: &[[i32; K]]) -> Vec<Apart> {
    frames_of_edition(edition_of(K), records)
}

/// The same, of records that may be none.
pub fn frames_of_edition<R: AsRef<[i32]>>(edition: Edition, records: &[R]) -> Vec<Apart> {
    let kind = if edition == Edition::One { 17 } else { 19 };
    let mut frames = vec![(16, vec![edition.number(), records.len() as i32])];
    frames.extend(records.iter().map(|record| (kind, record.as_ref().to_vec())));
    frames.push((18, vec![]));
    frames
}

pub fn bytes_of(frames: &[Apart]) -> Vec<u8> {
    frames.iter().flat_map(|(kind, words)| frame(*kind, words)).collect()
}

/// The file of these records, in this order.
pub fn file<const K: usize>(records: &[[i32; K]]) -> Vec<u8> {
    bytes_of(&frames_of(records))
}

/// A record of five words, or of six with its owner first.
pub fn record_of(words: &[i32]) -> Owned {
    let (owner, words) = words.split_at(words.len() - 5);
    let owner = owner.first().map(|&owner| Owner::numbered(owner).expect("an owner"));
    Owned { owner, pair: pair_of(words[0], [words[1], words[2], words[3], words[4]]) }
}

/// A pool of so many slots that takes these records one after another, held or not: a pair given
/// twice is held twice. It is of edition 2 where the records have owners.
pub fn pool_holding<const K: usize>(slots: usize, records: &[[i32; K]]) -> Vec<i32> {
    let mut pool = blank_pool_of(edition_of(K), slots);
    let mut map = Map::read(&pool);
    for record in records {
        map.insert(&record_of(record)).expect("a slot is free");
    }
    map.write(&mut pool);
    pool
}

/// Every sentence of the request.
pub fn kept() -> Vec<Case> {
    let writes = writes().into_iter().map(|(pool, buffer)| Case::Write { pool, buffer });
    let files = well_made().into_iter().chain(wrong_heads()).chain(wrong_frames());
    let files = files.chain(cut_or_longer()).chain(wrong_records()).chain(two_faults());
    let reads = files.map(|(slots, file)| read_into(slots, file));
    writes.chain(reads).chain(other_pools()).collect()
}

/// A read into a pool that holds a record of its own. The workspace differs from it.
fn read_into(slots: usize, file: Vec<u8>) -> Case {
    let pool = pool_holding(slots, &[[99, 1, 2, 3, 4]]);
    Case::Read { work: vec![-5; pool.len()], pool, file }
}

fn writes() -> Vec<(Vec<i32>, Vec<u8>)> {
    let stored_otherwise: Vec<Record> = IN_ORDER.into_iter().rev().collect();
    let twice = [IN_ORDER[4], IN_ORDER[0], IN_ORDER[4], IN_ORDER[4], IN_ORDER[2], IN_ORDER[0]];
    let mut not_sound = blank_pool(1);
    not_sound[7] = 1;
    let room = |records: usize| vec![0x55; 16 + 24 * records];
    let short = |records: usize| vec![0x55; 15 + 24 * records];
    vec![
        (blank_pool(1), room(0)),
        (blank_pool(1), short(0)),
        (blank_pool(1), vec![]),
        (pool_holding(1, &stored_otherwise), room(8)),
        (pool_holding(1, &stored_otherwise), short(8)),
        (pool_holding(1, &stored_otherwise), vec![0x55; 230]),
        (pool_holding(1, &twice), room(3)),
        (pool_holding(1, &twice), short(3)),
        (pool_holding(1, &twice), room(6)),
        (pool_holding(3, &row(9)), room(9)),
        (not_sound.clone(), room(0)),
        (not_sound.clone(), vec![]),
        (not_sound[..49].to_vec(), vec![]),
        (blank_pool(1)[..49].to_vec(), room(0)),
        (vec![], room(0)),
    ]
}

/// Files as a writer makes them, each with the slots of the pool to read into. Nine records call
/// for three slots, so the second of these and the third are refused at the last record.
fn well_made() -> Vec<(usize, Vec<u8>)> {
    let nine = file(&row(9));
    let whole = [file(&row(0)), file(&row(1)), file(&IN_ORDER), file(&row(8))];
    let files = whole.map(|file| (1, file));
    let nines = [(3, nine.clone()), (2, nine.clone()), (1, nine)];
    nines.into_iter().chain(files).collect()
}

/// The file of a row of three, with one of its frames changed.
fn three_but(place: usize, change: impl Fn(&mut Apart)) -> (usize, Vec<u8>) {
    let mut frames = frames_of(&row(3));
    change(&mut frames[place]);
    (1, bytes_of(&frames))
}

/// Editions, counts, kinds and lengths of the first frame.
fn wrong_heads() -> Vec<(usize, Vec<u8>)> {
    let edition = |word: i32| three_but(0, |head| head.1[0] = word);
    let count = |word: i32| three_but(0, |head| head.1[1] = word);
    let mut cases: Vec<_> = [0, 2, -1, 257, 65_537, i32::MIN].into_iter().map(edition).collect();
    cases.extend([0, 2, 4, -1, -3, i32::MIN, i32::MAX, 65_539].into_iter().map(count));
    // No record and a count below none: nothing but the sign is wrong.
    cases.push((1, bytes_of(&[(16, vec![1, -1]), (18, vec![])])));
    cases.push(three_but(0, |head| head.0 = 17));
    cases.push(three_but(0, |head| head.0 = 272));
    cases.push(three_but(0, |head| head.1.push(0)));
    cases.push(three_but(0, |head| head.1.truncate(1)));
    cases.push((1, bytes_of(&frames_of(&row(3))[1..])));
    cases
}

/// Kinds and lengths of the other frames, and frames too many or too few.
fn wrong_frames() -> Vec<(usize, Vec<u8>)> {
    let mut cases: Vec<_> = (1..=4).map(|place| three_but(place, |f| f.0 += 256)).collect();
    cases.extend([1, 2, 3].map(|place| three_but(place, |record| record.0 = 1)));
    cases.extend([1, 2, 3].map(|place| three_but(place, |record| record.1.push(0))));
    cases.extend([1, 2, 3].map(|place| three_but(place, |record| record.1.truncate(4))));
    cases.push(three_but(4, |last| last.1.push(0)));
    cases.push(three_but(4, |last| last.0 = 16));
    for place in 0..=4 {
        let mut frames = frames_of(&row(3));
        frames.remove(place);
        cases.push((1, bytes_of(&frames)));
    }
    // A length wrong in its low byte or in its high one, where all else stays.
    for (at, value) in [(0, 11), (1, 1), (12, 21), (13, 1), (36, 0), (84, 1), (84, 3), (85, 1)] {
        let mut bytes = file(&row(3));
        bytes[at] = value;
        cases.push((1, bytes));
    }
    // The head once more, and the last frame in the middle.
    for (place, again) in [(1, 0), (2, 0), (1, 4), (3, 4)] {
        let mut frames = frames_of(&row(3));
        frames.insert(place, frames[again].clone());
        cases.push((1, bytes_of(&frames)));
    }
    cases
}

/// Files cut in and between frames, and bytes after kind 18.
fn cut_or_longer() -> Vec<(usize, Vec<u8>)> {
    let whole = file(&row(3));
    let kept = [0, 1, 3, 11, 12, 13, 15, 35, 36, 37, 83, 84, 85, 86, 87];
    let mut cases: Vec<_> = kept.into_iter().map(|kept| (1, whole[..kept].to_vec())).collect();
    let after = [vec![0], vec![18], frame(18, &[]), frame(17, &[9, 0, 0, 1, 1]), whole.clone()];
    cases.extend(after.map(|after| (1, [whole.clone(), after].concat())));
    cases
}

/// Records that are refused 3, 4 or 11, and what stands beside.
fn wrong_records() -> Vec<(usize, Vec<u8>)> {
    let beyond = LIMIT + 1;
    let alone = [
        [5, 1, 0, 0, 0],
        [5, 0, 1, 0, 0],
        [5, -beyond, 0, 0, 0],
        [5, 0, -beyond, 0, 0],
        [5, 0, 0, beyond, 0],
        [5, 0, 0, 0, beyond],
        [0, 0, 0, 0, 0],
        [-5, 0, 0, 0, 0],
        [i32::MIN, 0, 0, 0, 0],
        // Both 3 and 4.
        [0, 1, 0, 0, 0],
    ];
    let mut cases: Vec<_> = alone.map(|record| (1, file(&[record]))).into();
    // Both 11 and 3, both 11 and 4.
    cases.push((1, file(&[[5, 9, 9, 9, 9], [5, 9, 9, 8, 9]])));
    cases.push((1, file(&[[5, 9, 9, 9, 9], [0, 9, 9, 9, 9]])));
    // Two neighbours in turn swapped, and each record twice.
    for place in 0..IN_ORDER.len() - 1 {
        cases.push((1, file(&[IN_ORDER[place + 1], IN_ORDER[place]])));
        cases.push((1, file(&[IN_ORDER[place], IN_ORDER[place]])));
    }
    // After its predecessor, and not after the one before that.
    cases.push((1, file(&[IN_ORDER[0], IN_ORDER[7], IN_ORDER[2], IN_ORDER[3]])));
    cases
}

/// "the first frame at fault decides"; within a frame 10, 3, 4, 11, 7.
fn two_faults() -> Vec<(usize, Vec<u8>)> {
    let (bad_3, bad_4, bad_11) = ([9, 1, 0, 0, 0], [0, 0, 0, 0, 0], [8, 0, 0, 0, 0]);
    let after_eight = |record: Record| [row(8), vec![record]].concat();
    let mut cases = Vec::new();
    for (bad, slots) in [(bad_3, 3), (bad_4, 3), (bad_11, 3), ([9, 0, 0, 0, 0], 1)] {
        let whole = file(&after_eight(bad));
        // A cut within the ninth record, at its end, and within the last frame; bytes after it.
        cases.extend([227, 228, 230].map(|kept| (slots, whole[..kept].to_vec())));
        cases.push((slots, [&whole[..], &[0]].concat()));
        // A count one off, both ways: eight are due, or ten. And one below none.
        for count in [8, 10, -1] {
            let mut frames = frames_of(&after_eight(bad));
            frames[0].1[1] = count;
            cases.push((slots, bytes_of(&frames)));
        }
        // Refused for what it says, where no slot is free for it either.
        cases.push((1, whole));
    }
    // Faults of two frames, both ways round.
    for pair in [[bad_3, bad_4], [bad_4, bad_3], [bad_11, bad_3], [bad_3, bad_11]] {
        cases.push((3, file(&[row(8), pair.to_vec()].concat())));
    }
    cases
}

/// Pools to read into that only their length tells of, and workspaces of another length.
fn other_pools() -> Vec<Case> {
    let (good, bad) = (file(&row(3)), file(&row(3))[1..].to_vec());
    let lent = |words: usize, work: usize, file: &[u8]| Case::Read {
        pool: vec![-7; words],
        work: vec![-5; work],
        file: file.to_vec(),
    };
    let lengths = [(50, 50), (50, 49), (50, 92), (50, 0), (0, 0), (8, 8), (49, 49), (49, 50)];
    let of = |file: &[u8]| lengths.map(|(words, work)| lent(words, work, file));
    of(&good).into_iter().chain(of(&bad)).collect()
}
