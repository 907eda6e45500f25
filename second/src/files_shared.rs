//! Cases of files of edition 2 that meet every sentence of Req 07 about them.

use crate::edition::Edition;
use crate::files::Case;
use crate::files_kept::{
    bytes_of, file, frames_of, pool_holding, row, Apart, OwnedRecord, IN_ORDER,
};
use crate::frames::frame;
use crate::pool::blank_pool_of;
use crate::script::blank_pool;

/// Records in the order of a file: each owner's in found order, and all of owner 1's first, also
/// where their numbers are larger. The third and the fourth are one pair.
pub const BY_OWNER: [OwnedRecord; 6] = [
    [1, 2, -9, 8, 50, 50],
    [1, 2, 7, -8, 50, 50],
    [1, 9, 0, 0, 10, 10],
    [2, 9, 0, 0, 10, 10],
    [2, 9, 0, 0, 10, 11],
    [2, i32::MAX, -5, -5, -5, -5],
];

/// What a reader may be told: the two editions there are with the rule there is, and others.
pub const TOLD: [(i32, i32); 12] = [
    (1, 0),
    (2, 0),
    (0, 0),
    (3, 0),
    (-1, 0),
    (i32::MIN, 0),
    (257, 0),
    (1, 1),
    (2, 1),
    (2, -1),
    (2, i32::MIN),
    (0, 1),
];

/// A row of records numbered from 1, of one owner.
pub fn owned_row(owner: i32, count: i32) -> Vec<OwnedRecord> {
    let owned = |[number, a, b, c, d]: [i32; 5]| [owner, number, a, b, c, d];
    row(count).into_iter().map(owned).collect()
}

/// Every sentence about files.
pub fn kept_shared() -> Vec<Case> {
    let writes = writes().into_iter().map(|(pool, buffer)| Case::Write { pool, buffer });
    let files = well_made().into_iter().chain(wrong_frames()).chain(wrong_records());
    let reads = files.chain(two_faults()).map(|(slots, file)| read_into(slots, file));
    writes.chain(reads).chain(told()).chain(other_pools()).collect()
}

/// A read into an edition 2 pool that holds a record of its own. The workspace differs from it.
fn read_into(slots: usize, file: Vec<u8>) -> Case {
    let pool = pool_holding(slots, &[[2, 99, 1, 2, 3, 4]]);
    Case::ReadAs { work: vec![-5; pool.len()], pool, file, edition: 2, rule: 0 }
}

/// Pools of both owners: stored in another order, with a pair that one of them holds twice or that
/// each of them holds; and owners that are none.
fn writes() -> Vec<(Vec<i32>, Vec<u8>)> {
    let stored_otherwise: Vec<OwnedRecord> = BY_OWNER.into_iter().rev().collect();
    let twice = [BY_OWNER[3], BY_OWNER[2], BY_OWNER[3], BY_OWNER[0], BY_OWNER[2], BY_OWNER[3]];
    let room = |records: usize| vec![0x55; 16 + 28 * records];
    let short = |records: usize| vec![0x55; 15 + 28 * records];
    // The owner of the first entry, of one not used, and of a free slot.
    let with = |place: usize, word: i32| {
        let mut pool = pool_holding(2, &BY_OWNER[..2]);
        pool[place] = word;
        pool
    };
    let blank = blank_pool_of(Edition::Two, 1);
    let mut cases = vec![
        (blank.clone(), room(0)),
        (blank.clone(), short(0)),
        (pool_holding(1, &stored_otherwise), room(6)),
        (pool_holding(1, &stored_otherwise), short(6)),
        (pool_holding(1, &twice), room(3)),
        (pool_holding(1, &twice), short(3)),
        (pool_holding(3, &owned_row(2, 9)), room(9)),
        (blank[..57].to_vec(), room(0)),
        (blank[..50].to_vec(), room(0)),
    ];
    let spoilt = [(15, 0), (15, 3), (15, -1), (15, 2), (27, 1), (27, 3), (65, 1), (0, 1), (0, 3)];
    cases.extend(spoilt.map(|(place, word)| (with(place, word), room(6))));
    cases
}

/// Files as a writer makes them, each with the slots of the pool to read into.
fn well_made() -> Vec<(usize, Vec<u8>)> {
    let both = [owned_row(1, 5), owned_row(2, 4)].concat();
    let nine = file(&both);
    let nines = [(3, nine.clone()), (2, nine.clone()), (1, nine)];
    let files = [file(&owned_row(1, 0)), file(&BY_OWNER), file(&owned_row(2, 8))];
    nines.into_iter().chain(files.map(|file| (1, file))).collect()
}

/// The file of the records above, with one of its frames changed.
fn but(place: usize, change: impl Fn(&mut Apart)) -> (usize, Vec<u8>) {
    let mut frames = frames_of(&BY_OWNER);
    change(&mut frames[place]);
    (1, bytes_of(&frames))
}

/// A head of the other edition, records as edition 1 has them, and frames of other lengths.
fn wrong_frames() -> Vec<(usize, Vec<u8>)> {
    let as_17 = |place: usize| {
        but(place, |record| {
            record.0 = 17;
            record.1.remove(0);
        })
    };
    let mut cases: Vec<_> = [1, 0, 3, 258].map(|word| but(0, |head| head.1[0] = word)).into();
    cases.extend([1, 4, 6].map(as_17));
    cases.extend([1, 6].map(|place| but(place, |record| record.0 = 17)));
    cases.extend([1, 6].map(|place| but(place, |record| record.1.truncate(5))));
    cases.extend([1, 6].map(|place| but(place, |record| record.1.push(0))));
    cases.extend([5, 7].map(|word| but(0, |head| head.1[1] = word)));
    let whole = file(&BY_OWNER);
    cases.extend([0, 11, 12, 13, 39, 40, 179, 180, 183].map(|kept| (1, whole[..kept].to_vec())));
    cases.push((1, [&whole[..], &frame(19, &BY_OWNER[5])].concat()));
    cases
}

/// Owners that are none, and records not after their predecessor, "ordered by owner first".
fn wrong_records() -> Vec<(usize, Vec<u8>)> {
    let owners = [0, 3, -1, 257, i32::MIN, i32::MAX];
    let mut cases: Vec<_> =
        owners.into_iter().map(|owner| but(1, |record| record.1[0] = owner)).collect();
    cases.extend([0, 3].map(|owner| but(6, |record| record.1[0] = owner)));
    for place in 0..BY_OWNER.len() - 1 {
        cases.push((1, file(&[BY_OWNER[place + 1], BY_OWNER[place]])));
        cases.push((1, file(&[BY_OWNER[place], BY_OWNER[place]])));
    }
    // Found order alone, and the owners in between.
    cases.push((1, file(&[[1, 3, 0, 0, 1, 1], [2, 4, 0, 0, 1, 1], [1, 5, 0, 0, 1, 1]])));
    cases.push((1, file(&[[2, 3, 0, 0, 1, 1], [1, 4, 0, 0, 1, 1]])));
    cases
}

/// "Refusals: 13 .. in a file after 4": within a frame 10, 3, 4, 13, 11, 7. And the first frame at
/// fault decides.
fn two_faults() -> Vec<(usize, Vec<u8>)> {
    let after_eight = |records: &[OwnedRecord]| [owned_row(2, 8), records.to_vec()].concat();
    let alone: [OwnedRecord; 5] = [
        // 3 and 13; 4 and 13; 13 and 11; 3, 4 and 13; 13 and, in one slot, 7.
        [3, 9, 1, 0, 0, 0],
        [0, 0, 0, 0, 0, 0],
        [0, 8, 0, 0, 0, 0],
        [-1, -1, 1, 0, 0, 0],
        [3, 9, 0, 0, 1, 1],
    ];
    let mut cases = Vec::new();
    for bad in alone {
        cases.extend([1, 3].map(|slots| (slots, file(&after_eight(&[bad])))));
        let mut longer = frames_of(&after_eight(&[bad]));
        longer[9].1.push(0);
        cases.push((3, bytes_of(&longer)));
    }
    let (bad_13, bad_11, bad_4) = ([3, 9, 0, 0, 1, 1], [1, 9, 0, 0, 1, 1], [2, 0, 0, 0, 1, 1]);
    for pair in [[bad_13, bad_4], [bad_4, bad_13], [bad_11, bad_13], [bad_13, bad_11]] {
        cases.push((3, file(&after_eight(&pair))));
    }
    cases
}

/// Every edition and rule that may be told. Those that there are: with a file that fits and with one
/// that does not, over pools of either edition's length, and of none.
fn told() -> Vec<Case> {
    let files = [file(&BY_OWNER), file(&IN_ORDER), b"no file".to_vec()];
    let mut cases = Vec::new();
    for (edition, rule) in TOLD {
        let known = (1..=2).contains(&edition) && rule == 0;
        let lengths = if known { &[50, 58, 57][..] } else { &[58] };
        for file in files.iter().take(if known { 3 } else { 1 }) {
            for &words in lengths {
                let (pool, work, file) = (vec![2; words], vec![-5; words], file.clone());
                cases.push(Case::ReadAs { pool, work, file, edition, rule });
            }
        }
    }
    // The reader that is told nothing goes by edition 1.
    for file in files {
        let pool = blank_pool(1);
        cases.push(Case::Read { work: vec![-5; 50], pool, file });
    }
    cases
}

/// Pools to read into that only their length tells of, and workspaces of another length. 1,058 words
/// are 25 slots of edition 1, and 21 of edition 2.
fn other_pools() -> Vec<Case> {
    let lengths = [(58, 58), (58, 57), (58, 50), (50, 50), (57, 57), (0, 0), (108, 58)];
    let mut cases = Vec::new();
    for (words, work) in lengths {
        for word in [1, 2, -7] {
            let (pool, file) = (vec![word; words], file(&BY_OWNER));
            cases.push(Case::ReadAs { pool, work: vec![-5; work], file, edition: 2, rule: 0 });
        }
    }
    for (edition, file) in [(1, file(&IN_ORDER)), (2, file(&BY_OWNER))] {
        let (pool, work) = (vec![3 - edition; 1_058], vec![0; 1_058]);
        cases.push(Case::ReadAs { pool, work, file, edition, rule: 0 });
    }
    cases
}
