//! "The neighbour's carts" (document 02, Req 07): the file of edition 2.

mod common;

use common::{frame, number_as, shared_blank};
use second::files::{self, Case};
use second::files_kept::{file, frames_of, pool_holding, OwnedRecord};
use second::files_shared::{kept_shared, owned_row, BY_OWNER, TOLD};
use second::neighbours::shared_pool;
use second::style::STYLES;
use second::{read, read_as, records_in_leaves, sound, write, Edition, Request};

/// The file that a pool is written to.
fn written(pool: &[i32]) -> Vec<u8> {
    let mut buffer = vec![0x55; 40 + 28 * pool[3] as usize];
    let (number, length) = write(pool, &mut buffer);
    assert_eq!(number, 0);
    assert!(buffer[length..].iter().all(|&byte| byte == 0x55), "bytes after the file stay");
    buffer.truncate(length);
    buffer
}

/// Reads into an edition 2 pool with a record of its own. Refused, the pool stays and the workspace
/// is equal to it.
fn read_into(slots: usize, file: &[u8]) -> (i32, Vec<i32>) {
    let before = pool_holding(slots, &[[2, 99, 1, 2, 3, 4]]);
    let (mut pool, mut work) = (before.clone(), vec![-5; before.len()]);
    let number = read_as(&mut pool, &mut work, file, 2, 0);
    assert_eq!(work, pool);
    match number {
        0 => assert!(sound(&pool)),
        _ => assert_eq!(pool, before),
    }
    (number, pool)
}

fn number_of(file: &[u8]) -> i32 {
    read_into(12, file).0
}

/// "the file of Req 02 gains edition 2 with kind 19 (owner, then as 17)": byte for byte.
#[test]
fn the_bytes_of_a_file() {
    let pool = pool_holding(1, &[[2, 7, 0, -1, 10, 258], [1, 9, 3, 4, 5, 6]]);
    let due = [
        [10, 0, 16, 0, 2, 0, 0, 0, 2, 0, 0, 0].to_vec(),
        [26, 0, 19, 0, 1, 0, 0, 0, 9, 0, 0, 0].to_vec(),
        [3, 0, 0, 0, 4, 0, 0, 0, 5, 0, 0, 0, 6, 0, 0, 0].to_vec(),
        [26, 0, 19, 0, 2, 0, 0, 0, 7, 0, 0, 0].to_vec(),
        [0, 0, 0, 0, 255, 255, 255, 255, 10, 0, 0, 0, 2, 1, 0, 0].to_vec(),
        [2, 0, 18, 0].to_vec(),
    ]
    .concat();
    assert_eq!(written(&pool), due);
    // "inserts in file order": owner 1's come first now.
    let there = pool_holding(1, &[[1, 9, 3, 4, 5, 6], [2, 7, 0, -1, 10, 258]]);
    assert_eq!(read_into(1, &due), (0, there));
    let none = [10, 0, 16, 0, 2, 0, 0, 0, 0, 0, 0, 0, 2, 0, 18, 0];
    assert_eq!(written(&shared_blank(3)), none);
    assert_eq!(read_into(3, &none), (0, shared_blank(3)));
}

/// "ordered by owner first". "The writer drops a pair held twice and counts distinct pairs": what one
/// owner holds twice goes, and what both hold are two records. A byte less is refused 8.
#[test]
fn records_by_owner() {
    let mut stored: Vec<OwnedRecord> = BY_OWNER.into_iter().rev().collect();
    stored.extend([BY_OWNER[2], BY_OWNER[3]]);
    let (pool, due) = (pool_holding(1, &stored), file(&BY_OWNER));
    assert_eq!(written(&pool), due);
    for length in [0, 16, due.len() - 4, due.len() - 1] {
        let mut buffer = vec![0x55; length];
        assert_eq!(write(&pool, &mut buffer), (8, 0));
        assert!(buffer.iter().all(|&byte| byte == 0x55));
    }
    let mut exact = vec![0x55; due.len()];
    assert_eq!(write(&pool, &mut exact), (0, due.len()));
    assert_eq!(exact, due);
}

/// "1 first, then 2": the writer measures a pool by its word 0.
#[test]
fn what_a_writer_refuses() {
    let pool = pool_holding(1, &BY_OWNER);
    let refused = |change: &dyn Fn(&mut Vec<i32>)| {
        let (mut pool, mut none) = (pool.clone(), [0; 0]);
        change(&mut pool);
        write(&pool, &mut none)
    };
    assert_eq!(refused(&|_| ()), (8, 0));
    assert_eq!(refused(&|pool| pool[15] = 0), (2, 0));
    assert_eq!(refused(&|pool| pool[15] = 3), (2, 0));
    assert_eq!(refused(&|pool| pool[0] = 1), (1, 0));
    assert_eq!(refused(&|pool| pool.push(0)), (1, 0));
}

/// "Blanking and reading are told the edition, by an enum that has no other, and go by it": an
/// edition or rule that there is none of comes before all else, and nothing is written.
#[test]
fn the_reader_is_told() {
    let (first, second) = (file(&[[7, 0, 0, 1, 1]]), file(&BY_OWNER));
    for (edition, rule) in TOLD {
        let slot = [0, 42, 50][edition.clamp(0, 2) as usize];
        let known = (edition == 1 || edition == 2) && rule == 0;
        for (words, work) in [(50, 50), (58, 58), (57, 57), (50, 58), (1_058, 1_058)] {
            for (bytes, of) in [(&first, 1), (&second, 2), (&vec![], 0)] {
                // What the words say is not looked at.
                let (mut pool, mut scratch) =
                    (vec![3 - edition.clamp(1, 2); words], vec![-5; work]);
                let number = read_as(&mut pool, &mut scratch, bytes, edition, rule);
                let due = match known {
                    false => -1,
                    true if words % slot != 8 || work != words => 1,
                    true if of != edition => 10,
                    true => 0,
                };
                assert_eq!(number, due, "told {edition}, {rule}; {words} words, a file of {of}");
                match number {
                    0 => assert_eq!((pool[0], sound(&pool), &scratch), (edition, true, &pool)),
                    10 => assert_eq!(scratch, pool),
                    _ => assert!(scratch.iter().all(|&word| word == -5)),
                }
            }
        }
    }
    let mut pool = vec![2; 50];
    assert_eq!(read(&mut pool, &mut vec![0; 50], &first), 0);
    assert_eq!(read(&mut pool, &mut vec![0; 50], &second), 10);
}

/// "10 for a wrong frame": kind 17 in a file of edition 2, and 19 in one of edition 1.
#[test]
fn records_of_the_other_edition() {
    let head = |edition| frame(16, &[edition, 1]);
    let last = frame(18, &[]);
    let (five, six) = (frame(17, &[7, 0, 0, 1, 1]), frame(19, &[1, 7, 0, 0, 1, 1]));
    let read_one = |file: &[u8]| read(&mut vec![0; 50], &mut vec![0; 50], file);
    assert_eq!(read_one(&[head(1), five.clone(), last.clone()].concat()), 0);
    assert_eq!(number_of(&[head(2), six.clone(), last.clone()].concat()), 0);
    assert_eq!(read_one(&[head(1), six, last.clone()].concat()), 10);
    assert_eq!(number_of(&[head(2), five, last.clone()].concat()), 10);
    // The right kind with the other's words, and the other way round.
    for words in [&[7, 0, 0, 1, 1][..], &[1, 7, 0, 0, 1, 1, 0]] {
        assert_eq!(number_of(&[head(2), frame(19, words), last.clone()].concat()), 10);
    }
    assert_eq!(read_one(&[head(1), frame(17, &[1, 7, 0, 0, 1, 1]), last].concat()), 10);
}

/// "Refusals: 13 for another owner .. in a file after 4": within a frame 10, 3, 4, 13, 11, 7. Every
/// set of faults in the ninth record, for which there is a slot or not.
#[test]
fn refusals_of_a_frame_in_order() {
    for faults in 0_u32..32 {
        let has = |fault: u32| faults >> fault & 1 == 1;
        let number = match (has(2), has(4)) {
            (true, _) => 0,
            (false, true) => 8,
            (false, false) => 9,
        };
        let low = if has(1) { 2 } else { 1 };
        let owner = if has(3) { 3 } else { 2 };
        let mut words = vec![owner, number, low, 0, 1, 1];
        if has(0) {
            words.push(0);
        }
        // The eighth is 8 (80,0,90,10): 8 (1,0,1,1) is not after it, and 0 is not either. An owner 3
        // would be after both.
        let not_after = !has(3) && number < 9;
        for slots in [1, 3] {
            let due = [
                (has(0), 10),
                (has(1), 3),
                (has(2), 4),
                (has(3), 13),
                (not_after, 11),
                (slots == 1, 7),
            ];
            let first = due.into_iter().find(|(so, _)| *so).map_or(0, |(_, number)| number);
            let mut bytes = frame(16, &[2, 9]);
            let row = owned_row(2, 8);
            bytes.extend(row.iter().flat_map(|record| frame(19, record)));
            bytes.extend(frame(19, &words));
            bytes.extend(frame(18, &[]));
            assert_eq!(read_into(slots, &bytes).0, first, "{words:?}, {slots} slots");
        }
    }
}

/// "11 for a record not after its predecessor", by owner first; 13 for every other owner.
#[test]
fn order_and_owners() {
    assert_eq!(number_of(&file(&BY_OWNER)), 0);
    for place in 1..BY_OWNER.len() {
        let (mut swapped, mut equal) = (BY_OWNER.to_vec(), BY_OWNER.to_vec());
        swapped.swap(place - 1, place);
        equal.insert(place, BY_OWNER[place]);
        assert_eq!(number_of(&file(&swapped)), 11, "place {place}");
        assert_eq!(number_of(&file(&equal)), 11, "place {place}");
    }
    assert_eq!(number_of(&file(&[[2, 1, 0, 0, 1, 1], [1, 9, 0, 0, 1, 1]])), 11);
    assert_eq!(number_of(&file(&[[1, 9, 0, 0, 1, 1], [2, 1, 0, 0, 1, 1]])), 0);
    for owner in [0, 3, -1, -2, 257, 258, 1 << 16 | 1, i32::MIN, i32::MAX] {
        assert_eq!(number_of(&file(&[[owner, 1, 0, 0, 1, 1]])), 13);
        // The first frame at fault decides.
        assert_eq!(number_of(&file(&[[owner, 1, 0, 0, 1, 1], [1, 0, 0, 0, 1, 1]])), 13);
        assert_eq!(number_of(&file(&[[1, 0, 0, 0, 1, 1], [owner, 1, 0, 0, 1, 1]])), 4);
    }
}

/// A file cut at every byte, and one with another count.
#[test]
fn cut_at_every_byte() {
    let whole = file(&BY_OWNER);
    for length in 0..whole.len() {
        assert_eq!(number_of(&whole[..length]), 10, "{length} bytes");
    }
    assert_eq!(number_of(&[&whole[..], &[0]].concat()), 10);
    for count in [5, 7, -1, -6, i32::MIN] {
        let mut frames = frames_of(&BY_OWNER);
        frames[0].1[1] = count;
        assert_eq!(number_of(&second::files_kept::bytes_of(&frames)), 10, "count {count}");
    }
}

/// "Where a read of a written file is accepted, writing again gives the same bytes", and the owners
/// hold what they held.
#[test]
fn there_and_back() {
    for (place, (_, style)) in STYLES.into_iter().enumerate() {
        let pool = shared_pool(style, place as u64, 12, 120);
        let bytes = written(&pool);
        let (number, mut there) = read_into(48, &bytes);
        assert_eq!(number, 0);
        assert_eq!(written(&there), bytes);
        let sorted = |pool: &[i32]| {
            let mut records = records_in_leaves(pool);
            records.sort();
            records
        };
        assert_eq!(sorted(&there), sorted(&pool));
        assert_eq!(number_as(&mut there, 1, Request::insert(1_000_000, [0, 0, 1, 1])), 0);
    }
}

/// Lines of cases both ways, and every number among the kept cases and the drawn ones.
#[test]
fn cases_of_edition_2() {
    let case = Case::ReadAs { pool: vec![2], work: vec![], file: vec![9], edition: 2, rule: -1 };
    assert_eq!(files::line(&case), "read-as 2 - 09 2 -1");
    assert_eq!(files::answered(&case), "read-as 2 - 09 2 -1 -> -1 2 -");
    assert_eq!(files::parse("read-as 2 - 09 2 -1 -> 7 0 0"), Ok(case));
    assert!(["read-as 2 - 09 2", "read-as 2 - 09 x 0"].iter().all(|l| files::run(l).is_err()));
    let beside = include_str!("../examples/shared.cases");
    let due: Vec<&str> = beside.lines().filter(|line| !line.starts_with('#')).collect();
    assert_eq!(files::run(beside).expect("cases").lines().collect::<Vec<_>>(), due);
    let kept = kept_shared();
    assert!(kept.len() < 200, "{} are the same for every seed", kept.len());
    let text = files::cases(Edition::Two, 1, 3_000);
    let (front, drawn) =
        text.split_at(kept.iter().map(|case| files::answered(case).len() + 1).sum());
    for lines in [front, drawn] {
        let has = |name: &str, number: i32| {
            let due = format!(" -> {number} ");
            lines.lines().any(|line| line.starts_with(name) && line.contains(&due))
        };
        assert!([0, 1, 2, 8].into_iter().all(|number| has("write ", number)));
        assert!([-1, 0, 1, 10, 3, 4, 13, 11, 7].into_iter().all(|number| has("read-as ", number)));
    }
}
