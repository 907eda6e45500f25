//! "The neighbour's carts" (document 02, Req 07): the pool of edition 2, and batches of two owners.

mod common;

use common::{batch_as, blank_pool, number_as, shared_blank, three_levels};
use second::neighbours::widened;
use second::{blank_as, call_as, check, records_in_leaves, sound, Answer, Found, Owner, Request};

const R: [i32; 4] = [0, 0, 10, 10];
const S: [i32; 4] = [5, 5, 6, 6];

/// The first word of a slot.
fn at(slot: usize) -> usize {
    8 + 50 * (slot - 1)
}

/// The owner's word of an entry, by its place from 1.
fn owner_at(slot: usize, place: usize) -> usize {
    at(slot) + 2 + 6 * (place - 1) + 5
}

/// Writes a leaf: its entries as rectangle, number, owner.
fn put_leaf(pool: &mut [i32], slot: usize, entries: &[([i32; 4], i32, i32)]) {
    let words = &mut pool[at(slot)..at(slot + 1)];
    words.fill(0);
    words[..2].copy_from_slice(&[1, entries.len() as i32]);
    for (place, ([a, b, c, d], number, owner)) in entries.iter().enumerate() {
        words[2 + 6 * place..8 + 6 * place].copy_from_slice(&[*a, *b, *c, *d, *number, *owner]);
    }
}

/// A pool of one leaf.
fn one_leaf(entries: &[([i32; 4], i32, i32)]) -> Vec<i32> {
    let mut pool = shared_blank(1);
    put_leaf(&mut pool, 1, entries);
    pool[3] = entries.len() as i32;
    assert!(sound(&pool));
    pool
}

/// The tree of three levels, laid out as edition 2: records in turn of owner 1 and 2.
fn three_shared_levels() -> Vec<i32> {
    let mut turn = 0;
    let pool = widened(&three_levels(), || {
        turn += 1;
        2 - turn % 2
    });
    assert!(sound(&pool));
    pool
}

/// Number and owner of each entry of a leaf.
fn leaf(pool: &[i32], slot: usize) -> Vec<(i32, i32)> {
    let words = &pool[at(slot)..];
    assert_eq!(words[0], 1);
    (0..words[1] as usize).map(|i| (words[6 + 6 * i], words[7 + 6 * i])).collect()
}

/// "Each leaf entry gains an owner, 1 or 2, as a sixth word (zero in inner entries ..): slots of 50
/// words, pool edition 2, length 8 + 50N".
#[test]
fn the_words_of_a_pool() {
    let mut pool = shared_blank(1);
    assert_eq!(pool.len(), 58);
    assert_eq!(pool[..9], [2, 1, 1, 0, 0, 0, 0, 0, 1]);
    assert!(pool[9..].iter().all(|&word| word == 0));
    number_as(&mut pool, 2, Request::insert(7, [1, -2, 3, 4]));
    number_as(&mut pool, 1, Request::insert(8, [5, 6, 7, 8]));
    let due = [2, 1, 1, 2, 0, 0, 0, 0, 1, 2, 1, -2, 3, 4, 7, 2, 5, 6, 7, 8, 8, 1];
    assert_eq!(pool[..22], due);
    assert!(pool[22..].iter().all(|&word| word == 0));
    // Example 7: nine records make two leaves and a root, whose entries have no owner.
    let mut pool = shared_blank(3);
    for n in 1..=9 {
        let x = if n == 9 { 1_000 } else { 10 * n - 10 };
        number_as(&mut pool, 1 + n % 2, Request::insert(n, [x, 0, x + 10, 10]));
    }
    assert_eq!(pool[..4], [2, 3, 2, 9]);
    assert_eq!(leaf(&pool, 1), [(1, 2), (2, 1), (3, 2), (4, 1), (5, 2), (6, 1)]);
    assert_eq!(leaf(&pool, 2), [(9, 2), (7, 2), (8, 1)]);
    let root = [2, 2, 0, 0, 60, 10, 1, 0, 60, 0, 1_010, 10, 2, 0];
    assert_eq!(pool[at(3)..at(3) + 14], root);
    assert!(pool[at(3) + 14..].iter().all(|&word| word == 0));
}

/// "Blanking and reading are told the edition, by an enum that has no other, and go by it": what the
/// words say is not looked at.
#[test]
fn blanking_is_told_the_edition() {
    for length in [0, 1, 8, 49, 50, 57, 58, 59, 92, 108, 1_058, 172_040, 204_808, 204_858] {
        for word in [1, 2, -9] {
            for (edition, slot) in [(1, 42), (2, 50)] {
                let mut pool = vec![word; length];
                let right = length > 8 && (length - 8) % slot == 0 && length <= 8 + 4_096 * slot;
                assert_eq!(blank_as(&mut pool, edition, 0), i32::from(!right), "{length}");
                match right {
                    true => assert_eq!((pool[0], check(&pool)), (edition, 0)),
                    false => assert!(pool.iter().all(|&w| w == word)),
                }
            }
        }
    }
    for (edition, rule) in [(0, 0), (3, 0), (-1, 0), (258, 0), (1, 1), (2, 1), (2, -1), (0, 2)] {
        for length in [50, 58, 51] {
            let mut pool = vec![2; length];
            assert_eq!(blank_as(&mut pool, edition, rule), -1);
            assert!(pool.iter().all(|&word| word == 2));
        }
    }
}

/// "a pool whose word 0 isn't 2 is measured as edition 1": 1 before 2, and 2 for a word 0 that no
/// edition has.
#[test]
fn a_pool_is_measured_by_its_word_0() {
    for (slots, word, due) in [
        (blank_pool(1), 1, 0),
        (blank_pool(1), 0, 2),
        (blank_pool(1), 3, 2),
        (blank_pool(1), 2, 1),
        (shared_blank(1), 2, 0),
        (shared_blank(1), 1, 1),
        (shared_blank(1), 0, 1),
        (shared_blank(1), i32::MIN, 1),
        // 1,058 words are 25 slots of edition 1, and 21 of edition 2.
        (blank_pool(25), 1, 0),
        (blank_pool(25), 2, 0),
        (shared_blank(21), 1, 0),
        (shared_blank(21), 3, 2),
        (shared_blank(4_096), 2, 0),
        (shared_blank(4_096)[..204_807].to_vec(), 2, 1),
    ] {
        let mut pool = slots;
        pool[0] = word;
        assert_eq!(check(&pool), due, "{} words, word 0 is {word}", pool.len());
    }
    assert_eq!(check(&[]), 1);
    assert_eq!(check(&[2]), 1);
    assert_eq!(check(&vec![2; 8 + 50 * 4_097]), 1);
}

/// "an owner, 1 or 2 .. (zero in inner entries; anything else and the pool isn't sound)", and "unused
/// entries and free slots are all zero".
#[test]
fn owner_words_of_a_sound_pool() {
    let changed = |place: usize, word: i32| {
        let mut pool = three_shared_levels();
        pool.resize(at(11), 0);
        pool[place] = word;
        check(&pool)
    };
    for slot in 1..=10 {
        for place in 1..=8 {
            let used = match slot {
                9 => 2,
                10 => 0,
                _ => 3,
            };
            for word in [-1, 0, 1, 2, 3, 257, i32::MIN] {
                let leaf_entry = slot <= 6 && place <= used;
                let right = if leaf_entry { word == 1 || word == 2 } else { word == 0 };
                let due = if right { 0 } else { 2 };
                assert_eq!(
                    changed(owner_at(slot, place), word),
                    due,
                    "slot {slot}, {place}: {word}"
                );
            }
        }
    }
}

/// "a pair counts as held per owner": 5 and 6 are asked of the owner's own records.
#[test]
fn held_per_owner() {
    let mut pool = shared_blank(1);
    let (insert, delete) = (Request::insert(7, R), Request::delete(7, R));
    assert_eq!(number_as(&mut pool, 1, delete), 5);
    assert_eq!(number_as(&mut pool, 1, insert), 0);
    assert_eq!(number_as(&mut pool, 2, delete), 5);
    assert_eq!(number_as(&mut pool, 2, Request::update(7, R, S)), 5);
    assert_eq!(number_as(&mut pool, 2, insert), 0);
    assert_eq!(number_as(&mut pool, 2, insert), 6);
    assert_eq!(number_as(&mut pool, 1, insert), 6);
    assert_eq!(leaf(&pool, 1), [(7, 1), (7, 2)]);
    assert_eq!(number_as(&mut pool, 1, delete), 0);
    assert_eq!(number_as(&mut pool, 1, delete), 5);
    assert_eq!(leaf(&pool, 1), [(7, 2)]);
}

/// "it .. changes that owner's records only": of equal pairs the first of that owner goes.
#[test]
fn a_delete_takes_the_owners_pair() {
    let entries = [(R, 7, 2), (S, 8, 1), (R, 7, 1), (R, 7, 2), (R, 7, 1)];
    for (owner, due) in
        [(1, [(7, 2), (8, 1), (7, 2), (7, 1)]), (2, [(8, 1), (7, 1), (7, 2), (7, 1)])]
    {
        let mut pool = one_leaf(&entries);
        assert_eq!(number_as(&mut pool, owner, Request::delete(7, R)), 0);
        assert_eq!(leaf(&pool, 1), due);
        assert_eq!(pool[3], 4);
    }
    // An update moves the owner's pair to the end, and it stays the owner's.
    let mut pool = one_leaf(&entries[..4]);
    assert_eq!(number_as(&mut pool, 1, Request::update(7, R, S)), 0);
    assert_eq!(leaf(&pool, 1), [(7, 2), (8, 1), (7, 2), (7, 1)]);
    // The same pair of the other owner in the leaf before: the search for the leaf goes on.
    let mut pool = three_shared_levels();
    let first = pool[owner_at(1, 1)];
    let moved = pool[at(1) + 2..at(1) + 6].to_vec();
    pool[at(2) + 2..at(2) + 6].copy_from_slice(&moved);
    pool[at(2) + 6] = 10;
    pool[owner_at(2, 1)] = 3 - first;
    for (place, low_x) in [(at(7) + 8, 100), (at(9) + 2, 100)] {
        pool[place] = low_x;
    }
    assert!(sound(&pool));
    let before = records_in_leaves(&pool);
    let rect = [moved[0], moved[1], moved[2], moved[3]];
    assert_eq!(number_as(&mut pool, 3 - first, Request::delete(10, rect)), 0);
    let (mut left, mut due) = (records_in_leaves(&pool), before.clone());
    let other = Owner::numbered(3 - first);
    let gone = due.iter().position(|r| r.pair.number.0 == 10 && r.owner == other);
    due.remove(gone.expect("a record"));
    left.sort();
    due.sort();
    assert_eq!(left, due);
}

/// 6 for an update: "new pair held and not the old pair", by that owner.
#[test]
fn updates_to_a_pair_of_the_other() {
    let mut pool = one_leaf(&[(R, 7, 1), (S, 7, 2), (S, 8, 1)]);
    assert_eq!(number_as(&mut pool, 1, Request::update(7, R, S)), 0);
    assert_eq!(number_as(&mut pool, 1, Request::insert(7, R)), 0);
    assert_eq!(number_as(&mut pool, 1, Request::update(7, R, S)), 6);
    assert_eq!(number_as(&mut pool, 2, Request::update(7, S, S)), 0);
    assert_eq!(number_as(&mut pool, 2, Request::update(8, S, R)), 5);
    assert_eq!(leaf(&pool, 1), [(8, 1), (7, 1), (7, 1), (7, 2)]);
}

/// "it sees .. that owner's records only", in every mode; 8 counts these alone. "Opened is reported
/// as 0", beside 8 too.
#[test]
fn searches_see_the_owners_records() {
    let mut pool = three_shared_levels();
    let all = [100, 0, 605, 10];
    for (owner, due) in
        [(1, [10, 12, 21, 30, 32, 41, 50, 52, 61]), (2, [11, 20, 22, 31, 40, 42, 51, 60, 62])]
    {
        let requests = [
            Request::search(all),
            Request::inside(all),
            Request::enclosing([100, 5, 100, 5]),
            Request::enclosing([102, 5, 102, 5]),
            Request::search(all),
        ];
        let (answers, found) = batch_as(&mut pool, owner, &requests, 20);
        let numbers = |answer: &Answer| -> Vec<i32> {
            let listed = &found[answer.start as usize..][..answer.found as usize];
            listed.iter().map(|f| f.number).collect()
        };
        assert_eq!(numbers(&answers[0]), due);
        assert_eq!(numbers(&answers[1]), due);
        let (first, second) = (&answers[2], &answers[3]);
        assert_eq!((first.found, second.found), if owner == 1 { (1, 0) } else { (0, 1) });
        assert_eq!(answers[4], Answer { number: 8, found: 9, start: 0, opened: 0 });
        assert!(answers.iter().all(|answer| answer.opened == 0));
        assert_eq!(answers[..4].iter().map(|a| a.number).collect::<Vec<_>>(), [0; 4]);
        // Just enough places for the owner's own.
        let (answers, _) = batch_as(&mut pool, owner, &[Request::search(all)], 9);
        assert_eq!(answers[0], Answer { number: 0, found: 9, start: 0, opened: 0 });
    }
}

/// Slots are shared, and so is 7.
#[test]
fn seven_for_slots_that_the_other_took() {
    let mut pool = shared_blank(1);
    for n in 1..=8 {
        assert_eq!(number_as(&mut pool, 1 + n % 2, Request::insert(n, [n, 0, n, 0])), 0);
    }
    let before = pool.clone();
    for owner in [1, 2] {
        assert_eq!(number_as(&mut pool, owner, Request::insert(9, R)), 7);
        assert_eq!(number_as(&mut pool, owner, Request::insert(2, [2, 0, 2, 0])), 5 + owner);
    }
    assert_eq!(pool, before);
    assert_eq!(number_as(&mut pool, 1, Request::delete(2, [2, 0, 2, 0])), 0);
    assert_eq!(number_as(&mut pool, 2, Request::insert(9, R)), 0);
}

/// "Dropping the entries set aside" would drop the neighbour's: here a delete sets entries of both
/// aside on two levels.
#[test]
fn entries_set_aside_keep_their_owners() {
    for (number, x) in [(10, 100), (31, 302), (62, 604)] {
        let mut pool = three_shared_levels();
        let mut due = records_in_leaves(&pool);
        let place = due.iter().position(|r| r.pair.number.0 == number).expect("a record");
        let owner = due.remove(place).owner.expect("edition 2 has owners").number();
        assert_eq!(number_as(&mut pool, 3 - owner, Request::delete(number as i32, bar(x))), 5);
        assert_eq!(number_as(&mut pool, owner, Request::delete(number as i32, bar(x))), 0);
        let mut left = records_in_leaves(&pool);
        left.sort();
        due.sort();
        assert_eq!(left, due);
        assert!(sound(&pool));
        assert!(pool[2] < 3, "it set entries aside on two levels");
    }
}

fn bar(x: i32) -> [i32; 4] {
    common::bar(x)
}

/// "Refusals: 13 for another owner, after 9": 9, 13, 1, 2, and then the kinds, in either edition.
/// Whatever else is wrong, the first decides, and nothing is written.
#[test]
fn refused_calls_in_order() {
    for faults in 0_u32..32 {
        let has = |fault: u32| faults >> fault & 1 == 1;
        for owner in if has(1) { vec![0, 3, -1, i32::MIN, i32::MAX, 257] } else { vec![1, 2] } {
            for mut pool in [blank_pool(2), shared_blank(2)] {
                let kind = if has(4) { 7 } else { 4 };
                let requests = [Request { kind, ..Request::search(R) }];
                pool[7] = i32::from(has(3));
                pool.truncate(pool.len() - usize::from(has(2)));
                let numbers = [9, 13, 1, 2, -1];
                let first = (0..5).find(|&fault| has(fault));
                let due = first.map_or(0, |fault| numbers[fault as usize]);
                let answers = if has(0) { 2 } else { 1 };
                assert_eq!(raw(&pool, pool.len(), &requests, answers, owner), due);
            }
        }
    }
    let shared = shared_blank(2);
    assert_eq!(raw(&shared, 107, &[], 0, 2), 1);
    assert_eq!(raw(&shared, 92, &[], 0, 1), 1);
    assert_eq!(raw(&shared, 92, &[], 0, 0), 13);
    assert_eq!(raw(&shared, 108, &vec![Request::search(R); 1_025], 1_025, 5), 9);
}

/// A call with lists of any length; a refusal may write nothing.
fn raw(pool: &[i32], work: usize, requests: &[Request], answers: usize, owner: i32) -> i32 {
    let untouched = Answer { number: -7, found: -7, start: -7, opened: -7 };
    let (mut after, mut work) = (pool.to_vec(), vec![-7; work]);
    let (mut answers, mut found) = (vec![untouched; answers], vec![Found::default(); 4]);
    let number = call_as(&mut after, &mut work, requests, &mut answers, &mut found, owner);
    if number == 0 {
        assert_eq!(work, after);
        return 0;
    }
    assert_eq!(after, pool);
    assert!(work.iter().all(|&word| word == -7));
    assert!(answers.iter().all(|answer| *answer == untouched));
    assert!(found.iter().all(|place| *place == Found::default()));
    number
}
