//! "What comes back": the table, its order, and what is written.

mod common;

use common::{batch, blank_pool, number, point, slot, three_levels};
use second::{blank, call, Answer, Found, Request};

const R: [i32; 4] = [0, 0, 10, 10];
const S: [i32; 4] = [5, 5, 6, 6];
const BAD: [i32; 4] = [1, 0, 0, 10];

/// A call with lists of any length; gives the result after checking that a refusal wrote
/// nothing.
fn raw(pool: &[i32], work: usize, requests: &[Request], answers: usize) -> i32 {
    let untouched = Answer { number: -7, found: -7, start: -7, opened: -7 };
    let (mut after, mut work) = (pool.to_vec(), vec![-7; work]);
    let mut answers = vec![untouched; answers];
    let mut found = vec![Found::default(); 4];
    let result = call(&mut after, &mut work, requests, &mut answers, &mut found);
    if result != 0 {
        assert_eq!(after, pool);
        assert!(work.iter().all(|&w| w == -7));
        assert!(answers.iter().all(|a| *a == untouched));
        assert!(found.iter().all(|f| *f == Found::default()));
    } else {
        assert_eq!(work, after);
    }
    result
}

#[test]
fn refused_calls_in_the_tables_order() {
    let pool = blank_pool(2);
    let mut unsound = pool.clone();
    unsound[0] = 3;
    let one = [Request::search(R)];
    assert_eq!(raw(&pool, 92, &one, 1), 0);
    assert_eq!(raw(&pool, 92, &[], 0), 0);
    assert_eq!(raw(&pool, 92, &one, 0), 9);
    assert_eq!(raw(&pool, 92, &[], 1), 9);
    assert_eq!(raw(&pool, 91, &one, 2), 9);
    assert_eq!(raw(&unsound, 92, &one, 2), 9);
    assert_eq!(raw(&pool, 91, &one, 1), 1);
    assert_eq!(raw(&unsound, 91, &one, 1), 1);
    assert_eq!(raw(&unsound, 92, &one, 1), 2);
    assert_eq!(raw(&unsound, 92, &[], 0), 2);
}

#[test]
fn batches_of_1024_and_1025() {
    let pool = blank_pool(1);
    let many = vec![Request::search(R); 1_025];
    assert_eq!(raw(&pool, 50, &many[..1_024], 1_024), 0);
    assert_eq!(raw(&pool, 50, &many, 1_025), 9);
}

#[test]
fn lengths_of_pools() {
    for length in [0, 1, 7, 8, 9, 42, 49, 51, 8 + 42 * 4_097] {
        let mut pool = vec![3; length];
        assert_eq!(raw(&pool, length, &[], 0), 1, "{length} words");
        assert_eq!(blank(&mut pool), 1);
        assert!(pool.iter().all(|&w| w == 3));
    }
    for slots in [1, 2, 4_096] {
        let mut pool = vec![3; 8 + 42 * slots];
        assert_eq!(blank(&mut pool), 0);
        assert_eq!(pool[..9], [1, 1, 1, 0, 0, 0, 0, 0, 1]);
        assert!(pool[9..].iter().all(|&w| w == 0));
        assert_eq!(raw(&pool, pool.len(), &[], 0), 0);
    }
}

#[test]
fn a_kind_of_none_of_the_six() {
    let pool = blank_pool(1);
    let mut unsound = pool.clone();
    unsound[7] = 1;
    for kind in [0, 7, -1, i32::MAX, i32::MIN] {
        let mut words = [0; 10];
        words[0] = kind;
        let requests = [Request::insert(7, R), Request::from_words(words)];
        assert_eq!(raw(&pool, 50, &requests, 2), -1);
        assert_eq!(raw(&unsound, 50, &requests, 2), 2);
        assert_eq!(raw(&pool, 49, &requests, 2), 1);
        assert_eq!(raw(&pool, 50, &requests, 1), 9);
    }
}

#[test]
fn order_of_checks_in_a_request() {
    let mut pool = blank_pool(1);
    batch(&mut pool, &[Request::insert(7, R), Request::insert(7, S)]);
    let before = pool.clone();
    let cases = [
        (Request::insert(0, BAD), 3),
        (Request::insert(0, R), 4),
        (Request::insert(-5, R), 4),
        (Request::insert(7, R), 6),
        (Request::delete(0, BAD), 3),
        (Request::delete(0, R), 4),
        (Request::delete(8, R), 5),
        (Request::delete(7, point(0)), 5),
        (Request::update(0, BAD, S), 3),
        (Request::update(0, R, BAD), 3),
        (Request::update(8, R, BAD), 3),
        (Request::update(0, R, S), 4),
        (Request::update(8, R, S), 5),
        (Request::update(7, point(0), S), 5),
        (Request::update(7, R, S), 6),
        (Request::search(BAD), 3),
        (Request::inside(BAD), 3),
        (Request::enclosing(BAD), 3),
    ];
    for (request, due) in cases {
        let (answers, _) = batch(&mut pool, &[request]);
        assert_eq!(answers[0], Answer { number: due, ..Answer::default() }, "{request:?}");
        assert_eq!(pool, before);
    }
}

#[test]
fn fields_not_used_are_not_looked_at() {
    let mut pool = blank_pool(1);
    let insert = Request { kind: 1, number: 7, first: R, second: BAD };
    let search = Request { kind: 4, number: -3, first: R, second: BAD };
    let (inside, enclosing) = (Request { kind: 5, ..search }, Request { kind: 6, ..search });
    let delete = Request { kind: 2, number: 7, first: R, second: BAD };
    for request in [insert, search, inside, enclosing, delete] {
        assert_eq!(number(&mut pool, request), 0);
    }
}

#[test]
fn the_largest_record_number() {
    let mut pool = blank_pool(1);
    assert_eq!(number(&mut pool, Request::insert(i32::MAX, R)), 0);
    assert_eq!(number(&mut pool, Request::insert(i32::MIN, R)), 4);
    assert_eq!(number(&mut pool, Request::delete(i32::MAX, R)), 0);
    assert_eq!(pool, blank_pool(1));
}

/// "Update deletes the old pair, then inserts ..; also where old equals new": it goes last.
#[test]
fn update_to_the_same_moves_the_entry() {
    let mut pool = blank_pool(1);
    let three: Vec<Request> = (1..=3).map(|n| Request::insert(n, R)).collect();
    batch(&mut pool, &three);
    assert_eq!(number(&mut pool, Request::update(1, R, R)), 0);
    assert_eq!(slot(&pool, 1), (1, vec![2, 3, 1]));
}

#[test]
fn found_list_filled_one_search_after_another() {
    let mut pool = three_levels();
    let requests = [
        Request::search([100, 0, 103, 0]),
        Request::search([100, 0, 605, 0]),
        Request::search(point(5)),
        Request::search([600, 0, 602, 0]),
        Request::search(point(300)),
        Request::search(point(6)),
    ];
    let mut work = vec![0; pool.len()];
    let mut answers = vec![Answer::default(); requests.len()];
    let untouched = Found { number: -7, ..Found::default() };
    let mut found = vec![untouched; 4];
    assert_eq!(call(&mut pool, &mut work, &requests, &mut answers, &mut found), 0);
    let fields: Vec<_> = answers.iter().map(|a| (a.number, a.found, a.start, a.opened)).collect();
    let due = [(0, 2, 0, 3), (8, 18, 0, 9), (0, 0, 2, 1), (0, 2, 2, 3), (8, 1, 0, 3), (0, 0, 4, 1)];
    assert_eq!(fields, due);
    assert_eq!(found.iter().map(|f| f.number).collect::<Vec<_>>(), [10, 11, 60, 61]);
}

#[test]
fn an_empty_found_list() {
    let mut pool = blank_pool(1);
    let mut work = vec![0; pool.len()];
    let requests = [Request::search(R), Request::insert(7, R), Request::search(R)];
    let mut answers = [Answer::default(); 3];
    assert_eq!(call(&mut pool, &mut work, &requests, &mut answers, &mut []), 0);
    assert_eq!(answers.map(|a| (a.number, a.found, a.opened)), [(0, 0, 1), (0, 0, 0), (8, 1, 1)]);
}

#[test]
fn found_records_are_ordered() {
    let mut pool = blank_pool(1);
    let rects = [[2, 0, 2, 0], [1, 1, 1, 1], [1, 0, 2, 1], [1, 0, 2, 0], [1, 0, 1, 9]];
    let requests: Vec<Request> = rects.iter().map(|&r| Request::insert(5, r)).collect();
    batch(&mut pool, &requests);
    batch(&mut pool, &[Request::insert(4, [9, 9, 9, 9])]);
    let (_, found) = batch(&mut pool, &[Request::search([0, 0, 9, 9])]);
    let order: Vec<_> =
        found[..6].iter().map(|f| [f.number, f.low_x, f.low_y, f.high_x, f.high_y]).collect();
    let due = [
        [4, 9, 9, 9, 9],
        [5, 1, 0, 1, 9],
        [5, 1, 0, 2, 0],
        [5, 1, 0, 2, 1],
        [5, 1, 1, 1, 1],
        [5, 2, 0, 2, 0],
    ];
    assert_eq!(order, due);
}

/// A lent pool may hold a pair twice.
#[test]
fn a_pair_held_twice() {
    let mut pool = blank_pool(1);
    common::put(&mut pool, 1, 1, &[(R, 7), (S, 8), (R, 7)]);
    pool[3] = 3;
    assert_eq!(common::search(&mut pool, R), (vec![7, 7, 8], 1));
    assert_eq!(number(&mut pool, Request::insert(7, R)), 6);
    assert_eq!(number(&mut pool, Request::delete(7, R)), 0);
    assert_eq!(slot(&pool, 1), (1, vec![8, 7]));
    assert_eq!(number(&mut pool, Request::insert(7, R)), 6);
    assert_eq!(number(&mut pool, Request::delete(7, R)), 0);
    assert_eq!(number(&mut pool, Request::delete(7, R)), 5);
}

/// In a pool of two slots the ninth record calls for a partner and a new root.
#[test]
fn seven_at_the_moment_of_need() {
    for slots in [1, 2] {
        let mut pool = blank_pool(slots);
        let eight: Vec<Request> = (1..=8).map(|n| Request::insert(n, point(n))).collect();
        batch(&mut pool, &eight);
        let before = pool.clone();
        assert_eq!(number(&mut pool, Request::insert(9, point(9))), 7);
        assert_eq!(pool, before);
        assert_eq!(number(&mut pool, Request::update(8, point(8), point(9))), 0);
    }
}
