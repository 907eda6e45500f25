//! The site examples 1 to 13 of document 01, example 8 as document 02 has it.

mod common;

use common::{batch, blank_pool, number, rect, search, slot, slot_is_zero};
use second::{choose_child, enlargement, meets, split_nine, waste, Rect, Request};

const A: [i32; 4] = [0, 0, 10, 10];

/// Entries 1 to 9 of example 7.
fn row_of_nine() -> Vec<[i32; 4]> {
    let mut row: Vec<[i32; 4]> = (0..8).map(|k| [10 * k, 0, 10 * k + 10, 10]).collect();
    row.push([1000, 0, 1010, 10]);
    row
}

/// The pool of example 9.
fn pool_of_nine() -> Vec<i32> {
    let mut pool = blank_pool(3);
    let requests: Vec<Request> =
        row_of_nine().into_iter().zip(1..).map(|(r, n)| Request::insert(n, r)).collect();
    let (answers, _) = batch(&mut pool, &requests);
    assert!(answers.iter().all(|a| a.number == 0));
    pool
}

#[test]
fn example_1_touching_rectangles_meet() {
    assert!(meets(&rect(A), &rect([10, 10, 20, 20])));
}

#[test]
fn example_2_apart_by_one() {
    assert!(!meets(&rect(A), &rect([11, 0, 20, 10])));
}

#[test]
fn example_3_enlargement() {
    assert_eq!(enlargement(&rect(A), &rect([10, 0, 20, 10])), 100);
}

#[test]
fn example_4_equal_areas_the_first() {
    let entries = [rect(A), rect([20, 0, 30, 10])];
    let new = rect([12, 0, 18, 10]);
    assert_eq!(entries.map(|e| enlargement(&e, &new)), [80, 80]);
    assert_eq!(choose_child(&entries, &new), 1);
}

#[test]
fn example_5_smaller_area_the_second() {
    let entries = [rect(A), rect([20, 0, 29, 10])];
    let new = rect([12, 0, 18, 10]);
    assert_eq!(entries.map(|e| enlargement(&e, &new)), [80, 80]);
    assert_eq!(choose_child(&entries, &new), 2);
}

#[test]
fn example_6_d_may_be_negative() {
    assert_eq!(waste(&rect(A), &rect(A)), -100);
    assert_eq!(waste(&rect(A), &rect([20, 0, 30, 10])), 100);
}

#[test]
fn example_7_row_and_one_far_off() {
    let nine: Vec<Rect> = row_of_nine().into_iter().map(rect).collect();
    assert_eq!(split_nine(&nine), (vec![1, 2, 3, 4, 5, 6], vec![9, 7, 8]));
}

/// "Example 8 becomes groups 1 to 6, then 9, 7, 8" (Req 05).
#[test]
fn example_8_nine_points() {
    let nine: Vec<Rect> = (0..9).map(|k| rect([10 * k, 0, 10 * k, 0])).collect();
    assert_eq!(split_nine(&nine), (vec![1, 2, 3, 4, 5, 6], vec![9, 7, 8]));
}

#[test]
fn example_9_slots_and_one_leaf_opened() {
    let mut pool = pool_of_nine();
    assert_eq!(pool[..8], [1, 3, 2, 9, 0, 0, 0, 0]);
    assert_eq!(slot(&pool, 1), (1, vec![1, 2, 3, 4, 5, 6]));
    assert_eq!(slot(&pool, 2), (1, vec![9, 7, 8]));
    assert_eq!(slot(&pool, 3), (2, vec![1, 2]));
    assert_eq!(search(&mut pool, [55, 0, 58, 10]), (vec![6], 2));
}

#[test]
fn example_10_both_leaves_opened() {
    assert_eq!(search(&mut pool_of_nine(), [60, 0, 60, 0]), (vec![6, 7], 3));
}

#[test]
fn example_11_the_root_is_always_opened() {
    assert_eq!(search(&mut pool_of_nine(), [2000, 0, 2000, 0]), (vec![], 1));
}

#[test]
fn example_12_delete_shortens_the_root() {
    let mut pool = pool_of_nine();
    assert_eq!(number(&mut pool, Request::delete(9, [1000, 0, 1010, 10])), 0);
    assert_eq!(pool[..8], [1, 1, 1, 8, 0, 0, 0, 0]);
    assert_eq!(slot(&pool, 1), (1, vec![1, 2, 3, 4, 5, 6, 7, 8]));
    assert!(slot_is_zero(&pool, 2) && slot_is_zero(&pool, 3));
}

#[test]
fn example_13_the_limit_itself_is_taken() {
    let limit = 1_000_000_000;
    let mut pool = blank_pool(1);
    for at in 0..4 {
        let mut wide = [-limit, -limit, limit, limit];
        assert_eq!(number(&mut pool, Request::insert(1 + at as i32, wide)), 0);
        wide[at] += if at < 2 { -1 } else { 1 };
        assert_eq!(number(&mut pool, Request::insert(1 + at as i32, wide)), 3);
        assert_eq!(number(&mut pool, Request::search(wide)), 3);
    }
    assert_eq!(search(&mut pool, [limit, limit, limit, limit]), (vec![1, 2, 3, 4], 1));
}
