//! "Slips this trade makes", each ruled out.

mod common;

use common::{
    bar, batch, blank_pool, full_pool_of_four, number, point, rect, search, slot, slot_is_zero,
    three_levels,
};
use second::{pairs_in_leaves, pick_seeds, sound, Rect, Request};

#[test]
fn zones_that_touch_are_found() {
    let mut pool = blank_pool(1);
    batch(&mut pool, &[Request::insert(7, [0, 0, 10, 10])]);
    for window in [[10, 10, 20, 20], [-5, -5, 0, 0], [10, -5, 20, 0], [-9, 10, 0, 10]] {
        assert_eq!(search(&mut pool, window), (vec![7], 1));
    }
    for window in [[11, 0, 20, 10], [0, 11, 10, 12], [-5, 0, -1, 10], [0, -5, 10, -1]] {
        assert_eq!(search(&mut pool, window), (vec![], 1));
    }
}

#[test]
fn touching_covers_are_opened() {
    let mut pool = three_levels();
    assert_eq!(search(&mut pool, [305, 0, 400, 0]), (vec![32, 40], 5));
}

/// A delete that sets entries aside on two levels keeps every other record, and puts the
/// children back one level above the leaves.
#[test]
fn entries_set_aside_come_back_at_their_own_level() {
    let mut pool = three_levels();
    assert_eq!(number(&mut pool, Request::delete(10, bar(100))), 0);
    assert!(sound(&pool));
    assert_eq!(pool[..4], [1, 8, 2, 17]);
    // The two records go to the leaf of least enlargement, the two leaves to slot 8.
    assert_eq!(slot(&pool, 4), (1, vec![40, 41, 42, 11, 12]));
    assert_eq!(slot(&pool, 8), (2, vec![4, 5, 6, 2, 3]));
    assert!([1, 7, 9].into_iter().all(|s| slot_is_zero(&pool, s)));
    let mut numbers: Vec<i64> = pairs_in_leaves(&pool).iter().map(|p| p.number.0).collect();
    numbers.sort();
    let due = (1..=6).flat_map(|s| (0..3).map(move |i| 10 * s + i)).filter(|&n| n != 10);
    assert_eq!(numbers, due.collect::<Vec<i64>>());
}

/// After a delete the cover is tight: the opened count tells.
#[test]
fn covers_are_tight_after_a_delete() {
    let mut pool = three_levels();
    batch(&mut pool, &[Request::insert(15, bar(150))]);
    assert_eq!(search(&mut pool, point(140)), (vec![], 3));
    assert_eq!(number(&mut pool, Request::delete(15, bar(150))), 0);
    // The cover of slot 7 still holds the window, that of leaf 1 does not.
    assert_eq!(search(&mut pool, point(140)), (vec![], 2));
    assert_eq!(pool, three_levels());
}

/// With an unsigned d the two equal ones (d = -100) would be the seeds.
#[test]
fn identical_rectangles_are_not_the_most_wasteful() {
    let mut nine: Vec<Rect> = (0..9).map(|k| rect([20 * k, 0, 20 * k + 10, 10])).collect();
    nine[1] = nine[0];
    assert_eq!(second::waste(&nine[0], &nine[1]), -100);
    assert_eq!(pick_seeds(&nine), (1, 9));
}

/// Where every d is negative the least negative is the largest.
#[test]
fn the_largest_of_negative_wastes() {
    let mut nine = vec![rect([0, 0, 10, 10]); 9];
    nine[4] = rect([0, 0, 10, 3]);
    assert_eq!(pick_seeds(&nine), (1, 5));
}

/// 7 on an update leaves the old pair where it was.
#[test]
fn seven_on_an_update_keeps_the_old_pair() {
    let mut pool = full_pool_of_four();
    batch(&mut pool, &[Request::insert(24, bar(510))]);
    let before = pool.clone();
    assert_eq!(number(&mut pool, Request::update(24, bar(510), bar(3))), 7);
    assert_eq!(pool, before);
    assert_eq!(search(&mut pool, point(510)), (vec![24], 2));
    assert_eq!(number(&mut pool, Request::update(24, bar(510), bar(520))), 0);
}

/// "A delete can be refused 7: two entries set aside may each split a node."
#[test]
fn seven_on_a_delete_changes_nothing() {
    let mut pool = full_pool_of_four();
    let before = pool.clone();
    assert_eq!(number(&mut pool, Request::delete(22, bar(500))), 7);
    assert_eq!(pool, before);
    // Where both entries set aside go the same way, one split is enough.
    assert_eq!(number(&mut pool, Request::delete(23, bar(900))), 0);
    assert!(sound(&pool));
}
