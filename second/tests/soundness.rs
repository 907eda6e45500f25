//! "A pool is sound when ..": each sentence broken in turn.

mod common;

use common::{blank_pool, point, put, three_levels};
use second::sound;

/// The first word of a slot.
fn at(slot: usize) -> usize {
    8 + 42 * (slot - 1)
}

/// The tree of three levels with one word changed.
fn changed(place: usize, value: i32) -> Vec<i32> {
    let mut pool = three_levels();
    assert_ne!(pool[place], value);
    pool[place] = value;
    pool
}

#[test]
fn sound_pools() {
    assert!(sound(&blank_pool(1)));
    assert!(sound(&blank_pool(4_096)));
    assert!(sound(&three_levels()));
    // Record numbers of leaf entries are free to change.
    assert!(sound(&changed(at(1) + 6, i32::MAX)));
}

#[test]
fn the_head() {
    for (word, value) in [(0, 0), (0, 2), (0, 3), (0, -1), (4, 1), (5, -1), (6, 1), (7, 9)] {
        assert!(!sound(&changed(word, value)), "word {word} as {value}");
    }
}

#[test]
fn root_and_height() {
    for value in [0, -1, 10, 1, 8, i32::MAX, i32::MIN] {
        assert!(!sound(&changed(1, value)), "root {value}");
    }
    for value in [0, -1, 1, 2, 4, i32::MAX] {
        assert!(!sound(&changed(2, value)), "height {value}");
    }
    for value in [17, 19, 0, -1] {
        assert!(!sound(&changed(3, value)), "records {value}");
    }
}

#[test]
fn levels_and_counts() {
    for slot in 1..=9 {
        for value in [-1, 0, 4, i32::MAX] {
            assert!(!sound(&changed(at(slot), value)), "slot {slot}, level {value}");
        }
        for value in [-1, 0, 1, 4, 8, 9, i32::MAX] {
            assert!(!sound(&changed(at(slot) + 1, value)), "slot {slot}, count {value}");
        }
    }
}

#[test]
fn unused_words() {
    for word in 2 + 5 * 3..42 {
        assert!(!sound(&changed(at(1) + word, 1)), "word {word} of an unused entry");
    }
    for word in 1..42 {
        let mut pool = blank_pool(2);
        pool[at(2) + word] = 1;
        assert!(!sound(&pool), "word {word} of a free slot");
    }
}

#[test]
fn pointers() {
    for value in [0, -1, 10, 2, 4, 7, 8, 9, i32::MAX, i32::MIN] {
        assert!(!sound(&changed(at(7) + 6, value)), "child {value}");
    }
    for value in [0, -1, i32::MIN] {
        assert!(!sound(&changed(at(1) + 6, value)), "record number {value}");
    }
}

#[test]
fn covers() {
    for slot in 7..=9 {
        for word in 2..6 {
            let old = three_levels()[at(slot) + word];
            for value in [old - 1, old + 1] {
                assert!(!sound(&changed(at(slot) + word, value)), "slot {slot}, word {word}");
            }
        }
    }
}

#[test]
fn leaf_rectangles() {
    let limit = 1_000_000_000;
    let mut pool = blank_pool(1);
    pool[3] = 1;
    for (rect, due) in [
        ([0, 0, 0, 0], true),
        ([-limit, -limit, limit, limit], true),
        ([-limit - 1, 0, 0, 0], false),
        ([0, -limit - 1, 0, 0], false),
        ([0, 0, limit + 1, 0], false),
        ([0, 0, 0, limit + 1], false),
        ([1, 0, 0, 0], false),
        ([0, 1, 0, 0], false),
    ] {
        put(&mut pool, 1, 1, &[(rect, 7)]);
        assert_eq!(sound(&pool), due, "{rect:?}");
    }
}

/// Two parents for one leaf, and a leaf that nobody leads to.
#[test]
fn each_node_the_child_of_exactly_one_entry() {
    let mut pool = three_levels();
    let twice = [([100, 0, 105, 10], 1), ([200, 0, 205, 10], 2), ([200, 0, 205, 10], 2)];
    put(&mut pool, 7, 2, &twice);
    put(&mut pool, 3, 0, &[]);
    pool[at(9) + 4] = 205;
    pool[3] = 15;
    assert!(!sound(&pool), "a leaf with two parents");
    let mut lone = vec![0; 8 + 42 * 2];
    lone[..4].copy_from_slice(&[1, 1, 1, 4]);
    put(&mut lone, 1, 1, &[(point(1), 1)]);
    put(&mut lone, 2, 1, &[(point(1), 1), (point(2), 2), (point(3), 3)]);
    assert!(!sound(&lone), "a leaf beside the root");
}

/// Counts of the root: 0 to 8 if a leaf, 2 to 8 otherwise.
#[test]
fn counts_of_the_root() {
    let mut pool = vec![0; 8 + 42 * 4];
    pool[..4].copy_from_slice(&[1, 2, 2, 3]);
    put(&mut pool, 1, 1, &[(point(1), 1), (point(2), 2), (point(3), 3)]);
    put(&mut pool, 2, 2, &[([1, 0, 3, 0], 1)]);
    assert!(!sound(&pool), "an inner root with one child");
    put(&mut pool, 3, 1, &[(point(4), 4), (point(5), 5), (point(6), 6)]);
    put(&mut pool, 2, 2, &[([1, 0, 3, 0], 1), ([4, 0, 6, 0], 3)]);
    pool[3] = 6;
    assert!(sound(&pool), "with two");
}

#[test]
fn lengths() {
    assert!(!sound(&[]));
    assert!(!sound(&[1, 1, 1, 0, 0, 0, 0, 0]));
    assert!(!sound(&blank_pool(1)[..49]));
}
