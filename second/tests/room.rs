//! "Know before the truck leaves" (document 02, Req 06), sentence by sentence.

mod common;

use common::{bar, batch, blank_pool, full_pool_of_four, put, three_levels};
use second::generate::Generator;
use second::rooms::{self, outcome, Case};
use second::rooms_kept::{kept, pool_over, pool_with_way, HERE, WAYS};
use second::style::STYLES;
use second::{room, sound, Edition, Request};

const LIMIT: i32 = 1_000_000_000;

/// A number that no record of these pools has.
const FRESH: i32 = 9_999;

/// The number, and the two words as they are left.
fn told(pool: &[i32], rect: [i32; 4]) -> (i32, [u32; 2]) {
    let (before, mut slots) = (pool.to_vec(), [31, 32]);
    let number = room(pool, rect, &mut slots);
    assert_eq!(pool, before);
    (number, slots)
}

/// Refused: nothing is written.
fn refused(number: i32) -> (i32, [u32; 2]) {
    (number, [31, 32])
}

/// What is told, and that the insert is answered as it says and takes as many slots.
fn needed_and_free(pool: &[i32], rect: [i32; 4]) -> [u32; 2] {
    assert!(sound(pool));
    let (number, [needed, free]) = told(pool, rect);
    assert_eq!(number, 0);
    let mut after = pool.to_vec();
    let answer = common::number(&mut after, Request::insert(FRESH, rect));
    assert_eq!(answer, if needed > free { 7 } else { 0 });
    let left = if needed > free { free } else { free - needed };
    assert_eq!(told(&after, rect).1[1], left);
    [needed, free]
}

fn records_in_a_row(count: i32) -> Vec<([i32; 4], i32)> {
    (0..count).map(|i| (bar(2 * i), i + 1)).collect()
}

/// A leaf that is the root, with so many records.
fn one_leaf(count: i32, slots: usize) -> Vec<i32> {
    let mut pool = blank_pool(slots);
    put(&mut pool, 1, 1, &records_in_a_row(count));
    pool[3] = count;
    pool
}

/// "A run of nothing": a chosen leaf that is not full. A full one that is the root needs a partner
/// and a new root.
#[test]
fn a_leaf_that_is_the_root() {
    for count in 0..8 {
        for slots in 1..=4 {
            assert_eq!(needed_and_free(&one_leaf(count, slots), bar(5)), [0, slots as u32 - 1]);
        }
    }
    for slots in 1..=5 {
        assert_eq!(needed_and_free(&one_leaf(8, slots), bar(5)), [2, slots as u32 - 1]);
    }
}

/// Four slots, none free: eight bars from x = 0, three in the middle, eight from x = 1000.
#[test]
fn three_leaves_below_a_root_with_room() {
    let pool = full_pool_of_four();
    assert_eq!(needed_and_free(&pool, bar(3)), [1, 0]);
    assert_eq!(needed_and_free(&pool, bar(600)), [0, 0]);
    assert_eq!(needed_and_free(&pool, bar(1_003)), [1, 0]);
    for more in 1..=3 {
        let mut longer = pool.clone();
        longer.resize(pool.len() + 42 * more, 0);
        assert_eq!(needed_and_free(&longer, bar(3)), [1, more as u32]);
        assert_eq!(needed_and_free(&longer, bar(600)), [0, more as u32]);
    }
}

/// Three levels, each node with room.
#[test]
fn no_node_is_full() {
    for x in [100, 204, 350, 606, -7] {
        assert_eq!(needed_and_free(&three_levels(), bar(x)), [0, 0]);
    }
}

/// "the run of full nodes from the chosen leaf upward, plus one if the run includes the root": the
/// number beside each way was written by hand.
#[test]
fn ways_from_the_root_to_the_chosen_leaf() {
    for (way, needed) in WAYS {
        for free in 0..=6 {
            let pool = pool_with_way(way, free);
            assert_eq!(needed_and_free(&pool, HERE), [needed, free as u32], "{way:?}");
        }
    }
}

/// Four levels with a gap at each place, and none.
#[test]
fn tall_trees() {
    let ways: [(&[usize], u32); 8] = [
        (&[8, 8, 8, 8], 5),
        (&[7, 8, 8, 8], 3),
        (&[8, 7, 8, 8], 2),
        (&[8, 8, 7, 8], 1),
        (&[8, 8, 8, 7], 0),
        (&[8, 3, 3, 8], 1),
        (&[2, 8, 8, 8, 8], 4),
        (&[2, 8, 8, 7, 8], 1),
    ];
    for (way, needed) in ways {
        for free in [0, 1, 4, 5, 6] {
            let pool = pool_with_way(way, free);
            assert_eq!(needed_and_free(&pool, HERE), [needed, free as u32], "{way:?}");
        }
    }
}

/// "So with h + 1 slots free it is never refused 7", and with h it may be.
#[test]
fn one_more_than_the_height() {
    for height in 1..=4 {
        let full = vec![8; height];
        let all_but_one = pool_with_way(&full, height);
        let enough = pool_with_way(&full, height + 1);
        assert_eq!(needed_and_free(&all_but_one, HERE), [height as u32 + 1, height as u32]);
        assert_eq!(needed_and_free(&enough, HERE), [height as u32 + 1; 2]);
    }
}

/// "the chosen leaf" is the one that ChooseLeaf comes to, by each of its rules.
#[test]
fn the_chosen_leaf() {
    let square = [0, 0, 10, 10];
    // The covers of two leaves, the new rectangle, and which of the two is chosen.
    let rules = [
        ([-90, 0, -80, 10], square, [11, 0, 12, 10], 2),
        (square, [-90, 0, -80, 10], [11, 0, 12, 10], 1),
        (square, [20, 0, 30, 10], [12, 0, 18, 10], 1),
        (square, [20, 0, 29, 10], [12, 0, 18, 10], 2),
        ([20, 0, 30, 0], [0, 0, 10, 0], [12, 0, 12, 0], 2),
        ([0, 0, 100, 0], [40, 0, 60, 0], [50, 0, 50, 0], 2),
        ([0, 0, 100, 0], [0, 0, 100, 0], [50, 0, 50, 0], 1),
        // It need not be one that the rectangle meets.
        ([0, 0, 100, 100], [0, 0, 1, 1], [2, 2, 3, 3], 1),
        ([0, 0, 1, 1], [0, 0, 100, 100], [101, 0, 101, 0], 2),
    ];
    for (first, second, new, chosen) in rules {
        for counts in [[3, 3], [8, 3], [3, 8], [7, 8], [8, 7], [8, 8]] {
            let pool = pool_over(&[(counts[0], first), (counts[1], second)], 2);
            let due = u32::from(counts[chosen - 1] == 8);
            assert_eq!(needed_and_free(&pool, new), [due, 2], "{first:?} {second:?} {counts:?}");
        }
    }
}

/// "Level 0 is free": an empty leaf is not, wherever free slots lie.
#[test]
fn free_slots() {
    for slots in [1, 2, 3, 16, 4_096] {
        assert_eq!(told(&blank_pool(slots), bar(0)), (0, [0, slots as u32 - 1]));
    }
    let mut pool = blank_pool(5);
    pool[1] = 3;
    put(&mut pool, 1, 0, &[]);
    put(&mut pool, 3, 1, &[]);
    assert_eq!(needed_and_free(&pool, bar(0)), [0, 4]);
    put(&mut pool, 3, 1, &records_in_a_row(8));
    pool[3] = 8;
    assert_eq!(needed_and_free(&pool, bar(0)), [2, 4]);
}

/// "1 .. pool length wrong" comes first.
#[test]
fn refused_1() {
    let mut long = blank_pool(4_096);
    long.resize(8 + 42 * 4_097, 0);
    let lengths = [0, 1, 7, 8, 9, 42, 49, 51, 91, 93, 172_039, 172_041, 172_082];
    for length in lengths {
        for rect in [bar(0), [1, 0, 0, 0], [0, 0, LIMIT + 1, 0]] {
            assert_eq!(told(&long[..length], rect), refused(1), "{length} words");
            assert_eq!(told(&vec![-1; length], rect), refused(1), "{length} words");
        }
    }
    assert_eq!(told(&long[..172_040], bar(0)), (0, [0, 4_095]));
}

/// "2 .. pool not sound" comes next, also for what the way to the leaf does not touch.
#[test]
fn refused_2() {
    let pool = full_pool_of_four();
    let last_leaf = 8 + 42 * 2;
    for (word, value) in [(0, 3), (1, 0), (2, 3), (3, 18), (5, 1), (last_leaf + 1, 7)] {
        let mut damaged = pool.clone();
        damaged[word] = value;
        assert!(!sound(&damaged));
        for rect in [bar(3), bar(600), [1, 0, 0, 0], [0, -LIMIT - 1, 0, 0]] {
            assert_eq!(told(&damaged, rect), refused(2), "word {word}");
        }
    }
    let mut longer = pool.clone();
    longer.resize(pool.len() + 42, 0);
    *longer.last_mut().expect("words") = 1;
    assert_eq!(told(&longer, bar(3)), refused(2));
}

/// "3 .. a coordinate out of range, or low above high", whether there is room or not.
#[test]
fn refused_3() {
    let beyond = LIMIT + 1;
    for pool in [blank_pool(1), blank_pool(3), one_leaf(8, 1), full_pool_of_four()] {
        for bad in [
            [1, 0, 0, 0],
            [0, 1, 0, 0],
            [-beyond, 0, 0, 0],
            [0, -beyond, 0, 0],
            [0, 0, beyond, 0],
            [0, 0, 0, beyond],
            [beyond, beyond, beyond, beyond],
            [i32::MIN, i32::MIN, i32::MAX, i32::MAX],
        ] {
            assert_eq!(told(&pool, bad), refused(3), "{bad:?}");
        }
        for good in [[-LIMIT, -LIMIT, LIMIT, LIMIT], [LIMIT; 4], [-LIMIT; 4], [0; 4]] {
            assert_eq!(told(&pool, good).0, 0, "{good:?}");
        }
    }
}

/// "an insert otherwise acceptable": the call is told no number, so a pair that is held, and would
/// be refused 6, is told its room like any other.
#[test]
fn a_rectangle_that_is_held() {
    let mut pool = one_leaf(8, 2);
    assert_eq!(needed_and_free(&pool, bar(0)), [2, 1]);
    let numbers = [(FRESH, 7), (1, 6), (0, 4), (-1, 4)];
    for (number, due) in numbers {
        assert_eq!(common::number(&mut pool, Request::insert(number, bar(0))), due);
    }
}

/// What is told is of the pool as it is: within a batch the requests before an insert decide.
#[test]
fn a_batch_moves_what_was_told() {
    // Two full leaves and one slot: both inserts would fit, and the first takes the slot.
    let leaves = [(8, bar(0)), (8, bar(500)), (3, bar(1_000))];
    let mut pool = pool_over(&leaves, 1);
    assert_eq!([bar(0), bar(500)].map(|rect| told(&pool, rect).1), [[1, 1]; 2]);
    let both = [Request::insert(FRESH, bar(0)), Request::insert(FRESH, bar(500))];
    let numbers = |answers: Vec<second::Answer>| [0, 1].map(|place| answers[place].number);
    assert_eq!(numbers(batch(&mut pool, &both).0), [0, 7]);
    assert_eq!([bar(0), bar(500)].map(|rect| told(&pool, rect).1), [[0, 0], [1, 0]]);
    // No slot, and a delete that leaves a place in the leaf.
    let mut pool = pool_over(&leaves, 0);
    assert_eq!(told(&pool, bar(0)).1, [1, 0]);
    let room_made = [Request::delete(4, bar(0)), Request::insert(FRESH, bar(0))];
    assert_eq!(numbers(batch(&mut pool, &room_made).0), [0, 0]);
}

/// Histories of every style in small pools: the answer of every insert is the one told.
#[test]
fn histories() {
    for (name, style) in STYLES {
        for slots in [1, 3, 5, 9, 14] {
            let mut generator = Generator::new(style, 3, slots);
            let mut pool = blank_pool(slots);
            for _ in 0..120 {
                let request = generator.draw();
                let said = told(&pool, request.first);
                let number = batch(&mut pool, &[request]).0[0].number;
                if request.kind == 1 {
                    let (asked, [needed, free]) = said;
                    let due = if needed > free { 7 } else { 0 };
                    let otherwise_refused = [3, 4, 6].contains(&number);
                    assert!(number == due || otherwise_refused, "{name}, {slots} slots");
                    assert_eq!(asked == 3, number == 3);
                }
                generator.answered(&request, number);
            }
        }
    }
}

/// Lines of cases both ways, and the lines kept beside the program.
#[test]
fn lines_of_cases() {
    let case = Case { pool: vec![1, -2], rect: [0, -1, 2, 3] };
    assert_eq!(rooms::line(&case), "room 1,-2 0,-1,2,3");
    assert_eq!(rooms::answered(&case), "room 1,-2 0,-1,2,3 -> 1");
    assert_eq!(rooms::parse("room 1,-2 0,-1,2,3 -> 0 7 7"), Ok(case));
    let blank = Case { pool: blank_pool(3), rect: [0; 4] };
    assert!(rooms::answered(&blank).ends_with(",0,0 0,0,0,0 -> 0 0 2"));
    assert_eq!(rooms::run("room - 0,0,0,0\n"), Ok("room - 0,0,0,0 -> 1\n".to_string()));
    let kept = include_str!("../examples/room.cases");
    let due: Vec<&str> = kept.lines().filter(|line| !line.starts_with('#')).collect();
    assert_eq!(rooms::run(kept).expect("cases").lines().collect::<Vec<_>>(), due);
    let bad =
        ["room 1", "room - -", "room 1,x 0,0,0,0", "room - 0,0,0", "room - 0,0,0,0,0", "turn"];
    assert!(bad.into_iter().all(|line| rooms::run(line).is_err()));
}

#[test]
fn drawn_cases_are_the_same_each_time() {
    for edition in [Edition::One, Edition::Two] {
        let text = rooms::cases(edition, 5, 400);
        assert_eq!(text, rooms::cases(edition, 5, 400));
        assert_ne!(text, rooms::cases(edition, 6, 400));
        assert_eq!(rooms::run(&text), Ok(text));
    }
}

/// What the kept cases and the drawn ones meet, each on their own: every number, needed slots from
/// none to the whole way, too few and just enough.
#[test]
fn every_number_is_met() {
    let (text, count) = (rooms::cases(Edition::One, 1, 3_000), kept().len());
    assert!(count < 200, "{count} are the same for every seed");
    let drawn = text.lines().skip(count).map(|line| rooms::parse(line).expect("a case"));
    for cases in [kept(), drawn.collect()] {
        let outcomes: Vec<_> = cases.iter().map(outcome).collect();
        for number in 1..=3 {
            assert!(outcomes.contains(&Err(number)), "{number}");
        }
        let sorts: [fn(u32, u32) -> bool; 7] = [
            |needed, _| needed == 0,
            |needed, _| needed == 1,
            |needed, _| needed == 2,
            |needed, _| needed == 3,
            |needed, free| needed > free && free > 0,
            |needed, free| needed == free && free > 0,
            |needed, free| needed == 0 && free == 0,
        ];
        for (place, sort) in sorts.iter().enumerate() {
            let met = outcomes.iter().flatten().any(|&[needed, free]| sort(needed, free));
            assert!(met, "sort {place}");
        }
    }
}
