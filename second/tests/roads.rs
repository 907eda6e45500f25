//! "Roads are flat" (document 02, Req 05): half perimeters where areas tell nothing.

mod common;

use common::{batch, blank_pool, number, point, rect, search, slot};
use second::choose::{choose_child_counting, split_nine_counting};
use second::events::Decided;
use second::generate::history;
use second::script::parse;
use second::style::Style;
use second::{
    area, call_counting, choose_child, enlargement, half_enlargement, half_perimeter, half_waste,
    pick_seeds, split_nine, waste, Answer, Events, Found, Rect, Request,
};

fn rects(all: &[[i32; 4]]) -> Vec<Rect> {
    all.iter().copied().map(rect).collect()
}

/// Points on one level road.
fn points(along: &[i32]) -> Vec<Rect> {
    along.iter().map(|&x| rect(point(x))).collect()
}

#[test]
fn width_plus_height() {
    let limit = 1_000_000_000;
    for (words, due) in [
        ([0, 0, 10, 4], 14),
        ([-3, 7, 9, 7], 12),
        ([5, -6, 5, 6], 12),
        ([8, 8, 8, 8], 0),
        ([-limit, -limit, limit, limit], 4_000_000_000),
    ] {
        assert_eq!(half_perimeter(&rect(words)), due, "{words:?}");
    }
}

#[test]
fn the_same_quantities_in_half_perimeter() {
    let road = rect([0, 0, 10, 0]);
    for (other, enlarged, wasted) in [
        (road, 0, -10),
        (rect([4, 0, 6, 0]), 0, -2),
        (rect([5, 0, 25, 0]), 15, -5),
        (rect([10, 0, 30, 0]), 20, 0),
        (rect([13, 0, 13, 0]), 3, 3),
        (rect([5, -2, 5, 4]), 6, 0),
        (rect([12, 1, 13, 3]), 6, 3),
    ] {
        assert_eq!(half_enlargement(&road, &other), enlarged, "{other:?}");
        assert_eq!(half_waste(&road, &other), wasted, "{other:?}");
        assert_eq!(half_waste(&other, &road), wasted, "{other:?}");
    }
    let (one, other) = (rect([0, 0, 10, 10]), rect([20, 0, 30, 10]));
    assert_eq!((half_enlargement(&one, &other), half_waste(&one, &other)), (20, 0));
}

/// Nothing wraps at the limits.
#[test]
fn half_perimeters_at_the_limits() {
    let limit = 1_000_000_000;
    let (low, high) = (rect([-limit; 4]), rect([limit; 4]));
    let site = rect([-limit, -limit, limit, limit]);
    assert_eq!(half_enlargement(&low, &high), 4_000_000_000);
    assert_eq!(half_waste(&low, &high), 4_000_000_000);
    assert_eq!(half_waste(&site, &site), -4_000_000_000);
}

/// Each rule of ChooseLeaf in turn decides for the second entry, whatever the later ones say.
#[test]
fn choose_leaf_asks_in_order() {
    let cases = [
        // Enlargement 80 and 10, in half perimeter 4 and 10.
        ([[108, 4, 128, 24], [0, 0, 100, 1]], [110, 0, 110, 1]),
        // No enlargement; in half perimeter 12 and 0, though the second has the larger area.
        ([[20, 5, 30, 5], [0, 0, 10, 10]], [8, 5, 8, 5]),
        // In both; area 100 and 60, half perimeter 20 and 32.
        ([[0, 0, 10, 10], [0, 0, 30, 2]], [5, 1, 5, 1]),
        // In both, area 100 and 100; half perimeter 25 and 20.
        ([[0, 0, 20, 5], [0, 0, 10, 10]], [5, 2, 5, 2]),
    ];
    for (entries, new) in cases {
        assert_eq!(choose_child(&rects(&entries), &rect(new)), 2, "{entries:?}");
        let turned = [entries[1], entries[0]];
        assert_eq!(choose_child(&rects(&turned), &rect(new)), 1, "{turned:?}");
    }
    // All four tie: the earliest.
    let entries = rects(&[[0, 0, 10, 5], [0, 0, 5, 10], [0, 0, 10, 5]]);
    assert_eq!(choose_child(&entries, &rect([2, 2, 2, 2])), 1);
}

/// The enlargements tie, and are not zero.
#[test]
fn half_enlargement_of_covers_with_area() {
    let (entries, new) = (rects(&[[0, 0, 10, 10], [12, 14, 32, 24]]), rect([18, 10, 18, 10]));
    assert_eq!([0, 1].map(|k| enlargement(&entries[k], &new)), [80, 80]);
    assert_eq!([0, 1].map(|k| half_enlargement(&entries[k], &new)), [8, 4]);
    assert_eq!(choose_child(&entries, &new), 2);
}

#[test]
fn pick_seeds_asks_in_order() {
    // The ends of a road, wherever they stand.
    assert_eq!(pick_seeds(&points(&[30, 80, 10, 40, 0, 50, 60, 70, 20])), (2, 5));
    // d comes first: 3 and 9 are farther apart, 1 and 3 have more area between them.
    let nine = rects(&[
        [0, 5, 0, 5],
        [1, 0, 1, 0],
        [-20, 0, -20, 0],
        [2, 0, 2, 0],
        [3, 0, 3, 0],
        [4, 0, 4, 0],
        [5, 0, 5, 0],
        [6, 0, 6, 0],
        [10, 0, 10, 0],
    ]);
    assert!(half_waste(&nine[2], &nine[8]) > half_waste(&nine[0], &nine[2]));
    assert_eq!(waste(&nine[2], &nine[8]), 0);
    assert_eq!(pick_seeds(&nine), (1, 3));
    // All tie: the earliest first member, then the earliest second.
    assert_eq!(pick_seeds(&points(&[7; 9])), (1, 2));
}

/// "d of half perimeters" keeps its sign: the same road drawn twice wastes least, not most.
#[test]
fn a_road_drawn_twice_is_not_the_most_wasteful() {
    let mut nine = points(&[0, 40, 10, 5, 15, 20, 25, 30, 35]);
    nine[2] = rect([0, 0, 50, 0]);
    nine[3] = nine[2];
    assert_eq!(half_waste(&nine[2], &nine[3]), -50);
    assert_eq!(pick_seeds(&nine), (1, 2));
}

/// With no area anywhere PickNext goes by half perimeter: the earliest, in the middle, comes last,
/// and joins the shorter group, though that has more entries.
#[test]
fn pick_next_and_the_group_ask_half_perimeters() {
    let nine = points(&[53, 0, 80, 15, 79, 30, 78, 77, 76]);
    assert_eq!(split_nine(&nine), (vec![2, 4, 6], vec![3, 5, 7, 8, 9, 1]));
}

/// By areas alone example 8 is "two leaves lying over each other".
#[test]
fn the_leaves_of_example_8_lie_apart() {
    let mut pool = blank_pool(3);
    let nine: Vec<Request> = (1..=9).map(|n| Request::insert(n, point(10 * (n - 1)))).collect();
    batch(&mut pool, &nine);
    assert_eq!(slot(&pool, 1), (1, vec![1, 2, 3, 4, 5, 6]));
    assert_eq!(slot(&pool, 2), (1, vec![9, 7, 8]));
    assert_eq!(search(&mut pool, point(50)), (vec![6], 2));
    assert_eq!(search(&mut pool, point(55)), (vec![], 1));
    // As far from both: the shorter. Then nearer to the longer.
    assert_eq!(number(&mut pool, Request::insert(10, point(55))), 0);
    assert_eq!(number(&mut pool, Request::insert(11, point(52))), 0);
    assert_eq!(slot(&pool, 1), (1, vec![1, 2, 3, 4, 5, 6, 11]));
    assert_eq!(slot(&pool, 2), (1, vec![9, 7, 8, 10]));
}

/// Entries set aside go in again by the same rules.
#[test]
fn entries_set_aside_go_by_half_perimeters_too() {
    let mut pool = blank_pool(5);
    let along = [0, 10, 20, 30, 40, 50, 60, 70, 80, 100, 101, 102, 103, 104, 105];
    let inserts: Vec<Request> =
        along.iter().zip(1..).map(|(&x, n)| Request::insert(n, point(x))).collect();
    batch(&mut pool, &inserts);
    assert_eq!((pool[1], slot(&pool, 3).1), (3, vec![1, 2, 4]));
    assert_eq!(slot(&pool, 1), (1, vec![1, 2, 3, 4, 5, 6]));
    // From 60 and 105 on: the last two, 80 and 70, are all that is left for the group of 60.
    assert_eq!(slot(&pool, 2), (1, vec![7, 9, 8]));
    assert_eq!(slot(&pool, 4), (1, vec![15, 14, 13, 12, 11, 10]));
    // 60 is nearer to the leaf of 0 to 50 than to that of 100 to 105, and then 80 is as far from 60
    // as from 100, and the right leaf is shorter.
    assert_eq!(number(&mut pool, Request::delete(8, point(70))), 0);
    assert_eq!(slot(&pool, 1), (1, vec![1, 2, 3, 4, 5, 6, 7]));
    assert_eq!(slot(&pool, 4), (1, vec![15, 14, 13, 12, 11, 10, 9]));
}

/// The six counts of a choice, in the order of the rules.
fn counts(decided: &Decided) -> [u64; 6] {
    [
        decided.choose_leaf_by_half_enlargement,
        decided.choose_leaf_by_half_perimeter,
        decided.pick_seeds_by_half_d,
        decided.pick_next_by_half_difference,
        decided.group_by_half_enlargement,
        decided.group_by_half_perimeter,
    ]
}

/// A choice is counted where another would be made without the half perimeter, and there alone.
#[test]
fn choices_that_a_half_perimeter_decides() {
    let chosen = |entries: &[[i32; 4]], new: [i32; 4]| {
        let mut decided = Decided::default();
        choose_child_counting(&rects(entries), &rect(new), &mut decided);
        counts(&decided)
    };
    let (long, short) = ([0, 0, 50, 0], [60, 0, 80, 0]);
    assert_eq!(chosen(&[long, short], point(54)), [1, 0, 0, 0, 0, 0]);
    assert_eq!(chosen(&[long, short], point(55)), [0, 1, 0, 0, 0, 0]);
    // The nearer is the shorter, or the first: it would be chosen all the same.
    assert_eq!(chosen(&[long, short], point(56)), [0; 6]);
    assert_eq!(chosen(&[short, long], point(55)), [0; 6]);
    assert_eq!(chosen(&[[0, 0, 10, 10], [20, 0, 29, 10]], [12, 0, 18, 10]), [0; 6]);
    let split = |nine: &[Rect]| {
        let mut decided = Decided::default();
        split_nine_counting(nine, &mut decided);
        counts(&decided)
    };
    assert_eq!(split(&points(&[0, 10, 20, 30, 40, 50, 60, 70, 80])), [0, 0, 1, 0, 4, 0]);
    assert_eq!(split(&points(&[53, 0, 80, 15, 79, 30, 78, 77, 76])), [0, 0, 1, 6, 5, 1]);
    assert_eq!(split(&points(&[7; 9])), [0; 6]);
}

fn events_of(pool: &mut [i32], requests: &[Request]) -> Events {
    let mut events = Events::default();
    let mut work = pool.to_vec();
    let mut answers = vec![Answer::default(); requests.len()];
    let mut found = vec![Found::default(); 64];
    let result = call_counting(pool, &mut work, requests, &mut answers, &mut found, 1, &mut events);
    assert_eq!(result, 0);
    events
}

/// The kept examples meet each of the six, so that a comparison that runs them does.
#[test]
fn the_kept_examples_meet_all_six() {
    let scripts = [
        include_str!("../examples/roads.script"),
        include_str!("../examples/roads-upright.script"),
    ];
    let mut all = [0; 6];
    for text in scripts {
        let mut script = parse(text).expect("a script");
        let events = events_of(&mut script.pool, &script.requests);
        let counted = counts(&events.decided);
        all = std::array::from_fn(|k| all[k] + counted[k]);
    }
    assert!(all.iter().all(|&count| count > 0), "{all:?}");
}

/// A split that is refused 7 is no event.
#[test]
fn refused_requests_are_not_counted() {
    let mut pool = blank_pool(2);
    let nine: Vec<Request> = (1..=9).map(|n| Request::insert(n, point(10 * n))).collect();
    let events = events_of(&mut pool, &nine);
    assert_eq!((events.refused_7_insert, counts(&events.decided)), (1, [0; 6]));
}

/// A long road makes inner nodes whose covers have no area, and these are chosen and split too.
#[test]
fn inner_nodes_without_area() {
    let mut pool = blank_pool(128);
    let place = |n: i32| (37 * n) % 301;
    let requests: Vec<Request> = (1..=300).map(|n| Request::insert(n, point(place(n)))).collect();
    let events = events_of(&mut pool, &requests);
    assert_eq!(pool[3], 300);
    assert!(pool[2] >= 4, "{} levels", pool[2]);
    assert!(events.flat_inner_chosen > 100, "{}", events.line());
    assert!(events.flat_inner_split > 5, "{}", events.line());
}

/// The styles of roads draw level lines, upright lines and points, each often under several
/// numbers; `roads` some blocks besides.
#[test]
fn histories_of_roads() {
    for (style, blocks) in [(Style::Road, false), (Style::Roads, true)] {
        let inserts: Vec<Request> =
            history(style, 1, 128, 800).requests.into_iter().filter(|r| r.kind == 1).collect();
        let rects: Vec<Rect> =
            inserts.iter().map(|r| rect(r.first)).filter(|r| r.valid()).collect();
        let some = |so: fn(&Rect) -> bool| rects.iter().filter(|r| so(r)).count();
        let level = some(|r| r.low_x < r.high_x && r.low_y == r.high_y);
        let upright = some(|r| r.low_x == r.high_x && r.low_y < r.high_y);
        let points = some(|r| half_perimeter(r) == 0);
        assert!(level > 50 && upright > 50 && points > 50, "{style:?}");
        assert_eq!(some(|r| area(r) > 0) > 20, blocks, "{style:?}");
        let again =
            |r: &Request| inserts.iter().any(|s| s.first == r.first && s.number != r.number);
        assert!(inserts.iter().filter(|r| again(r)).count() > 100, "{style:?}");
    }
}
