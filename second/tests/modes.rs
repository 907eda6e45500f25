//! "Zones wholly inside" (document 02, Req 01), sentence by sentence.

mod common;

use common::{batch, blank_pool, found_by, frame, number, rect, search, slot, three_levels};
use second::generate::{history, SEARCHES};
use second::script::{parse, request_line};
use second::style::STYLES;
use second::{
    call, call_counting, compare, damage, dustmap, Answer, Comparison, Edition, Events, Found,
    Mode, Request,
};

const WINDOW: [i32; 4] = [10, 10, 30, 30];
const BAD: [i32; 4] = [1, 0, 0, 10];
const WHOLE_SITE: [i32; 4] = [-1_000_000_000, -1_000_000_000, 1_000_000_000, 1_000_000_000];

/// Every rectangle with coordinates from 0 to a limit.
fn small_rectangles(limit: i32) -> Vec<[i32; 4]> {
    let sides: Vec<(i32, i32)> =
        (0..=limit).flat_map(|low| (low..=limit).map(move |high| (low, high))).collect();
    let over = |x: (i32, i32)| sides.iter().map(move |y| [x.0, y.0, x.1, y.1]);
    sides.iter().flat_map(|&x| over(x)).collect()
}

/// A rectangle as the set of its whole points: bit x + 5y for the point (x, y), up to 4.
fn points([low_x, low_y, high_x, high_y]: [i32; 4]) -> u32 {
    (low_y..=high_y).flat_map(|y| (low_x..=high_x).map(move |x| 1 << (x + 5 * y))).sum()
}

/// What the one set of points is to the other.
fn compared_by_points(a: u32, b: u32) -> Comparison {
    match (a & b == 0, a & !b == 0, b & !a == 0) {
        (true, _, _) => Comparison::Apart,
        (_, true, true) => Comparison::Equal,
        (_, true, false) => Comparison::Inside,
        (_, false, true) => Comparison::Enclosing,
        (_, false, false) => Comparison::OtherwiseMeeting,
    }
}

/// "The comparison of two rectangles shall now say apart, inside, enclosing, equal or otherwise
/// meeting": told by the points of both, for every two small rectangles.
#[test]
fn the_comparison_of_two_rectangles() {
    let rects = small_rectangles(4);
    assert_eq!(rects.len(), 225);
    for &a in &rects {
        for &b in &rects {
            let due = compared_by_points(points(a), points(b));
            assert_eq!(compare(&rect(a), &rect(b)), due, "{a:?} to {b:?}");
        }
    }
}

#[test]
fn the_comparison_at_the_limits() {
    let (whole, limit) = (rect(WHOLE_SITE), 1_000_000_000);
    for corner in [[-limit; 4], [limit; 4], [-limit, limit, -limit, limit]].map(rect) {
        assert_eq!(compare(&corner, &whole), Comparison::Inside);
        assert_eq!(compare(&whole, &corner), Comparison::Enclosing);
        assert_eq!(compare(&corner, &corner), Comparison::Equal);
        assert_eq!(compare(&corner, &rect([0; 4])), Comparison::Apart);
    }
    assert_eq!(compare(&whole, &whole), Comparison::Equal);
}

/// "Equal counts as inside and as enclosing."
#[test]
fn what_each_mode_lists() {
    use Comparison::{Apart, Enclosing, Equal, Inside, OtherwiseMeeting};
    let all = [Apart, Inside, Enclosing, Equal, OtherwiseMeeting];
    let listed = |mode: Mode| all.map(|comparison| mode.lists(comparison));
    assert_eq!(listed(Mode::Meeting), [false, true, true, true, true]);
    assert_eq!(listed(Mode::Inside), [false, true, false, true, false]);
    assert_eq!(listed(Mode::Enclosing), [false, false, true, true, false]);
}

#[test]
fn equal_is_inside_and_enclosing() {
    for equal in [WINDOW, [5, 5, 5, 5], [5, 0, 5, 9], WHOLE_SITE] {
        let mut pool = blank_pool(1);
        batch(&mut pool, &[Request::insert(7, equal), Request::insert(8, equal)]);
        for search in SEARCHES {
            assert_eq!(found_by(&mut pool, search(equal)), (vec![7, 8], 1));
        }
    }
}

/// The window with one side moved: inward the record is only enclosing, outward only inside.
#[test]
fn one_millimetre_on_each_side() {
    let mut pool = blank_pool(1);
    batch(&mut pool, &[Request::insert(7, WINDOW)]);
    for side in 0..4 {
        let outward = if side < 2 { -1 } else { 1 };
        for (by, inside, enclosing) in [(outward, vec![7], vec![]), (-outward, vec![], vec![7])] {
            let mut window = WINDOW;
            window[side] += by;
            assert_eq!(found_by(&mut pool, Request::inside(window)), (inside, 1), "{window:?}");
            assert_eq!(found_by(&mut pool, Request::enclosing(window)), (enclosing, 1));
            assert_eq!(search(&mut pool, window), (vec![7], 1));
        }
    }
}

/// A record that touches the window from within is inside it, one that touches it from outside
/// meets it and no more. The same of a window that touches a record.
#[test]
fn touching_from_inside_counts() {
    let within = [[10, 15, 12, 20], [15, 10, 20, 12], [28, 15, 30, 20], [15, 28, 20, 30]];
    let outside = [[5, 15, 10, 20], [15, 5, 20, 10], [30, 15, 35, 20], [15, 30, 20, 35]];
    for (rects, inside) in [(within, vec![7]), (outside, vec![])] {
        for small in rects {
            let mut pool = blank_pool(1);
            batch(&mut pool, &[Request::insert(7, small)]);
            assert_eq!(search(&mut pool, WINDOW), (vec![7], 1));
            assert_eq!(found_by(&mut pool, Request::inside(WINDOW)), (inside.clone(), 1));
            assert_eq!(found_by(&mut pool, Request::enclosing(WINDOW)), (vec![], 1));
            let mut pool = blank_pool(1);
            batch(&mut pool, &[Request::insert(7, WINDOW)]);
            assert_eq!(search(&mut pool, small), (vec![7], 1));
            assert_eq!(found_by(&mut pool, Request::enclosing(small)), (inside.clone(), 1));
            assert_eq!(found_by(&mut pool, Request::inside(small)), (vec![], 1));
        }
    }
}

/// Every small rectangle as a record and as a window, each list told by points.
#[test]
fn the_found_list_by_mode() {
    let rects = small_rectangles(2);
    let mut pool = blank_pool(20);
    let inserts: Vec<Request> =
        rects.iter().zip(1..).map(|(&r, n)| Request::insert(n, r)).collect();
    batch(&mut pool, &inserts);
    assert!(pool[2] >= 2, "more than a root");
    for &window in &rects {
        let due = |asked: fn(u32, u32) -> bool| -> Vec<i32> {
            let asked = |r: [i32; 4]| asked(points(r), points(window));
            rects.iter().zip(1..).filter(|(&r, _)| asked(r)).map(|(_, n)| n).collect()
        };
        let found = SEARCHES.map(|search| found_by(&mut pool, search(window)).0);
        let due = [due(|a, b| a & b != 0), due(|a, b| a & b == a), due(|a, b| a & b == b)];
        assert_eq!(found, due, "{window:?}");
    }
}

/// "All modes open the nodes whose cover meets the window": the same number, also where the mode
/// asks for nothing in a node.
#[test]
fn opened_is_the_same_in_every_mode() {
    let mut pool = three_levels();
    let cases = [
        // No bar lies in a point, and none holds a window over two leaves.
        ([102, 0, 102, 0], [vec![11], vec![], vec![11]], 3),
        ([105, 0, 200, 10], [vec![12, 20], vec![], vec![]], 4),
        ([305, 0, 400, 0], [vec![32, 40], vec![], vec![]], 5),
        // The covers reach beyond the window, and the records in it are listed.
        ([104, 0, 201, 10], [vec![12, 20], vec![12, 20], vec![]], 4),
        ([304, -1, 402, 11], [vec![32, 40, 41], vec![32, 40], vec![]], 5),
        ([203, 4, 203, 6], [vec![21], vec![], vec![21]], 3),
        ([106, 0, 199, 10], [vec![], vec![], vec![]], 2),
        ([700, 0, 700, 0], [vec![], vec![], vec![]], 1),
    ];
    for (window, due, opened) in cases {
        let found = SEARCHES.map(|search| found_by(&mut pool, search(window)));
        assert_eq!(found, due.map(|list| (list, opened)), "{window:?}");
    }
    assert_eq!(pool, three_levels());
}

/// "insert, delete and search go over to it": a pair is held by an equal rectangle, not by one
/// inside or enclosing it.
#[test]
fn a_pair_is_held_by_an_equal_rectangle() {
    let mut pool = blank_pool(1);
    batch(&mut pool, &[Request::insert(7, WINDOW)]);
    let others = [[10, 10, 30, 29], [9, 10, 30, 30], [20, 20, 40, 40], [12, 12, 20, 20]];
    for other in others {
        assert_eq!(number(&mut pool, Request::delete(7, other)), 5);
        assert_eq!(number(&mut pool, Request::update(7, other, WINDOW)), 5);
        assert_eq!(number(&mut pool, Request::insert(7, other)), 0);
        assert_eq!(number(&mut pool, Request::insert(7, other)), 6);
    }
    assert_eq!(number(&mut pool, Request::insert(7, WINDOW)), 6);
    assert_eq!(number(&mut pool, Request::delete(8, WINDOW)), 5);
    assert_eq!(number(&mut pool, Request::delete(7, WINDOW)), 0);
    assert_eq!(slot(&pool, 1), (1, vec![7; 4]));
    assert!(!found_by(&mut pool, Request::search(WINDOW)).0.is_empty());
    assert_eq!(number(&mut pool, Request::delete(7, WINDOW)), 5);
}

/// FindLeaf over several levels, each record in its turn.
#[test]
fn every_record_of_a_tree_can_be_deleted() {
    let rects = small_rectangles(2);
    let mut pool = blank_pool(20);
    for (&r, n) in rects.iter().zip(1..) {
        assert_eq!(number(&mut pool, Request::insert(n, r)), 0);
    }
    for (&r, n) in rects.iter().zip(1..) {
        assert_eq!(number(&mut pool, Request::insert(n, r)), 6);
        assert_eq!(number(&mut pool, Request::delete(n, r)), 0);
    }
    assert_eq!(pool[2..4], [1, 0]);
}

/// "Refusals: none new": 3 and 8 in each mode, and never 4.
#[test]
fn refused_3_in_each_mode() {
    let mut pool = blank_pool(1);
    batch(&mut pool, &[Request::insert(7, WINDOW)]);
    let beyond = 1_000_000_001;
    let windows = [BAD, [0, 1, 10, 0], [-beyond, 0, 0, 0], [0, 0, 0, beyond], [beyond; 4]];
    for search in SEARCHES {
        for window in windows {
            let (answers, found) = batch(&mut pool, &[search(window)]);
            assert_eq!(answers[0], Answer { number: 3, ..Answer::default() }, "{window:?}");
            assert!(found.iter().all(|f| *f == Found::default()));
        }
        let unused = Request { number: -3, second: BAD, ..search(WINDOW) };
        assert_eq!(found_by(&mut pool, unused), (vec![7], 1));
    }
}

/// Searches of all modes fill one list; "8 reports found and opened as they would have been", by
/// mode.
#[test]
fn refused_8_in_each_mode() {
    let mut pool = three_levels();
    let cases = [
        (Request::search([104, 0, 401, 10]), (8, 8, 0, 7)),
        (Request::inside([102, 0, 401, 10]), (8, 9, 0, 7)),
        (Request::enclosing([102, 5, 102, 5]), (0, 1, 0, 3)),
        (Request::inside([200, 0, 203, 10]), (0, 2, 1, 3)),
        (Request::search([302, 5, 304, 6]), (8, 2, 0, 3)),
        // Nothing is inside this window: no place is needed.
        (Request::inside([302, 5, 304, 6]), (0, 0, 3, 3)),
        (Request::search([300, 0, 300, 0]), (0, 1, 3, 3)),
        (Request::enclosing([302, 5, 303, 6]), (8, 1, 0, 3)),
        (Request::inside([302, 0, 303, 10]), (8, 1, 0, 3)),
        (Request::enclosing([302, 5, 304, 6]), (0, 0, 4, 3)),
    ];
    let requests = cases.map(|(request, _)| request);
    let mut answers = [Answer::default(); 10];
    let mut found = [Found { number: -7, ..Found::default() }; 4];
    let mut work = vec![0; pool.len()];
    assert_eq!(call(&mut pool, &mut work, &requests, &mut answers, &mut found), 0);
    let fields = answers.map(|a| (a.number, a.found, a.start, a.opened));
    assert_eq!(fields, cases.map(|(_, due)| due));
    assert_eq!(found.map(|f| f.number), [11, 20, 21, 30]);
}

/// The kinds are 1 to 6.
#[test]
fn kinds_beside_the_six() {
    let of_kind = |kind: i32| Request::from_words([kind, 7, 10, 10, 30, 30, 0, 0, 0, 0]);
    for kind in -1..=8 {
        let mut pool = blank_pool(1);
        batch(&mut pool, &[Request::insert(7, WINDOW)]);
        let before = pool.clone();
        let (mut work, mut answers) = (vec![0; pool.len()], [Answer::default()]);
        let mut found = [Found::default()];
        let result = call(&mut pool, &mut work, &[of_kind(kind)], &mut answers, &mut found);
        assert_eq!(result, if (1..=6).contains(&kind) { 0 } else { -1 }, "kind {kind}");
        assert_eq!(of_kind(kind).is_search(), (4..=6).contains(&kind));
        if of_kind(kind).is_search() {
            assert_eq!((answers[0].found, found[0].number), (1, 7), "kind {kind}");
        }
        if result != 0 {
            assert!(pool == before && work.iter().all(|&w| w == 0));
            assert_eq!((answers, found), ([Answer::default()], [Found::default()]));
        }
    }
    let kinds = SEARCHES.map(|search| search(WINDOW).kind);
    assert_eq!(kinds, [4, 5, 6], "meeting, inside, enclosing");
}

fn insert_frame(number: i32, [a, b, c, d]: [i32; 4]) -> Vec<u8> {
    frame(1, &[number, a, b, c, d])
}

/// "In `dustmap` kind 4 keeps meeting; kinds 5 and 6, of the same layout, are inside and
/// enclosing."
#[test]
fn kinds_5_and_6_in_frames() {
    let rects = [[15, 15, 20, 20], WINDOW, [0, 0, 40, 40], [25, 25, 35, 35], [31, 0, 32, 9]];
    let mut input: Vec<u8> =
        rects.into_iter().zip(1..).flat_map(|(r, n)| insert_frame(n, r)).collect();
    for kind in [4, 5, 6] {
        let bytes = frame(kind, &WINDOW);
        assert_eq!((bytes.len(), &bytes[..4]), (20, &[18, 0, kind as u8, 0][..]));
        input.extend(bytes);
        input.extend(frame(kind, &BAD));
    }
    let due = "1 0 0 0\n2 0 0 0\n3 0 0 0\n4 0 0 0\n5 0 0 0\n\
               6 0 4 1\n1 15 15 20 20\n2 10 10 30 30\n3 0 0 40 40\n4 25 25 35 35\n7 3 0 0\n\
               8 0 2 1\n1 15 15 20 20\n2 10 10 30 30\n9 3 0 0\n\
               10 0 2 1\n2 10 10 30 30\n3 0 0 40 40\n11 3 0 0\n";
    assert_eq!(dustmap::run(&input), due);
}

#[test]
fn bad_frames_of_kinds_5_and_6() {
    for kind in [5, 6] {
        let good = frame(kind, &WINDOW);
        assert_eq!(dustmap::run(&good), "1 0 0 1\n");
        for kept in 1..good.len() {
            assert_eq!(dustmap::run(&good[..kept]), "bad frame 1\n", "{kept} bytes kept");
        }
        for words in [0, 3, 5, 9] {
            assert_eq!(dustmap::run(&frame(kind, &vec![1; words])), "bad frame 1\n");
        }
    }
}

/// 65 records of one rectangle: 8 in each mode where it is the window, and no record lines.
#[test]
fn more_than_64_found_in_each_mode() {
    let mut input: Vec<u8> = (1..=65).flat_map(|n| insert_frame(n, WINDOW)).collect();
    for kind in [4, 5, 6] {
        input.extend(frame(kind, &WINDOW));
    }
    input.extend(frame(5, &[10, 10, 30, 29]));
    let output = dustmap::run(&input);
    let lines: Vec<&str> = output.lines().skip(65).collect();
    let opened = lines[0].rsplit(' ').next().expect("a line");
    let due = [("66", 8, 65), ("67", 8, 65), ("68", 8, 65), ("69", 0, 0)]
        .map(|(place, number, found)| format!("{place} {number} {found} {opened}"));
    assert_eq!(lines, due);
}

/// Script lines both ways.
#[test]
fn script_lines() {
    let text = "blank 1\nsearch 1 2 3 4\ninside 1 2 3 4\nenclosing -1 2 3 4\n";
    let script = parse(text).expect("a script");
    let due = [
        Request::search([1, 2, 3, 4]),
        Request::inside([1, 2, 3, 4]),
        Request::enclosing([-1, 2, 3, 4]),
    ];
    assert_eq!(script.requests, due);
    let lines = due.map(|request| request_line(&request));
    assert_eq!(lines, ["search 1 2 3 4", "inside 1 2 3 4", "enclosing -1 2 3 4"]);
}

/// The last of the counters, from `inside_found` on, after a batch with so many found places.
fn counted(pool: &[i32], places: usize, requests: &[Request]) -> Vec<u64> {
    let mut events = Events::default();
    let (mut pool, mut work) = (pool.to_vec(), vec![0; pool.len()]);
    let mut answers = vec![Answer::default(); requests.len()];
    let mut found = vec![Found::default(); places];
    let result =
        call_counting(&mut pool, &mut work, requests, &mut answers, &mut found, 1, &mut events);
    assert_eq!(result, 0);
    let named = events.named();
    let first = named.iter().position(|(name, _)| *name == "inside_found").expect("a counter");
    named[first..].iter().map(|(_, count)| *count).collect()
}

/// The counters count accepted searches: found, equal in each mode, touching, passed over, and
/// children opened that the mode alone would leave out.
#[test]
fn counters_by_mode() {
    let pool = three_levels();
    let cases = [
        (Request::search([102, 0, 103, 10]), [0, 0, 1, 0, 0, 0, 0, 0, 0, 0, 0]),
        (Request::inside([102, 0, 103, 10]), [0, 0, 0, 1, 0, 0, 0, 0, 0, 2, 0]),
        (Request::enclosing([102, 0, 103, 10]), [0, 0, 0, 0, 1, 0, 0, 0, 0, 0, 0]),
        (Request::inside([102, -1, 104, 11]), [1, 0, 0, 0, 0, 1, 0, 1, 0, 2, 0]),
        (Request::inside([100, 0, 105, 10]), [3, 0, 0, 0, 0, 3, 0, 0, 0, 1, 0]),
        (Request::inside([99, -1, 106, 11]), [3, 0, 0, 0, 0, 0, 0, 0, 0, 1, 0]),
        (Request::enclosing([102, 1, 102, 9]), [0, 1, 0, 0, 0, 0, 1, 0, 0, 0, 0]),
        (Request::enclosing([105, 1, 200, 9]), [0, 0, 0, 0, 0, 0, 0, 0, 2, 0, 2]),
    ];
    for (request, due) in cases {
        assert_eq!(counted(&pool, 3, &[request]), due, "{request:?}");
        if due[..5].iter().any(|&count| count > 0) {
            assert_eq!(counted(&pool, 0, &[request]), [0; 11], "refused 8, {request:?}");
        }
    }
    let (requests, lists): (Vec<_>, Vec<_>) = cases.into_iter().unzip();
    let sums = (0..11).map(|place| lists.iter().map(|list| list[place]).sum::<u64>());
    assert_eq!(counted(&pool, 30, &requests), sums.collect::<Vec<u64>>());
}

/// Histories have searches of each mode, of windows equal to a record, and of the whole site.
#[test]
fn histories_search_in_every_mode() {
    for (name, style) in STYLES {
        let histories = (1..=3).flat_map(|seed| history(style, seed, 12, 1_000).requests);
        let requests: Vec<Request> = histories.collect();
        let inserted = |window| requests.iter().any(|r| r.kind == 1 && r.first == window);
        for kind in [4, 5, 6] {
            let windows: Vec<[i32; 4]> =
                requests.iter().filter(|r| r.kind == kind).map(|r| r.first).collect();
            assert!(windows.len() >= 20, "{name}, kind {kind}");
            assert!(windows.iter().any(|&w| inserted(w)), "{name}, kind {kind}");
            assert!(windows.contains(&WHOLE_SITE), "{name}, kind {kind}");
            assert!(windows.iter().any(|&w| !rect(w).valid()), "{name}, kind {kind}");
        }
    }
}

#[test]
fn damaged_pools_are_searched_in_every_mode() {
    let scripts =
        (1..=40).map(|seed| parse(&damage::script(Edition::One, seed, 2)).expect("a script"));
    let mut kinds: Vec<i32> = scripts.map(|script| script.requests[0].kind).collect();
    kinds.sort();
    kinds.dedup();
    assert_eq!(kinds, [4, 5, 6]);
}
