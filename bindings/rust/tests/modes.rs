//! "A search carries one of three modes": what each lists, and that all of them open the same nodes.

use dustmap::{blank_pool, call, Answer, Found, Rect, Request};

/// A search of each mode: meeting, inside, enclosing.
const MODES: [fn(Rect) -> Request; 3] =
    [Request::search, Request::search_inside, Request::search_enclosing];

/// The window: a block that is to be closed.
const BLOCK: Rect = Rect::new(0, 0, 100, 80);

/// Zones about it, records 1 to 12, and whether each mode lists them.
const ZONES: [(&str, Rect, [bool; 3]); 12] = [
    ("within", Rect::new(20, 20, 40, 30), [true, true, false]),
    ("touching two sides from within", Rect::new(0, 70, 30, 80), [true, true, false]),
    ("as wide as the block", Rect::new(0, 10, 100, 20), [true, true, false]),
    ("a point at its corner", Rect::new(100, 80, 100, 80), [true, true, false]),
    ("equal", BLOCK, [true, true, true]),
    ("around it", Rect::new(-10, -10, 110, 90), [true, false, true]),
    ("around it, three sides in common", Rect::new(0, 0, 100, 81), [true, false, true]),
    ("cut by a side", Rect::new(90, 30, 110, 40), [true, false, false]),
    ("across it", Rect::new(-10, 40, 110, 50), [true, false, false]),
    ("touching a side from outside", Rect::new(100, 0, 120, 80), [true, false, false]),
    ("touching a corner from outside", Rect::new(-10, -10, 0, 0), [true, false, false]),
    ("one millimetre away", Rect::new(101, 0, 120, 80), [false, false, false]),
];

/// The entries of site example 7: two leaves under a root.
fn nine() -> Vec<Rect> {
    let mut all: Vec<Rect> = (0..8).map(|k| Rect::new(10 * k, 0, 10 * k + 10, 10)).collect();
    all.push(Rect::new(1000, 0, 1010, 10));
    all
}

/// The answers to searches of a map of these rectangles, records 1 and on, with a found list of so many places; and the records
/// that each has listed, by their numbers.
fn ask(rects: &[Rect], searches: &[Request], places: usize) -> Vec<(Answer, Vec<i32>)> {
    let mut pool = blank_pool(12).expect("12 slots");
    let mut work = vec![0; pool.len()];
    let mut requests: Vec<Request> =
        (1..).zip(rects).map(|(number, rect)| Request::insert(number, *rect)).collect();
    requests.extend(searches);
    let mut answers = vec![Answer::default(); requests.len()];
    let mut found = vec![Found::default(); places];
    assert_eq!(call(&mut pool, &mut work, &requests, &mut answers, &mut found), 0);
    let (inserted, searched) = answers.split_at(rects.len());
    assert!(inserted.iter().all(|answer| answer.number == 0), "every record is inserted");
    let listed = |answer: &Answer| {
        let count = if answer.number == 0 { answer.found as usize } else { 0 };
        let places = &found[answer.start as usize..][..count];
        places.iter().map(|record| record.number).collect()
    };
    searched.iter().map(|answer| (*answer, listed(answer))).collect()
}

#[test]
fn each_mode_lists_its_own() {
    let rects = ZONES.map(|(_, rect, _)| rect);
    let answered = ask(&rects, &MODES.map(|search| search(BLOCK)), 64);
    for (mode, (answer, listed)) in answered.iter().enumerate() {
        for (number, (what, _, due)) in (1..).zip(ZONES) {
            assert_eq!(listed.contains(&number), due[mode], "mode {mode}: {what}");
        }
        assert_eq!(answer.found as usize, listed.len(), "mode {mode}");
        assert!(listed.is_sorted(), "found order");
        assert_eq!(answer.opened, answered[0].0.opened, "opened is the same in every mode");
    }
}

#[test]
fn every_mode_opens_the_nodes_whose_cover_meets_the_window() {
    // a window, what each mode lists of the nine, and the nodes that each opens
    let cases: [(Rect, [&[i32]; 3], u32); 5] = [
        (Rect::new(55, 0, 58, 10), [&[6], &[], &[6]], 2),
        (Rect::new(60, 0, 60, 0), [&[6, 7], &[], &[6, 7]], 3),
        (Rect::new(15, 0, 45, 10), [&[2, 3, 4, 5], &[3, 4], &[]], 2),
        (Rect::new(1000, 0, 1010, 10), [&[9], &[9], &[9]], 2),
        (Rect::new(2000, 0, 2000, 0), [&[], &[], &[]], 1),
    ];
    for (window, due, opened) in cases {
        let answered = ask(&nine(), &MODES.map(|search| search(window)), 64);
        for ((answer, listed), due) in answered.iter().zip(due) {
            assert_eq!((answer.number, listed.as_slice(), answer.opened), (0, due, opened));
        }
    }
}

#[test]
fn a_search_with_too_few_places_is_refused_by_what_its_mode_lists() {
    let rects = ZONES.map(|(_, rect, _)| rect);
    let counts = [0, 1, 2].map(|mode| ZONES.iter().filter(|(_, _, due)| due[mode]).count());
    assert_eq!(counts, [11, 5, 3]);
    let opened = ask(&rects, &[Request::search(BLOCK)], 64)[0].0.opened;
    for (search, count) in MODES.into_iter().zip(counts) {
        let room = ask(&rects, &[search(BLOCK)], count)[0].0;
        assert_eq!(room, Answer { number: 0, found: count as u32, start: 0, opened });
        let short = ask(&rects, &[search(BLOCK)], count - 1)[0].0;
        assert_eq!(short, Answer { number: 8, found: count as u32, start: 0, opened });
    }
}

#[test]
fn no_mode_has_a_refusal_of_its_own() {
    for search in MODES {
        assert!(search(BLOCK).is_search());
        for window in [Rect::new(1, 0, 0, 0), Rect::new(0, 0, 0, 1_000_000_001)] {
            let refused = ask(&nine(), &[search(window)], 64)[0].0;
            assert_eq!(refused, Answer { number: 3, ..Answer::default() });
        }
        // "fields that its kind doesn't use are not looked at (a search has no number, so never 4)"
        let odd = Request { number: -7, second: Rect::new(5, 5, 4, 4), ..search(BLOCK) };
        assert_eq!(ask(&nine(), &[odd], 64), ask(&nine(), &[search(BLOCK)], 64));
    }
    assert!(!Request::insert(7, BLOCK).is_search());
}
