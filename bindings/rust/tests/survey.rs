//! Rectangles that come as doubles: what they become, each cause of 12, and their use in requests.

use dustmap::numbers::{meaning, BAD_SURVEY};
use dustmap::{blank_pool, call, Answer, Found, Rect, Request};

const MOST: f64 = 1_000_000_000.0;
/// The double next above `MOST`.
const BEYOND: f64 = 1_000_000_000.000_000_1;

/// "a NaN, an infinity", of either sign.
const NO_NUMBERS: [f64; 3] = [f64::NAN, f64::INFINITY, f64::NEG_INFINITY];

fn words(made: Result<Rect, i32>) -> [i32; 4] {
    made.expect("accepted").to_words()
}

fn refused(made: Result<Rect, i32>, why: &str) {
    assert_eq!(made, Err(BAD_SURVEY), "{why}");
}

/// The four numbers, each of them in turn with another in its place.
fn each_replaced(sides: [f64; 4], by: f64) -> impl Iterator<Item = [f64; 4]> {
    (0..4).map(move |place| {
        let mut other = sides;
        other[place] = by;
        other
    })
}

fn boxed([low_x, low_y, high_x, high_y]: [f64; 4]) -> Result<Rect, i32> {
    Rect::from_box(low_x, low_y, high_x, high_y)
}

#[test]
fn a_low_goes_down_and_a_high_goes_up() {
    assert_eq!(words(Rect::from_box(0.25, 1.75, 2.25, 3.75)), [0, 1, 3, 4]);
    assert_eq!(words(Rect::from_box(-3.75, -2.25, -1.75, -0.25)), [-4, -3, -1, 0]);
    assert_eq!(words(Rect::from_box(-1e-300, -0.5, 1e-300, 0.5)), [-1, -1, 1, 1]);
    assert_eq!(words(Rect::from_box(0.1, 0.2, 0.1, 0.2)), [0, 0, 1, 1], "low equal to high");
}

#[test]
fn whole_coordinates_are_unchanged() {
    assert_eq!(words(Rect::from_box(-7.0, 0.0, 8.0, 9.0)), [-7, 0, 8, 9]);
    assert_eq!(words(Rect::from_box(-0.0, -0.0, 0.0, -0.0)), [0; 4], "minus zero is 0");
    let most = 1_000_000_000;
    assert_eq!(words(Rect::from_box(-MOST, -MOST, MOST, MOST)), [-most, -most, most, most]);
}

#[test]
fn a_point_is_a_box_with_low_equal_to_high() {
    assert_eq!(words(Rect::from_point(5.0, -6.0)), [5, -6, 5, -6]);
    assert_eq!(words(Rect::from_point(5.5, -6.5)), [5, -7, 6, -6]);
    for (x, y) in [(0.0, -0.0), (-0.125, 7.875), (MOST, -MOST), (BEYOND, 0.0), (0.0, f64::NAN)] {
        assert_eq!(Rect::from_point(x, y), Rect::from_box(x, y, x, y));
    }
}

#[test]
fn a_disc_goes_one_millimetre_further() {
    assert_eq!(words(Rect::from_disc(100.0, -50.0, 10.0)), [89, -61, 111, -39]);
    assert_eq!(words(Rect::from_disc(0.5, 20.25, 1.0)), [-2, 18, 3, 23]);
    assert_eq!(words(Rect::from_disc(3.0, 4.0, 0.0)), [2, 3, 4, 5]);
    assert_eq!(words(Rect::from_disc(3.0, 4.0, -0.0)), [2, 3, 4, 5], "minus zero is not negative");
    let far = MOST - 1.0;
    assert_eq!(words(Rect::from_disc(0.0, 0.0, far))[2], 1_000_000_000, "the widest disc");
}

/// "low above high" is asked of the doubles as they come, before they are rounded.
#[test]
fn a_bad_box_is_refused() {
    let good = [1.0, 2.0, 3.0, 4.0];
    assert_eq!(words(boxed(good)), [1, 2, 3, 4]);
    for wrong in NO_NUMBERS.into_iter().flat_map(|wrong| each_replaced(good, wrong)) {
        refused(boxed(wrong), "a NaN, an infinity");
    }
    refused(Rect::from_box(0.75, 0.0, 0.25, 1.0), "low x above high x");
    refused(Rect::from_box(0.0, 0.75, 1.0, 0.25), "low y above high y");
    for far in [BEYOND, -BEYOND, 1e300, -1e300] {
        refused(Rect::from_box(far.min(0.0), 0.0, far.max(0.0), 0.0), "x beyond");
        refused(Rect::from_box(0.0, far.min(0.0), 0.0, far.max(0.0)), "y beyond");
    }
}

#[test]
fn a_bad_point_or_disc_is_refused() {
    for wrong in NO_NUMBERS.into_iter().chain([BEYOND, -BEYOND]) {
        refused(Rect::from_point(wrong, 0.0), "a point's x");
        refused(Rect::from_point(0.0, wrong), "a point's y");
        refused(Rect::from_disc(wrong, 0.0, 1.0), "a disc's x");
        refused(Rect::from_disc(0.0, wrong, 1.0), "a disc's y");
        refused(Rect::from_disc(0.0, 0.0, wrong), "a radius");
    }
    refused(Rect::from_disc(0.0, 0.0, -5e-324), "a negative radius");
    for side in [MOST, -MOST] {
        refused(Rect::from_disc(side, 0.0, 0.0), "a finished x beyond");
        refused(Rect::from_disc(0.0, side, 0.0), "a finished y beyond");
    }
    refused(Rect::from_disc(0.0, 0.0, MOST), "every finished coordinate beyond");
    let said = meaning(BAD_SURVEY).expect("words").to_string();
    assert!(
        said.starts_with("12 bad survey (call refused): a NaN, an infinity, low above"),
        "{said}"
    );
}

/// A survey box is inserted, found by a point, a box and a disc that each only just reach it, and by none that does not.
#[test]
fn a_survey_box_is_found_by_windows_of_doubles() {
    let mut pool = blank_pool(3).expect("3 slots");
    let mut work = vec![0; pool.len()];
    let held = Rect::from_box(10.5, -20.5, 30.5, -5.5).expect("a box");
    let windows = [
        (Rect::from_point(31.0, -5.0), 1),
        (Rect::from_point(31.5, -5.0), 1),
        (Rect::from_point(32.0, -5.0), 0),
        (Rect::from_box(-9.0, -40.0, 9.5, 40.0), 1),
        (Rect::from_box(-9.0, -40.0, 9.0, 40.0), 0),
        (Rect::from_disc(20.0, 5.0, 9.0), 1),
        (Rect::from_disc(20.0, 5.0, 8.0), 0),
    ];
    let mut requests = vec![Request::insert(7, held)];
    requests.extend(windows.map(|(window, _)| Request::search(window.expect("a window"))));
    let mut answers = vec![Answer::default(); requests.len()];
    let mut found = vec![Found::default(); requests.len()];
    assert_eq!(call(&mut pool, &mut work, &requests, &mut answers, &mut found), 0);
    assert!(answers.iter().all(|answer| answer.number == 0), "no rectangle of theirs is refused 3");
    let counts: Vec<u32> = answers[1..].iter().map(|answer| answer.found).collect();
    assert_eq!(counts, windows.map(|(_, count)| count));
    assert_eq!(found[0], Found { number: 7, rect: Rect::new(10, -21, 31, -5) });
}
