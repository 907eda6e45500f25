//! "The surveyor's boxes": windows from doubles, and 12.

use second::dice::Dice;
use second::queries::{case, cases, double, drawn, kept, stepped};
use second::survey::{window, window_or_causes, Cause};
use second::{box_window, disc_window, point_window, Exact, Query, Rect};

const LIMIT: f64 = 1e9;
const TINY: f64 = f64::from_bits(1);
const LARGEST_SUBNORMAL: f64 = f64::from_bits((1 << 52) - 1);
const DRAWN: usize = 60_000;

fn exact(double: f64) -> Exact {
    Exact::of(double).expect("a finite double")
}

/// What a double becomes as a low and as a high, by the x of a point.
fn low_and_high(double: f64) -> (i32, i32) {
    let [low_x, _, high_x, _] = point_window(double, 0.0).expect("within the limits");
    (low_x, high_x)
}

/// Whole numbers of many sizes: small ones, powers of two and of ten, each with its neighbours.
fn whole_numbers() -> Vec<i32> {
    let powers = (0..30).map(|k| 1 << k).chain((0..9).map(|k| 10_i32.pow(k)));
    let large = powers.chain([999_999_998, 123_456_789, 16_777_216]);
    let around = large.flat_map(|n| [n - 1, n, n + 1]).chain(-9..=9);
    around.flat_map(|n| [n, -n]).filter(|n| n.abs() < 1_000_000_000).collect()
}

/// "Whole coordinates go to doubles and back unchanged."
#[test]
fn whole_coordinates_come_back_unchanged() {
    for n in whole_numbers().into_iter().chain([1_000_000_000, -1_000_000_000]) {
        let coordinate = f64::from(n);
        assert_eq!(point_window(coordinate, -coordinate), Ok([n, -n, n, -n]));
        assert_eq!(box_window(coordinate, -LIMIT, LIMIT, coordinate).map(|w| w[0]), Ok(n));
        assert_eq!(box_window(-LIMIT, -LIMIT, LIMIT, coordinate).map(|w| w[3]), Ok(n));
    }
}

#[test]
fn neighbours_of_whole_numbers() {
    for n in whole_numbers() {
        for steps in 1..=3 {
            assert_eq!(low_and_high(stepped(f64::from(n), steps)), (n, n + 1), "above {n}");
            assert_eq!(low_and_high(stepped(f64::from(n), -steps)), (n - 1, n), "below {n}");
        }
        assert_eq!(low_and_high(f64::from(n) + 0.5), (n, n + 1));
    }
}

#[test]
fn zeros_and_the_smallest_doubles() {
    for zero in [0.0, -0.0] {
        assert_eq!(low_and_high(zero), (0, 0));
        assert_eq!(disc_window(zero, zero, zero), Ok([-1, -1, 1, 1]));
    }
    assert_eq!(box_window(0.0, -0.0, -0.0, 0.0), Ok([0; 4]));
    for small in [TINY, 2.0 * TINY, LARGEST_SUBNORMAL, f64::MIN_POSITIVE] {
        assert_eq!(low_and_high(small), (0, 1));
        assert_eq!(low_and_high(-small), (-1, 0));
        assert_eq!(disc_window(0.0, 0.0, small), Ok([-2, -2, 2, 2]));
        assert_eq!(disc_window(0.0, 0.0, -small), Err(12));
        assert_eq!(box_window(small, 0.0, -small, 0.0), Err(12));
    }
}

/// What is asked of a box or point: each side alone, at the limit and the double next to it.
#[test]
fn the_limits_of_a_box() {
    let whole = [-LIMIT, -LIMIT, LIMIT, LIMIT];
    let boxed = |[a, b, c, d]: [f64; 4]| box_window(a, b, c, d);
    let limits = Ok([-1_000_000_000, -1_000_000_000, 1_000_000_000, 1_000_000_000]);
    assert_eq!(boxed(whole), limits);
    for place in 0..4 {
        let outward = if place < 2 { -1 } else { 1 };
        for steps in 1..=3 {
            let mut sides = whole;
            sides[place] = stepped(whole[place], -outward * steps);
            assert_eq!(boxed(sides), limits);
            sides[place] = stepped(whole[place], outward * steps);
            assert_eq!(boxed(sides), Err(12));
        }
    }
    for beyond in [LIMIT.next_up(), LIMIT + 0.5, LIMIT + 1.0, 4_294_967_296.0, 1e300, f64::MAX] {
        assert_eq!(point_window(beyond, 0.0), Err(12));
        assert_eq!(point_window(0.0, -beyond), Err(12));
    }
}

#[test]
fn the_limits_of_a_disc() {
    let most = 999_999_999.0_f64;
    let edge = 1_000_000_000;
    assert_eq!(disc_window(0.0, 0.0, most), Ok([-edge, -edge, edge, edge]));
    assert_eq!(disc_window(most, -most, 0.0), Ok([edge - 2, -edge, edge, 2 - edge]));
    assert_eq!(disc_window(1.0, 0.5, most - 1.0), Ok([2 - edge, 1 - edge, edge, edge]));
    for [x, y, radius] in [
        [0.0, 0.0, most.next_up()],
        [most.next_up(), 0.0, 0.0],
        [0.0, (-most).next_down(), 0.0],
        [0.0, 0.0, LIMIT],
        [LIMIT, 0.0, 0.0],
        [1.0, 0.0, most],
        [0.0, -1.0, most],
    ] {
        let query = Query::Disc { x, y, radius };
        assert_eq!(window_or_causes(&query), Err(vec![Cause::CoordinateBeyond]), "{query:?}");
    }
}

/// Centre and radius at the limit are not beyond it; the doubles next to it are.
#[test]
fn a_centre_or_a_radius_beyond() {
    let causes = |x, y, radius| window_or_causes(&Query::Disc { x, y, radius }).unwrap_err();
    for sign in [1.0, -1.0] {
        let over = LIMIT.next_up() * sign;
        assert!(!causes(LIMIT * sign, 0.0, 0.0).contains(&Cause::CentreBeyond));
        assert!(causes(over, 0.0, 0.0).contains(&Cause::CentreBeyond));
        assert!(causes(0.0, over, 0.0).contains(&Cause::CentreBeyond));
        assert!(causes(0.0, 0.0, over).contains(&Cause::RadiusBeyond));
    }
    assert!(!causes(0.0, 0.0, LIMIT).contains(&Cause::RadiusBeyond));
    // The sums are infinite, and no double that came is.
    let far = [Cause::CentreBeyond, Cause::RadiusBeyond, Cause::CoordinateBeyond];
    assert_eq!(causes(f64::MAX, 0.0, f64::MAX), far);
}

/// A NaN of any sign and payload, or an infinity, in each place of each query.
#[test]
fn no_number_in_any_place() {
    let mut dice = Dice::new(3);
    let payloads = [1, 1 << 51, (1 << 51) - 1, (1 << 52) - 1, (dice.bits() >> 12) | 1];
    let nans = payloads.map(|payload| f64::from_bits(f64::INFINITY.to_bits() | payload));
    let bad = nans.map(|nan| (nan, Cause::Nan)).into_iter();
    for (size, cause) in bad.chain([(f64::INFINITY, Cause::Infinity)]) {
        for double in [size, -size] {
            for query in with_each_place(double) {
                let causes = window_or_causes(&query).unwrap_err();
                assert_eq!(causes, [cause], "{}", case(&query));
            }
        }
    }
}

/// A good point, box and disc, each with one place taken by the double.
fn with_each_place(double: f64) -> Vec<Query> {
    let put = |place: usize| {
        let mut doubles = [0.25, 0.5, 0.75, 1.5];
        doubles[place] = double;
        doubles
    };
    let boxes = (0..4).map(put).map(|[low_x, low_y, high_x, high_y]| Query::Box {
        low_x,
        low_y,
        high_x,
        high_y,
    });
    let points = (0..2).map(put).map(|[x, y, ..]| Query::Point { x, y });
    let discs = (0..3).map(put).map(|[x, y, radius, _]| Query::Disc { x, y, radius });
    boxes.chain(points).chain(discs).collect()
}

/// Asked of the doubles as they come, on each axis.
#[test]
fn low_above_high() {
    let pairs = [(0.75, 0.25), (5.0, 5.0_f64.next_down()), (TINY, 0.0), (-0.0, -TINY), (9.0, 8.0)];
    for (low, high) in pairs {
        for (low_x, low_y, high_x, high_y) in [(low, 0.0, high, 1.0), (0.0, low, 1.0, high)] {
            let query = Query::Box { low_x, low_y, high_x, high_y };
            assert_eq!(window_or_causes(&query), Err(vec![Cause::LowAboveHigh]));
        }
        assert!(box_window(high, high, low, low).is_ok());
        assert!(box_window(low, high, low, high).is_ok());
    }
}

#[test]
fn a_negative_radius() {
    for radius in [-TINY, -0.5, -1.0, -LIMIT] {
        let query = Query::Disc { x: 0.0, y: 0.0, radius };
        let causes = window_or_causes(&query).unwrap_err();
        assert!(causes.contains(&Cause::NegativeRadius), "{radius}");
    }
    assert_eq!(disc_window(3.0, -3.0, -0.0), Ok([2, -4, 4, -2]));
}

/// "the window holds the exact box of the disc and is less than 3 mm beyond it on each side"
#[test]
fn a_disc_is_held_by_less_than_three_millimetres() {
    let mut dice = Dice::new(4);
    let three = Exact::whole(3);
    let mut accepted = 0;
    for _ in 0..DRAWN {
        let Query::Disc { x, y, radius } = drawn(&mut dice) else { continue };
        let Ok([low_x, low_y, high_x, high_y]) = disc_window(x, y, radius) else { continue };
        accepted += 1;
        for (centre, low, high) in [(x, low_x, high_x), (y, low_y, high_y)] {
            let low_side = exact(centre).minus(&exact(radius));
            let high_side = exact(centre).plus(&exact(radius));
            let (low, high) = (Exact::whole(low.into()), Exact::whole(high.into()));
            assert!(low <= low_side && low_side.minus(&low) < three, "{x} {y} {radius}");
            assert!(high_side <= high && high.minus(&high_side) < three, "{x} {y} {radius}");
        }
    }
    assert!(accepted > DRAWN / 10);
}

/// The same of a box and a point, by the exact values: the nearest whole numbers outward.
#[test]
fn a_box_is_held_by_less_than_one_millimetre() {
    let mut dice = Dice::new(5);
    let (zero, one) = (Exact::whole(0), Exact::whole(1));
    for _ in 0..DRAWN {
        let query = drawn(&mut dice);
        let Ok(words) = window(&query) else { continue };
        assert!(Rect::from_words(words).valid(), "3 would follow: {query:?}");
        if matches!(query, Query::Disc { .. }) {
            continue;
        }
        for (place, side) in query.sides().into_iter().enumerate() {
            let whole = Exact::whole(words[place].into());
            let beyond =
                if place < 2 { exact(side).minus(&whole) } else { whole.minus(&exact(side)) };
            assert!(zero <= beyond && beyond < one, "{query:?}");
        }
    }
}

/// Exact values against 128-bit integers, where these reach: numbers of 2^-60 units below 2^60.
#[test]
fn exact_values_in_units_that_fit() {
    let mut dice = Dice::new(6);
    let unit = 2.0_f64.powi(-60);
    let drawn: Vec<(i128, f64)> = (0..2_000)
        .map(|_| i128::from(dice.bits() as i64 >> 11) << dice.below(60))
        .map(|units| (units, units as f64 * unit))
        .collect();
    let floor = |units: i128| (units >> 60) as i64;
    for two in drawn.windows(2) {
        let [(a_units, a), (b_units, b)] = [two[0], two[1]];
        assert_eq!(exact(a).cmp(&exact(b)), a_units.cmp(&b_units));
        assert_eq!(exact(a).is_negative(), a_units < 0);
        let sum = exact(a).plus(&exact(b));
        assert_eq!(sum.floor(), Exact::whole(floor(a_units + b_units)), "{a} {b}");
        let less = exact(a).minus(&exact(b));
        assert_eq!(less.ceiling(), Exact::whole(-floor(b_units - a_units)), "{a} {b}");
    }
}

/// Doubling is exact and keeps the bits of the fraction, from the smallest double to the largest.
#[test]
fn exact_values_of_every_exponent() {
    let mut double = TINY;
    while double.is_finite() {
        let twice = exact(double).plus(&exact(double));
        assert!(Exact::of(2.0 * double).is_none_or(|value| value == twice), "{double}");
        assert_eq!(exact(-double), exact(double).negated());
        assert!(exact(-double) < exact(0.0) && exact(0.0) < exact(double));
        assert!(exact(double.next_down()) < exact(double));
        double *= 2.0;
    }
    assert!([f64::NAN, f64::INFINITY, f64::NEG_INFINITY]
        .map(Exact::of)
        .iter()
        .all(Option::is_none));
}

/// The whole list, and each cause of 12 on its own where it can be: a centre or radius beyond
/// always leaves a finished coordinate beyond.
#[test]
fn the_list_meets_every_cause() {
    let refused: Vec<Vec<Cause>> =
        kept().iter().filter_map(|query| window_or_causes(query).err()).collect();
    let lone = [
        Cause::Nan,
        Cause::Infinity,
        Cause::LowAboveHigh,
        Cause::NegativeRadius,
        Cause::CoordinateBeyond,
    ];
    assert!(lone.into_iter().all(|cause| refused.contains(&vec![cause])));
    for cause in [Cause::CentreBeyond, Cause::RadiusBeyond] {
        assert!(refused.contains(&vec![cause, Cause::CoordinateBeyond]));
    }
    assert!(kept().len() < 60);
}

#[test]
fn cases_as_lines() {
    let lines = cases(1, 500);
    assert_eq!(lines.lines().count(), 500);
    assert!(lines.starts_with(&cases(1, 60)));
    assert_eq!(lines, cases(1, 500));
    assert_ne!(lines, cases(2, 500));
    let point = Query::Point { x: 1.0, y: -0.0 };
    assert_eq!(case(&point), "point 4607182418800017408 9223372036854775808 -> 1 0 1 0");
    let disc = Query::Disc { x: 0.0, y: 0.0, radius: -1.0 };
    assert_eq!(case(&disc), "disc 0 0 13830554455654793216 -> 12");
}

/// Drawn doubles have every sort of bits: all exponents, subnormals, both zeros.
#[test]
fn drawn_doubles_of_every_sort() {
    let mut dice = Dice::new(7);
    let mut exponents = [false; 2_048];
    let mut zeros = [false; 2];
    for _ in 0..500_000 {
        let bits = double(&mut dice).to_bits();
        exponents[(bits >> 52 & 0x7FF) as usize] = true;
        if bits << 1 == 0 {
            zeros[(bits >> 63) as usize] = true;
        }
    }
    assert_eq!((exponents.iter().filter(|&&met| !met).count(), zeros), (0, [true; 2]));
}
