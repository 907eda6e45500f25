//! Survey queries to try: a list that meets every sentence of the request, and queries drawn from
//! a seed.

use crate::dice::Dice;
use crate::geometry::COORDINATE_LIMIT;
use crate::survey::{window, Query};

const LIMIT: f64 = COORDINATE_LIMIT as f64;

/// The smallest double above zero, and the largest subnormal.
const TINY: f64 = f64::from_bits(1);
const LARGEST_SUBNORMAL: f64 = f64::from_bits((1 << 52) - 1);

/// NaNs of both signs, quiet and signalling, with the least and the largest payload.
const NANS: [u64; 6] = [
    0x7FF8_0000_0000_0000,
    0xFFF8_0000_0000_0000,
    0x7FF0_0000_0000_0001,
    0xFFF0_0000_0000_0001,
    0x7FFF_FFFF_FFFF_FFFF,
    0xFFFF_FFFF_FFFF_FFFF,
];

/// Cases from a seed, one a line: the list first, then drawn ones.
pub fn cases(seed: u64, count: usize) -> String {
    let mut dice = Dice::new(seed);
    let drawn = std::iter::repeat_with(|| drawn(&mut dice));
    let lines = kept().into_iter().chain(drawn).take(count).map(|query| case(&query) + "\n");
    lines.collect()
}

/// A query and what is due for it: `disc BITS BITS BITS -> A B C D`, or `-> 12`.
pub fn case(query: &Query) -> String {
    let due = match window(query) {
        Ok(words) => words.map(|word| word.to_string()).join(" "),
        Err(number) => number.to_string(),
    };
    format!("{} -> {due}", line(query))
}

/// A query by the bits of its doubles, each as a whole number: `point BITS BITS`.
pub fn line(query: &Query) -> String {
    let name = match query {
        Query::Point { .. } => "point",
        Query::Box { .. } => "box",
        Query::Disc { .. } => "disc",
    };
    let bits: Vec<String> = query.doubles().iter().map(|d| d.to_bits().to_string()).collect();
    format!("{name} {}", bits.join(" "))
}

/// The double so many steps above, or below for a negative count.
pub fn stepped(double: f64, steps: i64) -> f64 {
    let step = |from: f64| if steps < 0 { from.next_down() } else { from.next_up() };
    (0..steps.abs()).fold(double, |from, _| step(from))
}

fn boxed([low_x, low_y, high_x, high_y]: [f64; 4]) -> Query {
    Query::Box { low_x, low_y, high_x, high_y }
}

/// Every rounding and every cause of 12.
pub fn kept() -> Vec<Query> {
    let boxes = kept_boxes().into_iter().chain(kept_bad_boxes()).map(boxed);
    let points = kept_points().into_iter().map(|[x, y]| Query::Point { x, y });
    let discs = kept_discs().into_iter().chain(kept_bad_discs());
    let discs = discs.map(|[x, y, radius]| Query::Disc { x, y, radius });
    boxes.chain(points).chain(discs).collect()
}

fn kept_boxes() -> Vec<[f64; 4]> {
    let (over, under) = (|d: f64| d.next_up(), |d: f64| d.next_down());
    vec![
        [-0.5, 0.25, 2.0, 2.000001],
        [-2.5, 2.5, -1.5, 3.5],
        [over(-7.0), under(7.0), over(7.0), over(7.0)],
        [under(-7.0), over(7.0), under(-7.0), over(7.0)],
        [-0.0, 0.0, 0.0, -0.0],
        [-TINY, TINY, -TINY, TINY],
        [-LARGEST_SUBNORMAL, -LARGEST_SUBNORMAL, LARGEST_SUBNORMAL, -0.0],
        [-LIMIT, -LIMIT, LIMIT, LIMIT],
        [over(-LIMIT), over(-LIMIT), under(LIMIT), under(LIMIT)],
        [-123_456_789.0, -16_777_217.0, 16_777_217.0, 987_654_321.0],
    ]
}

fn kept_bad_boxes() -> Vec<[f64; 4]> {
    let infinity = f64::INFINITY;
    let [nan, minus_nan, signalling, ..] = NANS.map(f64::from_bits);
    vec![
        [nan, 0.0, 1.0, 1.0],
        [0.0, minus_nan, 1.0, 1.0],
        [0.0, 0.0, signalling, 1.0],
        [0.0, 0.0, 1.0, f64::from_bits(NANS[5])],
        [-infinity, 0.0, 1.0, 1.0],
        [0.0, 0.0, 1.0, infinity],
        [infinity, 0.0, infinity, 1.0],
        // Low above high: both would round to 0 .. 1, or to one whole number.
        [0.75, 0.0, 0.25, 1.0],
        [0.0, 0.75, 1.0, 0.25],
        [5.0, 0.0, 5.0_f64.next_down(), 1.0],
        [0.0, TINY, 1.0, -TINY],
        [0.0, 9.0, 1.0, 8.0],
        // Just beyond the limits, on each side.
        [(-LIMIT).next_down(), 0.0, 1.0, 1.0],
        [0.0, (-LIMIT).next_down(), 1.0, 1.0],
        [0.0, 0.0, LIMIT.next_up(), 1.0],
        [0.0, 0.0, 1.0, LIMIT.next_up()],
        [LIMIT + 0.25, 0.0, LIMIT + 0.5, 1.0],
        // Far beyond: what a word would wrap to is within.
        [0.0, 0.0, 4_294_967_297.0, 1.0],
        [-f64::MAX, 0.0, f64::MAX, 1.0],
    ]
}

fn kept_points() -> Vec<[f64; 2]> {
    vec![
        [1.5, -1.5],
        [LIMIT, -LIMIT],
        [-0.0, -TINY],
        [0.0, f64::from_bits(NANS[3])],
        [f64::NEG_INFINITY, 0.0],
        [0.0, LIMIT.next_up()],
    ]
}

fn kept_discs() -> Vec<[f64; 3]> {
    vec![
        [0.5, 10.0, 2.25],
        [0.1, 0.2, 0.3],
        [3.0, -3.0, -0.0],
        [-0.0, TINY, TINY],
        // The sum in doubles is the radius, and the exact one is just above it.
        [1e-17, 0.0, 999_999_998.0],
        [0.0, 0.0, 999_999_999.0],
        [999_999_998.5, -999_999_998.5, 0.5],
    ]
}

fn kept_bad_discs() -> Vec<[f64; 3]> {
    let just_over = 999_999_999.0_f64.next_up();
    vec![
        // Finished coordinates beyond, by the further millimetre too.
        [just_over, 0.0, 0.0],
        [0.0, -just_over, 0.0],
        [0.0, 0.0, just_over],
        [LIMIT, 0.0, 1.0],
        [LIMIT.next_up(), 0.0, 0.0],
        [0.0, 0.0, LIMIT.next_up()],
        [f64::MAX, 0.0, f64::MAX],
        [0.0, 0.0, -1.0],
        [0.0, 0.0, -TINY],
        [LIMIT + 3.0, 0.0, -6.0],
        [f64::from_bits(NANS[4]), 0.0, 1.0],
        [0.0, 0.0, f64::from_bits(NANS[1])],
        [0.0, f64::NEG_INFINITY, 1.0],
        [0.0, 0.0, f64::INFINITY],
        [f64::INFINITY, 0.0, f64::INFINITY],
    ]
}

/// A query of one of the three sorts.
pub fn drawn(dice: &mut Dice) -> Query {
    match dice.below(5) {
        0 => Query::Point { x: double(dice), y: double(dice) },
        1 | 2 => {
            let ((low_x, high_x), (low_y, high_y)) = (two_sides(dice), two_sides(dice));
            Query::Box { low_x, low_y, high_x, high_y }
        }
        3 => any_disc(dice),
        _ => disc_at_the_limit(dice),
    }
}

/// A low and a high, mostly in this order, one time in five the same or near each other.
fn two_sides(dice: &mut Dice) -> (f64, f64) {
    let one = double(dice);
    let other = if dice.chance(20) { near(dice, one) } else { double(dice) };
    if other < one && dice.chance(90) {
        (other, one)
    } else {
        (one, other)
    }
}

fn any_disc(dice: &mut Dice) -> Query {
    let radius = double(dice);
    let radius = if dice.chance(90) { radius.abs() } else { radius };
    Query::Disc { x: double(dice), y: double(dice), radius }
}

/// A disc with a finished coordinate at the limit, or within two millimetres of it on both sides.
fn disc_at_the_limit(dice: &mut Dice) -> Query {
    let reach = LIMIT - 1.0 + dice.between(-2, 2) as f64;
    let reach = near(dice, reach);
    let radius = reach * share(dice);
    let radius = if dice.chance(50) { radius.round() } else { radius };
    let far = near(dice, reach - radius) * dice.pick(&[1.0, -1.0]);
    let inner = (reach - radius) * (share(dice) - 0.5);
    let (x, y) = dice.pick(&[(far, inner), (inner, far)]);
    Query::Disc { x, y, radius }
}

/// From 0 to 1, both included.
fn share(dice: &mut Dice) -> f64 {
    dice.between(0, 1 << 40) as f64 / (1_u64 << 40) as f64
}

/// A double: near whole numbers and halves, near the limits, of any size in reach, one of those
/// that are special, or any bits at all.
pub fn double(dice: &mut Dice) -> f64 {
    let whole = whole(dice);
    match dice.below(16) {
        0..=2 => whole,
        3..=5 => near(dice, whole),
        6 => near(dice, whole + 0.5),
        7 => near_the_limits(dice),
        8..=13 => of_any_size(dice),
        14 => special(dice),
        _ => f64::from_bits(dice.bits()),
    }
}

/// A whole number, small or large.
fn whole(dice: &mut Dice) -> f64 {
    let reach = (1_i64 << dice.below(30)).min(COORDINATE_LIMIT);
    dice.between(-reach, reach) as f64
}

fn near(dice: &mut Dice, double: f64) -> f64 {
    stepped(double, dice.between(-3, 3))
}

fn near_the_limits(dice: &mut Dice) -> f64 {
    let double = LIMIT + dice.between(-2, 2) as f64;
    near(dice, double) * dice.pick(&[1.0, -1.0])
}

/// Any fraction, any sign, and an exponent below 2^30; half of them above 2^-10.
fn of_any_size(dice: &mut Dice) -> f64 {
    let exponent =
        if dice.chance(50) { dice.between(1_013, 1_052) } else { dice.between(0, 1_052) };
    let sign_and_fraction = dice.bits() & !(0x7FF << 52);
    f64::from_bits(sign_and_fraction | (exponent as u64) << 52)
}

fn special(dice: &mut Dice) -> f64 {
    let nan = f64::from_bits(dice.pick(&NANS));
    let any_nan = f64::from_bits(f64::INFINITY.to_bits() | 1 | dice.bits() >> 12);
    let size = dice.pick(&[
        0.0,
        TINY,
        LARGEST_SUBNORMAL,
        f64::MIN_POSITIVE,
        f64::MAX,
        f64::INFINITY,
        nan,
        any_nan,
    ]);
    // Turning the sign keeps a NaN's other bits, and a product would not.
    if dice.chance(50) {
        -size
    } else {
        size
    }
}
