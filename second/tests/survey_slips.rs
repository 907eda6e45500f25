//! Slips that a survey window can be made with, each of which the kept queries show.
//!
//! A window is reckoned here a second time, in doubles alone, with its steps apart. Done right it
//! gives what `survey` gives; with one step wrong it gives another answer for some kept query.

use second::dice::Dice;
use second::queries::{case, drawn, kept};
use second::survey::window;
use second::Query;

const LIMIT: f64 = 1e9;

type Sides = [f64; 4];

/// The steps. Each takes doubles, low x, low y, high x, high y where there are four.
#[derive(Clone, Copy)]
struct Way {
    /// Low and high of a disc, on one axis.
    disc: fn(f64, f64) -> (f64, f64),
    low: fn(f64) -> f64,
    high: fn(f64) -> f64,
    further_for_a_disc: f64,
    further_for_a_box: f64,
    no_number: fn(f64) -> bool,
    negative: fn(f64) -> bool,
    /// Of the sides as they come, and of the finished coordinates.
    wrong_order: fn(&Sides, &Sides) -> bool,
    /// Of the sides, and of the finished coordinates. A centre or radius beyond leaves a finished
    /// coordinate beyond.
    beyond: fn(&Sides, &Sides) -> bool,
}

const RIGHT: Way = Way {
    disc: |centre, radius| (centre - radius, centre + radius),
    low: f64::floor,
    high: f64::ceil,
    further_for_a_disc: 1.0,
    further_for_a_box: 0.0,
    no_number: |double| !double.is_finite(),
    negative: |radius| radius < 0.0,
    wrong_order: |sides, _| above(sides),
    beyond: |_, finished| finished.iter().any(|c| c.abs() > LIMIT),
};

fn above(sides: &Sides) -> bool {
    sides[0] > sides[2] || sides[1] > sides[3]
}

impl Way {
    fn window(&self, query: &Query) -> Result<[i32; 4], i32> {
        let (sides, further) = match *query {
            Query::Disc { x, y, radius } => (self.sides(x, y, radius), self.further_for_a_disc),
            _ => (query.sides(), self.further_for_a_box),
        };
        let (low, high) = (|d| (self.low)(d) - further, |d| (self.high)(d) + further);
        let finished = [low(sides[0]), low(sides[1]), high(sides[2]), high(sides[3])];
        let bad_shape = match *query {
            Query::Disc { radius, .. } => (self.negative)(radius),
            _ => (self.wrong_order)(&sides, &finished),
        };
        let no_number = query.doubles().into_iter().any(self.no_number);
        if no_number || bad_shape || (self.beyond)(&sides, &finished) {
            return Err(12);
        }
        Ok(finished.map(|coordinate| coordinate as i32))
    }

    fn sides(&self, x: f64, y: f64, radius: f64) -> Sides {
        let ((low_x, high_x), (low_y, high_y)) = ((self.disc)(x, radius), (self.disc)(y, radius));
        [low_x, low_y, high_x, high_y]
    }
}

#[test]
fn done_right_it_is_the_same() {
    let mut dice = Dice::new(8);
    let many = std::iter::repeat_with(|| drawn(&mut dice)).take(100_000);
    for query in kept().into_iter().chain(many) {
        assert_eq!(RIGHT.window(&query), window(&query), "{}", case(&query));
    }
}

/// The half of the slips that are in the rounding.
fn slips_of_rounding() -> Vec<(&'static str, Way)> {
    vec![
        ("truncated toward zero", Way { low: f64::trunc, high: f64::trunc, ..RIGHT }),
        ("rounded to nearest", Way { low: f64::round, high: f64::round, ..RIGHT }),
        ("a low rounded up", Way { low: f64::ceil, ..RIGHT }),
        ("a high rounded down", Way { high: f64::floor, ..RIGHT }),
        ("a whole low moved", Way { low: |d| d.ceil() - 1.0, ..RIGHT }),
        ("a whole high moved", Way { high: |d| d.floor() + 1.0, ..RIGHT }),
        ("the smallest taken for zero", Way { low: |d| (d + 1.0).floor() - 1.0, ..RIGHT }),
        ("single precision", Way { low: |d| f64::from(d as f32).floor(), ..RIGHT }),
        ("no further millimetre", Way { further_for_a_disc: 0.0, ..RIGHT }),
        ("two further millimetres", Way { further_for_a_disc: 2.0, ..RIGHT }),
        ("a further millimetre for a box", Way { further_for_a_box: 1.0, ..RIGHT }),
        ("the disc's box rounded outward before", Way { disc: outward, ..RIGHT }),
    ]
}

/// Sums rounded outward instead of to the nearest double: not "in doubles".
fn outward(centre: f64, radius: f64) -> (f64, f64) {
    let (low, high) = (centre - radius, centre + radius);
    let exact = high - centre == radius && high - radius == centre;
    (low, if exact { high } else { high.next_up() })
}

/// The other half: what is refused.
fn slips_of_refusing() -> Vec<(&'static str, Way)> {
    vec![
        ("a NaN let through", Way { no_number: f64::is_infinite, ..RIGHT }),
        ("low above high asked after rounding", Way { wrong_order: |_, f| above(f), ..RIGHT }),
        ("low above high not asked on x", Way { wrong_order: |s, _| s[1] > s[3], ..RIGHT }),
        ("low above high not asked on y", Way { wrong_order: |s, _| s[0] > s[2], ..RIGHT }),
        ("a point refused", Way { wrong_order: |s, _| s[0] >= s[2], ..RIGHT }),
        ("a negative radius taken", Way { negative: |_| false, ..RIGHT }),
        ("minus zero taken for negative", Way { negative: f64::is_sign_negative, ..RIGHT }),
        ("radius zero refused", Way { negative: |r| r <= 0.0, ..RIGHT }),
        ("the limit itself refused", Way { beyond: |_, f| any(f, |c| c >= LIMIT), ..RIGHT }),
        ("one more than the limit", Way { beyond: |_, f| any(f, |c| c > LIMIT + 1.0), ..RIGHT }),
        ("the limit asked before", Way { beyond: |s, _| any(s, |c| c > LIMIT), ..RIGHT }),
        ("a bit more let through", Way { beyond: |s, _| any(s, |c| c.trunc() > LIMIT), ..RIGHT }),
        (
            "the limit not asked of lows",
            Way { beyond: |_, f| any(&f[2..], |c| c > LIMIT), ..RIGHT },
        ),
        ("any word let through", Way { beyond: |_, f| any(f, |c| c > 2e9), ..RIGHT }),
    ]
}

fn any(coordinates: &[f64], so: fn(f64) -> bool) -> bool {
    coordinates.iter().any(|c| so(c.abs()))
}

#[test]
fn each_slip_shows() {
    for (name, slip) in slips_of_rounding().into_iter().chain(slips_of_refusing()) {
        let shows = kept().iter().any(|query| slip.window(query) != window(query));
        assert!(shows, "not shown: {name}");
    }
}
