//! "The surveyor's boxes" (document 02, Req 03): the window of a query that comes in doubles.
//!
//! Every double is taken by its exact value. The one place where doubles are reckoned with is a
//! disc's: "subtract and add in doubles".

use crate::exact::Exact;
use crate::geometry::COORDINATE_LIMIT;

/// The number of every refusal here, "before 3".
pub const BAD_SURVEY: i32 = 12;

/// "a query that is a point, a box or a disc (centre and radius, as doubles)"
#[derive(Clone, Copy, Debug, PartialEq)]
pub enum Query {
    Point { x: f64, y: f64 },
    Box { low_x: f64, low_y: f64, high_x: f64, high_y: f64 },
    Disc { x: f64, y: f64, radius: f64 },
}

/// What 12 is given for. Several may be true of one query.
#[derive(Clone, Copy, Debug, PartialEq, Eq, PartialOrd, Ord)]
pub enum Cause {
    Nan,
    Infinity,
    LowAboveHigh,
    NegativeRadius,
    CentreBeyond,
    RadiusBeyond,
    CoordinateBeyond,
}

/// "Survey boxes come as four doubles, in millimetres."
pub fn box_window(low_x: f64, low_y: f64, high_x: f64, high_y: f64) -> Result<[i32; 4], i32> {
    window(&Query::Box { low_x, low_y, high_x, high_y })
}

pub fn point_window(x: f64, y: f64) -> Result<[i32; 4], i32> {
    window(&Query::Point { x, y })
}

pub fn disc_window(x: f64, y: f64, radius: f64) -> Result<[i32; 4], i32> {
    window(&Query::Disc { x, y, radius })
}

/// The window of a query, or 12.
pub fn window(query: &Query) -> Result<[i32; 4], i32> {
    window_or_causes(query).map_err(|_| BAD_SURVEY)
}

/// The window of a query, or everything that 12 is given for.
pub fn window_or_causes(query: &Query) -> Result<[i32; 4], Vec<Cause>> {
    let finished = finished(query);
    let causes = causes(query, &finished);
    if !causes.is_empty() {
        return Err(causes);
    }
    Ok(finished.map(|coordinate| {
        coordinate.and_then(|c| c.to_word()).expect("a whole number within the limits")
    }))
}

impl Query {
    /// The doubles as they come.
    pub fn doubles(&self) -> Vec<f64> {
        match *self {
            Query::Point { x, y } => vec![x, y],
            Query::Box { low_x, low_y, high_x, high_y } => vec![low_x, low_y, high_x, high_y],
            Query::Disc { x, y, radius } => vec![x, y, radius],
        }
    }

    /// Low x, low y, high x, high y, before they are made whole.
    pub fn sides(&self) -> [f64; 4] {
        match *self {
            // "a point is a box with low equal to high"
            Query::Point { x, y } => [x, y, x, y],
            Query::Box { low_x, low_y, high_x, high_y } => [low_x, low_y, high_x, high_y],
            // "For a disc, subtract and add in doubles"
            Query::Disc { x, y, radius } => [x - radius, y - radius, x + radius, y + radius],
        }
    }

    /// "then go one millimetre further": for a disc alone.
    fn further(&self) -> Exact {
        Exact::whole(i64::from(matches!(self, Query::Disc { .. })))
    }
}

/// The finished coordinates. A side without a value leaves none; then 12 is due for a double
/// that came, since a sum is infinite only where a centre or radius is far beyond the limit.
fn finished(query: &Query) -> [Option<Exact>; 4] {
    let further = query.further();
    let down = |low: Exact| low.floor().minus(&further);
    let up = |high: Exact| high.ceiling().plus(&further);
    let [low_x, low_y, high_x, high_y] = query.sides().map(Exact::of);
    [low_x.map(down), low_y.map(down), high_x.map(up), high_y.map(up)]
}

/// "12 .. for a NaN, an infinity, low above high, a negative radius, or a centre, radius or
/// finished coordinate beyond 1,000,000,000 in size."
fn causes(query: &Query, finished: &[Option<Exact>; 4]) -> Vec<Cause> {
    let doubles = query.doubles();
    let (centre, radius) = match *query {
        Query::Disc { x, y, radius } => (vec![Exact::of(x), Exact::of(y)], Exact::of(radius)),
        _ => (vec![], None),
    };
    let beyond = |value: &Option<Exact>| value.is_some_and(|v| v.beyond(COORDINATE_LIMIT));
    let asked = [
        (Cause::Nan, doubles.iter().any(|d| d.is_nan())),
        (Cause::Infinity, doubles.iter().any(|d| d.is_infinite())),
        (Cause::LowAboveHigh, low_above_high(query)),
        // Minus zero has the value 0, which is not negative.
        (Cause::NegativeRadius, radius.is_some_and(|r| r.is_negative())),
        (Cause::CentreBeyond, centre.iter().any(beyond)),
        (Cause::RadiusBeyond, beyond(&radius)),
        (Cause::CoordinateBeyond, finished.iter().any(beyond)),
    ];
    asked.into_iter().filter(|(_, so)| *so).map(|(cause, _)| cause).collect()
}

/// Asked of a box's doubles as they come: 0.75 is above 0.25, though 0 to 1 would hold both.
fn low_above_high(query: &Query) -> bool {
    let Query::Box { low_x, low_y, high_x, high_y } = *query else {
        return false;
    };
    let above = |low, high| match (Exact::of(low), Exact::of(high)) {
        (Some(low), Some(high)) => low > high,
        // A NaN or an infinity is a cause of its own.
        _ => false,
    };
    above(low_x, high_x) || above(low_y, high_y)
}
