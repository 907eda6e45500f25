//! What the survey queries met: each cause of 12, each rounding, each sort of double.

use second::survey::{Cause, Query};
use second::Exact;

const LIMIT: f64 = 1e9;

/// What the second program says about a query.
type Due = Result<[i32; 4], Vec<Cause>>;

/// Something that has to be met, and whether a query met it.
type Asked = (&'static str, bool);

/// How often each was met, by name, in the order in which they are asked.
#[derive(Default)]
pub struct Met {
    counts: Vec<(&'static str, u64)>,
}

impl Met {
    pub fn note(&mut self, query: &Query, due: &Due) {
        let refused = due.as_ref().err().map_or(&[][..], Vec::as_slice);
        let asked = sorts(query, due.is_ok())
            .into_iter()
            .chain(causes(refused))
            .chain(narrow_refusals(query, refused))
            .chain(doubles(&query.doubles()))
            .chain(roundings(query, due))
            .chain(discs(query, due));
        for (place, (name, so)) in asked.enumerate() {
            if place == self.counts.len() {
                self.counts.push((name, 0));
            }
            self.counts[place].1 += u64::from(so);
        }
    }

    /// Each with its name.
    pub fn named(&self) -> Vec<(&'static str, u64)> {
        self.counts.clone()
    }
}

fn sorts(query: &Query, accepted: bool) -> [Asked; 6] {
    let point = matches!(query, Query::Point { .. });
    let boxed = matches!(query, Query::Box { .. });
    let disc = matches!(query, Query::Disc { .. });
    [
        ("survey point 0", point && accepted),
        ("survey point 12", point && !accepted),
        ("survey box 0", boxed && accepted),
        ("survey box 12", boxed && !accepted),
        ("survey disc 0", disc && accepted),
        ("survey disc 12", disc && !accepted),
    ]
}

/// Each cause on its own, so that the refusal is due for nothing else. A centre or radius beyond always leaves a finished
/// coordinate beyond.
fn causes(refused: &[Cause]) -> [Asked; 8] {
    let beyond = Cause::CoordinateBeyond;
    [
        ("survey 12: a NaN alone", refused == [Cause::Nan]),
        ("survey 12: an infinity alone", refused == [Cause::Infinity]),
        ("survey 12: low above high alone", refused == [Cause::LowAboveHigh]),
        ("survey 12: a negative radius alone", refused == [Cause::NegativeRadius]),
        ("survey 12: a centre beyond", refused == [Cause::CentreBeyond, beyond]),
        ("survey 12: a radius beyond", refused == [Cause::RadiusBeyond, beyond]),
        ("survey 12: a finished coordinate beyond alone", refused == [beyond]),
        ("survey 12: three causes or more", refused.len() > 2),
    ]
}

/// Refusals that a small slip would miss.
fn narrow_refusals(query: &Query, refused: &[Cause]) -> [Asked; 5] {
    let [low_x, low_y, high_x, high_y] = query.sides();
    let disc = matches!(query, Query::Disc { .. });
    let above = refused == [Cause::LowAboveHigh];
    let fits = low_x.floor() <= high_x.ceil() && low_y.floor() <= high_y.ceil();
    let alone = refused == [Cause::CoordinateBeyond];
    let furthest = query.sides().into_iter().fold(0.0, |most: f64, side| most.max(side.abs()));
    let next = furthest == LIMIT.next_up();
    [
        ("survey 12: low above high that would round to fit", above && fits),
        ("survey 12: low above high on x alone", above && low_y <= high_y),
        ("survey 12: low above high on y alone", above && low_x <= high_x),
        ("survey 12: the double next beyond the limit", alone && !disc && next),
        ("survey 12: beyond by the further millimetre", alone && disc && furthest <= LIMIT),
    ]
}

/// Doubles that stand out, anywhere in a query.
fn doubles(doubles: &[f64]) -> [Asked; 9] {
    let any = |so: fn(f64) -> bool| doubles.iter().any(|&double| so(double));
    [
        ("survey zero", any(|d| d.to_bits() == 0)),
        ("survey minus zero", any(|d| d == 0.0 && d.is_sign_negative())),
        ("survey subnormal above zero", any(|d| d.is_subnormal() && d > 0.0)),
        ("survey subnormal below zero", any(|d| d.is_subnormal() && d < 0.0)),
        ("survey quiet NaN", any(|d| d.is_nan() && d.to_bits() >> 51 & 1 == 1)),
        ("survey signalling NaN", any(|d| d.is_nan() && d.to_bits() >> 51 & 1 == 0)),
        ("survey NaN with its sign set", any(|d| d.is_nan() && d.is_sign_negative())),
        ("survey infinity below zero", any(|d| d == f64::NEG_INFINITY)),
        ("survey largest finite double", any(|d| d.abs() == f64::MAX)),
    ]
}

/// How the sides of a point or box became whole.
fn roundings(query: &Query, due: &Due) -> [Asked; 11] {
    let accepted = due.is_ok() && !matches!(query, Query::Disc { .. });
    let sides = query.sides();
    let (lows, highs) = sides.split_at(2);
    let low = |so: fn(f64) -> bool| accepted && lows.iter().any(|&side| so(side));
    let high = |so: fn(f64) -> bool| accepted && highs.iter().any(|&side| so(side));
    let whole = |side: &f64| side.fract() == 0.0;
    [
        ("survey low rounded down above zero", low(|d| d > 0.0 && d.fract() != 0.0)),
        ("survey low rounded down below zero", low(|d| d < 0.0 && d.fract() != 0.0)),
        ("survey low rounded down from a subnormal", low(|d| d < 0.0 && d.is_subnormal())),
        ("survey low rounded down to the limit", low(|d| d > -LIMIT && d < 1.0 - LIMIT)),
        ("survey low at the limit", low(|d| d == -LIMIT)),
        ("survey high rounded up above zero", high(|d| d > 0.0 && d.fract() != 0.0)),
        ("survey high rounded up below zero", high(|d| d < 0.0 && d.fract() != 0.0)),
        ("survey high rounded up from a subnormal", high(|d| d > 0.0 && d.is_subnormal())),
        ("survey high rounded up to the limit", high(|d| d < LIMIT && d > LIMIT - 1.0)),
        ("survey high at the limit", high(|d| d == LIMIT)),
        ("survey whole coordinates unchanged", accepted && sides.iter().all(whole)),
    ]
}

/// What accepted discs were like.
fn discs(query: &Query, due: &Due) -> [Asked; 6] {
    let (Query::Disc { x, radius, .. }, Ok(window)) = (*query, due) else {
        return DISCS.map(|name| (name, false));
    };
    let value = |double| Exact::of(double).expect("accepted, so finite");
    let (exact, in_doubles) = (value(x).plus(&value(radius)), value(x + radius));
    let met = [
        window.iter().any(|coordinate| coordinate.abs() == 1_000_000_000),
        radius.to_bits() == 0,
        radius == 0.0 && radius.is_sign_negative(),
        radius.is_subnormal(),
        exact != in_doubles,
        exact.ceiling() != in_doubles.ceiling(),
    ];
    std::array::from_fn(|k| (DISCS[k], met[k]))
}

const DISCS: [&str; 6] = [
    "survey disc at the limit",
    "survey disc of radius zero",
    "survey disc of radius minus zero",
    "survey disc of subnormal radius",
    "survey disc with an inexact sum",
    "survey disc whose exact sum would give another window",
];
