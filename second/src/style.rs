//! The styles of generated histories: how rectangles, windows and numbers are drawn.

use crate::dice::Dice;
use crate::geometry::{Rect, COORDINATE_LIMIT};

#[derive(Clone, Copy, Debug, PartialEq, Eq)]
pub enum Style {
    Random,
    Clustered,
    Grid,
    Points,
    Lines,
    Duplicates,
    Limits,
    Churn,
    Road,
    Roads,
}

/// Every style with its name on the command line.
pub const STYLES: [(&str, Style); 10] = [
    ("random", Style::Random),
    ("clustered", Style::Clustered),
    ("grid", Style::Grid),
    ("points", Style::Points),
    ("lines", Style::Lines),
    ("duplicates", Style::Duplicates),
    ("limits", Style::Limits),
    ("churn", Style::Churn),
    ("road", Style::Road),
    ("roads", Style::Roads),
];

/// Coordinates at the limits and around the middle.
const EDGE: [i64; 7] =
    [-COORDINATE_LIMIT, 1 - COORDINATE_LIMIT, -1, 0, 1, COORDINATE_LIMIT - 1, COORDINATE_LIMIT];

impl Style {
    pub fn named(name: &str) -> Option<Style> {
        STYLES.iter().find(|(known, _)| *known == name).map(|&(_, style)| style)
    }

    /// A rectangle in this style. All are valid, but for one in twelve of `limits`.
    pub fn rect(self, dice: &mut Dice) -> Rect {
        match self {
            Style::Random => sized(dice, 1_000_000, 20_000),
            Style::Clustered => clustered(dice),
            Style::Grid => unit_square(dice),
            Style::Points => sized(dice, 60, 0),
            Style::Lines => line(dice),
            Style::Duplicates => duplicate(dice),
            Style::Limits => at_the_limits(dice),
            Style::Churn => sized(dice, 40, 6),
            Style::Road => piece_of_road(dice),
            Style::Roads => piece_of_grid(dice),
        }
    }

    /// A record number in this style.
    pub fn number(self, dice: &mut Dice) -> i32 {
        match self {
            Style::Duplicates => dice.between(1, 4) as i32,
            Style::Limits => dice.pick(&[1, 2, 3, 0, i32::MAX - 1, i32::MAX, i32::MAX, 7, 8, 9]),
            _ => dice.between(1, 500) as i32,
        }
    }

    /// A window: a rectangle of the style, or the joint cover of two of them, or the site.
    pub fn window(self, dice: &mut Dice) -> Rect {
        let rect = self.rect(dice);
        match dice.below(10) {
            0 => whole_site(),
            1..=4 => rect,
            5 => Rect { high_x: rect.low_x, high_y: rect.low_y, ..rect },
            _ => crate::geometry::joint_cover(&rect, &self.rect(dice)),
        }
    }
}

/// The largest valid rectangle, which holds all others.
pub fn whole_site() -> Rect {
    let limit = COORDINATE_LIMIT;
    Rect::new(-limit, -limit, limit, limit)
}

/// A window that lies in a rectangle. On each axis a side is shared one time in two, or more.
pub fn window_within(rect: &Rect, dice: &mut Dice) -> Rect {
    let (low_x, high_x) = part(rect.low_x, rect.high_x, dice);
    let (low_y, high_y) = part(rect.low_y, rect.high_y, dice);
    Rect::new(low_x, low_y, high_x, high_y)
}

/// A part of the way from low to high, both included.
fn part(low: i64, high: i64, dice: &mut Dice) -> (i64, i64) {
    let (one, other) = (dice.between(low, high), dice.between(low, high));
    match dice.below(4) {
        0 => (low, one),
        1 => (one, high),
        _ => (one.min(other), one.max(other)),
    }
}

/// A window that is a rectangle but for one side, a millimetre further in or out. Where that is not
/// valid, the rectangle itself.
pub fn window_one_off(rect: &Rect, dice: &mut Dice) -> Rect {
    let mut sides = [rect.low_x, rect.low_y, rect.high_x, rect.high_y];
    sides[dice.below(4) as usize] += dice.pick(&[-1, 1]);
    let [low_x, low_y, high_x, high_y] = sides;
    let moved = Rect::new(low_x, low_y, high_x, high_y);
    if moved.valid() {
        moved
    } else {
        *rect
    }
}

fn sized(dice: &mut Dice, reach: i64, size: i64) -> Rect {
    let (x, y) = (dice.between(-reach, reach), dice.between(-reach, reach));
    Rect::new(x, y, x + dice.between(0, size), y + dice.between(0, size))
}

/// Small rectangles around one of six places.
fn clustered(dice: &mut Dice) -> Rect {
    let centres = [(0, 0), (5_000, 0), (-40_000, 900), (5_000, 60_000), (70, 70), (9_999, -8)];
    let (x, y) = dice.pick(&centres);
    let near = sized(dice, 200, 50);
    Rect::new(near.low_x + x, near.low_y + y, near.high_x + x, near.high_y + y)
}

/// Touching unit squares on a small grid.
fn unit_square(dice: &mut Dice) -> Rect {
    let (x, y) = (dice.between(0, 15), dice.between(0, 15));
    Rect::new(x, y, x + 1, y + 1)
}

/// A level or upright line, without area.
fn line(dice: &mut Dice) -> Rect {
    let (x, y, length) = (dice.between(-50, 50), dice.between(-50, 50), dice.between(0, 40));
    dice.pick(&lines_from(x, y, length))
}

/// The level and the upright line of a length, by their low end.
fn lines_from(x: i64, y: i64, length: i64) -> [Rect; 2] {
    [Rect::new(x, y, x + length, y), Rect::new(x, y, x, y + length)]
}

/// A piece or a point of one of two long roads, a level and an upright one, that cross in the
/// middle. So many lie on one line that nodes of several levels have covers without area.
fn piece_of_road(dice: &mut Dice) -> Rect {
    let (along, length) = (20 * dice.between(-4, 4), dice.pick(&[0, 0, 0, 20, 20, 40, 100]));
    dice.pick(&[Rect::new(along, 0, along + length, 0), Rect::new(0, along, 0, along + length)])
}

/// A piece of a grid of roads: from one crossing to the next, or to the one after; a crossing
/// alone; a road from end to end. One in eight is a block between roads, with area.
fn piece_of_grid(dice: &mut Dice) -> Rect {
    let (x, y) = (10 * dice.between(0, 5), 10 * dice.between(0, 5));
    match dice.below(8) {
        0 => Rect::new(x, y, x + dice.pick(&[10, 20]), y + 10),
        1 => dice.pick(&[Rect::new(0, y, 50, y), Rect::new(x, 0, x, 50)]),
        2 | 3 => Rect::new(x, y, x, y),
        4 => dice.pick(&lines_from(x, y, 20)),
        _ => dice.pick(&lines_from(x, y, 10)),
    }
}

/// One of nine rectangles.
fn duplicate(dice: &mut Dice) -> Rect {
    let (x, y) = (dice.between(0, 2) * 10, dice.between(0, 2) * 10);
    Rect::new(x, y, x + 10, y + 15)
}

/// Corners at the limits; one rectangle in twelve has a coordinate just beyond.
fn at_the_limits(dice: &mut Dice) -> Rect {
    let (a, b) = (dice.pick(&EDGE), dice.pick(&EDGE));
    let (c, d) = (dice.pick(&EDGE), dice.pick(&EDGE));
    let mut rect = Rect::new(a.min(b), c.min(d), a.max(b), c.max(d));
    match dice.below(48) {
        0 => rect.low_x = -COORDINATE_LIMIT - 1,
        1 => rect.low_y = -COORDINATE_LIMIT - 1,
        2 => rect.high_x = COORDINATE_LIMIT + 1,
        3 => rect.high_y = COORDINATE_LIMIT + 1,
        _ => (),
    }
    rect
}
