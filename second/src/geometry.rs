//! "Two dimensions, whole millimetres, closed rectangles."
//!
//! Coordinates are kept in 64 bits, areas and half perimeters in 128, so that nothing here can
//! wrap, not even for rectangles that a request is refused for.

/// "Coordinates: -1,000,000,000 to 1,000,000,000."
pub const COORDINATE_LIMIT: i64 = 1_000_000_000;

/// A closed rectangle. The order of the fields is the document's order (low x, low y, high x,
/// high y), so the derived order is the one in which found records are put.
#[derive(Clone, Copy, Debug, PartialEq, Eq, PartialOrd, Ord)]
pub struct Rect {
    pub low_x: i64,
    pub low_y: i64,
    pub high_x: i64,
    pub high_y: i64,
}

impl Rect {
    pub fn new(low_x: i64, low_y: i64, high_x: i64, high_y: i64) -> Rect {
        Rect { low_x, low_y, high_x, high_y }
    }

    /// The rectangle in four words: low x, low y, high x, high y.
    pub fn from_words(words: [i32; 4]) -> Rect {
        let [low_x, low_y, high_x, high_y] = words.map(i64::from);
        Rect { low_x, low_y, high_x, high_y }
    }

    /// Back to four words. Only rectangles that came from words are ever written back.
    pub fn to_words(self) -> [i32; 4] {
        [self.low_x, self.low_y, self.high_x, self.high_y]
            .map(|c| i32::try_from(c).expect("a coordinate fits a word"))
    }

    /// Every coordinate in range and no low above its high. "Low may equal high."
    pub fn valid(&self) -> bool {
        let in_range = |c: i64| (-COORDINATE_LIMIT..=COORDINATE_LIMIT).contains(&c);
        [self.low_x, self.low_y, self.high_x, self.high_y].into_iter().all(in_range)
            && self.low_x <= self.high_x
            && self.low_y <= self.high_y
    }
}

/// "Two rectangles meet when on each axis each low is at most the other's high; touching
/// counts."
pub fn meets(a: &Rect, b: &Rect) -> bool {
    a.low_x <= b.high_x && b.low_x <= a.high_x && a.low_y <= b.high_y && b.low_y <= a.high_y
}

/// Whether the first holds the second: on no side does the second reach beyond it. Sides may be
/// shared.
fn holds(a: &Rect, b: &Rect) -> bool {
    a.low_x <= b.low_x && a.low_y <= b.low_y && b.high_x <= a.high_x && b.high_y <= a.high_y
}

/// "The comparison of two rectangles shall now say apart, inside, enclosing, equal or otherwise
/// meeting" (document 02, Req 01). One of the five is said, so inside and enclosing leave equal
/// out here; where equal counts as both, the one who asks says so.
#[derive(Clone, Copy, Debug, PartialEq, Eq)]
pub enum Comparison {
    Apart,
    Inside,
    Enclosing,
    Equal,
    OtherwiseMeeting,
}

/// What the first of two valid rectangles is to the second: inside when it lies in the second,
/// enclosing when it holds the second.
pub fn compare(a: &Rect, b: &Rect) -> Comparison {
    if !meets(a, b) {
        return Comparison::Apart;
    }
    match (holds(b, a), holds(a, b)) {
        (true, false) => Comparison::Inside,
        (false, true) => Comparison::Enclosing,
        (true, true) => Comparison::Equal,
        (false, false) => Comparison::OtherwiseMeeting,
    }
}

/// "Area is width times height."
pub fn area(a: &Rect) -> i128 {
    i128::from(a.high_x - a.low_x) * i128::from(a.high_y - a.low_y)
}

/// "half perimeter (width plus height)" (document 02, Req 05). A road drawn as a line has no area,
/// but it has this: its length.
pub fn half_perimeter(a: &Rect) -> i128 {
    i128::from(a.high_x - a.low_x) + i128::from(a.high_y - a.low_y)
}

/// The smallest rectangle holding both.
pub fn joint_cover(a: &Rect, b: &Rect) -> Rect {
    Rect {
        low_x: a.low_x.min(b.low_x),
        low_y: a.low_y.min(b.low_y),
        high_x: a.high_x.max(b.high_x),
        high_y: a.high_y.max(b.high_y),
    }
}

/// The smallest rectangle holding all of them; none for no rectangles.
pub fn cover(rects: &[Rect]) -> Option<Rect> {
    rects.iter().copied().reduce(|a, b| joint_cover(&a, &b))
}

/// "The enlargement of A for B is the area of the smallest rectangle holding both, less A's
/// area."
pub fn enlargement(a: &Rect, b: &Rect) -> i128 {
    area(&joint_cover(a, b)) - area(a)
}

/// The enlargement of A for B, "the same quantity in half perimeter" (Req 05).
pub fn half_enlargement(a: &Rect, b: &Rect) -> i128 {
    half_perimeter(&joint_cover(a, b)) - half_perimeter(a)
}

/// PS1: "d = area of joint cover less both areas, possibly negative".
pub fn waste(a: &Rect, b: &Rect) -> i128 {
    area(&joint_cover(a, b)) - area(a) - area(b)
}

/// d, "the same quantity in half perimeter" (Req 05). As d it is "possibly negative": two roads
/// that lie on each other waste less than nothing.
pub fn half_waste(a: &Rect, b: &Rect) -> i128 {
    half_perimeter(&joint_cover(a, b)) - half_perimeter(a) - half_perimeter(b)
}
