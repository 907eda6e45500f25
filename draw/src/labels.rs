//! Where the numbers of records go: each in the first place that lies on the map and covers no other number.

use crate::svg::Place;

/// How wide and how high a digit of a number is, and the gap beside a number.
const DIGIT: f64 = 7.0;
const HIGH: f64 = 11.0;
const GAP: f64 = 3.0;

pub struct Labels {
    sheet: Place,
    taken: Vec<Place>,
}

impl Labels {
    pub fn new(sheet: Place) -> Labels {
        Labels { sheet, taken: Vec::new() }
    }

    /// The left end of the line that a text at a record stands on; none where there is no room.
    pub fn put(&mut self, record: Place, words: &str) -> Option<(f64, f64)> {
        let width = DIGIT * words.len() as f64;
        let free = |place: &Place| {
            place.inside(&self.sheet) && !self.taken.iter().any(|other| place.overlaps(other))
        };
        let place = candidates(record, width).into_iter().find(free)?;
        self.taken.push(place);
        Some((place.x, place.y + HIGH - 1.0))
    }
}

/// In the middle, where the record is large enough; else about its corners.
fn candidates(record: Place, width: f64) -> Vec<Place> {
    let (middle_x, middle_y) = record.middle();
    let at = |x: f64, y: f64| Place { x, y, width, height: HIGH };
    let (left, right) = (record.x - width - GAP, record.x + record.width + GAP);
    let (above, below) = (record.y - HIGH - 1.0, record.y + record.height + 1.0);
    let mut places = vec![
        at(right, above),
        at(right, below),
        at(left, above),
        at(left, below),
        at(right, middle_y - HIGH / 2.0),
    ];
    if record.width > width + 4.0 && record.height > HIGH + 2.0 {
        places.insert(0, at(middle_x - width / 2.0, middle_y - HIGH / 2.0));
    }
    places
}
