//! The few shapes of SVG that the picture needs, and the scale from millimetres to the sheet.

use dustmap::Rect;

/// Where the map lies on the sheet, in units of the sheet. North is up, so y is turned over.
pub struct Scale {
    pub left: f64,
    pub top: f64,
    pub width: f64,
    pub height: f64,
    /// How thick lines and dots are: 1 where there is room, less where there is not.
    pub pen: f64,
    low_x: f64,
    high_y: f64,
    unit: f64,
}

/// A box on the sheet.
#[derive(Clone, Copy)]
pub struct Place {
    pub x: f64,
    pub y: f64,
    pub width: f64,
    pub height: f64,
}

impl Scale {
    /// Fits a rectangle into the room given, with a margin around it; both axes have the same scale.
    pub fn fit(rect: Rect, left: f64, top: f64, most_wide: f64, most_high: f64) -> Scale {
        let span = |low: i32, high: i32| (f64::from(high) - f64::from(low)).max(1.0);
        let (wide, high) = (span(rect.low_x, rect.high_x), span(rect.low_y, rect.high_y));
        let margin = 0.06 * wide.max(high);
        let unit = (most_wide / (wide + 2.0 * margin)).min(most_high / (high + 2.0 * margin));
        Scale {
            left,
            top,
            width: unit * (wide + 2.0 * margin),
            height: unit * (high + 2.0 * margin),
            pen: 1.0,
            low_x: f64::from(rect.low_x) - margin,
            high_y: f64::from(rect.high_y) + margin,
            unit,
        }
    }

    pub fn place(&self, rect: &Rect) -> Place {
        let (x, y) = self.point(f64::from(rect.low_x), f64::from(rect.high_y));
        Place {
            x,
            y,
            width: self.length(f64::from(rect.high_x) - f64::from(rect.low_x)),
            height: self.length(f64::from(rect.high_y) - f64::from(rect.low_y)),
        }
    }

    pub fn point(&self, x: f64, y: f64) -> (f64, f64) {
        (self.left + self.unit * (x - self.low_x), self.top + self.unit * (self.high_y - y))
    }

    pub fn length(&self, millimetres: f64) -> f64 {
        self.unit * millimetres
    }

    /// A length for a scale bar: 1, 2 or 5 and zeros, the longest that takes at most a quarter of the width. In millimetres,
    /// and on the sheet.
    pub fn bar(&self) -> (f64, f64) {
        let most = 0.25 * self.width / self.unit;
        let power = 10f64.powf(most.log10().floor());
        let length =
            [5.0, 2.0, 1.0].iter().map(|d| d * power).find(|l| *l <= most).unwrap_or(power);
        (length, length * self.unit)
    }
}

impl Place {
    pub fn wider_by(self, by: f64) -> Place {
        Place {
            x: self.x - by,
            y: self.y - by,
            width: self.width + 2.0 * by,
            height: self.height + 2.0 * by,
        }
    }

    /// At least so wide and so high, around the same middle.
    pub fn at_least(self, side: f64) -> Place {
        let (x, y) = self.middle();
        let (width, height) = (self.width.max(side), self.height.max(side));
        Place { x: x - width / 2.0, y: y - height / 2.0, width, height }
    }

    pub fn overlaps(&self, other: &Place) -> bool {
        self.x < other.x + other.width
            && other.x < self.x + self.width
            && self.y < other.y + other.height
            && other.y < self.y + self.height
    }

    pub fn inside(&self, other: &Place) -> bool {
        other.x <= self.x
            && self.x + self.width <= other.x + other.width
            && other.y <= self.y
            && self.y + self.height <= other.y + other.height
    }

    pub fn middle(self) -> (f64, f64) {
        (self.x + self.width / 2.0, self.y + self.height / 2.0)
    }
}

/// A rectangle with any further attributes.
pub fn rect(place: Place, attributes: &str) -> String {
    let Place { x, y, width, height } = place;
    format!("<rect x=\"{x:.2}\" y=\"{y:.2}\" width=\"{width:.2}\" height=\"{height:.2}\" {attributes}/>\n")
}

pub fn circle((x, y): (f64, f64), radius: f64, attributes: &str) -> String {
    format!("<circle cx=\"{x:.2}\" cy=\"{y:.2}\" r=\"{radius:.1}\" {attributes}/>\n")
}

pub fn line((x, y): (f64, f64), (to_x, to_y): (f64, f64), attributes: &str) -> String {
    format!("<line x1=\"{x:.2}\" y1=\"{y:.2}\" x2=\"{to_x:.2}\" y2=\"{to_y:.2}\" {attributes}/>\n")
}

/// Shapes that are shown and hidden together, under one name. Whatever look they have in common is given once.
pub fn layer(name: &str, attributes: &str, shapes: &str) -> String {
    format!("<g data-layer=\"{name}\" {attributes}>\n{shapes}</g>\n")
}

/// A shape with words: a browser shows them when the pointer rests on it, and a reader of the screen says them.
pub fn titled(words: &str, shape: &str) -> String {
    format!("<g><title>{words}</title>{shape}</g>\n")
}

/// Text; what is written here never holds a character that SVG would take for markup.
pub fn text((x, y): (f64, f64), attributes: &str, words: &str) -> String {
    format!("<text x=\"{x:.2}\" y=\"{y:.2}\" {attributes}>{words}</text>\n")
}
