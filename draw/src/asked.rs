//! What the command asks to be shown: a window, as four whole numbers, or as a box, a point or a disc in numbers that need not be
//! whole; or an insert, as four whole numbers.

use crate::mode::Mode;
use crate::USAGE;
use dustmap::numbers::meaning;
use dustmap::Rect;
use std::fmt;
use std::str::FromStr;

pub enum Asked {
    Nothing,
    Window(Query),
    Insert(Rect),
}

/// A window and the mode of its search; and the disc that it is around, where it was asked for by one.
pub struct Query {
    pub window: Rect,
    pub mode: Mode,
    pub disc: Option<Disc>,
}

/// Centre and radius, in millimetres.
pub struct Disc {
    pub x: f64,
    pub y: f64,
    pub radius: f64,
}

/// What the words after the name of the file ask for, in the mode that is named, if one is.
pub fn asked(mode: Option<Mode>, words: &[&str]) -> Result<Asked, String> {
    match (words, mode) {
        ([], None) => Ok(Asked::Nothing),
        ([], Some(mode)) => Err(format!("--{mode}: there is no window\n{USAGE}")),
        _ if words.contains(&"--insert") => insert(mode, words).map(Asked::Insert),
        _ => query(mode.unwrap_or(Mode::Meeting), words).map(Asked::Window),
    }
}

/// The rectangle of an insert. Whether its numbers are those of a rectangle is for the library to say.
fn insert(mode: Option<Mode>, words: &[&str]) -> Result<Rect, String> {
    match (mode, words) {
        (None, ["--insert", sides @ ..]) if sides.len() == 4 => four(sides),
        _ => Err(format!(
            "--insert: four whole numbers, and neither a window nor a mode beside them\n{USAGE}"
        )),
    }
}

fn query(mode: Mode, words: &[&str]) -> Result<Query, String> {
    let (window, disc) = match *words {
        ["--point", x, y] => (Rect::from_point(number(x)?, number(y)?), None),
        ["--box", low_x, low_y, high_x, high_y] => {
            (Rect::from_box(number(low_x)?, number(low_y)?, number(high_x)?, number(high_y)?), None)
        }
        ["--disc", x, y, radius] => {
            let disc = Disc { x: number(x)?, y: number(y)?, radius: number(radius)? };
            (Rect::from_disc(disc.x, disc.y, disc.radius), Some(disc))
        }
        [option, ..] if option.starts_with("--") => return Err(USAGE.to_string()),
        _ => (Ok(four(words)?), None),
    };
    Ok(Query { window: window.map_err(|number| refused("window", number))?, mode, disc })
}

/// Low x, low y, high x, high y.
fn four(words: &[&str]) -> Result<Rect, String> {
    match *words {
        [low_x, low_y, high_x, high_y] => {
            Ok(Rect::new(number(low_x)?, number(low_y)?, number(high_x)?, number(high_y)?))
        }
        _ => Err(USAGE.to_string()),
    }
}

/// A whole number or a double. What is read as a double may be infinite, or no number: the library refuses it.
fn number<T: FromStr>(text: &str) -> Result<T, String> {
    text.parse().map_err(|_| format!("not a number: {text}\n{USAGE}"))
}

/// That the window or the rectangle is refused, in the words for the number.
pub fn refused(what: &str, number: i32) -> String {
    format!("the {what} was refused, {}", meaning(number).expect("a number of the library"))
}

impl fmt::Display for Disc {
    fn fmt(&self, f: &mut fmt::Formatter<'_>) -> fmt::Result {
        let [x, y, radius] = [self.x, self.y, self.radius].map(shortest);
        write!(f, "the disc around {x}, {y} with radius {radius}")
    }
}

/// The shortest text that is read as this double again; minus zero is 0.
pub fn shortest(number: f64) -> String {
    let plain = (number + 0.0).to_string();
    if plain.len() > 20 {
        format!("{number:e}")
    } else {
        plain
    }
}
