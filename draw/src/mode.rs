//! "A search carries one of three modes": which of the records that meet its window it lists.

use crate::USAGE;
use dustmap::{Rect, Request};
use std::fmt;

#[derive(Clone, Copy)]
pub enum Mode {
    Meeting,
    Inside,
    Enclosing,
}

/// The mode that the command names, and its other words. The option may stand before the window or after it.
pub fn mode(arguments: &[String]) -> Result<(Option<Mode>, Vec<&str>), String> {
    let words = arguments.iter().map(String::as_str);
    let (options, others): (Vec<&str>, Vec<&str>) = words.partition(|word| named(word).is_some());
    match options[..] {
        [] => Ok((None, others)),
        [option] => Ok((named(option), others)),
        _ => Err(format!("a search has one mode, not several: {}\n{USAGE}", options.join(" "))),
    }
}

fn named(option: &str) -> Option<Mode> {
    match option {
        "--inside" => Some(Mode::Inside),
        "--enclosing" => Some(Mode::Enclosing),
        _ => None,
    }
}

impl Mode {
    pub fn search(self, window: Rect) -> Request {
        match self {
            Mode::Meeting => Request::search(window),
            Mode::Inside => Request::search_inside(window),
            Mode::Enclosing => Request::search_enclosing(window),
        }
    }
}

/// What the records listed are to the window, as in "those inside the window".
impl fmt::Display for Mode {
    fn fmt(&self, f: &mut fmt::Formatter<'_>) -> fmt::Result {
        f.write_str(match self {
            Mode::Meeting => "meeting",
            Mode::Inside => "inside",
            Mode::Enclosing => "enclosing",
        })
    }
}
