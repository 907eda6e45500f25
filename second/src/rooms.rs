//! Cases of the call of Req 06, written as lines; and what comes of them.

use crate::dice::Dice;
use crate::edition::{Edition, OWNERS};
use crate::files::{each_line, list, words};
use crate::neighbours::widened;
use crate::room::room;
use crate::rooms_drawn::drawn;
use crate::rooms_kept::kept;

/// What is lent to the call.
#[derive(Clone, Debug, PartialEq, Eq)]
pub struct Case {
    pub pool: Vec<i32>,
    pub rect: [i32; 4],
}

/// The slots needed and the slots free, or the number of the refusal.
pub fn outcome(case: &Case) -> Result<[u32; 2], i32> {
    let mut slots = [0; 2];
    match room(&case.pool, case.rect, &mut slots) {
        0 => Ok(slots),
        number => Err(number),
    }
}

/// Cases from a seed, one a line with what is due: the list first, then drawn ones. For edition 2 the
/// same pools are laid out with owners, where they have a length that allows it.
pub fn cases(edition: Edition, seed: u64, count: usize) -> String {
    let (mut dice, mut owners) = (Dice::new(seed), Dice::new(seed.wrapping_add(1)));
    let drawn = std::iter::repeat_with(|| drawn(&mut dice));
    let mut output = String::new();
    for mut case in kept().into_iter().chain(drawn).take(count) {
        if edition == Edition::Two && Edition::One.slots_of(case.pool.len()).is_some() {
            case.pool = widened(&case.pool, || owners.pick(&OWNERS).number());
        }
        output.push_str(&answered(&case));
        output.push('\n');
    }
    output
}

/// The cases of a text, each with what is due.
pub fn run(text: &str) -> Result<String, String> {
    each_line(text, |line| parse(line).map(|case| answered(&case)))
}

/// `room POOL RECT -> 0 NEEDED FREE` or `room POOL RECT -> NUMBER`.
pub fn answered(case: &Case) -> String {
    let due = match outcome(case) {
        Ok([needed, free]) => format!("0 {needed} {free}"),
        Err(number) => number.to_string(),
    };
    format!("{} -> {due}", line(case))
}

/// A case as a line.
pub fn line(case: &Case) -> String {
    format!("room {} {}", list(&case.pool), list(&case.rect))
}

/// Reads a line. An arrow and what follows it are not looked at.
pub fn parse(line: &str) -> Result<Case, String> {
    let before_the_arrow = line.split(" -> ").next().unwrap_or("");
    let fields: Vec<&str> = before_the_arrow.split_whitespace().collect();
    match fields[..] {
        ["room", pool, rect] => Ok(Case { pool: words(pool)?, rect: four_words(rect)? }),
        _ => Err("not room POOL RECT".to_string()),
    }
}

fn four_words(text: &str) -> Result<[i32; 4], String> {
    words(text)?.try_into().map_err(|_| format!("not four words: {text}"))
}
