//! Cases of the two calls of Req 02, and of the reader of Req 07 that is told the edition, written as
//! lines; and what comes of them.

use crate::carry::{read, read_as, write};
use crate::dice::Dice;
use crate::edition::Edition;
use crate::files_drawn::drawn;
use crate::files_kept::kept;
use crate::files_shared::kept_shared;

/// What is lent to a call.
#[derive(Clone, Debug, PartialEq, Eq)]
pub enum Case {
    Write { pool: Vec<i32>, buffer: Vec<u8> },
    Read { pool: Vec<i32>, work: Vec<i32>, file: Vec<u8> },
    ReadAs { pool: Vec<i32>, work: Vec<i32>, file: Vec<u8>, edition: i32, rule: i32 },
}

/// What the call returns, and what was lent for writing, as the call left it.
#[derive(Clone, Debug, PartialEq, Eq)]
pub enum Outcome {
    Written { number: i32, length: usize, buffer: Vec<u8> },
    Read { number: i32, pool: Vec<i32>, work: Vec<i32> },
}

/// Does the call.
pub fn outcome(case: &Case) -> Outcome {
    match case.clone() {
        Case::Write { pool, mut buffer } => {
            let (number, length) = write(&pool, &mut buffer);
            Outcome::Written { number, length, buffer }
        }
        Case::Read { mut pool, mut work, file } => {
            let number = read(&mut pool, &mut work, &file);
            Outcome::Read { number, pool, work }
        }
        Case::ReadAs { mut pool, mut work, file, edition, rule } => {
            let number = read_as(&mut pool, &mut work, &file, edition, rule);
            Outcome::Read { number, pool, work }
        }
    }
}

/// Cases from a seed, one a line with what is due: the list first, then drawn ones. They are about
/// pools of an edition.
pub fn cases(edition: Edition, seed: u64, count: usize) -> String {
    let mut dice = Dice::new(seed);
    let drawn = std::iter::repeat_with(|| drawn(edition, &mut dice));
    let kept = match edition {
        Edition::One => kept(),
        Edition::Two => kept_shared(),
    };
    kept.into_iter().chain(drawn).take(count).map(|case| answered(&case) + "\n").collect()
}

/// The cases of a text, each with what is due.
pub fn run(text: &str) -> Result<String, String> {
    each_line(text, |line| parse(line).map(|case| answered(&case)))
}

/// The lines of a text, each as it is answered; those that start with `#` are skipped. An error
/// names the line.
pub(crate) fn each_line(
    text: &str,
    answered: impl Fn(&str) -> Result<String, String>,
) -> Result<String, String> {
    let mut output = String::new();
    for (index, line) in text.lines().enumerate() {
        if line.trim().is_empty() || line.starts_with('#') {
            continue;
        }
        let answered = answered(line).map_err(|why| format!("line {}: {why}", index + 1))?;
        output.push_str(&answered);
        output.push('\n');
    }
    Ok(output)
}

/// `write POOL BUFFER -> NUMBER LENGTH BUFFER`, `read POOL WORK FILE -> NUMBER POOL WORK` or `read-as
/// POOL WORK FILE EDITION RULE -> NUMBER POOL WORK`.
pub fn answered(case: &Case) -> String {
    let due = match outcome(case) {
        Outcome::Written { number, length, buffer } => {
            format!("{number} {length} {}", hex(&buffer))
        }
        Outcome::Read { number, pool, work } => format!("{number} {} {}", list(&pool), list(&work)),
    };
    format!("{} -> {due}", line(case))
}

/// A case as a line.
pub fn line(case: &Case) -> String {
    match case {
        Case::Write { pool, buffer } => format!("write {} {}", list(pool), hex(buffer)),
        Case::Read { pool, work, file } => {
            format!("read {} {} {}", list(pool), list(work), hex(file))
        }
        Case::ReadAs { pool, work, file, edition, rule } => {
            let lists = format!("{} {} {}", list(pool), list(work), hex(file));
            format!("read-as {lists} {edition} {rule}")
        }
    }
}

/// Reads a line. An arrow and what follows it are not looked at.
pub fn parse(line: &str) -> Result<Case, String> {
    let before_the_arrow = line.split(" -> ").next().unwrap_or("");
    let fields: Vec<&str> = before_the_arrow.split_whitespace().collect();
    match fields[..] {
        ["write", pool, buffer] => Ok(Case::Write { pool: words(pool)?, buffer: bytes(buffer)? }),
        ["read", pool, work, file] => {
            Ok(Case::Read { pool: words(pool)?, work: words(work)?, file: bytes(file)? })
        }
        ["read-as", pool, work, file, edition, rule] => Ok(Case::ReadAs {
            pool: words(pool)?,
            work: words(work)?,
            file: bytes(file)?,
            edition: word(edition)?,
            rule: word(rule)?,
        }),
        _ => Err("neither write POOL BUFFER nor read POOL WORK FILE, nor read-as".to_string()),
    }
}

/// Words in decimal, parted by commas; a lone dash for none.
pub(crate) fn list(words: &[i32]) -> String {
    let words: Vec<String> = words.iter().map(i32::to_string).collect();
    or_dash(words.join(","))
}

/// Bytes in hexadecimal, two digits each; a lone dash for none.
fn hex(bytes: &[u8]) -> String {
    or_dash(bytes.iter().map(|byte| format!("{byte:02x}")).collect())
}

fn or_dash(text: String) -> String {
    if text.is_empty() {
        return "-".to_string();
    }
    text
}

pub(crate) fn words(text: &str) -> Result<Vec<i32>, String> {
    if text == "-" {
        return Ok(Vec::new());
    }
    text.split(',').map(word).collect()
}

fn word(text: &str) -> Result<i32, String> {
    text.parse().map_err(|_| format!("not a word: {text}"))
}

fn bytes(text: &str) -> Result<Vec<u8>, String> {
    if text == "-" {
        return Ok(Vec::new());
    }
    let odd = text.len() & 1 == 1;
    if odd || !text.bytes().all(|digit| digit.is_ascii_hexdigit()) {
        return Err(format!("not bytes: {text}"));
    }
    let byte = |at: usize| u8::from_str_radix(&text[at..at + 2], 16).expect("two digits");
    Ok((0..text.len()).step_by(2).map(byte).collect())
}
