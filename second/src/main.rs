//! `second dustmap | script | generate STYLE SEED N COUNT | damage SEED N | survey SEED COUNT |
//! carry | carry SEED COUNT | room | room SEED COUNT | shared .. | selftest`

use std::io::{Read, Write};
use std::process::ExitCode;

use second::style::Style;
use second::Edition;
use second::{damage, dustmap, files, generate, neighbours, queries, rooms, script, selftest};

const USAGE: &str = "usage: second dustmap
       second script
       second generate STYLE SEED N COUNT
       second damage SEED N
       second survey SEED COUNT
       second carry
       second carry SEED COUNT
       second room
       second room SEED COUNT
       second shared generate STYLE SEED N COUNT
       second shared damage SEED N
       second shared carry SEED COUNT
       second shared room SEED COUNT
       second selftest
styles: random clustered grid points lines duplicates limits churn road roads";

fn main() -> ExitCode {
    let arguments: Vec<String> = std::env::args().skip(1).collect();
    let arguments: Vec<&str> = arguments.iter().map(String::as_str).collect();
    match run(&arguments) {
        Ok((output, code)) => {
            // A reader that closes early is no fault of ours.
            let _ = std::io::stdout().write_all(&output);
            code
        }
        Err(why) => {
            eprintln!("{why}");
            ExitCode::from(2)
        }
    }
}

/// What is to be printed, and the exit code.
fn run(arguments: &[&str]) -> Result<(Vec<u8>, ExitCode), String> {
    let output = match arguments {
        ["dustmap"] => dustmap::run(&input()?),
        ["script"] => script::run(&script::parse(&text_input()?)?),
        ["survey", seed, count] => queries::cases(number(seed)?, number(count)? as usize),
        ["carry"] => files::run(&text_input()?)?,
        ["room"] => rooms::run(&text_input()?)?,
        ["shared", drawn @ ..] => cases(Edition::Two, drawn)?,
        ["selftest"] => return Ok(tested()),
        drawn => cases(Edition::One, drawn)?,
    };
    Ok((output.into_bytes(), ExitCode::SUCCESS))
}

/// Cases drawn from a seed: of edition 1, or `shared` ones of edition 2.
fn cases(edition: Edition, arguments: &[&str]) -> Result<String, String> {
    match arguments {
        ["generate", style, seed, slots, count] => {
            let style = Style::named(style).ok_or("unknown style")?;
            let (slots, count) = (slot_count(slots)?, number(count)? as usize);
            let script = match edition {
                Edition::One => generate::script,
                Edition::Two => neighbours::script,
            };
            Ok(script(style, number(seed)?, slots, count))
        }
        ["damage", seed, slots] => Ok(damage::script(edition, number(seed)?, slot_count(slots)?)),
        ["carry", seed, count] => Ok(files::cases(edition, number(seed)?, number(count)? as usize)),
        ["room", seed, count] => Ok(rooms::cases(edition, number(seed)?, number(count)? as usize)),
        _ => Err(USAGE.to_string()),
    }
}

fn tested() -> (Vec<u8>, ExitCode) {
    let report = selftest::run();
    let code = if report.failed == 0 { ExitCode::SUCCESS } else { ExitCode::FAILURE };
    (report.text().into_bytes(), code)
}

fn input() -> Result<Vec<u8>, String> {
    let mut bytes = Vec::new();
    std::io::stdin().read_to_end(&mut bytes).map_err(|e| e.to_string())?;
    Ok(bytes)
}

fn text_input() -> Result<String, String> {
    String::from_utf8(input()?).map_err(|e| e.to_string())
}

fn number(text: &str) -> Result<u64, String> {
    text.parse().map_err(|_| format!("not a number: {text}"))
}

fn slot_count(text: &str) -> Result<usize, String> {
    match number(text)? {
        slots @ 1..=4_096 => Ok(slots as usize),
        _ => Err("slots are 1 to 4,096".to_string()),
    }
}
