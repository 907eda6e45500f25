//! Draws the map that a file of frames leaves, or that a file carries between offices, as SVG on standard output.
//!
//! usage: draw [--slots N] FRAMES [WINDOW [--inside | --enclosing] | --insert LOW-X LOW-Y HIGH-X HIGH-Y]

mod asked;
mod batch;
mod carried;
mod frames;
mod insert;
mod labels;
mod legend;
mod look;
mod mode;
mod page;
mod picture;
mod shown;
mod svg;
mod tree;
mod window;

use std::io::{ErrorKind, Read, Write};
use std::process::ExitCode;

/// "a 128-slot pool (5,384 words)": as `dustmap` has it.
const SLOTS: usize = 128;

const USAGE: &str = "usage: tools/draw [--slots N] FRAMES [WINDOW [--inside | --enclosing]] > map.svg
       tools/draw [--slots N] FRAMES --insert LOW-X LOW-Y HIGH-X HIGH-Y > map.svg
FRAMES is a file as dustmap reads it, or a map's file as tools/save writes it, of either edition; or - for standard input. WINDOW is in millimetres: LOW-X LOW-Y HIGH-X HIGH-Y, four whole numbers;
or --box LOW-X LOW-Y HIGH-X HIGH-Y, --point X Y or --disc X Y RADIUS, whose numbers need not be whole.
The records that meet the window are marked; with --inside those alone that lie inside it, with --enclosing those alone that enclose it.
With --insert, whose four numbers are whole, the way is marked that an insert of that rectangle would go, and the full nodes that it would
split; the legend says how many slots it needs, how many are free, and whether it fits.
The pool has 128 slots, as that of dustmap, unless --slots says another number, 1 to 4096.";

fn main() -> ExitCode {
    match run() {
        Ok(()) => ExitCode::SUCCESS,
        Err(why) => {
            eprintln!("{why}");
            ExitCode::from(2)
        }
    }
}

fn run() -> Result<(), String> {
    let arguments: Vec<String> = std::env::args().skip(1).collect();
    let (mode, words) = mode::mode(&arguments)?;
    let (slots, rest) = match words.as_slice() {
        ["--slots", number, rest @ ..] => (slots_of(number)?, rest),
        rest => (SLOTS, rest),
    };
    let (file, words) = rest.split_first().ok_or(USAGE)?;
    let asked = asked::asked(mode, words)?;
    let bytes = bytes_of(file)?;
    let mut pool =
        if carried::is_file(&bytes) { carried::pool(&bytes, slots)? } else { after(&bytes, slots) };
    let tree = tree::read(&pool);
    let shown = shown::look(&mut pool, &tree, asked)?;
    write(&picture::draw(&tree, &shown))
}

/// A reader that closes early is no fault of ours; a full disk is to be told.
fn write(text: &str) -> Result<(), String> {
    let mut out = std::io::stdout();
    match out.write_all(text.as_bytes()).and_then(|()| out.flush()) {
        Err(e) if e.kind() != ErrorKind::BrokenPipe => Err(format!("standard output: {e}")),
        _ => Ok(()),
    }
}

fn bytes_of(file: &str) -> Result<Vec<u8>, String> {
    if file != "-" {
        return std::fs::read(file).map_err(|e| format!("{file}: {e}"));
    }
    let mut bytes = Vec::new();
    std::io::stdin().read_to_end(&mut bytes).map_err(|e| e.to_string())?;
    Ok(bytes)
}

fn slots_of(text: &str) -> Result<usize, String> {
    match text.parse() {
        Ok(slots) if (1..=dustmap::MOST_SLOTS).contains(&slots) => Ok(slots),
        _ => Err(format!("not a number of slots: {text}\n{USAGE}")),
    }
}

/// The pool that the frames leave. A refused request does not show in the drawing, so it is reported.
fn after(bytes: &[u8], slots: usize) -> Vec<i32> {
    let mut pool = dustmap::blank_pool(slots).expect("a valid number of slots");
    let (requests, bad) = frames::requests(bytes);
    for (index, number) in batch::all(&mut pool, &requests).into_iter().enumerate() {
        if number != 0 {
            eprintln!("frame {}: answered {number}", index + 1);
        }
    }
    if bad {
        eprintln!(
            "bad frame {}: the drawing shows what the frames before it left",
            requests.len() + 1
        );
    }
    pool
}
