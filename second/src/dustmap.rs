//! The program `dustmap`: frames in, lines out. Its pool is of edition 1, and its batches are owner 1's.

use crate::call::{
    call, Answer, Found, Request, DELETE, ENCLOSING, INSERT, INSIDE, SEARCH, UPDATE,
};
use crate::frames::{take_frame, Frame};
use crate::script::blank_pool;

/// "a 128-slot pool (5,384 words)"
const POOL_SLOTS: usize = 128;

/// "a found list of 64"
const FOUND_PLACES: usize = 64;

/// A frame that is cut, of unknown kind or of wrong length.
struct BadFrame;

/// The pool, and the other lists of a batch of one.
struct Station {
    pool: Vec<i32>,
    work: Vec<i32>,
    found: Vec<Found>,
}

/// Reads all frames and gives all that is printed.
pub fn run(input: &[u8]) -> String {
    let mut station = Station::new();
    let mut output = String::new();
    let mut rest = input;
    let mut place = 1;
    while !rest.is_empty() {
        match next_frame(&mut rest) {
            Ok(request) => station.answer(place, request, &mut output),
            Err(BadFrame) => {
                output.push_str(&format!("bad frame {place}\n"));
                break;
            }
        }
        place += 1;
    }
    output
}

impl Station {
    fn new() -> Station {
        let pool = blank_pool(POOL_SLOTS);
        let work = pool.clone();
        Station { pool, work, found: vec![Found::default(); FOUND_PLACES] }
    }

    /// "Each frame is a batch of one". Prints "request place from 1, answer number, found,
    /// opened; then after an accepted search a line per record".
    fn answer(&mut self, place: usize, request: Request, output: &mut String) {
        let mut answers = [Answer::default()];
        let result =
            call(&mut self.pool, &mut self.work, &[request], &mut answers, &mut self.found);
        assert_eq!(result, 0, "the pool is sound");
        let Answer { number, found, opened, .. } = answers[0];
        output.push_str(&format!("{place} {number} {found} {opened}\n"));
        if request.is_search() && number == 0 {
            for record in &self.found[..found as usize] {
                let Found { number, low_x, low_y, high_x, high_y } = record;
                output.push_str(&format!("{number} {low_x} {low_y} {high_x} {high_y}\n"));
            }
        }
    }
}

/// Takes the frame off the front: cut or without a kind it is a bad frame.
fn next_frame(rest: &mut &[u8]) -> Result<Request, BadFrame> {
    request_of(&take_frame(rest).ok_or(BadFrame)?)
}

/// "Kind 1 insert and 2 delete: number, rectangle (length 22). 3 update: number, old, new (38).
/// 4 search: window (18)." And "kinds 5 and 6, of the same layout, are inside and enclosing".
fn request_of(frame: &Frame) -> Result<Request, BadFrame> {
    let kind = i32::from(frame.kind);
    match (kind, frame.length) {
        (INSERT | DELETE, 22) => {
            let w = frame.words();
            Ok(Request { kind, number: w[0], first: four(&w[1..5]), second: [0; 4] })
        }
        (UPDATE, 38) => {
            let w = frame.words();
            Ok(Request { kind, number: w[0], first: four(&w[1..5]), second: four(&w[5..9]) })
        }
        (SEARCH | INSIDE | ENCLOSING, 18) => {
            Ok(Request { kind, ..Request::search(four(&frame.words())) })
        }
        _ => Err(BadFrame),
    }
}

fn four(words: &[i32]) -> [i32; 4] {
    [words[0], words[1], words[2], words[3]]
}
