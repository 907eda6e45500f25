//! The rules read from the documents again, over plain lists of the pairs in force and over the
//! pool's words, for the self-test.
//!
//! Nothing here uses the tree code.

use crate::call::{Answer, Found, Request, DELETE, ENCLOSING, INSERT, INSIDE, UPDATE};
use crate::edition::Edition;
use crate::generate::pair_of;
use crate::geometry::{cover, meets, Rect};
use crate::pool::{entries, slots_of, EntryWords, Owned, Pair, Slot};
use crate::{records_in_leaves, sound};

/// What is in a place of the found list before the call.
pub const UNTOUCHED: Found =
    Found { number: -77, low_x: -77, low_y: -77, high_x: -77, high_y: -77 };

/// What the plain reading says about a request, and what a search finds and opens.
pub struct Outcome {
    pub owner: i32,
    pub request: Request,
    pub number: i32,
    pub list: Vec<Found>,
    pub opened: i32,
}

pub fn ensure(holds: bool, why: &str) -> Result<(), String> {
    holds.then_some(()).ok_or_else(|| why.to_string())
}

/// "Changes and refusals report zeros for the last three".
pub fn plain(number: i32) -> Answer {
    Answer { number, found: 0, start: 0, opened: 0 }
}

/// 3 to 6 as the table has them, over the list of pairs in force for the owner. None: accepted, or
/// 7.
pub fn refusal_due(request: &Request, in_force: &[Pair]) -> Option<i32> {
    let Request { kind, number, first, second } = *request;
    let standing = |rect| in_force.contains(&pair_of(number, rect));
    if !rectangle_in_order(first) || kind == UPDATE && !rectangle_in_order(second) {
        return Some(3);
    }
    if number < 1 {
        return Some(4);
    }
    if (kind == DELETE || kind == UPDATE) && !standing(first) {
        return Some(5);
    }
    if kind == INSERT && standing(first) || kind == UPDATE && second != first && standing(second) {
        return Some(6);
    }
    None
}

pub fn rectangle_in_order(rect: [i32; 4]) -> bool {
    let in_range = |word: &i32| (-1_000_000_000..=1_000_000_000).contains(word);
    rect.iter().all(in_range) && rect[0] <= rect[2] && rect[1] <= rect[3]
}

/// What is true of the pool after every request.
pub fn check_pool(pool: &[i32], in_force: &[Owned]) -> Result<(), String> {
    ensure(sound(pool), "the pool is not sound")?;
    let mut held = records_in_leaves(pool);
    let mut records = in_force.to_vec();
    held.sort();
    records.sort();
    ensure(held == records, "the records held are not those in force")?;
    ensure(pool[3] as usize == records.len(), "word 3 is not the number of records")?;
    // "Ours: h = 1, or 2·3^(h-1) ≤ n", where "n .. counts both owners'".
    let height = pool[2] as u32;
    ensure(height == 1 || 2 * 3_usize.pow(height - 1) <= records.len(), "the tree is too tall")
}

/// The pairs in force that the search asks for, in the document's order.
pub fn brute_force(in_force: &[Pair], search: &Request) -> Vec<Found> {
    let mut list: Vec<Found> = in_force
        .iter()
        .filter(|pair| asked_for(&pair.rect, search))
        .map(|pair| {
            let [low_x, low_y, high_x, high_y] = pair.rect.to_words();
            Found { number: pair.number.0 as i32, low_x, low_y, high_x, high_y }
        })
        .collect();
    list.sort_by_key(|f| (f.number, f.low_x, f.low_y, f.high_x, f.high_y));
    list
}

/// Whether a record is asked for: "inside" where it lies in the window, "enclosing" where it holds
/// the window, else where it does not miss the window. Told side by side, and not by the
/// comparison that the search uses.
fn asked_for(record: &Rect, search: &Request) -> bool {
    let [low_x, low_y, high_x, high_y] = search.first.map(i64::from);
    let Rect { low_x: left, low_y: bottom, high_x: right, high_y: top } = *record;
    match search.kind {
        INSIDE => !(left < low_x || right > high_x || bottom < low_y || top > high_y),
        ENCLOSING => !(left > low_x || right < high_x || bottom > low_y || top < high_y),
        _ => !(right < low_x || left > high_x || top < low_y || bottom > high_y),
    }
}

/// The root, and every other node in use whose cover meets the window; whatever the mode. In edition
/// 2 "Opened is reported as 0".
pub fn opened_due(pool: &[i32], window: [i32; 4]) -> i32 {
    if Edition::of(pool) == Edition::Two {
        return 0;
    }
    let window = Rect::from_words(window);
    let slots = slots_of(pool).expect("a pool of valid length");
    let others = (1..=slots).filter(|&s| s as i32 != pool[1]);
    let met = others.filter(|&s| {
        let rects: Vec<Rect> = entries(pool, Slot(s)).iter().map(EntryWords::rect).collect();
        cover(&rects).is_some_and(|cover| meets(&cover, &window))
    });
    1 + met.count() as i32
}

/// The list is at the front; "places beyond stay".
pub fn check_found_list(found: &[Found], written: &[Found]) -> Result<(), String> {
    let (front, beyond) = found.split_at(written.len());
    ensure(front == written, "the found list is another")?;
    ensure(beyond.iter().all(|f| *f == UNTOUCHED), "a place beyond was written")
}

/// The answer due to a request after some places have been written. "Accepted searches fill the
/// found list one after another, start being the number of places filled before".
pub fn answer_due(outcome: &Outcome, written: &mut Vec<Found>, places: usize) -> Answer {
    if !outcome.request.is_search() || outcome.number != 0 {
        return plain(outcome.number);
    }
    let (found, opened) = (outcome.list.len(), outcome.opened);
    if found > places - written.len() {
        return Answer { number: 8, found: found as i32, start: 0, opened };
    }
    let start = written.len() as i32;
    written.extend_from_slice(&outcome.list);
    Answer { number: 0, found: found as i32, start, opened }
}
