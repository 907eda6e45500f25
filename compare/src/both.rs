//! One call, made to the proved library and to the second program, over lists that were the same before.

use crate::lent::{Left, Lent};
use crate::margin::Among;
use crate::seen::Seen;
use crate::tally::Tally;
use second::{call_counting, Answer, Events, Found, Owner, Request};

mod exported {
    use dustmap::{Answer, Found, Request};

    // Declared here and not taken from `bindings/rust`, so that what lies beside each list is seen too. A list is a pointer and a count.
    extern "C" {
        pub fn dustmap_call_as(
            pool: *mut i32,
            pool_len: usize,
            work: *mut i32,
            work_len: usize,
            requests: *const Request,
            n_requests: usize,
            answers: *mut Answer,
            n_answers: usize,
            found: *mut Found,
            n_found: usize,
            owner: i32,
        ) -> i32;
    }
}

/// Lends the same lists to both. They have to return the same number and to leave every word of every list the same.
pub fn lend(what: &str, lent: &Lent, tally: &mut Tally, seen: &mut Seen) -> Left {
    lend_to(what, lent, None, tally, seen)
}

/// The same by the call that is told an owner, which may be any number.
pub fn lend_as(what: &str, lent: &Lent, owner: i32, tally: &mut Tally, seen: &mut Seen) -> Left {
    lend_to(what, lent, Some(owner), tally, seen)
}

fn lend_to(what: &str, lent: &Lent, told: Option<i32>, tally: &mut Tally, seen: &mut Seen) -> Left {
    let (mut ours, mut theirs) = (lent.clone(), lent.clone());
    let mut events = Events::default();
    // What is told no owner is owner 1's.
    let owner = told.unwrap_or(Owner::One.number());
    let number = to_second(&mut theirs, owner, &mut events);
    let fault = match to_library(&mut ours, told) {
        Ok(our_number) => difference(our_number, &ours, number, &theirs),
        Err(fault) => Some(fault),
    };
    tally.hold(fault.is_none(), || {
        let owner = told.map(|owner| format!(", owner {owner}")).unwrap_or_default();
        format!("{what}{owner}: {}", fault.unwrap_or_default())
    });
    seen.call(lent, owner, number, &theirs, &events);
    Left { number, lent: theirs }
}

fn to_second(lent: &mut Lent, owner: i32, events: &mut Events) -> i32 {
    let Lent { pool, work, requests, answers, found } = lent;
    call_counting(pool, work, requests, answers, found, owner, events)
}

/// The library has types of its own, made of the same words.
fn to_library(lent: &mut Lent, told: Option<i32>) -> Result<i32, String> {
    let requests: Vec<_> = lent.requests.iter().map(library_request).collect();
    let mut answers: Vec<_> = lent.answers.iter().map(library_answer).collect();
    let mut found: Vec<_> = lent.found.iter().map(library_found).collect();
    let (pool, work) = (&mut lent.pool, &mut lent.work);
    let number = match told {
        None => dustmap::call(pool, work, &requests, &mut answers, &mut found),
        Some(owner) => call_as(pool, work, &requests, &mut answers, &mut found, owner)?,
    };
    lent.answers = answers.iter().map(second_answer).collect();
    lent.found = found.iter().map(second_found).collect();
    Ok(number)
}

/// The library's call that is told an owner; an error where it wrote what it was not lent.
fn call_as(
    pool: &mut Vec<i32>,
    work: &mut Vec<i32>,
    requests: &[dustmap::Request],
    answers: &mut Vec<dustmap::Answer>,
    found: &mut Vec<dustmap::Found>,
    owner: i32,
) -> Result<i32, String> {
    let (mut words, mut scratch) = (Among::new(pool, 0x5A5A), Among::new(work, -0x5A5A));
    let mut answered = Among::new(answers, library_answer(&BESIDE_ANSWERS));
    let mut listed = Among::new(found, library_found(&BESIDE_FOUND));
    // SAFETY: each pointer and its count are those of one list that may hold anything, and no two overlap. The structs are `repr(C)` and made
    // of 32-bit words alone.
    let number = unsafe {
        exported::dustmap_call_as(
            words.pointer(),
            pool.len(),
            scratch.pointer(),
            work.len(),
            requests.as_ptr(),
            requests.len(),
            answered.pointer(),
            answers.len(),
            listed.pointer(),
            found.len(),
            owner,
        )
    };
    *pool = words.left("pool")?;
    *work = scratch.left("workspace")?;
    *answers = answered.left("answer list")?;
    *found = listed.left("found list")?;
    Ok(number)
}

/// What lies beside the lists.
const BESIDE_ANSWERS: Answer = Answer { number: 71, found: 72, start: 73, opened: 74 };
const BESIDE_FOUND: Found = Found { number: 75, low_x: 76, low_y: 77, high_x: 78, high_y: 79 };

fn library_request(request: &Request) -> dustmap::Request {
    let Request { kind, number, first, second } = *request;
    let rect = dustmap::Rect::from_words;
    dustmap::Request { kind, number, first: rect(first), second: rect(second) }
}

fn library_answer(answer: &Answer) -> dustmap::Answer {
    let Answer { number, found, start, opened } = *answer;
    dustmap::Answer {
        number: number as u32,
        found: found as u32,
        start: start as u32,
        opened: opened as u32,
    }
}

fn second_answer(answer: &dustmap::Answer) -> Answer {
    let dustmap::Answer { number, found, start, opened } = *answer;
    Answer {
        number: number as i32,
        found: found as i32,
        start: start as i32,
        opened: opened as i32,
    }
}

fn library_found(found: &Found) -> dustmap::Found {
    let Found { number, low_x, low_y, high_x, high_y } = *found;
    dustmap::Found { number, rect: dustmap::Rect { low_x, low_y, high_x, high_y } }
}

fn second_found(found: &dustmap::Found) -> Found {
    let [low_x, low_y, high_x, high_y] = found.rect.to_words();
    Found { number: found.number, low_x, low_y, high_x, high_y }
}

/// The first thing in which the library and the second program differ.
fn difference(our_number: i32, ours: &Lent, number: i32, theirs: &Lent) -> Option<String> {
    if our_number != number {
        return Some(format!("returned {our_number}, and the second program {number}"));
    }
    first_place("answer", &ours.answers, &theirs.answers)
        .or_else(|| first_place("word of the pool", &ours.pool, &theirs.pool))
        .or_else(|| first_place("word of the workspace", &ours.work, &theirs.work))
        .or_else(|| first_place("place of the found list", &ours.found, &theirs.found))
        .map(|place| format!("returned {number}; {place}"))
}

/// The first place in which two lists differ.
pub fn first_place<T: PartialEq + std::fmt::Debug>(what: &str, a: &[T], b: &[T]) -> Option<String> {
    let place = a.iter().zip(b).position(|(x, y)| x != y)?;
    Some(format!("{what} {place} is {:?}, and the second program's {:?}", a[place], b[place]))
}
