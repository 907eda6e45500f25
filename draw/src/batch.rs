//! Requests to the proved library.

use dustmap::{Answer, Found, Owner, Request, MOST_REQUESTS};

/// "a found list of 64": as `dustmap` has it.
const PLACES: usize = 64;

/// A batch of one of that owner over the pool.
pub fn one(pool: &mut [i32], owner: Owner, request: Request, found: &mut [Found]) -> Answer {
    call(pool, owner, &[request], found)[0]
}

/// The numbers that come back for owner 1's requests, in turn, as if each were a batch of one with a found list of 64. Changes are put
/// together in batches, since each call looks through the whole pool first; a search needs a found list of its own.
pub fn all(pool: &mut [i32], requests: &[Request]) -> Vec<u32> {
    let alike = |a: &Request, b: &Request| !a.is_search() && !b.is_search();
    let batches = requests.chunk_by(alike).flat_map(|run| run.chunks(MOST_REQUESTS));
    let mut numbers = Vec::new();
    for batch in batches {
        let answers = call(pool, Owner::One, batch, &mut [Found::default(); PLACES]);
        numbers.extend(answers.iter().map(|answer| answer.number));
    }
    numbers
}

fn call(pool: &mut [i32], owner: Owner, batch: &[Request], found: &mut [Found]) -> Vec<Answer> {
    let mut work = vec![0; pool.len()];
    let mut answers = vec![Answer::default(); batch.len()];
    let number = dustmap::call_as(pool, &mut work, batch, &mut answers, found, owner);
    assert_eq!(number, 0, "a pool made by requests is sound");
    answers
}
