//! What is true of the pool of a history that is carried between offices (document 02, Req 02, and
//! Req 07 for a pool of two owners).
//!
//! Nothing here uses the code of the two calls but through `write` and `read_as`: what they have to
//! give is read from the documents again, over the list of records in force.

use crate::call::{call_as, Request, MOST_REQUESTS};
use crate::carry::{read_as, write};
use crate::edition::{Edition, Owner};
use crate::plain::{ensure, plain};
use crate::pool::{blank_pool_of, records_in_leaves, slots_of, Owned, Pair};
use crate::sound::sound;

/// What is in the buffer before the call.
const UNTOUCHED: u8 = 0x55;

/// Writes the pool and reads the file, into a pool of the same length and into one where slots are
/// to spare. Gives the number of the first read, which is 0 or 7.
pub fn check(pool: &[i32], in_force: &[Owned]) -> Result<i32, String> {
    let edition = Edition::of(pool);
    let mut records = in_force.to_vec();
    records.sort_by_key(|Owned { owner, pair: p }| {
        let owner = owner.map_or(0, Owner::number);
        (owner, p.number, p.rect.low_x, p.rect.low_y, p.rect.high_x, p.rect.high_y)
    });
    let file = file_due(edition, &records);
    check_written(pool, &file)?;
    let slots = slots_of(pool).expect("a pool of valid length");
    let number = check_read(edition, slots, &records, &file)?;
    // With three entries in each node and more, half as many nodes as records are enough.
    let roomy = check_read(edition, slots * 4 + 4, &records, &file)?;
    ensure(roomy == 0, "a read was refused where slots are to spare")?;
    Ok(number)
}

/// "kind 16 first (edition 1, record count), then kind 17 per record (number, rectangle) in found
/// order, kind 18 last with no words"; "edition 2 with kind 19 (owner, then as 17)".
fn file_due(edition: Edition, records: &[Owned]) -> Vec<u8> {
    let mut file = vec![10, 0, 16, 0, edition.number() as u8, 0, 0, 0];
    file.extend((records.len() as i32).to_le_bytes());
    for Owned { owner, pair } in records {
        match owner {
            None => file.extend([22, 0, 17, 0]),
            Some(owner) => file.extend([26, 0, 19, 0, owner.number() as u8, 0, 0, 0]),
        }
        let rect = pair.rect;
        for word in [pair.number.0, rect.low_x, rect.low_y, rect.high_x, rect.high_y] {
            file.extend((word as i32).to_le_bytes());
        }
    }
    file.extend([2, 0, 18, 0]);
    file
}

/// The file is at the front, and bytes after it stay. In a buffer one byte short: 8, and nothing
/// else.
fn check_written(pool: &[i32], file: &[u8]) -> Result<(), String> {
    let mut buffer = vec![UNTOUCHED; file.len() + 7];
    ensure(write(pool, &mut buffer) == (0, file.len()), "a write was refused")?;
    ensure(buffer[..file.len()] == *file, "the file is another")?;
    ensure(untouched(&buffer[file.len()..]), "a byte after the file was written")?;
    let mut short = vec![UNTOUCHED; file.len() - 1];
    ensure(write(pool, &mut short) == (8, 0), "a short buffer was taken")?;
    ensure(untouched(&short), "a short buffer was written")
}

fn untouched(bytes: &[u8]) -> bool {
    bytes.iter().all(|&byte| byte == UNTOUCHED)
}

/// "a reader blanks a pool and inserts in file order": what batches of inserts do, and the same
/// pool. "Where a read of a written file is accepted, writing again gives the same bytes."
fn check_read(
    edition: Edition,
    slots: usize,
    records: &[Owned],
    file: &[u8],
) -> Result<i32, String> {
    let (due, filled) = inserted(edition, slots, records);
    let before = vec![-1; filled.len()];
    let (mut pool, mut work) = (before.clone(), vec![-2; filled.len()]);
    let number = read_as(&mut pool, &mut work, file, edition.number(), 0);
    ensure(number == due, "a read gives another number than the inserts")?;
    ensure(work == pool, "the workspace differs from the pool")?;
    if number != 0 {
        ensure(pool == before, "a refused read changed the pool")?;
        return Ok(number);
    }
    ensure(pool == filled, "a read leaves another pool than the inserts")?;
    ensure(sound(&pool), "the pool that was read is not sound")?;
    ensure(records_in_leaves(&pool).len() == records.len(), "a record is lost")?;
    check_written(&pool, file)?;
    Ok(0)
}

/// The number of the first insert that is refused, and the pool that the inserts leave. Each owner's
/// records are inserted by that owner; those of edition 1 by either, since both see it alike.
fn inserted(edition: Edition, slots: usize, records: &[Owned]) -> (i32, Vec<i32>) {
    let mut pool = blank_pool_of(edition, slots);
    let mut numbers = Vec::new();
    for run in records.chunk_by(|one, next| one.owner == next.owner) {
        let owner = run[0].owner.unwrap_or(Owner::Two).number();
        for batch in run.chunks(MOST_REQUESTS) {
            let insert = |pair: Pair| Request::insert(pair.number.0 as i32, pair.rect.to_words());
            let requests: Vec<Request> = batch.iter().map(|record| insert(record.pair)).collect();
            let (mut work, mut answers) = (pool.clone(), vec![plain(-1); requests.len()]);
            let number = call_as(&mut pool, &mut work, &requests, &mut answers, &mut [], owner);
            numbers.push(number);
            numbers.extend(answers.iter().map(|answer| answer.number));
        }
    }
    (numbers.into_iter().find(|&number| number != 0).unwrap_or(0), pool)
}
