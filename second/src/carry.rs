//! "Carry the map between offices" (document 02, Req 02): the records of a pool in one file, and
//! a pool from such a file. "the file of Req 02 gains edition 2 with kind 19 (owner, then as 17),
//! ordered by owner first" (Req 07).

use crate::edition::{told, Edition, Owner, NO_SUCH, OTHER_OWNER};
use crate::frames::{frame, length_of, take_frame};
use crate::geometry::Rect;
use crate::pool::{blank_pool_of, records_in_leaves, slots_of, Map, Owned, Pair, RecordNumber};
use crate::sound::sound;
use crate::tree::NoSlotFree;

/// "kind 16 first (edition 1, record count)"
pub const HEAD: u16 = 16;

/// "then kind 17 per record (number, rectangle) in found order"
pub const RECORD: u16 = 17;

/// "kind 18 last with no words"
pub const LAST: u16 = 18;

/// "kind 19 (owner, then as 17)"
pub const OWNED_RECORD: u16 = 19;

/// "10 for a wrong frame, edition or count, or bytes after kind 18"
pub const WRONG_FRAME: i32 = 10;

/// "11 for a record not after its predecessor"
pub const NOT_AFTER: i32 = 11;

/// "A writer fills the front of a lent buffer": the number, and the bytes written. "1 first, then
/// 2 ..; 8 if its buffer is short". Beside a refusal nothing is written, and the length is 0. The
/// file has the edition of the pool.
pub fn write(pool: &[i32], buffer: &mut [u8]) -> (i32, usize) {
    if slots_of(pool).is_none() {
        return (1, 0);
    }
    if !sound(pool) {
        return (2, 0);
    }
    let file = file_of(Edition::of(pool), &distinct_records(pool));
    if buffer.len() < file.len() {
        return (8, 0);
    }
    buffer[..file.len()].copy_from_slice(&file);
    (0, file.len())
}

/// "a reader blanks a pool and inserts in file order", one of edition 1.
pub fn read(pool: &mut [i32], work: &mut [i32], file: &[u8]) -> i32 {
    read_told(pool, work, file, Edition::One)
}

/// "Blanking and reading are told the edition, by an enum that has no other, and go by it."
pub fn read_as(pool: &mut [i32], work: &mut [i32], file: &[u8], edition: i32, rule: i32) -> i32 {
    match told(edition, rule) {
        Some(edition) => read_told(pool, work, file, edition),
        None => NO_SUCH,
    }
}

/// "1 first"; of the pool only the length is looked at ("2 for the writer only"), and it is measured
/// by the edition told. A call refused 1 "writes nothing at all".
fn read_told(pool: &mut [i32], work: &mut [i32], file: &[u8], edition: Edition) -> i32 {
    let slots = match edition.slots_of(pool.len()) {
        Some(slots) if work.len() == pool.len() => slots,
        _ => return 1,
    };
    let number = match map_of(file, edition, slots) {
        Ok(map) => {
            map.write(pool);
            0
        }
        Err(number) => number,
    };
    // "On return 0 the workspace equals the pool", and "a read refused past 1 leaves the pool, and
    // its workspace equal to it".
    work.copy_from_slice(pool);
    number
}

/// The records of a sound pool by owner, then in found order. "The writer drops a pair held twice":
/// twice by one owner, since "a pair counts as held per owner".
pub fn distinct_records(pool: &[i32]) -> Vec<Owned> {
    let mut records = records_in_leaves(pool);
    records.sort();
    records.dedup();
    records
}

/// The file of some records: the count "counts distinct pairs".
fn file_of(edition: Edition, records: &[Owned]) -> Vec<u8> {
    let count = i32::try_from(records.len()).expect("a pool holds fewer records");
    let mut file = frame(HEAD, &[edition.number(), count]);
    for record in records {
        file.extend(frame(record_kind(edition), &record_words(record)));
    }
    file.extend(frame(LAST, &[]));
    file
}

/// The kind of a record's frame.
fn record_kind(edition: Edition) -> u16 {
    match edition {
        Edition::One => RECORD,
        Edition::Two => OWNED_RECORD,
    }
}

/// "number, rectangle"; of a record that has an owner, "owner, then as 17".
pub fn record_words(record: &Owned) -> Vec<i32> {
    let owner = record.owner.map(Owner::number);
    owner.into_iter().chain(words_of(&record.pair)).collect()
}

/// "number, rectangle"
pub fn words_of(pair: &Pair) -> [i32; 5] {
    let number = i32::try_from(pair.number.0).expect("a record number fits a word");
    let [low_x, low_y, high_x, high_y] = pair.rect.to_words();
    [number, low_x, low_y, high_x, high_y]
}

/// The map that a file gives, from a blank pool of so many slots; or the number of the first frame
/// at fault.
fn map_of(file: &[u8], edition: Edition, slots: usize) -> Result<Map, i32> {
    let mut map = Map::read(&blank_pool_of(edition, slots));
    let mut rest = file;
    let mut before = None;
    for _ in 0..record_count(&mut rest, edition)? {
        let record = next_record(&mut rest, edition, before.as_ref())?;
        map.insert(&record).map_err(|NoSlotFree| 7)?;
        before = Some(record);
    }
    last_frame(&mut rest)?;
    Ok(map)
}

/// "kind 16 first (edition 1, record count)". The edition has to be the one told. A negative count
/// is at fault here; any other says how many frames of records are due.
fn record_count(rest: &mut &[u8], told: Edition) -> Result<i32, i32> {
    let words = words_due(rest, HEAD, 2)?;
    let (edition, count) = (words[0], words[1]);
    if edition != told.number() || count < 0 {
        return Err(WRONG_FRAME);
    }
    Ok(count)
}

/// The record of the next frame. Within the frame: 10, "then 3, 4", 13 "in a file after 4", "then 11
/// for a record not after its predecessor"; 7 is left to the insert.
fn next_record(rest: &mut &[u8], edition: Edition, before: Option<&Owned>) -> Result<Owned, i32> {
    let words = words_due(rest, record_kind(edition), edition.entry_words())?;
    // A record has as many words as a leaf entry. In edition 2 the first is the owner.
    let (owner, words) = match edition {
        Edition::One => (None, &words[..]),
        Edition::Two => (Some(words[0]), &words[1..]),
    };
    let rect = Rect::from_words([words[1], words[2], words[3], words[4]]);
    let pair = Pair { number: RecordNumber(i64::from(words[0])), rect };
    if !pair.rect.valid() {
        return Err(3);
    }
    if pair.number.0 < 1 {
        return Err(4);
    }
    let owner = owner.map(|owner| Owner::numbered(owner).ok_or(OTHER_OWNER)).transpose()?;
    let record = Owned { owner, pair };
    // Records are ordered as in a file: by owner first, then as found records are. An equal one is
    // not after.
    if before.is_some_and(|before| record <= *before) {
        return Err(NOT_AFTER);
    }
    Ok(record)
}

/// "kind 18 last with no words", and no "bytes after kind 18".
fn last_frame(rest: &mut &[u8]) -> Result<(), i32> {
    words_due(rest, LAST, 0)?;
    if rest.is_empty() {
        Ok(())
    } else {
        Err(WRONG_FRAME)
    }
}

/// The words of the frame that is due. A frame of another kind or length in its place is wrong, and
/// so is a cut one, or none at all.
fn words_due(rest: &mut &[u8], kind: u16, words: usize) -> Result<Vec<i32>, i32> {
    match take_frame(rest) {
        Some(frame) if frame.kind == kind && frame.length == length_of(words) => Ok(frame.words()),
        _ => Err(WRONG_FRAME),
    }
}
