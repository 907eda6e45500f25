//! What the files written and read met, by name, so that a run can say that it met every case.

use crate::carry::{Read, Written};
use crate::seen::Seen;
use second::carry::distinct_records;
use second::pool::slots_of;
use second::{sound, Edition};

/// A file with no record, and what each record adds.
pub const LEAST_FILE: usize = 16;

pub fn record_bytes(edition: Edition) -> usize {
    match edition {
        Edition::One => 24,
        Edition::Two => 28,
    }
}

/// "1 first, then 2 for the writer only; 8 if its buffer is short"
const WRITE_NUMBERS: [i32; 4] = [0, 1, 2, 8];

/// "10 .. then 3, 4, then 11 .. then 7", what refuses a frame, in the order of checks.
pub const FRAME_REFUSALS: [i32; 5] = [10, 3, 4, 11, 7];

/// Slots of pools that have to be written, and of pools that have to be read into.
pub const SIZES: [usize; 14] = [1, 2, 3, 4, 5, 6, 7, 8, 9, 10, 11, 12, 128, 4_096];

/// More records than a batch has requests.
const MANY: usize = 1_024;

/// What is seen of a call by what was lent and what came back; and what only those know who made a pool or a file, and note there.
const WANTED: &[&str] = &[
    "write 1 where 8 was due too",
    "write 2 where 8 was due too",
    "write 8, no bytes at all",
    "write 8, a byte short",
    "write 8, room for the last frame alone is missing",
    "write into a buffer just long enough",
    "write into a buffer with bytes beyond",
    "write of no records",
    "write of more than 1,024 records",
    "write that drops a pair",
    "write that drops a pair, with no room for it",
    "write that drops a pair, 8",
    "write of a pair held as often as a pool can hold it",
    "write of as many records as a pool can hold",
    "write into a buffer of every length",
    "write and read over a pool of every length",
    "read 1 for the pool's length",
    "read 1 for the workspace's length",
    "read 1 where 10 was due too",
    "read 0 over a map",
    "read 0 over no pool at all",
    "read refused over a map",
    "read refused over no pool at all",
    "read 0, the workspace was unlike the pool",
    "read refused, the workspace was unlike the pool",
    "read of no records",
    "read of more than 1,024 records",
    "read refused after more than 1,024 records",
    "read of 2N + 1 records into N slots",
    "round trip into as many slots",
    "round trip into fewer slots",
    "round trip into more slots",
    "round trip into just enough slots",
    "round trip of a map with a pair held twice",
    "read 7 of a written file, as many slots",
    "read 7 of a written file, a slot less than it needs",
    "call over a pool that a read left",
    "call over a shorter pool that a read left",
    "file cut at every byte",
    "file with every byte changed to every other",
    "file with every byte left out",
    "file with a byte put in at every place",
    "file with bytes after the end",
    "file with neighbours swapped at every place",
    "file with equal neighbours at every place",
    "file with records in any order",
    "file with every frame left out",
    "file with every frame twice",
    "file with a wrong edition",
    "file with a count one too small",
    "file with a count one too large",
    "file with a count below zero",
    "file with a huge count",
    "file with faults in one frame",
    "file of any bytes",
    "file of any frames",
    "read 7 at the ninth record, the first that can have it",
    "read 0 of as many records as there are slots for",
    "read 7 at the last record",
    "read 7 with records after it",
    "read 7 before a cut frame",
    "read 10 of the record that has no slot, cut",
    "read 10 for a count that leaves out the record with no slot",
];

/// Everything that has to be met.
pub fn wanted() -> Vec<String> {
    let mut names: Vec<String> = WRITE_NUMBERS.map(|number| format!("write {number}")).into();
    names.extend([0, 1].iter().chain(&FRAME_REFUSALS).map(|number| format!("read {number}")));
    names.extend(WANTED.iter().map(|name| name.to_string()));
    for slots in SIZES {
        names.extend(["write 0", "read 0"].map(|what| of_size(what, slots)));
    }
    for (place, first) in FRAME_REFUSALS.iter().enumerate() {
        names.extend(FRAME_REFUSALS[place + 1..].iter().map(|other| in_one_frame(*first, *other)));
        names.extend(FRAME_REFUSALS.iter().map(|other| in_two_frames(*first, *other)));
    }
    names
}

/// Both are due for the same frame: the order of checks decides.
pub fn in_one_frame(number: i32, other: i32) -> String {
    format!("read {number} where {other} was due too")
}

/// "the first frame at fault decides"
pub fn in_two_frames(number: i32, other: i32) -> String {
    format!("read {number} before a frame with {other}")
}

/// Takes in a write.
pub fn write(pool: &[i32], buffer: &[u8], left: &Written, seen: &mut Seen) {
    let number = left.number;
    seen.note(format!("write {number}"));
    if number == 1 || number == 2 {
        if buffer.len() < LEAST_FILE {
            seen.note(format!("write {number} where 8 was due too"));
        }
        return;
    }
    let (held, distinct) = (pool[3] as usize, distinct_records(pool).len());
    let record = record_bytes(Edition::of(pool));
    let (due, room) = (LEAST_FILE + record * distinct, buffer.len());
    let (written, short, drops) = (number == 0, number == 8, distinct < held);
    let room_for_all = room >= LEAST_FILE + record * held;
    seen.note_those([
        ("write 8, no bytes at all", short && room == 0),
        ("write 8, a byte short", short && room + 1 == due),
        ("write 8, room for the last frame alone is missing", short && room + 4 == due),
        ("write into a buffer just long enough", written && room == due),
        ("write into a buffer with bytes beyond", written && room > due),
        ("write of no records", written && distinct == 0),
        ("write of more than 1,024 records", written && distinct > MANY),
        ("write that drops a pair", written && drops),
        ("write that drops a pair, with no room for it", written && drops && !room_for_all),
        ("write that drops a pair, 8", short && drops),
    ]);
    note_size("write 0", written, slots_of(pool), seen);
}

/// Takes in a read that goes by an edition, or by none that there is.
pub fn read(
    edition: Option<Edition>,
    pool: &[i32],
    work: &[i32],
    file: &[u8],
    left: &Read,
    seen: &mut Seen,
) {
    let number = left.number;
    seen.note(format!("read {number}"));
    let Some(edition) = edition else {
        return;
    };
    let slots = edition.slots_of(pool.len());
    if number == 1 {
        let pool_fits = slots.is_some();
        seen.note_those([
            ("read 1 for the pool's length", !pool_fits && work.len() == pool.len()),
            ("read 1 for the workspace's length", pool_fits),
            ("read 1 where 10 was due too", file.len() < LEAST_FILE),
        ]);
        return;
    }
    let (taken, no_pool, unlike) = (number == 0, !sound(pool), work != pool);
    let map = !no_pool && pool[3] > 0;
    let records = left.pool[3];
    seen.note_those([
        ("read 0 over a map", taken && map),
        ("read 0 over no pool at all", taken && no_pool),
        ("read refused over a map", !taken && map),
        ("read refused over no pool at all", !taken && no_pool),
        ("read 0, the workspace was unlike the pool", taken && unlike),
        ("read refused, the workspace was unlike the pool", !taken && unlike),
        ("read of no records", taken && records == 0),
        ("read of more than 1,024 records", taken && records as usize > MANY),
    ]);
    note_size("read 0", taken, slots, seen);
}

fn note_size(what: &str, accepted: bool, slots: Option<usize>, seen: &mut Seen) {
    if let Some(slots) = slots.filter(|slots| accepted && SIZES.contains(slots)) {
        seen.note(of_size(what, slots));
    }
}

pub fn of_size(what: &str, slots: usize) -> String {
    format!("{what}, slots: {slots}")
}
