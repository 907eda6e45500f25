//! The proved map, for Rust: the functions of `bindings/dustmap.h` as safe ones.
//!
//! The numbers that come back are those of the header; `numbers` has a name and the words for each. A rectangle that a surveyor or
//! dispatch gives in doubles is made by `Rect::from_box`, `Rect::from_point` and `Rect::from_disc`. `room` tells beforehand whether
//! an insert fits. `write` and `read` carry a map between offices, as one file of its records.
//!
//! Two owners share a pool of edition 2: `blank_as` and `read_as` are told the edition, and `call_as` the owner. What is told is a
//! case of an enum here; `plain` has the same calls for any number.

pub mod numbers;
mod owners;
pub mod plain;

pub use owners::{Edition, Owner, Rule};

/// The words of a pool before its first slot, and of a slot of edition 1.
pub const HEAD_WORDS: usize = 8;
pub const SLOT_WORDS: usize = 42;

/// "Slots N: 1 to 4,096. A batch has 0 to 1,024 requests."
pub const MOST_SLOTS: usize = 4_096;
pub const MOST_REQUESTS: usize = 1_024;

pub const INSERT: i32 = 1;
pub const DELETE: i32 = 2;
pub const UPDATE: i32 = 3;
/// The three modes of a search: it lists the records that meet the window, those inside it, or those that enclose it.
pub const SEARCH: i32 = 4;
pub const SEARCH_INSIDE: i32 = 5;
pub const SEARCH_ENCLOSING: i32 = 6;

/// A closed rectangle in whole millimetres. The order of the fields is part of found order.
#[repr(C)]
#[derive(Clone, Copy, Debug, Default, PartialEq, Eq, PartialOrd, Ord)]
pub struct Rect {
    pub low_x: i32,
    pub low_y: i32,
    pub high_x: i32,
    pub high_y: i32,
}

/// Ten words. Fields that the kind does not use are not looked at.
#[repr(C)]
#[derive(Clone, Copy, Debug, Default, PartialEq, Eq)]
pub struct Request {
    pub kind: i32,
    pub number: i32,
    pub first: Rect,
    pub second: Rect,
}

/// Four words.
#[repr(C)]
#[derive(Clone, Copy, Debug, Default, PartialEq, Eq)]
pub struct Answer {
    pub number: u32,
    pub found: u32,
    pub start: u32,
    pub opened: u32,
}

/// A record found, five words. The derived order is found order: number, low x, low y, high x, high y.
#[repr(C)]
#[derive(Clone, Copy, Debug, Default, PartialEq, Eq, PartialOrd, Ord)]
pub struct Found {
    pub number: i32,
    pub rect: Rect,
}

/// What an insert would need of a pool, and what the pool has.
#[derive(Clone, Copy, Debug, Default, PartialEq, Eq)]
pub struct Room {
    /// The run of full nodes from the chosen leaf upward, and one more where it includes the root. At most the height plus one.
    pub needed: u32,
    /// The slots of level 0.
    pub free: u32,
}

impl Room {
    /// Whether the insert fits: it is not refused 7.
    pub fn fits(&self) -> bool {
        self.needed <= self.free
    }
}

impl Rect {
    pub const fn new(low_x: i32, low_y: i32, high_x: i32, high_y: i32) -> Rect {
        Rect { low_x, low_y, high_x, high_y }
    }

    /// The rectangle in four words: low x, low y, high x, high y.
    pub fn from_words([low_x, low_y, high_x, high_y]: [i32; 4]) -> Rect {
        Rect { low_x, low_y, high_x, high_y }
    }

    pub fn to_words(self) -> [i32; 4] {
        [self.low_x, self.low_y, self.high_x, self.high_y]
    }

    /// The rectangle of a box in doubles, in millimetres: a low becomes the largest whole number not above it, a high the
    /// smallest not below. No request is refused 3 for it. The error is the number 12, `numbers::BAD_SURVEY`.
    pub fn from_box(low_x: f64, low_y: f64, high_x: f64, high_y: f64) -> Result<Rect, i32> {
        // SAFETY: as for `blank`, for an array of four words; the function is proved for every double.
        written(|rect| unsafe { exported::dustmap_box(low_x, low_y, high_x, high_y, rect) })
    }

    /// The rectangle of a point: a box with low equal to high.
    pub fn from_point(x: f64, y: f64) -> Result<Rect, i32> {
        // SAFETY: as above.
        written(|rect| unsafe { exported::dustmap_point(x, y, rect) })
    }

    /// The window of a disc: the centre less and plus the radius in doubles, rounded outward, then one millimetre further.
    /// It holds the exact box of the disc and is less than 3 mm beyond it on each side. The error is as for a box.
    pub fn from_disc(x: f64, y: f64, radius: f64) -> Result<Rect, i32> {
        // SAFETY: as above.
        written(|rect| unsafe { exported::dustmap_disc(x, y, radius, rect) })
    }
}

/// The rectangle that a call has written, or the number by which it was refused.
fn written(call: impl FnOnce(&mut [i32; 4]) -> i32) -> Result<Rect, i32> {
    let mut rect = [0; 4];
    match call(&mut rect) {
        numbers::ACCEPTED => Ok(Rect::from_words(rect)),
        number => Err(number),
    }
}

impl Request {
    pub fn insert(number: i32, rect: Rect) -> Request {
        Request { kind: INSERT, number, first: rect, second: Rect::default() }
    }

    pub fn delete(number: i32, rect: Rect) -> Request {
        Request { kind: DELETE, number, first: rect, second: Rect::default() }
    }

    pub fn update(number: i32, old: Rect, new: Rect) -> Request {
        Request { kind: UPDATE, number, first: old, second: new }
    }

    /// For the records that meet the window; touching counts.
    pub fn search(window: Rect) -> Request {
        Request::search_of(SEARCH, window)
    }

    /// For those alone that lie inside the window, which may touch its sides from within. One equal to the window is inside.
    /// As many nodes are opened as in a search for all that meet the window.
    pub fn search_inside(window: Rect) -> Request {
        Request::search_of(SEARCH_INSIDE, window)
    }

    /// For those alone that enclose the window, one equal to it too. As many nodes are opened as in the other modes.
    pub fn search_enclosing(window: Rect) -> Request {
        Request::search_of(SEARCH_ENCLOSING, window)
    }

    fn search_of(kind: i32, window: Rect) -> Request {
        Request { kind, number: 0, first: window, second: Rect::default() }
    }

    /// Whether it is a search, of whatever mode.
    pub fn is_search(&self) -> bool {
        [SEARCH, SEARCH_INSIDE, SEARCH_ENCLOSING].contains(&self.kind)
    }
}

/// The words of a pool of edition 1 of so many slots; `Edition::words` has those of each edition.
pub const fn words(slots: usize) -> usize {
    Edition::One.words(slots)
}

/// Bytes that are always enough for the file of such a pool; `Edition::file_bytes` has those of each edition.
pub const fn file_bytes(slots: usize) -> usize {
    Edition::One.file_bytes(slots)
}

/// A blank pool of edition 1 of so many slots, 1 to 4,096; none for any other number.
pub fn blank_pool(slots: usize) -> Option<Vec<i32>> {
    blanked(slots, Edition::One, blank)
}

/// The same of that edition and rule.
pub fn blank_pool_as(slots: usize, edition: Edition, rule: Rule) -> Option<Vec<i32>> {
    blanked(slots, edition, |pool| blank_as(pool, edition, rule))
}

fn blanked(
    slots: usize,
    edition: Edition,
    blank: impl FnOnce(&mut [i32]) -> i32,
) -> Option<Vec<i32>> {
    if !(1..=MOST_SLOTS).contains(&slots) {
        return None;
    }
    let mut pool = vec![0; edition.words(slots)];
    (blank(&mut pool) == numbers::ACCEPTED).then_some(pool)
}

mod exported {
    use super::{Answer, Found, Request};

    // A slice is passed as two parameters, a pointer and a count; four words, two words, or a number to be written, as one
    // pointer.
    extern "C" {
        pub fn dustmap_blank(pool: *mut i32, pool_len: usize) -> i32;
        pub fn dustmap_blank_as(pool: *mut i32, pool_len: usize, edition: i32, rule: i32) -> i32;
        pub fn dustmap_check(pool: *const i32, pool_len: usize) -> i32;
        pub fn dustmap_call(
            pool: *mut i32,
            pool_len: usize,
            work: *mut i32,
            work_len: usize,
            requests: *const Request,
            n_requests: usize,
            answers: *mut Answer,
            n_answers: usize,
            found: *mut Found,
            n_found: usize,
        ) -> i32;
        pub fn dustmap_call_as(
            pool: *mut i32,
            pool_len: usize,
            work: *mut i32,
            work_len: usize,
            requests: *const Request,
            n_requests: usize,
            answers: *mut Answer,
            n_answers: usize,
            found: *mut Found,
            n_found: usize,
            owner: i32,
        ) -> i32;
        pub fn dustmap_room(
            pool: *const i32,
            pool_len: usize,
            rect: *const [i32; 4],
            slots: *mut [u32; 2],
        ) -> i32;
        pub fn dustmap_box(
            low_x: f64,
            low_y: f64,
            high_x: f64,
            high_y: f64,
            rect: *mut [i32; 4],
        ) -> i32;
        pub fn dustmap_point(x: f64, y: f64, rect: *mut [i32; 4]) -> i32;
        pub fn dustmap_disc(x: f64, y: f64, radius: f64, rect: *mut [i32; 4]) -> i32;
        pub fn dustmap_write(
            pool: *const i32,
            pool_len: usize,
            file: *mut u8,
            file_len: usize,
            length: *mut u64,
        ) -> i32;
        pub fn dustmap_read(
            pool: *mut i32,
            pool_len: usize,
            work: *mut i32,
            work_len: usize,
            file: *const u8,
            file_len: usize,
        ) -> i32;
        pub fn dustmap_read_as(
            pool: *mut i32,
            pool_len: usize,
            work: *mut i32,
            work_len: usize,
            file: *const u8,
            file_len: usize,
            edition: i32,
            rule: i32,
        ) -> i32;
    }
}

/// Blanks a pool, of edition 1 and with the quadratic split: 0, or 1 for a wrong length and nothing written.
pub fn blank(pool: &mut [i32]) -> i32 {
    // SAFETY: the pointer and the count are those of one slice, and its words may be any: the function is proved for
    // every list of words, and a proved function reads and writes no place outside the lists that it is lent.
    unsafe { exported::dustmap_blank(pool.as_mut_ptr(), pool.len()) }
}

/// The same for that edition, by which the length is measured, and that rule. Of the pool's words before that none is looked at.
pub fn blank_as(pool: &mut [i32], edition: Edition, rule: Rule) -> i32 {
    plain::blank_as(pool, edition as i32, rule as i32)
}

/// 1 for a wrong length, 2 for a pool that is not sound, else 0. Nothing is written. `Edition::of` says how a pool is measured.
pub fn check(pool: &[i32]) -> i32 {
    // SAFETY: as above; a list lent to be read is not written.
    unsafe { exported::dustmap_check(pool.as_ptr(), pool.len()) }
}

/// Does each request in turn, for owner 1: 0, or the refusal of the whole call, 9, 1, 2 or -1, and nothing written.
pub fn call(
    pool: &mut [i32],
    work: &mut [i32],
    requests: &[Request],
    answers: &mut [Answer],
    found: &mut [Found],
) -> i32 {
    // SAFETY: as above, for five lists. No two overlap where one is written, since they are borrowed at the same time. The
    // structs are `repr(C)` and made of 32-bit words alone, so they lie as the header says and every word is a valid field.
    unsafe {
        exported::dustmap_call(
            pool.as_mut_ptr(),
            pool.len(),
            work.as_mut_ptr(),
            work.len(),
            requests.as_ptr(),
            requests.len(),
            answers.as_mut_ptr(),
            answers.len(),
            found.as_mut_ptr(),
            found.len(),
        )
    }
}

/// The same as a batch of that owner. In a pool of edition 2 it sees and changes that owner's records only, holds a pair for that
/// owner, and reports no nodes opened; a pool of edition 1 serves both owners alike.
///
/// The owners share the tree and its slots. Where no request is refused 7, an owner's answers and found lists are the same whatever
/// the other owner's batches are. But whoever has the pool can read it, and `room` and `write` tell of both owners' records.
pub fn call_as(
    pool: &mut [i32],
    work: &mut [i32],
    requests: &[Request],
    answers: &mut [Answer],
    found: &mut [Found],
    owner: Owner,
) -> i32 {
    plain::call_as(pool, work, requests, answers, found, owner as i32)
}

/// What an insert of this rectangle would need, and what there is, in the pool as it is: requests made before the insert, in the
/// same batch or by the other owner too, may change both. An insert that nothing else is wrong with is refused 7 exactly where it
/// does not fit.
///
/// The error is a number, checked in this order: 1 for a wrong length of the pool, 2 for a pool that is not sound, 3 for a bad
/// rectangle.
pub fn room(pool: &[i32], rect: &Rect) -> Result<Room, i32> {
    let mut slots = [0; 2];
    match room_into(pool, rect.to_words(), &mut slots) {
        numbers::ACCEPTED => Ok(Room { needed: slots[0], free: slots[1] }),
        refusal => Err(refusal),
    }
}

/// As `room`, with the number as it comes back: the slots needed and the slots free are written beside 0, and nothing beside 1, 2
/// and 3.
pub fn room_into(pool: &[i32], rect: [i32; 4], slots: &mut [u32; 2]) -> i32 {
    // SAFETY: as above, for one list and two arrays; the rectangle's words may be any.
    unsafe { exported::dustmap_room(pool.as_ptr(), pool.len(), &rect, slots) }
}

/// Writes the records of a pool, in found order and each pair once, to the front of the list of bytes, and gives the length of the
/// file; bytes beyond stay. `file_bytes` are always enough. It keeps 512 KiB on the stack while it works. Of a pool of edition 2 the
/// file is of edition 2: owner 1's records, then owner 2's, each with its owner.
///
/// The error is a number, checked in this order, and then no byte is written: 1 for a wrong length of the pool, 2 for a pool that is
/// not sound, 8 for too few bytes.
pub fn write(pool: &[i32], file: &mut [u8]) -> Result<usize, i32> {
    let mut length = 0;
    // SAFETY: as above, for two lists and one number of our own.
    let number = unsafe {
        exported::dustmap_write(
            pool.as_ptr(),
            pool.len(),
            file.as_mut_ptr(),
            file.len(),
            &mut length,
        )
    };
    match number {
        numbers::ACCEPTED => Ok(length as usize),
        refusal => Err(refusal),
    }
}

/// Blanks the pool and inserts the records of a file of edition 1 in their order; the workspace then equals the pool. Of the pool's
/// words before that none is looked at. A pool of N slots takes every file of up to 2N + 1 records, and none of more than 8N.
///
/// The error is a number: 1 for a wrong length of the pool or the workspace, and nothing is written; otherwise what is wrong with
/// the first frame at fault, 10, 3, 4, 11 or 7, and then the pool is as it was and the workspace equal to it.
pub fn read(pool: &mut [i32], work: &mut [i32], file: &[u8]) -> Result<(), i32> {
    // SAFETY: as above, for three lists.
    let number = unsafe {
        exported::dustmap_read(
            pool.as_mut_ptr(),
            pool.len(),
            work.as_mut_ptr(),
            work.len(),
            file.as_ptr(),
            file.len(),
        )
    };
    accepted(number)
}

/// The same for a file of that edition, into a pool of that edition, by which the lengths are measured, and that rule. In edition 2
/// each record is inserted for its owner. The error is as above; a record whose owner is neither 1 nor 2 is 13, after 4 and before
/// 11, and a file of another edition is 10.
pub fn read_as(
    pool: &mut [i32],
    work: &mut [i32],
    file: &[u8],
    edition: Edition,
    rule: Rule,
) -> Result<(), i32> {
    accepted(plain::read_as(pool, work, file, edition as i32, rule as i32))
}

fn accepted(number: i32) -> Result<(), i32> {
    match number {
        numbers::ACCEPTED => Ok(()),
        refusal => Err(refusal),
    }
}

// The lengths that the header gives: ten, four and five words.
const _: () =
    assert!(size_of::<Request>() == 40 && size_of::<Answer>() == 16 && size_of::<Found>() == 20);
