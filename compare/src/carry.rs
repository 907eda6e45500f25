//! "Carry the map between offices": a file written and a file read, each call made to the proved library and to the second program, over lists
//! that were the same before. Of either edition: what is read as edition 1 goes through the call that is told nothing.

use crate::both::first_place;
use crate::carry_met;
use crate::margin::Among;
use crate::seen::Seen;
use crate::spoil::garbage_words;
use crate::tally::Tally;
use second::dice::Dice;
use second::edition::told;
use second::files::{line, Case};
use second::files_kept::pool_holding;
use second::pool::blank_pool_of;
use second::Edition;

/// A difference is shown with its case, as a line for `second carry`, where that is no longer than this.
const LONGEST_SHOWN: usize = 3_000;

mod exported {
    // Declared here and not taken from `bindings/rust`, so that what lies beside each list is seen too, and `length` beside a refusal.
    // A list is a pointer and a count; `length` is one place, which is written beside a refusal too.
    extern "C" {
        pub fn dustmap_write(
            pool: *const i32,
            pool_len: usize,
            file: *mut u8,
            file_len: usize,
            length: *mut u64,
        ) -> i32;
        pub fn dustmap_read(
            pool: *mut i32,
            pool_len: usize,
            work: *mut i32,
            work_len: usize,
            file: *const u8,
            file_len: usize,
        ) -> i32;
        pub fn dustmap_read_as(
            pool: *mut i32,
            pool_len: usize,
            work: *mut i32,
            work_len: usize,
            file: *const u8,
            file_len: usize,
            edition: i32,
            rule: i32,
        ) -> i32;
    }
}

/// What a write leaves: the number, how many bytes the file has, and the buffer.
pub struct Written {
    pub number: i32,
    pub length: u64,
    pub buffer: Vec<u8>,
}

/// What a read leaves.
pub struct Read {
    pub number: i32,
    pub pool: Vec<i32>,
    pub work: Vec<i32>,
}

/// Calls in progress, between offices whose pools are of an edition.
pub struct Carrying<'a> {
    pub edition: Edition,
    pub dice: &'a mut Dice,
    pub tally: &'a mut Tally,
    pub seen: &'a mut Seen,
}

/// The edition and the rule that a reader is told, by their numbers, which may be any.
pub type Told = (i32, i32);

impl<'a> Carrying<'a> {
    /// Between pools of edition 1.
    pub fn new(dice: &'a mut Dice, tally: &'a mut Tally, seen: &'a mut Seen) -> Carrying<'a> {
        Carrying { edition: Edition::One, dice, tally, seen }
    }

    /// Lends the same pool and buffer to both writers. What comes back is what the second program left.
    pub fn write(&mut self, what: &str, pool: &[i32], buffer: Vec<u8>) -> Written {
        let ours = library_write(pool, &buffer);
        let mut left = buffer.clone();
        let (number, length) = second::write(pool, &mut left);
        let theirs = Written { number, length: length as u64, buffer: left };
        let fault = ours.map_or_else(Some, |ours| write_difference(&ours, &theirs));
        self.hold(what, fault, || Case::Write { pool: pool.to_vec(), buffer: buffer.clone() });
        carry_met::write(pool, &buffer, &theirs, self.seen);
        theirs
    }

    /// The same for both readers.
    pub fn read(&mut self, what: &str, pool: Vec<i32>, work: Vec<i32>, file: &[u8]) -> Read {
        match self.edition {
            Edition::One => self.read_by(what, pool, work, file, None),
            Edition::Two => self.read_by(what, pool, work, file, Some((2, 0))),
        }
    }

    /// The same for both readers that are told an edition and a rule, or nothing.
    pub fn read_by(
        &mut self,
        what: &str,
        pool: Vec<i32>,
        work: Vec<i32>,
        file: &[u8],
        told: Option<Told>,
    ) -> Read {
        let ours = library_read(&pool, &work, file, told);
        let mut theirs = Read { number: 0, pool: pool.clone(), work: work.clone() };
        let (left, scratch) = (&mut theirs.pool, &mut theirs.work);
        theirs.number = match told {
            None => second::read(left, scratch, file),
            Some((edition, rule)) => second::read_as(left, scratch, file, edition, rule),
        };
        let fault = ours.map_or_else(Some, |ours| read_difference(&ours, &theirs));
        carry_met::read(edition_of(told), &pool, &work, file, &theirs, self.seen);
        let file = file.to_vec();
        self.hold(what, fault, || match told {
            None => Case::Read { pool, work, file },
            Some((edition, rule)) => Case::ReadAs { pool, work, file, edition, rule },
        });
        theirs
    }

    /// A case of the second program.
    pub fn case(&mut self, what: &str, case: Case) {
        match case {
            Case::Write { pool, buffer } => drop(self.write(what, &pool, buffer)),
            Case::Read { pool, work, file } => drop(self.read_by(what, pool, work, &file, None)),
            Case::ReadAs { pool, work, file, edition, rule } => {
                self.read_by(what, pool, work, &file, Some((edition, rule)));
            }
        }
    }

    /// A read into so many slots, with old content in pool and workspace.
    pub fn read_into(&mut self, what: &str, slots: usize, file: &[u8]) -> Read {
        let pool = self.old_pool(slots);
        let work = self.old_workspace(&pool);
        self.read(what, pool, work, file)
    }

    /// "2 for the writer only": of a pool that is read into only the length counts. It is blank, or a map, or no pool at all.
    fn old_pool(&mut self, slots: usize) -> Vec<i32> {
        let (edition, record) = (self.edition, [9, 1, 2, 3, 4]);
        match self.dice.below(4) {
            0 => blank_pool_of(edition, slots),
            1 if edition == Edition::One => pool_holding(slots, &[record]),
            1 => pool_holding(slots, &[[2, 9, 1, 2, 3, 4]]),
            _ => garbage_words(self.dice, edition.words(slots)),
        }
    }

    /// The workspace is scratch: what it holds before a call does not matter.
    fn old_workspace(&mut self, pool: &[i32]) -> Vec<i32> {
        match self.dice.below(4) {
            0 => pool.to_vec(),
            1 => vec![0; pool.len()],
            _ => garbage_words(self.dice, pool.len()),
        }
    }

    fn hold(&mut self, what: &str, fault: Option<String>, case: impl FnOnce() -> Case) {
        self.tally.hold(fault.is_none(), || {
            let case = Some(line(&case())).filter(|line| line.len() <= LONGEST_SHOWN);
            format!("{what}: {}\n  {}", fault.unwrap_or_default(), case.unwrap_or_default())
        });
    }
}

/// What the library's writer leaves; an error where it wrote what it was not lent.
fn library_write(pool: &[i32], buffer: &[u8]) -> Result<Written, String> {
    let (mut bytes, mut length) = (Among::new(buffer, 0xA5), Among::new(&[u64::MAX / 3], 77));
    // SAFETY: each pointer and its count are those of one list that may hold anything, `length` is one place, and no two overlap.
    let number = unsafe {
        exported::dustmap_write(
            pool.as_ptr(),
            pool.len(),
            bytes.pointer(),
            buffer.len(),
            length.pointer(),
        )
    };
    Ok(Written { number, length: length.left("length")?[0], buffer: bytes.left("buffer")? })
}

/// The edition that the reader goes by; none where there is no such edition or rule.
fn edition_of(by: Option<Told>) -> Option<Edition> {
    match by {
        None => Some(Edition::One),
        Some((edition, rule)) => told(edition, rule),
    }
}

/// What the library's reader leaves: the one that is told an edition and a rule, or the one that is told nothing.
fn library_read(
    pool: &[i32],
    work: &[i32],
    file: &[u8],
    told: Option<Told>,
) -> Result<Read, String> {
    let (mut words, mut scratch) = (Among::new(pool, 0x5A5A), Among::new(work, -0x5A5A));
    let (pool_at, work_at) = (words.pointer(), scratch.pointer());
    let (n, m, bytes, k) = (pool.len(), work.len(), file.as_ptr(), file.len());
    // SAFETY: as above.
    let number = unsafe {
        match told {
            None => exported::dustmap_read(pool_at, n, work_at, m, bytes, k),
            Some((edition, rule)) => {
                exported::dustmap_read_as(pool_at, n, work_at, m, bytes, k, edition, rule)
            }
        }
    };
    Ok(Read { number, pool: words.left("pool")?, work: scratch.left("workspace")? })
}

/// The first thing in which the library and the second program differ.
fn write_difference(ours: &Written, theirs: &Written) -> Option<String> {
    let said = |left: &Written| (left.number, left.length);
    if said(ours) != said(theirs) {
        let ((number, length), (n, l)) = (said(ours), said(theirs));
        return Some(format!("returned {number}, length {length}; the second program {n}, {l}"));
    }
    let place = first_place("byte of the buffer", &ours.buffer, &theirs.buffer)?;
    Some(format!("returned {}; {place}", theirs.number))
}

fn read_difference(ours: &Read, theirs: &Read) -> Option<String> {
    if ours.number != theirs.number {
        let (ours, theirs) = (ours.number, theirs.number);
        return Some(format!("returned {ours}, and the second program {theirs}"));
    }
    let place = first_place("word of the pool", &ours.pool, &theirs.pool)
        .or_else(|| first_place("word of the workspace", &ours.work, &theirs.work))?;
    Some(format!("returned {}; {place}", theirs.number))
}
