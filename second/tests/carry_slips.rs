//! Slips that the two calls of Req 02 can be made with, each of which the kept cases show.
//!
//! Both calls are done here a second time, with their steps apart: a writer that walks down the
//! tree, and a reader that looks for each frame at the place where it is due. Done right they give
//! what `write` and `read` give; with one step wrong they give another outcome for some kept case.

mod common;

use common::frame;
use second::dice::Dice;
use second::files::{answered, outcome, Case, Outcome};
use second::files_drawn::drawn;
use second::files_kept::{file, kept, row};
use second::script::blank_pool;
use second::{call, sound, Answer, Edition, Request};

/// A record: number, low x, low y, high x, high y.
type Record = [i32; 5];

/// The steps of a writer.
#[derive(Clone, Copy)]
struct Writer {
    /// 0, or the number of a refusal; by the pool, the length of the buffer and that of the file.
    refusal: fn(&[i32], usize, usize) -> i32,
    /// The records of the file, from those of the pool in the order met.
    listed: fn(Vec<Record>) -> Vec<Record>,
    /// What the head says, by the pool and the records.
    count: fn(&[i32], &[Record]) -> usize,
    /// What a refusal leaves in the buffer, and the length that it reports.
    refused: fn(&mut [u8], &[u8]) -> usize,
    /// What is done to the bytes after the file.
    beyond: fn(&mut [u8]),
}

const RIGHT_WRITER: Writer = Writer {
    refusal: |pool, buffer, file| match (measured_right(pool), sound(pool), buffer >= file) {
        (false, _, _) => 1,
        (_, false, _) => 2,
        (_, _, false) => 8,
        _ => 0,
    },
    listed: |met| without_copies(sorted(met)),
    count: |_, records| records.len(),
    refused: |_, _| 0,
    beyond: |_| (),
};

fn length_right(pool: &[i32]) -> bool {
    pool.len() >= 50 && pool.len() <= 172_040 && pool.len() % 42 == 8
}

/// A pool whose word 0 is 2 has slots of 50 words. No kept or drawn case here is a sound one.
fn measured_right(pool: &[i32]) -> bool {
    match pool.first() {
        Some(2) => pool.len() >= 58 && pool.len() <= 204_808 && pool.len() % 50 == 8,
        _ => length_right(pool),
    }
}

fn sorted(mut records: Vec<Record>) -> Vec<Record> {
    records.sort();
    records
}

fn without_copies(mut records: Vec<Record>) -> Vec<Record> {
    records.dedup();
    records
}

impl Writer {
    fn write(&self, pool: &[i32], mut buffer: Vec<u8>) -> Outcome {
        // A pool that is not sound may lead nowhere: it is not walked.
        let met = if sound(pool) { walked(pool, pool[1]) } else { vec![] };
        let records = (self.listed)(met);
        let mut file = frame(16, &[1, (self.count)(pool, &records) as i32]);
        file.extend(records.iter().flat_map(|record| frame(17, record)));
        file.extend(frame(18, &[]));
        let number = (self.refusal)(pool, buffer.len(), file.len());
        if number != 0 {
            let length = (self.refused)(&mut buffer, &file);
            return Outcome::Written { number, length, buffer };
        }
        let end = file.len().min(buffer.len());
        buffer[..end].copy_from_slice(&file[..end]);
        (self.beyond)(&mut buffer[end..]);
        Outcome::Written { number, length: file.len(), buffer }
    }
}

/// The records below a slot, as a walk from the root meets them.
fn walked(pool: &[i32], slot: i32) -> Vec<Record> {
    let start = 8 + 42 * (slot as usize - 1);
    let (level, count) = (pool[start], pool[start + 1] as usize);
    let entry = |place: usize| &pool[start + 2 + 5 * place..start + 7 + 5 * place];
    let below = |place: usize| match (level, entry(place)) {
        (1, &[a, b, c, d, number]) => vec![[number, a, b, c, d]],
        (_, words) => walked(pool, words[4]),
    };
    (0..count).flat_map(below).collect()
}

/// Asked of a record: 0, or the number of a refusal. The last is the pool so far.
type Check = fn(&Reader, Record, Option<Record>, &mut [i32]) -> i32;

/// The pool and the workspace that a refused read leaves, by those lent and the pool so far.
type Left = fn(&[i32], &[i32], &[i32]) -> (Vec<i32>, Vec<i32>);

/// The steps of a reader.
#[derive(Clone, Copy)]
struct Reader {
    /// 0 or 1, of the pool and the workspace.
    lent: fn(&[i32], &[i32]) -> i32,
    /// The pool that the records go into.
    start: fn(&[i32]) -> Vec<i32>,
    /// Whether the bytes from a place on begin with such a frame.
    frame: fn(&[u8], u16, usize) -> bool,
    edition: fn(i32) -> bool,
    /// How many records are due, by the count and the length of the file; none for 10.
    due: fn(i32, usize) -> Option<i64>,
    /// Whether the records can be followed by these bytes.
    end: fn(&[u8]) -> bool,
    /// In this order.
    checks: [Check; 4],
    after: fn(Record, Record) -> bool,
    /// All frames are looked at before the first record is.
    frames_first: bool,
    refused: Left,
    /// The workspace where it is accepted, by the one lent and the new pool.
    accepted: fn(&[i32], &[i32]) -> Vec<i32>,
}

const RIGHT_READER: Reader = Reader {
    lent: |pool, work| i32::from(!length_right(pool) || work.len() != pool.len()),
    start: |pool| blank_pool((pool.len() - 8) / 42),
    frame: |bytes, kind, words| bytes.len() >= 4 + 4 * words && begins(bytes, kind, words),
    edition: |edition| edition == 1,
    due: |count, _| (count >= 0).then_some(i64::from(count)),
    end: |bytes| *bytes == [2, 0, 18, 0],
    checks: [rectangle, number, order, slot],
    after: |record, before| record > before,
    frames_first: false,
    refused: |pool, _, _| (pool.to_vec(), pool.to_vec()),
    accepted: |_, new| new.to_vec(),
};

/// The length and the kind, as far as there are bytes.
fn begins(bytes: &[u8], kind: u16, words: usize) -> bool {
    let four = [2 + 4 * words as u8, 0, kind as u8, (kind >> 8) as u8];
    bytes.iter().zip(four).take(4).all(|(&byte, due)| byte == due)
}

fn rectangle(_: &Reader, record: Record, _: Option<Record>, _: &mut [i32]) -> i32 {
    let [_, low_x, low_y, high_x, high_y] = record;
    let beyond = record[1..].iter().any(|word| word.unsigned_abs() > 1_000_000_000);
    if beyond || high_x < low_x || high_y < low_y {
        return 3;
    }
    0
}

fn number(_: &Reader, record: Record, _: Option<Record>, _: &mut [i32]) -> i32 {
    if record[0] < 1 {
        return 4;
    }
    0
}

fn order(reader: &Reader, record: Record, before: Option<Record>, _: &mut [i32]) -> i32 {
    match before {
        Some(before) if !(reader.after)(record, before) => 11,
        _ => 0,
    }
}

/// The insert, as a batch of one.
fn slot(_: &Reader, record: Record, _: Option<Record>, pool: &mut [i32]) -> i32 {
    let [number, a, b, c, d] = record;
    let mut answers = [Answer::default()];
    let mut work = vec![0; pool.len()];
    call(pool, &mut work, &[Request::insert(number, [a, b, c, d])], &mut answers, &mut []);
    if answers[0].number == 7 {
        return 7;
    }
    0
}

/// A word at a place; zeros stand for bytes that are not there.
fn word(bytes: &[u8], at: usize) -> i32 {
    i32::from_le_bytes(std::array::from_fn(|i| bytes.get(at + i).copied().unwrap_or(0)))
}

/// The bytes from a place on, or none.
fn from(bytes: &[u8], at: usize) -> &[u8] {
    bytes.get(at..).unwrap_or(&[])
}

impl Reader {
    fn read(&self, pool: &[i32], work: &[i32], file: &[u8]) -> Outcome {
        let number = (self.lent)(pool, work);
        if number != 0 {
            return Outcome::Read { number, pool: pool.to_vec(), work: work.to_vec() };
        }
        let mut new = (self.start)(pool);
        let number = self.fill(file, &mut new);
        let (pool, work) = match number {
            0 => (new.clone(), (self.accepted)(work, &new)),
            _ => (self.refused)(pool, work, &new),
        };
        Outcome::Read { number, pool, work }
    }

    /// 0 or a number, and the pool filled so far. Record k stands at byte 12 + 24k.
    fn fill(&self, file: &[u8], pool: &mut [i32]) -> i32 {
        if !(self.frame)(file, 16, 2) || !(self.edition)(word(file, 4)) {
            return 10;
        }
        let Some(count) = (self.due)(word(file, 8), file.len()) else {
            return 10;
        };
        if self.frames_first && !self.frames_right(file, count) {
            return 10;
        }
        let mut before = None;
        for at in (12..).step_by(24).take(count as usize) {
            if !(self.frame)(from(file, at), 17, 5) {
                return 10;
            }
            let record = std::array::from_fn(|i| word(file, at + 4 + 4 * i));
            for check in self.checks {
                match check(self, record, before, pool) {
                    0 => (),
                    number => return number,
                }
            }
            before = Some(record);
        }
        if (self.end)(from(file, 12 + 24 * count as usize)) {
            0
        } else {
            10
        }
    }

    fn frames_right(&self, file: &[u8], count: i64) -> bool {
        let mut places = (12..).step_by(24).take(count as usize);
        places.all(|at| (self.frame)(from(file, at), 17, 5))
            && (self.end)(from(file, 12 + 24 * count as usize))
    }
}

/// What the two give for a case.
fn again(writer: &Writer, reader: &Reader, case: &Case) -> Outcome {
    match case {
        Case::Write { pool, buffer } => writer.write(pool, buffer.clone()),
        Case::Read { pool, work, file } => reader.read(pool, work, file),
        Case::ReadAs { .. } => panic!("a reader that is told the edition is not among these"),
    }
}

fn same(case: &Case) {
    let due = outcome(case);
    assert!(again(&RIGHT_WRITER, &RIGHT_READER, case) == due, "{}", answered(case));
}

#[test]
fn done_right_they_are_the_same() {
    let mut dice = Dice::new(8);
    let many = std::iter::repeat_with(|| drawn(Edition::One, &mut dice)).take(2_000);
    kept().into_iter().chain(many).for_each(|case| same(&case));
}

/// Files of nine records for pools with room and without, with every byte changed in every bit and
/// cut at every byte.
#[test]
fn they_are_the_same_for_every_changed_byte() {
    let whole = file(&row(9));
    for slots in [1, 3] {
        let read = |file: Vec<u8>| {
            let pool = blank_pool(slots);
            same(&Case::Read { work: vec![-5; pool.len()], pool, file });
        };
        for place in 0..whole.len() {
            read(whole[..place].to_vec());
            for bit in 0..8 {
                let mut changed = whole.clone();
                changed[place] ^= 1 << bit;
                read(changed);
            }
        }
    }
}

fn slips_of_listing() -> Vec<(&'static str, Writer)> {
    let right = RIGHT_WRITER;
    let by_number = |mut met: Vec<Record>| {
        met.sort_by_key(|record| record[0]);
        met
    };
    let by_bits = |mut met: Vec<Record>| {
        met.sort_by_key(|record| record.map(|word| word as u32));
        without_copies(met)
    };
    let by_rectangle = |mut met: Vec<Record>| {
        met.sort_by_key(|&[number, a, b, c, d]| [a, b, c, d, number]);
        without_copies(met)
    };
    vec![
        ("a pair held twice written twice", Writer { listed: sorted, ..right }),
        (
            "copies dropped before sorting",
            Writer { listed: |m| sorted(without_copies(m)), ..right },
        ),
        ("in stored order", Writer { listed: without_copies, ..right }),
        ("sorted by number alone", Writer { listed: by_number, ..right }),
        ("negative coordinates last", Writer { listed: by_bits, ..right }),
        ("sorted by rectangle first", Writer { listed: by_rectangle, ..right }),
        ("word 3 taken for the count", Writer { count: |pool, _| pool[3] as usize, ..right }),
    ]
}

fn slips_of_the_buffer() -> Vec<(&'static str, Writer)> {
    let right = RIGHT_WRITER;
    let as_far_as_it_goes = |buffer: &mut [u8], file: &[u8]| {
        let end = buffer.len().min(file.len());
        buffer[..end].copy_from_slice(&file[..end]);
        0
    };
    let room_for_copies = |pool: &[i32], buffer: usize, _: usize| match sound(pool) {
        true => (RIGHT_WRITER.refusal)(pool, buffer, 16 + 24 * pool[3] as usize),
        false => (RIGHT_WRITER.refusal)(pool, buffer, 16),
    };
    vec![
        (
            "one byte more",
            Writer { refusal: |p, b, f| (RIGHT_WRITER.refusal)(p, b, f + 1), ..right },
        ),
        (
            "one byte less",
            Writer { refusal: |p, b, f| (RIGHT_WRITER.refusal)(p, b + 1, f), ..right },
        ),
        ("never short", Writer { refusal: |p, _, f| (RIGHT_WRITER.refusal)(p, f, f), ..right }),
        ("room asked for copies", Writer { refusal: room_for_copies, ..right }),
        ("8 before 1 and 2", Writer { refusal: eight_first, ..right }),
        ("2 before 1", Writer { refusal: two_first, ..right }),
        ("2 not asked", Writer { refusal: two_not_asked, ..right }),
        ("a short buffer filled", Writer { refused: as_far_as_it_goes, ..right }),
        ("the length needed told", Writer { refused: |_, file| file.len(), ..right }),
        ("bytes after the file zeroed", Writer { beyond: |bytes| bytes.fill(0), ..right }),
    ]
}

fn eight_first(pool: &[i32], buffer: usize, file: usize) -> i32 {
    if buffer < file {
        return 8;
    }
    (RIGHT_WRITER.refusal)(pool, buffer, file)
}

fn two_first(pool: &[i32], buffer: usize, file: usize) -> i32 {
    if !sound(pool) {
        return 2;
    }
    (RIGHT_WRITER.refusal)(pool, buffer, file)
}

fn two_not_asked(pool: &[i32], buffer: usize, file: usize) -> i32 {
    match (RIGHT_WRITER.refusal)(pool, buffer, file) {
        2 => 0,
        number => number,
    }
}

fn slips_of_frames() -> Vec<(&'static str, Reader)> {
    let right = RIGHT_READER;
    let kind_not_asked = |bytes: &[u8], _: u16, words: usize| {
        bytes.len() >= 4 + 4 * words && bytes[0] == 2 + 4 * words as u8 && bytes[1] == 0
    };
    let low_bytes = |bytes: &[u8], kind: u16, words: usize| {
        bytes.len() >= 4 + 4 * words && bytes[0] == 2 + 4 * words as u8 && bytes[2] == kind as u8
    };
    let length_not_asked = |bytes: &[u8], kind: u16, words: usize| {
        bytes.len() >= 4 + 4 * words && bytes[2] == kind as u8 && bytes[3] == 0
    };
    vec![
        ("kinds not looked at", Reader { frame: kind_not_asked, ..right }),
        ("high bytes not looked at", Reader { frame: low_bytes, ..right }),
        ("lengths not looked at", Reader { frame: length_not_asked, ..right }),
        ("cut frames filled with zeros", Reader { frame: begins, ..right }),
        ("all frames looked at first", Reader { frames_first: true, ..right }),
        ("bytes after let through", Reader { end: |b| b.starts_with(&[2, 0, 18, 0]), ..right }),
        (
            "no last frame let through",
            Reader { end: |b| b.is_empty() || *b == [2, 0, 18, 0], ..right },
        ),
        ("a cut last frame let through", Reader { end: |b| [2, 0, 18, 0].starts_with(b), ..right }),
        ("the last kind not looked at", Reader { end: |b| b.len() == 4 && b[0] == 2, ..right }),
        ("the last frame not looked at", Reader { end: |b| b.len() == 4, ..right }),
        ("any end", Reader { end: |_| true, ..right }),
    ]
}

fn slips_of_the_head() -> Vec<(&'static str, Reader)> {
    let right = RIGHT_READER;
    let at_once = |count: i32, length: usize| {
        (i64::from(count) == records_by_length(length)).then_some(i64::from(count))
    };
    vec![
        ("the edition not looked at", Reader { edition: |_| true, ..right }),
        ("one byte of the edition", Reader { edition: |e| e as u8 == 1, ..right }),
        ("half of the edition", Reader { edition: |e| e as u16 == 1, ..right }),
        ("edition 2 let through", Reader { edition: |e| e == 1 || e == 2, ..right }),
        ("half of the count", Reader { due: |c, _| Some(i64::from(c as u16)), ..right }),
        ("the count without sign", Reader { due: |c, _| Some(i64::from(c as u32)), ..right }),
        ("the size of the count", Reader { due: |c, _| Some(i64::from(c).abs()), ..right }),
        ("a negative count as none", Reader { due: |c, _| Some(i64::from(c).max(0)), ..right }),
        ("a wrong count at fault in the head", Reader { due: at_once, ..right }),
        ("the count not looked at", Reader { due: |_, l| Some(records_by_length(l)), ..right }),
    ]
}

/// How many records the length of a file leaves room for.
fn records_by_length(length: usize) -> i64 {
    length.saturating_sub(16) as i64 / 24
}

fn slips_of_records() -> Vec<(&'static str, Reader)> {
    let right = RIGHT_READER;
    let nothing: Check = |_, _, _, _| 0;
    vec![
        ("4 before 3", Reader { checks: [number, rectangle, order, slot], ..right }),
        ("11 before 4", Reader { checks: [rectangle, order, number, slot], ..right }),
        ("11 before 3", Reader { checks: [order, rectangle, number, slot], ..right }),
        ("7 before 11", Reader { checks: [rectangle, number, slot, order], ..right }),
        ("7 before 4", Reader { checks: [rectangle, slot, number, order], ..right }),
        ("7 before 3", Reader { checks: [slot, rectangle, number, order], ..right }),
        ("3 not asked", Reader { checks: [nothing, number, order, slot], ..right }),
        ("4 not asked", Reader { checks: [rectangle, nothing, order, slot], ..right }),
        ("11 not asked", Reader { checks: [rectangle, number, nothing, slot], ..right }),
        ("7 not asked", Reader { checks: [rectangle, number, order, nothing], ..right }),
        ("equal let through", Reader { after: |r, b| r >= b, ..right }),
        ("numbers have to rise", Reader { after: |r, b| r[0] > b[0], ..right }),
        ("numbers alone compared", Reader { after: |r, b| r[0] >= b[0], ..right }),
        ("compared by rectangle", Reader { after: |r, b| r[1..] > b[1..], ..right }),
        (
            "compared without sign",
            Reader { after: |r, b| r.map(|w| w as u32) > b.map(|w| w as u32), ..right },
        ),
        ("highs before lows", Reader { after: |r, b| highs_first(r) > highs_first(b), ..right }),
        ("x before y", Reader { after: |r, b| x_first(r) > x_first(b), ..right }),
        ("high y not compared", Reader { after: |r, b| r[..4] > b[..4], ..right }),
        ("high y let through", Reader { after: |r, b| r[..4] >= b[..4], ..right }),
    ]
}

fn highs_first([number, a, b, c, d]: Record) -> Record {
    [number, c, d, a, b]
}

fn x_first([number, a, b, c, d]: Record) -> Record {
    [number, a, c, b, d]
}

fn slips_of_lengths() -> Vec<(&'static str, Reader)> {
    let right = RIGHT_READER;
    let has_to_be_sound = |pool: &[i32], work: &[i32]| match (RIGHT_READER.lent)(pool, work) {
        0 if !sound(pool) => 2,
        number => number,
    };
    let longer =
        |pool: &[i32], work: &[i32]| i32::from(!length_right(pool) || work.len() < pool.len());
    let shorter =
        |pool: &[i32], work: &[i32]| i32::from(!length_right(pool) || work.len() > pool.len());
    vec![
        ("the pool has to be sound", Reader { lent: has_to_be_sound, ..right }),
        ("the workspace may be longer", Reader { lent: longer, ..right }),
        ("the workspace may be shorter", Reader { lent: shorter, ..right }),
    ]
}

fn slips_of_what_is_left() -> Vec<(&'static str, Reader)> {
    let right = RIGHT_READER;
    let blanked = |pool: &[i32], _: &[i32], _: &[i32]| ((RIGHT_READER.start)(pool), pool.to_vec());
    let so_far = |pool: &[i32], _: &[i32], new: &[i32]| (new.to_vec(), pool.to_vec());
    let work_stays = |pool: &[i32], work: &[i32], _: &[i32]| (pool.to_vec(), work.to_vec());
    let work_so_far = |pool: &[i32], _: &[i32], new: &[i32]| (pool.to_vec(), new.to_vec());
    vec![
        ("the pool not blanked", Reader { start: <[i32]>::to_vec, ..right }),
        ("refused, the pool is blanked", Reader { refused: blanked, ..right }),
        ("refused, the pool has the records so far", Reader { refused: so_far, ..right }),
        ("refused, the workspace stays", Reader { refused: work_stays, ..right }),
        ("refused, the workspace has the records so far", Reader { refused: work_so_far, ..right }),
        ("accepted, the workspace stays", Reader { accepted: |work, _| work.to_vec(), ..right }),
    ]
}

#[test]
fn each_slip_shows() {
    let cases: Vec<(Case, Outcome)> =
        kept().into_iter().map(|c| (c.clone(), outcome(&c))).collect();
    let shows = |writer: &Writer, reader: &Reader| {
        cases.iter().any(|(case, due)| again(writer, reader, case) != *due)
    };
    for (name, slip) in slips_of_listing().into_iter().chain(slips_of_the_buffer()) {
        assert!(shows(&slip, &RIGHT_READER), "not shown: {name}");
    }
    let of_the_file = slips_of_frames().into_iter().chain(slips_of_the_head());
    let of_the_pool = slips_of_lengths().into_iter().chain(slips_of_what_is_left());
    for (name, slip) in of_the_file.chain(slips_of_records()).chain(of_the_pool) {
        assert!(shows(&RIGHT_WRITER, &slip), "not shown: {name}");
    }
}
