//! Maps that are written in one office and read in others, of as many slots, of fewer and of more, and written again there; and what else may
//! be lent to a writer and a reader.

use crate::carry::Carrying;
use crate::carry_met::{record_bytes, LEAST_FILE};
use crate::spoil::{garbage_bytes, garbage_words};
use dustmap::words;
use second::carry::{distinct_records, words_of};
use second::edition::MOST_SLOTS;
use second::files_kept::{file, pool_holding, record_of, row, Record, IN_ORDER};
use second::pool::{each_slot, slots_of, Entry, Map, Node, Slot};
use second::script::blank_pool;
use second::Edition;

/// Leaves of the pools that are as full as can be: eight entries in every node, or seven in the root. The last has 4,096 slots.
const FULL: [usize; 4] = [1, 8, 64, 3_584];

/// Buffers and pools of every length, and maps as full as can be.
pub fn all(office: &mut Carrying) {
    every_buffer(office);
    every_length(office);
    other_workspaces(office);
    for leaves in FULL {
        full(leaves, office);
    }
}

impl Carrying<'_> {
    /// Writes a pool that may be anything, to a buffer that may be short.
    pub fn write_any(&mut self, what: &str, pool: &[i32]) {
        let due = if second::sound(pool) { file_length(pool) } else { LEAST_FILE };
        let length = match self.dice.below(8) {
            0..=1 => due,
            2 => due - 1,
            3 => due - 4,
            4 => self.dice.below(due as u64) as usize,
            5 => 0,
            _ => due + self.dice.between(1, 60) as usize,
        };
        let buffer = garbage_bytes(self.dice, length);
        self.write(what, pool, buffer);
    }

    /// Writes a sound pool and reads the file into pools of several sizes. Those that took it come back, the shortest first.
    pub fn round_trip(&mut self, title: &str, pool: &[i32]) -> Vec<Vec<i32>> {
        let title = format!("{title}, carried");
        self.write_any(&title, pool);
        let file = self.written(&title, pool);
        let slots = slots_of(pool).expect("a sound pool");
        let needed = self.slots_needed(&title, &file);
        let more = (slots + self.dice.between(1, 6) as usize).min(MOST_SLOTS);
        let mut sizes = vec![needed.saturating_sub(1).max(1), needed, slots, more];
        sizes.sort();
        sizes.dedup();
        let mut pools = Vec::new();
        for size in sizes {
            let taken = self.arrives(&title, size, needed, &file);
            self.note_trip(size, slots, needed, taken.is_some());
            pools.extend(taken);
        }
        if records_in(self.edition, &file) < pool[3] as usize {
            self.seen.note("round trip of a map with a pair held twice");
        }
        pools
    }

    /// The file of a sound pool, in a buffer just long enough.
    pub fn written(&mut self, title: &str, pool: &[i32]) -> Vec<u8> {
        let length = file_length(pool);
        let buffer = garbage_bytes(self.dice, length);
        let left = self.write(title, pool, buffer);
        let whole = (left.number, left.length) == (0, length as u64);
        self.tally.hold(whole, || format!("{title}: {length} bytes do not take the file"));
        left.buffer
    }

    /// How many slots a file fills. It is read where there are always enough: n records go into N slots where n is at most 2N + 1.
    fn slots_needed(&mut self, title: &str, file: &[u8]) -> usize {
        let records = records_in(self.edition, file);
        let enough = (records / 2).max(1);
        let left = self.read_into(title, enough, file);
        self.tally.hold(left.number == 0, || {
            format!("{title}: {enough} slots do not take {records} records: {}", left.number)
        });
        if records == 2 * enough + 1 {
            self.seen.note("read of 2N + 1 records into N slots");
        }
        // Where the read was refused, which is reported, the pool is the old one, and may be none.
        match left.number {
            0 => each_slot(&left.pool).filter(|slot| slot[0] != 0).count(),
            _ => enough,
        }
    }

    /// The pool that a file leaves where there are so many slots. Inserts free none, so it is refused 7 exactly where it needs more. "Where a
    /// read of a written file is accepted, writing again gives the same bytes."
    fn arrives(
        &mut self,
        title: &str,
        slots: usize,
        needed: usize,
        file: &[u8],
    ) -> Option<Vec<i32>> {
        let left = self.read_into(title, slots, file);
        let due = if slots < needed { 7 } else { 0 };
        self.tally.hold(left.number == due, || {
            format!("{title}: {} in {slots} slots, where it needs {needed}", left.number)
        });
        if left.number != 0 {
            return None;
        }
        let again = self.written(&format!("{title} to {slots} slots"), &left.pool);
        self.tally.hold(again == file, || format!("{title} to {slots} slots: other bytes"));
        Some(left.pool)
    }

    fn note_trip(&mut self, size: usize, slots: usize, needed: usize, taken: bool) {
        self.seen.note_those([
            ("round trip into as many slots", taken && size == slots),
            ("round trip into fewer slots", taken && size < slots),
            ("round trip into more slots", taken && size > slots),
            ("round trip into just enough slots", taken && size == needed),
            ("read 7 of a written file, as many slots", !taken && size == slots),
            ("read 7 of a written file, a slot less than it needs", !taken && size + 1 == needed),
        ]);
    }
}

/// So many bytes has the file of a sound pool.
fn file_length(pool: &[i32]) -> usize {
    LEAST_FILE + record_bytes(Edition::of(pool)) * distinct_records(pool).len()
}

fn records_in(edition: Edition, file: &[u8]) -> usize {
    (file.len() - LEAST_FILE) / record_bytes(edition)
}

/// Buffers from no bytes to more than the file has.
fn every_buffer(office: &mut Carrying) {
    let twice = [IN_ORDER[3], IN_ORDER[1], IN_ORDER[3]];
    for pool in [blank_pool(2), pool_holding(1, &IN_ORDER[2..5]), pool_holding(1, &twice)] {
        for length in 0..file_length(&pool) + 30 {
            let buffer = garbage_bytes(office.dice, length);
            office.write(&format!("a buffer of {length} bytes"), &pool, buffer);
        }
    }
    office.seen.note("write into a buffer of every length");
}

/// Pools of every length up to four slots, and of lengths around the longest: blank as far as they go, so that nothing else is wrong.
fn every_length(office: &mut Carrying) {
    let longest = words(MOST_SLOTS);
    let mut pool = blank_pool(MOST_SLOTS);
    pool.resize(words(MOST_SLOTS + 1), 0);
    for length in (0..=words(4)).chain([longest - 1, longest, longest + 1, pool.len()]) {
        let what = format!("a pool of {length} words");
        office.write_any(&what, &pool[..length]);
        let file = office.dice.pick(&[&file(&row(3))[..], b"no file"]).to_vec();
        let work = garbage_words(office.dice, length);
        office.read(&what, pool[..length].to_vec(), work, &file);
    }
    office.seen.note("write and read over a pool of every length");
}

/// "1 first": a workspace of another length than the pool's, with a file that is right and one that is not.
fn other_workspaces(office: &mut Carrying) {
    let right = file(&row(3));
    for length in [0, 1, 8, 49, 51, 92, 100, words(MOST_SLOTS)] {
        for file in [&right[..], &right[1..]] {
            let (pool, work) = (vec![-7; words(1)], garbage_words(office.dice, length));
            let number = office.read("a workspace of another length", pool, work, file).number;
            office.tally.hold(number == 1, || format!("a workspace of {length} words: {number}"));
        }
    }
}

/// A pool of so many leaves, with no place left in any node: its records differ, or are all one pair.
fn full(leaves: usize, office: &mut Carrying) {
    let apart: fn(i32) -> Record = |k| [i32::MAX - k, k, -k, k + 9, 5];
    let same: fn(i32) -> Record = |_| [77, 1, -2, 3, 4];
    for (record, what) in [
        (apart, "write of as many records as a pool can hold"),
        (same, "write of a pair held as often as a pool can hold it"),
    ] {
        let pool = packed(leaves, record);
        let title = format!("{what}, {leaves} leaves");
        office.tally.hold(second::sound(&pool), || format!("{title}: not sound"));
        let file = office.written(&title, &pool);
        office.read_into(&title, slots_of(&pool).expect("a sound pool"), &file);
        office.seen.note(what);
    }
}

/// Eight records to a leaf, and eight nodes to the node above, up to one.
pub fn packed(leaves: usize, record: fn(i32) -> Record) -> Vec<i32> {
    let nodes = |&below: &usize| (below > 1).then_some(below.div_ceil(8));
    let slots = std::iter::successors(Some(leaves), nodes).sum();
    let mut pool = blank_pool(slots);
    let mut map = Map::read(&pool);
    let entry = |k: i32| Entry::of(&record_of(&record(k)));
    let mut entries: Vec<Entry> = (1..=8 * leaves as i32).map(entry).collect();
    map.records = entries.len() as i64;
    map.height = 0;
    map.root = Slot(0);
    while map.height == 0 || entries.len() > 1 {
        map.height += 1;
        entries = entries.chunks(8).map(|node| placed(&mut map, node)).collect();
    }
    map.write(&mut pool);
    pool
}

/// A node of the height so far in the next slot, and the entry for it. The last one placed is the root.
fn placed(map: &mut Map, entries: &[Entry]) -> Entry {
    map.root = Slot(map.root.0 + 1);
    let (slot, level) = (map.root, map.height);
    *map.node_mut(slot) = Node { level, entries: entries.to_vec() };
    Entry::over(slot, map.node(slot).cover())
}

/// The largest pool: its own file, and of that as many records as are always taken, in order and with the last two swapped.
pub fn largest(full: &[i32], office: &mut Carrying) {
    if !second::sound(full) {
        // That was reported when it was filled.
        return;
    }
    let title = "the largest pool, carried";
    office.write_any(title, full);
    let whole = office.written(title, full);
    office.read_into(title, MOST_SLOTS, &whole);
    let most = 2 * MOST_SLOTS + 1;
    let records = distinct_records(full);
    let mut part: Vec<Record> = records.iter().take(most).map(|r| words_of(&r.pair)).collect();
    office.arrives(title, MOST_SLOTS, 1, &file(&part));
    part.swap(most - 2, most - 1);
    let number = office.read_into(title, MOST_SLOTS, &file(&part)).number;
    office.tally.hold(number == 11, || format!("{title}, the last two swapped: {number}"));
    office.seen.note("read refused after more than 1,024 records");
}
