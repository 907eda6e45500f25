//! "The pool, word by word": reading it into plain nodes and writing it back.

use std::slice::ChunksExact;

use crate::choose::MOST_ENTRIES;
use crate::edition::{told, Edition, Owner, HEAD_WORDS, NO_SUCH};
use crate::events::Trace;
use crate::geometry::{cover, Rect};

/// A record number, the paper's tuple-identifier.
#[derive(Clone, Copy, Debug, PartialEq, Eq, PartialOrd, Ord)]
pub struct RecordNumber(pub i64);

/// A slot number, from 1: the paper's child-pointer.
#[derive(Clone, Copy, Debug, PartialEq, Eq, PartialOrd, Ord)]
pub struct Slot(pub usize);

/// "A leaf's pointer is a record number, any other a child slot."
#[derive(Clone, Copy, Debug, PartialEq, Eq)]
pub enum Pointer {
    Record(RecordNumber),
    Child(Slot),
}

/// "Each leaf entry gains an owner": in edition 2 every leaf entry has one. An inner entry has none,
/// nor has any entry of edition 1.
#[derive(Clone, Copy, Debug, PartialEq, Eq)]
pub struct Entry {
    pub rect: Rect,
    pub pointer: Pointer,
    pub owner: Option<Owner>,
}

impl Entry {
    /// The leaf entry of a record.
    pub fn of(record: &Owned) -> Entry {
        let Owned { owner, pair } = *record;
        Entry { rect: pair.rect, pointer: Pointer::Record(pair.number), owner }
    }

    /// The entry for a child, with its cover.
    pub fn over(child: Slot, rect: Rect) -> Entry {
        Entry { rect, pointer: Pointer::Child(child), owner: None }
    }

    /// The child slot of an inner entry.
    pub fn child(&self) -> Slot {
        match self.pointer {
            Pointer::Child(slot) => slot,
            Pointer::Record(_) => panic!("a record number is not a child slot"),
        }
    }
}

/// "Level 0 is free, 1 a leaf."
#[derive(Clone, Debug, PartialEq, Eq)]
pub struct Node {
    pub level: i64,
    pub entries: Vec<Entry>,
}

impl Node {
    /// A slot that is free: all zero.
    pub fn free() -> Node {
        Node { level: 0, entries: Vec::new() }
    }

    pub fn is_leaf(&self) -> bool {
        self.level == 1
    }

    pub fn rects(&self) -> Vec<Rect> {
        self.entries.iter().map(|e| e.rect).collect()
    }

    /// The smallest rectangle holding the node's entries.
    pub fn cover(&self) -> Rect {
        cover(&self.rects()).expect("a child has entries")
    }
}

/// A record: "a record number and a rectangle".
#[derive(Clone, Copy, Debug, PartialEq, Eq, PartialOrd, Ord)]
pub struct Pair {
    pub number: RecordNumber,
    pub rect: Rect,
}

/// A record and whose it is; of edition 1 nobody's. The derived order is the file's: "ordered by
/// owner first".
#[derive(Clone, Copy, Debug, PartialEq, Eq, PartialOrd, Ord)]
pub struct Owned {
    pub owner: Option<Owner>,
    pub pair: Pair,
}

/// A pool read into plain nodes. The trace notes what a request did on its way.
#[derive(Clone, Debug)]
pub struct Map {
    pub edition: Edition,
    pub root: Slot,
    pub height: i64,
    pub records: i64,
    nodes: Vec<Node>,
    pub trace: Trace,
}

impl Map {
    pub fn node(&self, slot: Slot) -> &Node {
        &self.nodes[slot.0 - 1]
    }

    pub fn node_mut(&mut self, slot: Slot) -> &mut Node {
        &mut self.nodes[slot.0 - 1]
    }

    pub fn nodes(&self) -> &[Node] {
        &self.nodes
    }

    /// Reads a sound pool.
    pub fn read(pool: &[i32]) -> Map {
        let slots = slots_of(pool).expect("a pool of valid length");
        Map {
            edition: Edition::of(pool),
            root: Slot(usize::try_from(pool[1]).expect("a sound pool")),
            height: i64::from(pool[2]),
            records: i64::from(pool[3]),
            nodes: (1..=slots).map(|s| read_node(pool, Slot(s))).collect(),
            trace: Trace::default(),
        }
    }

    /// Writes the pool: head, slots, zero in every word not used.
    pub fn write(&self, pool: &mut [i32]) {
        pool.fill(0);
        pool[0] = self.edition.number();
        pool[1] = to_word(self.root.0 as i64);
        pool[2] = to_word(self.height);
        pool[3] = to_word(self.records);
        for (index, node) in self.nodes.iter().enumerate() {
            let start = self.edition.slot_start(Slot(index + 1));
            write_node(node, self.edition, &mut pool[start..]);
        }
    }
}

/// N for a pool, measured by its word 0; none for a length that no N has.
pub fn slots_of(pool: &[i32]) -> Option<usize> {
    Edition::of(pool).slots_of(pool.len())
}

/// The words of each slot in turn.
pub fn each_slot(pool: &[i32]) -> ChunksExact<'_, i32> {
    pool[HEAD_WORDS..].chunks_exact(Edition::of(pool).slot_words())
}

#[inline]
pub fn slot_words(pool: &[i32], slot: Slot) -> &[i32] {
    let edition = Edition::of(pool);
    &pool[edition.slot_start(slot)..][..edition.slot_words()]
}

/// An entry as it stands in the pool. Edition 1 has no sixth word, and zero is put for it.
#[derive(Clone, Copy, Debug, PartialEq, Eq)]
pub struct EntryWords {
    pub rect: [i32; 4],
    pub pointer: i32,
    pub owner: i32,
}

impl EntryWords {
    pub fn rect(&self) -> Rect {
        Rect::from_words(self.rect)
    }
}

/// The entries in use of a slot whose count is known to be 0 to 8.
pub fn entries(pool: &[i32], slot: Slot) -> Vec<EntryWords> {
    let (words, edition) = (slot_words(pool, slot), Edition::of(pool));
    let entry = |index: usize| {
        let words = &words[2 + edition.entry_words() * index..];
        let owner = if edition == Edition::Two { words[5] } else { 0 };
        EntryWords { rect: [words[0], words[1], words[2], words[3]], pointer: words[4], owner }
    };
    (0..words[1] as usize).map(entry).collect()
}

/// "Blanking writes edition 1, root 1, height 1, records 0, slot 1 as an empty leaf, all else
/// zero." It "knows only 1, for the pool's length".
pub fn blank(pool: &mut [i32]) -> i32 {
    blanked(pool, Edition::One)
}

/// "Blanking and reading are told the edition .. and go by it": what is in the words is not looked
/// at, so the length is measured by the edition told.
pub fn blank_as(pool: &mut [i32], edition: i32, rule: i32) -> i32 {
    match told(edition, rule) {
        Some(edition) => blanked(pool, edition),
        None => NO_SUCH,
    }
}

fn blanked(pool: &mut [i32], edition: Edition) -> i32 {
    if edition.slots_of(pool.len()).is_none() {
        return 1;
    }
    pool.fill(0);
    pool[0] = edition.number();
    pool[1] = 1;
    pool[2] = 1;
    pool[HEAD_WORDS] = 1;
    0
}

/// A blank pool of so many slots; where blanking refuses the length, the words stay zero.
pub fn blank_pool_of(edition: Edition, slots: usize) -> Vec<i32> {
    let mut pool = vec![0; edition.words(slots)];
    blanked(&mut pool, edition);
    pool
}

/// The records in the leaves of a sound pool, read from the words.
pub fn records_in_leaves(pool: &[i32]) -> Vec<Owned> {
    let slots = slots_of(pool).unwrap_or(0);
    let leaves = (1..=slots).map(Slot).filter(|&s| slot_words(pool, s)[0] == 1);
    let record = |words: EntryWords| Owned {
        owner: Owner::numbered(words.owner),
        pair: Pair { number: RecordNumber(i64::from(words.pointer)), rect: words.rect() },
    };
    leaves.flat_map(|leaf| entries(pool, leaf)).map(record).collect()
}

/// The same, whoever's they are.
pub fn pairs_in_leaves(pool: &[i32]) -> Vec<Pair> {
    records_in_leaves(pool).into_iter().map(|record| record.pair).collect()
}

fn read_node(pool: &[i32], slot: Slot) -> Node {
    let level = i64::from(slot_words(pool, slot)[0]);
    Node { level, entries: entries(pool, slot).iter().map(|e| read_entry(level, e)).collect() }
}

fn read_entry(level: i64, words: &EntryWords) -> Entry {
    let pointer = if level == 1 {
        Pointer::Record(RecordNumber(i64::from(words.pointer)))
    } else {
        Pointer::Child(Slot(usize::try_from(words.pointer).expect("a sound pool")))
    };
    Entry { rect: words.rect(), pointer, owner: Owner::numbered(words.owner) }
}

fn write_node(node: &Node, edition: Edition, slot: &mut [i32]) {
    assert!(node.entries.len() <= MOST_ENTRIES);
    slot[0] = to_word(node.level);
    slot[1] = to_word(node.entries.len() as i64);
    let places = slot[2..].chunks_exact_mut(edition.entry_words());
    for (words, entry) in places.zip(&node.entries) {
        words[..4].copy_from_slice(&entry.rect.to_words());
        words[4] = match entry.pointer {
            Pointer::Record(number) => to_word(number.0),
            Pointer::Child(child) => to_word(child.0 as i64),
        };
        // "zero in inner entries"
        if let Some(owner) = words.get_mut(5) {
            *owner = entry.owner.map_or(0, Owner::number);
        }
    }
}

fn to_word(value: i64) -> i32 {
    i32::try_from(value).expect("a pool word")
}
