//! The pool's words read as nodes and records. "Slot s (from 1) takes 42 words from word 8 + 42(s - 1): level, count, then 8
//! entries of five words: low x, low y, high x, high y, pointer." In edition 2 "Each leaf entry gains an owner, 1 or 2, as a sixth
//! word (zero in inner entries ..): slots of 50 words".

use dustmap::{Edition, Found, Owner, Rect, HEAD_WORDS};

/// "M = 8 entries in a node at most": a node that has them is full.
const MOST: usize = 8;

/// A node in use: its slot, its level (leaf 1), the smallest rectangle that holds its entries, and its entries.
pub struct Node {
    pub slot: usize,
    pub level: i32,
    pub cover: Option<Rect>,
    pub entries: Vec<Entry>,
}

/// A rectangle and a pointer: "A leaf's pointer is a record number, any other a child slot." And the owner, of a record of edition 2.
pub struct Entry {
    pub rect: Rect,
    pub pointer: i32,
    pub owner: Option<Owner>,
}

/// A record; in edition 2, with its owner. The derived order is that of a file: by owner first, then found order.
#[derive(Clone, Copy, PartialEq, Eq, PartialOrd, Ord)]
pub struct Record {
    pub owner: Option<Owner>,
    pub found: Found,
}

/// A record, and the slot of the leaf that holds it.
pub struct Held {
    pub record: Record,
    pub slot: usize,
}

pub struct Tree {
    pub edition: Edition,
    pub slots: usize,
    pub root: usize,
    pub height: i32,
    /// In the order of their slots.
    pub nodes: Vec<Node>,
}

/// Reads a sound pool.
pub fn read(pool: &[i32]) -> Tree {
    let edition = Edition::of(pool);
    let words = pool[HEAD_WORDS..].chunks_exact(edition.slot_words());
    let slots = words.len();
    let in_use = words.enumerate().filter(|(_, w)| w[0] != 0);
    let nodes = in_use.map(|(index, w)| node(edition, index + 1, w)).collect();
    Tree { edition, slots, root: pool[1] as usize, height: pool[2], nodes }
}

fn node(edition: Edition, slot: usize, words: &[i32]) -> Node {
    let entries = words[2..].chunks_exact(edition.entry_words());
    let entries: Vec<Entry> = entries.take(words[1] as usize).map(entry).collect();
    let cover = entries.iter().map(|e| e.rect).reduce(joint);
    Node { slot, level: words[0], cover, entries }
}

fn entry(words: &[i32]) -> Entry {
    let owner = words.get(5).and_then(|word| Owner::try_from(*word).ok());
    let rect = Rect::from_words([words[0], words[1], words[2], words[3]]);
    Entry { rect, pointer: words[4], owner }
}

/// The smallest rectangle holding both.
pub fn joint(a: Rect, b: Rect) -> Rect {
    Rect {
        low_x: a.low_x.min(b.low_x),
        low_y: a.low_y.min(b.low_y),
        high_x: a.high_x.max(b.high_x),
        high_y: a.high_y.max(b.high_y),
    }
}

/// "Two rectangles meet when on each axis each low is at most the other's high; touching counts."
pub fn meets(a: &Rect, b: &Rect) -> bool {
    a.low_x <= b.high_x && b.low_x <= a.high_x && a.low_y <= b.high_y && b.low_y <= a.high_y
}

impl Node {
    pub fn is_full(&self) -> bool {
        self.entries.len() == MOST
    }
}

impl Tree {
    pub fn node(&self, slot: usize) -> &Node {
        let at = self.nodes.binary_search_by_key(&slot, |node| node.slot);
        &self.nodes[at.expect("a child of a sound pool is in use")]
    }

    /// Whose records there are: in edition 1 they have no owner.
    pub fn owners(&self) -> &'static [Option<Owner>] {
        match self.edition {
            Edition::One => &[None],
            Edition::Two => &[Some(Owner::One), Some(Owner::Two)],
        }
    }

    /// How many records an owner has.
    pub fn count_of(&self, owner: Option<Owner>) -> usize {
        let leaves = self.nodes.iter().filter(|node| node.level == 1);
        leaves.flat_map(|leaf| &leaf.entries).filter(|entry| entry.owner == owner).count()
    }

    /// The records of all leaves.
    pub fn records(&self) -> Vec<Held> {
        let leaves = self.nodes.iter().filter(|node| node.level == 1);
        let held = |slot: usize, e: &Entry| Held {
            record: Record { owner: e.owner, found: Found { number: e.pointer, rect: e.rect } },
            slot,
        };
        leaves.flat_map(|leaf| leaf.entries.iter().map(move |e| held(leaf.slot, e))).collect()
    }
}
