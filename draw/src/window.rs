//! A window on the map: what the proved search finds in it, and the nodes that it opens on its way.

use crate::asked::{refused, Disc, Query};
use crate::batch::one;
use crate::mode::Mode;
use crate::tree::{meets, Node, Record, Tree};
use dustmap::{Edition, Found, Owner, Rect};

/// A window that has been searched.
pub struct Searched {
    pub window: Rect,
    pub mode: Mode,
    /// What the window is around, where it was asked for by a disc.
    pub disc: Option<Disc>,
    /// In found order; in edition 2, what owner 1's search finds and then what owner 2's finds.
    pub found: Vec<Record>,
    /// The slots of the nodes opened, the lowest first.
    pub opened: Vec<usize>,
}

/// Searches the pool, for each owner whose records it has. Which nodes are opened is read from the covers; the search says how many,
/// and the two have to agree, in every mode. In edition 2 "Opened is reported as 0".
pub fn look(pool: &mut [i32], tree: &Tree, asked: Query) -> Result<Searched, String> {
    let Query { window, mode, disc } = asked;
    let mut opened = Vec::new();
    open(tree, tree.root, &window, &mut opened);
    opened.sort_unstable();
    let reported = match tree.edition {
        Edition::One => opened.len(),
        Edition::Two => 0,
    };
    let mut found = Vec::new();
    for owner in tree.owners() {
        let mut list = vec![Found::default(); tree.slots * 8];
        let answer = one(pool, owner.unwrap_or(Owner::One), mode.search(window), &mut list);
        if answer.number != 0 {
            return Err(refused("window", answer.number as i32));
        }
        assert_eq!(
            answer.opened as usize, reported,
            "the covers that meet the window, and the root"
        );
        list.truncate(answer.found as usize);
        found.extend(list.into_iter().map(|found| Record { owner: *owner, found }));
    }
    Ok(Searched { window, mode, disc, found, opened })
}

/// "Search descends from the root and opens every child whose entry rectangle meets the window." "All modes open the nodes whose
/// cover meets the window."
fn open(tree: &Tree, slot: usize, window: &Rect, opened: &mut Vec<usize>) {
    opened.push(slot);
    let node = tree.node(slot);
    if node.level == 1 {
        return;
    }
    for entry in node.entries.iter().filter(|e| meets(&e.rect, window)) {
        open(tree, entry.pointer as usize, window, opened);
    }
}

impl Searched {
    /// Whether the search opens the node.
    pub fn opens(&self, node: &Node) -> bool {
        self.opened.binary_search(&node.slot).is_ok()
    }

    /// Whether the search finds the record.
    pub fn finds(&self, record: &Record) -> bool {
        self.found.binary_search(record).is_ok()
    }

    /// What is found of an owner's records.
    pub fn found_of(&self, owner: Option<Owner>) -> Vec<Found> {
        self.found
            .iter()
            .filter(|record| record.owner == owner)
            .map(|record| record.found)
            .collect()
    }
}
