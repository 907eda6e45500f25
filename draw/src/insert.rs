//! An insert that is asked about before it is made: the way that it would go, and the slots that it would need.

use crate::asked::refused;
use crate::legend::counted;
use crate::tree::{joint, Node, Tree};
use dustmap::numbers::{meaning, NO_SLOT};
use dustmap::{Rect, Room};
use std::iter::successors;

pub struct Insert {
    pub rect: Rect,
    /// The slots from the root to the chosen leaf.
    pub path: Vec<usize>,
    /// How many at the end of the path are full: "the run of full nodes from the chosen leaf upward".
    pub run: usize,
    /// The slots needed and free, as the library tells them.
    pub room: Room,
}

/// Asks the library. The path is read from the words of the pool; what its run would need, and the slots that no node uses, have to
/// be what the library tells.
pub fn look(pool: &[i32], tree: &Tree, rect: Rect) -> Result<Insert, String> {
    let room = dustmap::room(pool, &rect).map_err(|number| refused("rectangle", number))?;
    let nodes = path(tree, &rect);
    let run = nodes.iter().rev().take_while(|node| node.is_full()).count();
    let insert = Insert { rect, path: nodes.iter().map(|node| node.slot).collect(), run, room };
    let read = Room {
        needed: run as u32 + u32::from(insert.splits_root()),
        free: (tree.slots - tree.nodes.len()) as u32,
    };
    if read != room {
        return Err(format!(
            "no picture: by the nodes the insert needs {} of {} free slots, by the library {} of {}",
            read.needed, read.free, room.needed, room.free
        ));
    }
    Ok(insert)
}

/// ChooseLeaf: from the root down, at each node to the child of the entry that takes the new rectangle best.
fn path<'a>(tree: &'a Tree, new: &Rect) -> Vec<&'a Node> {
    let child = |node: &&Node| (node.level > 1).then(|| tree.node(chosen(node, new)));
    successors(Some(tree.node(tree.root)), child).collect()
}

/// "least enlargement, then smallest area, then earliest entry", and of document 02 "Where areas, enlargements or d tie, compare the
/// same quantity in half perimeter (width plus height) before going to the next rule". Of equals the first is taken.
fn chosen(node: &Node, new: &Rect) -> usize {
    let best = node.entries.iter().min_by_key(|entry| measures(entry.rect, *new));
    best.expect("an inner node of a sound pool has entries").pointer as usize
}

/// What is compared, in this order.
fn measures(old: Rect, new: Rect) -> [i128; 4] {
    let both = joint(old, new);
    [
        area(both) - area(old),
        half_perimeter(both) - half_perimeter(old),
        area(old),
        half_perimeter(old),
    ]
}

fn area(rect: Rect) -> i128 {
    width(rect) * height(rect)
}

fn half_perimeter(rect: Rect) -> i128 {
    width(rect) + height(rect)
}

fn width(rect: Rect) -> i128 {
    i128::from(rect.high_x) - i128::from(rect.low_x)
}

fn height(rect: Rect) -> i128 {
    i128::from(rect.high_y) - i128::from(rect.low_y)
}

impl Insert {
    pub fn is_on_path(&self, slot: usize) -> bool {
        self.path.contains(&slot)
    }

    /// Whether the node would be split.
    pub fn is_in_run(&self, slot: usize) -> bool {
        self.path[self.path.len() - self.run..].contains(&slot)
    }

    /// Whether the run includes the root: then a new root takes one slot more.
    pub fn splits_root(&self) -> bool {
        self.run == self.path.len()
    }

    /// How it would be answered, if nothing else is wrong with it.
    pub fn answer(&self) -> String {
        let no_slot = meaning(NO_SLOT).expect("a number of the library");
        if self.room.fits() {
            "it fits".to_string()
        } else {
            format!("refused {NO_SLOT}: {}", no_slot.name)
        }
    }

    /// As in "needs 2 slots, 3 free".
    pub fn needs(&self) -> String {
        let needed = counted(self.room.needed as usize, "slot", "slots");
        format!("needs {needed}, {} free", self.room.free)
    }
}
