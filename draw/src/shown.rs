//! What is shown on the map besides its nodes and records: nothing more, a window, or an insert; and how it marks the nodes.

use crate::asked::Asked;
use crate::insert::{self, Insert};
use crate::look::Group;
use crate::tree::{Node, Tree};
use crate::window::{self, Searched};
use dustmap::Rect;

pub enum Shown {
    Nothing,
    Window(Searched),
    Insert(Insert),
}

/// How a node is drawn. Those that come later here lie on top.
#[derive(Clone, Copy, PartialEq, Eq, PartialOrd, Ord)]
pub enum Mark {
    /// Nothing is asked for.
    Plain,
    /// What is asked for does not come to it.
    Pale,
    /// The search opens it, or it is on the path of the insert.
    Marked,
    /// It is in the run of full nodes: the insert would split it.
    Run,
}

/// What is asked for, worked out over the pool.
pub fn look(pool: &mut [i32], tree: &Tree, asked: Asked) -> Result<Shown, String> {
    match asked {
        Asked::Nothing => Ok(Shown::Nothing),
        Asked::Window(asked) => window::look(pool, tree, asked).map(Shown::Window),
        Asked::Insert(rect) => insert::look(pool, tree, rect).map(Shown::Insert),
    }
}

impl Shown {
    pub fn window(&self) -> Option<&Searched> {
        match self {
            Shown::Window(searched) => Some(searched),
            _ => None,
        }
    }

    /// The groups of records, those that lie on top last: where there is a window, those found.
    pub fn groups(&self, tree: &Tree) -> Vec<Group> {
        let group =
            |found: bool| tree.owners().iter().map(move |owner| Group { owner: *owner, found });
        match self.window() {
            Some(_) => group(false).chain(group(true)).collect(),
            None => group(false).collect(),
        }
    }

    /// The rectangle that is drawn beside the map's own.
    pub fn rect(&self) -> Option<Rect> {
        match self {
            Shown::Nothing => None,
            Shown::Window(searched) => Some(searched.window),
            Shown::Insert(insert) => Some(insert.rect),
        }
    }

    pub fn mark(&self, node: &Node) -> Mark {
        match self {
            Shown::Nothing => Mark::Plain,
            Shown::Window(searched) if searched.opens(node) => Mark::Marked,
            Shown::Insert(insert) if insert.is_in_run(node.slot) => Mark::Run,
            Shown::Insert(insert) if insert.is_on_path(node.slot) => Mark::Marked,
            _ => Mark::Pale,
        }
    }

    /// What is said of a node behind its slot and level.
    pub fn said(&self, node: &Node) -> String {
        match self {
            Shown::Window(searched) if searched.opens(node) => ", opened".to_string(),
            Shown::Insert(insert) if insert.is_on_path(node.slot) => on_path(insert, node),
            _ => String::new(),
        }
    }
}

/// A full node is not in the run where one below it, on the path, is not full.
fn on_path(insert: &Insert, node: &Node) -> String {
    let place = if node.level == 1 { ", the chosen leaf" } else { ", on the path" };
    let full = match (node.is_full(), insert.is_in_run(node.slot)) {
        (true, true) => ", full, in the run",
        (true, false) => ", full",
        _ => "",
    };
    format!("{place}{full}")
}
