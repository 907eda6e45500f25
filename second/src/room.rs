//! "Know before the truck leaves" (document 02, Req 06): whether an insert will fit, told from the
//! map.
//!
//! "an insert otherwise acceptable is refused 7 exactly when the run of full nodes from the chosen
//! leaf upward, plus one if the run includes the root, exceeds the free slots." The two sides of
//! that comparison are counted here, in the pool as it is. No insert is tried. In a pool of two owners
//! the slots are shared, so it is the same for both.

use crate::choose::MOST_ENTRIES;
use crate::geometry::Rect;
use crate::pool::{slots_of, Map, Node};
use crate::sound::sound;

/// The slots needed by an insert of the rectangle, and the slots free, "written only beside 0". The
/// refusals in the order of checks: 1 for the pool's length, 2 for a pool that is not sound, 3 for
/// the rectangle. No record number is given, so nothing is said of 4 and 6.
pub fn room(pool: &[i32], rect: [i32; 4], slots: &mut [u32; 2]) -> i32 {
    if slots_of(pool).is_none() {
        return 1;
    }
    if !sound(pool) {
        return 2;
    }
    let rect = Rect::from_words(rect);
    if !rect.valid() {
        return 3;
    }
    let mut map = Map::read(pool);
    *slots = [needed(&mut map, &rect), free(&map)];
    0
}

/// "the run of full nodes from the chosen leaf upward, plus one if the run includes the root". A
/// chosen leaf that is not full leaves a run of nothing, whatever is above it.
fn needed(map: &mut Map, rect: &Rect) -> u32 {
    let way = map.way_to_leaf(rect);
    let run = way.iter().rev().take_while(|&&slot| full(map.node(slot))).count();
    // The root is the last one upward, so the run includes it where it takes the whole way.
    let includes_root = run == way.len();
    run as u32 + u32::from(includes_root)
}

/// "M = 8 entries in a node at most": a node that has them is full.
fn full(node: &Node) -> bool {
    node.entries.len() == MOST_ENTRIES
}

/// "Level 0 is free".
fn free(map: &Map) -> u32 {
    map.nodes().iter().filter(|node| node.level == 0).count() as u32
}
