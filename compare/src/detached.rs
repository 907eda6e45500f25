//! Pools in which every node looks right by itself, with every cover tight and every record counted, but the nodes are not one tree: parts
//! that the root does not lead to, and nodes that it leads to twice.

use second::generate::pair_of;
use second::geometry::Rect;
use second::pool::{slots_of, Entry, Map, Node, Owned, Slot};

/// Three records, all the same point, in every leaf that is made here: so every cover of such leaves is that point.
const POINT: [i32; 4] = [7, 7, 7, 7];
const RECORDS: i64 = 3;

/// Every such pool that can be made of a sound one, by name.
pub fn all(sound: &[i32]) -> Vec<(&'static str, Vec<i32>)> {
    let makers: [(&'static str, Maker); 8] = [
        ("a detached leaf", |map, free| leaf(map, *free.first()?)),
        ("a detached tree", tree),
        ("a node that is its own child", |map, free| ring(map, free, 1)),
        ("two nodes that are each other's child", |map, free| ring(map, free, 2)),
        ("a ring of three nodes", |map, free| ring(map, free, 3)),
        ("a child met twice in one node", |map, _| met_twice(map, same_parent(map)?)),
        ("a child met in two nodes", |map, _| met_twice(map, two_parents(map)?)),
        ("a detached part that leads into the tree", |map, free| into_the_tree(map, free)),
    ];
    let made = |(name, make): (&'static str, Maker)| {
        let mut map = Map::read(sound);
        let free = free_slots(&map, slots_of(sound)?);
        make(&mut map, &free)?;
        let mut pool = sound.to_vec();
        map.write(&mut pool);
        Some((name, pool))
    };
    makers.into_iter().filter_map(made).collect()
}

/// Changes the pool; nothing where it has too few free slots, or is too low.
type Maker = fn(&mut Map, &[Slot]) -> Option<()>;

fn free_slots(map: &Map, slots: usize) -> Vec<Slot> {
    (1..=slots).map(Slot).filter(|&s| map.node(s).level == 0).collect()
}

fn entry(child: Slot) -> Entry {
    Entry::over(child, Rect::from_words(POINT))
}

fn leaf(map: &mut Map, slot: Slot) -> Option<()> {
    let record = |k| Entry::of(&Owned { owner: None, pair: pair_of(k as i32, POINT) });
    *map.node_mut(slot) = Node { level: 1, entries: (1..=RECORDS).map(record).collect() };
    map.records += RECORDS;
    Some(())
}

/// A node of level 2 with three leaves, and no parent.
fn tree(map: &mut Map, free: &[Slot]) -> Option<()> {
    let (top, leaves) = (*free.first()?, free.get(1..4)?);
    leaves.iter().try_for_each(|&s| leaf(map, s))?;
    *map.node_mut(top) = Node { level: 2, entries: leaves.iter().map(|&s| entry(s)).collect() };
    Some(())
}

/// So many nodes, each of which leads to the next, and the last to the first, and each to two leaves of its own: every one of
/// them has exactly one parent.
fn ring(map: &mut Map, free: &[Slot], nodes: usize) -> Option<()> {
    let (ring, leaves) = (free.get(..nodes)?, free.get(nodes..3 * nodes)?);
    for (k, &slot) in ring.iter().enumerate() {
        let own = [leaves[2 * k], leaves[2 * k + 1]];
        own.iter().try_for_each(|&s| leaf(map, s))?;
        let children = [ring[(k + 1) % nodes], own[0], own[1]];
        *map.node_mut(slot) = Node { level: 2, entries: children.map(entry).to_vec() };
    }
    Some(())
}

/// A node of level 2 with no parent, with two leaves of its own and one of the tree's.
fn into_the_tree(map: &mut Map, free: &[Slot]) -> Option<()> {
    let (top, own) = (*free.first()?, free.get(1..3)?);
    let shared = map.node(*parents(map).first()?).entries[0];
    own.iter().try_for_each(|&s| leaf(map, s))?;
    *map.node_mut(top) = Node { level: 2, entries: vec![entry(own[0]), entry(own[1]), shared] };
    Some(())
}

/// The nodes of level 2.
fn parents(map: &Map) -> Vec<Slot> {
    let level_2 = |(_, node): &(usize, &Node)| node.level == 2;
    map.nodes().iter().enumerate().filter(level_2).map(|(k, _)| Slot(k + 1)).collect()
}

fn same_parent(map: &Map) -> Option<(Slot, Slot)> {
    let parent = *parents(map).first()?;
    Some((parent, parent))
}

fn two_parents(map: &Map) -> Option<(Slot, Slot)> {
    let parents = parents(map);
    Some((*parents.first()?, *parents.get(1)?))
}

/// The last entry of one node is made the same as the first of the other. The leaf that it led to is freed, and all is made tight.
fn met_twice(map: &mut Map, (kept, changed): (Slot, Slot)) -> Option<()> {
    let first = map.node(kept).entries[0];
    let last = map.node_mut(changed).entries.last_mut()?;
    let lost = std::mem::replace(last, first).child();
    let (gone, shared) = (map.node(lost).entries.len(), map.node(first.child()).entries.len());
    *map.node_mut(lost) = Node::free();
    map.records -= gone as i64;
    tighten(map);
    (shared > 0).then_some(())
}

/// Every cover, from the lowest level up.
fn tighten(map: &mut Map) {
    for level in 2..=map.height {
        for slot in (1..=map.nodes().len()).map(Slot) {
            if map.node(slot).level != level {
                continue;
            }
            for place in 0..map.node(slot).entries.len() {
                let child = map.node(slot).entries[place].child();
                map.node_mut(slot).entries[place].rect = map.node(child).cover();
            }
        }
    }
}
