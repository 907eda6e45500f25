//! Cases of the call of Req 06 that meet every sentence of the request.

use crate::edition::Edition;
use crate::files_kept::pool_holding;
use crate::geometry::Rect;
use crate::pool::{Entry, Map, Node, Owned, Pair, RecordNumber, Slot};
use crate::rooms::Case;
use crate::script::blank_pool;

const LIMIT: i32 = 1_000_000_000;

/// A rectangle that lies in the chosen leaf of every pool of `pool_with_way`, and in no other leaf.
pub const HERE: [i32; 4] = [-998, 2, -995, 7];

/// Entries of the nodes on a way, from the root down to the chosen leaf, and the slots that an
/// insert there needs by the words of the request.
pub const WAYS: [(&[usize], u32); 28] = [
    // A leaf that is the root.
    (&[0], 0),
    (&[1], 0),
    (&[7], 0),
    (&[8], 2),
    // A run of nothing, below a root with room and below a full one.
    (&[2, 3], 0),
    (&[2, 7], 0),
    (&[8, 3], 0),
    (&[8, 7], 0),
    // A full leaf below a root with room.
    (&[2, 8], 1),
    (&[3, 8], 1),
    (&[7, 8], 1),
    // The whole way.
    (&[8, 8], 3),
    (&[8, 8, 8], 4),
    // A run of nothing, whatever is full above it.
    (&[2, 3, 3], 0),
    (&[3, 8, 7], 0),
    (&[8, 3, 7], 0),
    (&[8, 8, 3], 0),
    (&[8, 8, 7], 0),
    // A run of one; above the gap nothing counts.
    (&[2, 3, 8], 1),
    (&[2, 7, 8], 1),
    (&[8, 3, 8], 1),
    (&[8, 7, 8], 1),
    // A run of two, which ends below the root.
    (&[2, 8, 8], 2),
    (&[3, 8, 8], 2),
    (&[7, 8, 8], 2),
    // Four levels.
    (&[2, 7, 8, 8], 2),
    (&[2, 8, 7, 8], 1),
    (&[2, 8, 8, 8], 3),
];

/// A tree in the making. A node is in its slot as soon as all below it are.
struct Growing {
    nodes: Vec<Node>,
    records: i64,
    /// Leaves so far that are not the chosen one.
    others: i64,
}

/// A pool in which the root, and the nodes from it to the leaf chosen for `HERE`, have so many
/// entries; every other node has three. Of the slots to be free, half come before the nodes.
pub fn pool_with_way(way: &[usize], free: usize) -> Vec<i32> {
    let nodes = vec![Node::free(); free / 2];
    let mut growing = Growing { nodes, records: 0, others: 0 };
    let root = growing.node(way, true);
    growing.pool(root, free - free / 2)
}

impl Growing {
    /// The child on the way is in the middle of the others.
    fn node(&mut self, way: &[usize], on_the_way: bool) -> Slot {
        let [count, below @ ..] = way else { panic!("a way has a leaf") };
        if below.is_empty() {
            return self.row(*count, on_the_way);
        }
        let mut children = Vec::new();
        for place in 0..*count {
            let chosen = on_the_way && place == count / 2;
            let three = vec![3; below.len()];
            children.push(self.node(if chosen { below } else { &three }, chosen));
        }
        self.inner(&children)
    }

    /// A leaf of squares in a row. The chosen one is alone on its side of x = 0.
    fn row(&mut self, count: usize, chosen: bool) -> Slot {
        self.others += i64::from(!chosen);
        let x = if chosen { -1_000 } else { 1_000 * self.others };
        let square = |k: i64| Rect::new(x + 20 * k, 0, x + 20 * k + 10, 10);
        let squares: Vec<Rect> = (0..count as i64).map(square).collect();
        self.leaf(&squares)
    }

    /// A leaf of these rectangles, each under a number of its own.
    fn leaf(&mut self, rects: &[Rect]) -> Slot {
        let mut entries = Vec::new();
        for &rect in rects {
            self.records += 1;
            let pair = Pair { number: RecordNumber(self.records), rect };
            entries.push(Entry::of(&Owned { owner: None, pair }));
        }
        self.put(Node { level: 1, entries })
    }

    fn inner(&mut self, children: &[Slot]) -> Slot {
        let below = |child: &Slot| &self.nodes[child.0 - 1];
        let entry = |child: &Slot| Entry::over(*child, below(child).cover());
        let entries = children.iter().map(entry).collect();
        let level = below(&children[0]).level + 1;
        self.put(Node { level, entries })
    }

    fn put(&mut self, node: Node) -> Slot {
        self.nodes.push(node);
        Slot(self.nodes.len())
    }

    /// The pool, with so many free slots after the nodes.
    fn pool(mut self, root: Slot, free: usize) -> Vec<i32> {
        self.nodes.extend(vec![Node::free(); free]);
        let mut pool = blank_pool(self.nodes.len());
        let mut map = Map::read(&pool);
        map.root = root;
        map.height = self.nodes[root.0 - 1].level;
        map.records = self.records;
        for (index, node) in self.nodes.into_iter().enumerate() {
            *map.node_mut(Slot(index + 1)) = node;
        }
        map.write(&mut pool);
        pool
    }
}

/// A root over leaves of these rectangles, each so many times.
pub fn pool_over(leaves: &[(usize, [i32; 4])], free: usize) -> Vec<i32> {
    let mut growing = Growing { nodes: Vec::new(), records: 0, others: 0 };
    let leaf =
        |&(count, rect): &(usize, [i32; 4])| growing.leaf(&vec![Rect::from_words(rect); count]);
    let leaves: Vec<Slot> = leaves.iter().map(leaf).collect();
    let root = growing.inner(&leaves);
    growing.pool(root, free)
}

/// Every sentence of the request.
pub fn kept() -> Vec<Case> {
    let told = runs().into_iter().chain(choices()).chain(places());
    let refused = wrong_lengths().into_iter().chain(not_sound()).chain(bad_rectangles());
    told.chain(refused).map(|(pool, rect)| Case { pool, rect }).collect()
}

/// Each way with no slot free, with one too few, with just enough and with one more.
fn runs() -> Vec<(Vec<i32>, [i32; 4])> {
    let mut cases = Vec::new();
    for (way, needed) in WAYS {
        let needed = needed as usize;
        let mut frees = vec![0, needed.saturating_sub(1), needed, needed + 1];
        frees.dedup();
        cases.extend(frees.into_iter().map(|free| (pool_with_way(way, free), HERE)));
    }
    cases
}

/// Two leaves, full or not: each rule of ChooseLeaf decides once which it comes to. That is the
/// second leaf, but for those that tie to the end.
fn choices() -> Vec<(Vec<i32>, [i32; 4])> {
    let square = [0, 0, 10, 10];
    let rules = [
        // Least enlargement: 920 and 20; 100 and none, though the half enlargements are 1 and 2.
        ([-90, 0, -80, 10], square, [11, 0, 12, 10]),
        ([0, 0, 100, 100], [103, 0, 113, 0], [101, 0, 101, 0]),
        // Example 5: 80 each, and the smaller area.
        (square, [20, 0, 29, 10], [12, 0, 18, 10]),
        // Example 4: 80 each, areas equal, the first.
        (square, [20, 0, 30, 10], [12, 0, 18, 10]),
        // On a road: no area, and the least half enlargement; then the smaller half perimeter.
        ([20, 0, 30, 0], [0, 0, 10, 0], [12, 0, 12, 0]),
        ([0, 0, 100, 0], [40, 0, 60, 0], [50, 0, 50, 0]),
        // One and the same cover twice, from limit to limit.
        ([-LIMIT, -LIMIT, LIMIT, LIMIT], [-LIMIT, -LIMIT, LIMIT, LIMIT], [LIMIT; 4]),
    ];
    let mut cases = Vec::new();
    for (first, second, new) in rules {
        for (one, other) in [(8, 3), (3, 8), (8, 8), (7, 8)] {
            cases.push((pool_over(&[(one, first), (other, second)], 1), new));
        }
    }
    cases
}

/// Rectangles elsewhere, and pools that hold the rectangle already, or one pair twice.
fn places() -> Vec<(Vec<i32>, [i32; 4])> {
    let everywhere = [-LIMIT, -LIMIT, LIMIT, LIMIT];
    let full_way = pool_with_way(&[8, 8], 2);
    let twice = [[7, 0, 0, 10, 10]; 8];
    vec![
        // In another leaf, of three.
        (full_way.clone(), [1_001, 1, 1_002, 2]),
        (full_way.clone(), everywhere),
        (full_way.clone(), [LIMIT; 4]),
        // That of a record.
        (full_way, [-1_000, 0, -990, 10]),
        (pool_with_way(&[8], 1), [-980, 0, -970, 10]),
        (pool_holding(2, &twice), [0, 0, 10, 10]),
        (pool_holding(2, &twice[1..]), [0, 0, 10, 10]),
        (blank_pool(1), everywhere),
        (blank_pool(16), [-LIMIT; 4]),
    ]
}

/// Rectangles that are refused 3.
fn bad() -> [[i32; 4]; 10] {
    let beyond = LIMIT + 1;
    [
        [1, 0, 0, 0],
        [0, 1, 0, 0],
        [-beyond, 0, 0, 0],
        [0, -beyond, 0, 0],
        [0, 0, beyond, 0],
        [0, 0, 0, beyond],
        [beyond, 0, beyond, 0],
        [0, -beyond, 0, -beyond],
        [i32::MIN, i32::MIN, i32::MAX, i32::MAX],
        [i32::MAX, i32::MAX, i32::MIN, i32::MIN],
    ]
}

/// "1 .. pool length wrong": blank pools cut or too long, words that are no pool, and a pool whose
/// word 0 says edition 2. 1 comes before 3.
fn wrong_lengths() -> Vec<(Vec<i32>, [i32; 4])> {
    let mut longer = blank_pool(2);
    longer.push(0);
    let cut = |length: usize| blank_pool(3)[..length].to_vec();
    let mut of_edition_2 = pool_with_way(&[2, 8], 2);
    of_edition_2[0] = 2;
    let cuts = [cut(0), cut(1), cut(8), cut(49), cut(91), cut(93)];
    let pools = cuts.into_iter().chain([longer, vec![-7; 51], of_edition_2]);
    pools.flat_map(|pool| [(pool.clone(), HERE), (pool, bad()[0])]).collect()
}

/// "2 .. pool not sound": a word changed, on the way or off it. 2 comes before 3.
fn not_sound() -> Vec<(Vec<i32>, [i32; 4])> {
    let changed = |word: usize, to: i32| {
        let mut pool = pool_with_way(&[2, 8], 2);
        pool[word] = to;
        pool
    };
    // Slot 1 is free, 2 is the other leaf, 3 the chosen one, 4 the root, 5 free.
    let slot = |slot: usize| Edition::One.slot_start(Slot(slot));
    let pools = [
        changed(0, 3),
        changed(1, 0),
        changed(1, 6),
        changed(2, 1),
        changed(3, 10),
        changed(7, 1),
        changed(slot(1), 1),
        changed(slot(5) + 41, 1),
        changed(slot(2) + 1, 2),
        changed(slot(2) + 6, 0),
        changed(slot(3) + 1, 9),
        changed(slot(3) + 1, 7),
        changed(slot(4) + 2, 999),
        changed(slot(4) + 6, 3),
        vec![0; 50],
    ];
    pools.into_iter().flat_map(|pool| [(pool.clone(), HERE), (pool, bad()[1])]).collect()
}

/// In a pool with room, and in one where an insert would be refused 7.
fn bad_rectangles() -> Vec<(Vec<i32>, [i32; 4])> {
    let pools = [blank_pool(2), pool_with_way(&[8], 0)];
    pools.iter().flat_map(|pool| bad().map(|rect| (pool.clone(), rect))).collect()
}
