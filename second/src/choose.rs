//! The choices of insert: which child takes a new entry, and how nine entries are divided into two groups.
//!
//! Places are counted from 1, as in the site examples.
//!
//! Document 02 puts half perimeters among the rules of document 01 (Req 05): "Where areas,
//! enlargements or d tie, compare the same quantity in half perimeter (width plus height) before
//! going to the next rule; this holds in ChooseLeaf, PickSeeds, PickNext and the choice of group."
//! So each of the four choices lists what it compares of a candidate, in the order of the rules:
//! every quantity in areas has its twin in half perimeters right after it.

use crate::events::Decided;
use crate::geometry::{
    area, cover, enlargement, half_enlargement, half_perimeter, half_waste, waste, Rect,
};

/// m: "3 at least (root excepted)".
pub const LEAST_ENTRIES: usize = 3;

/// M: "8 entries in a node at most".
pub const MOST_ENTRIES: usize = 8;

/// The index, from 0, of the candidate with the least quantities. A quantity is compared where
/// those before it tie; where all tie the earliest stays the choice.
fn first_least<const K: usize>(candidates: &[[i128; K]]) -> usize {
    let mut best = 0;
    for (index, quantities) in candidates.iter().enumerate() {
        if *quantities < candidates[best] {
            best = index;
        }
    }
    best
}

/// 1 where the quantity at an index decides, else 0: with it left out, the choice is another.
fn decides<const K: usize>(candidates: &[[i128; K]], index: usize) -> u64 {
    let mut without = candidates.to_vec();
    for quantities in &mut without {
        quantities[index] = 0;
    }
    u64::from(first_least(&without) != first_least(candidates))
}

/// CL3: "least enlargement, then smallest area, then earliest entry". Gives the place.
pub fn choose_child(entries: &[Rect], new: &Rect) -> usize {
    choose_child_counting(entries, new, &mut Decided::default())
}

/// The same, counting what a half perimeter decided.
pub fn choose_child_counting(entries: &[Rect], new: &Rect, decided: &mut Decided) -> usize {
    let costs: Vec<[i128; 4]> = entries.iter().map(|entry| cost(entry, new)).collect();
    decided.choose_leaf_by_half_enlargement += decides(&costs, 1);
    decided.choose_leaf_by_half_perimeter += decides(&costs, 3);
    first_least(&costs) + 1
}

/// Enlargement and its twin, area and its twin.
fn cost(entry: &Rect, new: &Rect) -> [i128; 4] {
    [enlargement(entry, new), half_enlargement(entry, new), area(entry), half_perimeter(entry)]
}

/// Quadratic Split of nine entries: the places of group 1 and of group 2, each in the order
/// of joining.
pub fn split_nine(nine: &[Rect]) -> (Vec<usize>, Vec<usize>) {
    split_nine_counting(nine, &mut Decided::default())
}

/// The same, counting what a half perimeter decided.
pub fn split_nine_counting(nine: &[Rect], decided: &mut Decided) -> (Vec<usize>, Vec<usize>) {
    // QS1: "The earlier seed opens group 1."
    let (first_seed, second_seed) = pick_seeds_counting(nine, decided);
    let mut groups = [vec![first_seed], vec![second_seed]];
    let mut remaining: Vec<usize> =
        (1..=nine.len()).filter(|&p| p != first_seed && p != second_seed).collect();
    while !remaining.is_empty() {
        // QS2: "Before each assignment, if a group's size plus the number remaining is 3, all
        // remaining join it in order."
        if let Some(short) = group_in_need(&groups, remaining.len()) {
            groups[short].append(&mut remaining);
            break;
        }
        let covers = [cover_of(nine, &groups[0]), cover_of(nine, &groups[1])];
        let next = pick_next(nine, &covers, &remaining, decided);
        let sizes = [groups[0].len(), groups[1].len()];
        let group = group_for(&nine[next - 1], &covers, sizes, decided);
        groups[group].push(next);
        remaining.retain(|&place| place != next);
    }
    let [group_1, group_2] = groups;
    (group_1, group_2)
}

/// PS2: "largest d, then earliest first member, then earliest second".
pub fn pick_seeds(nine: &[Rect]) -> (usize, usize) {
    pick_seeds_counting(nine, &mut Decided::default())
}

/// The pairs stand in the order of the rule for ties. The largest d is the least when negated; its
/// twin keeps its sign too.
fn pick_seeds_counting(nine: &[Rect], decided: &mut Decided) -> (usize, usize) {
    let after = |first: usize| (first + 1..=nine.len()).map(move |second| (first, second));
    let pairs: Vec<(usize, usize)> = (1..=nine.len()).flat_map(after).collect();
    let negated = |&(first, second): &(usize, usize)| {
        let (a, b) = (&nine[first - 1], &nine[second - 1]);
        [-waste(a, b), -half_waste(a, b)]
    };
    let wastes: Vec<[i128; 2]> = pairs.iter().map(negated).collect();
    decided.pick_seeds_by_half_d += decides(&wastes, 1);
    pairs[first_least(&wastes)]
}

/// PN2: "largest absolute difference of the two enlargements, then earliest". The remaining
/// places are in stored order. The largest is the least when negated.
fn pick_next(
    nine: &[Rect],
    covers: &[Rect; 2],
    remaining: &[usize],
    decided: &mut Decided,
) -> usize {
    let negated = |&place: &usize| {
        let difference = |measure: fn(&Rect, &Rect) -> i128| {
            let entry = &nine[place - 1];
            (measure(&covers[0], entry) - measure(&covers[1], entry)).abs()
        };
        [-difference(enlargement), -difference(half_enlargement)]
    };
    let differences: Vec<[i128; 2]> = remaining.iter().map(negated).collect();
    decided.pick_next_by_half_difference += decides(&differences, 1);
    remaining[first_least(&differences)]
}

/// QS3: "the group of least enlargement, then smaller area, then fewer entries, then group 1".
/// Gives 0 for group 1 and 1 for group 2.
fn group_for(entry: &Rect, covers: &[Rect; 2], sizes: [usize; 2], decided: &mut Decided) -> usize {
    let ranks = [0, 1].map(|g| {
        let [enlarged, half_enlarged, size, half_size] = cost(&covers[g], entry);
        [enlarged, half_enlarged, size, half_size, sizes[g] as i128]
    });
    decided.group_by_half_enlargement += decides(&ranks, 1);
    decided.group_by_half_perimeter += decides(&ranks, 3);
    first_least(&ranks)
}

/// The group, if any, whose "size plus the number remaining is 3".
fn group_in_need(groups: &[Vec<usize>; 2], remaining: usize) -> Option<usize> {
    (0..2).find(|&g| groups[g].len() + remaining == LEAST_ENTRIES)
}

fn cover_of(nine: &[Rect], places: &[usize]) -> Rect {
    let members: Vec<Rect> = places.iter().map(|&p| nine[p - 1]).collect();
    cover(&members).expect("a group has its seed")
}
