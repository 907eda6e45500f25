//! Slips that the room for an insert can be told with, each of which the kept cases show.
//!
//! The room is counted here a second time, over the pool's words, with its steps apart. Done right
//! it is what `room` tells; with one step wrong it is another for some kept case.

use second::dice::Dice;
use second::pool::{each_slot, entries, slot_words, Slot};
use second::rooms::{answered, outcome, Case};
use second::rooms_drawn::drawn;
use second::rooms_kept::kept;
use second::{area, enlargement, half_enlargement, half_perimeter, meets, rooms, sound, Rect};

/// The steps.
#[derive(Clone, Copy)]
struct Way {
    /// 0, or the number of a refusal; by whether the length is right, the pool sound and the
    /// rectangle valid.
    refusal: fn(bool, bool, bool) -> i32,
    /// What is compared of an entry and the new rectangle. The first of the least is chosen.
    choose: fn(&Rect, &Rect) -> Vec<i128>,
    /// Of a node's count.
    full: fn(i32) -> bool,
    /// By whether each node is full, from the root down to the chosen leaf.
    needed: fn(&[bool]) -> usize,
    /// Of the levels and counts of all slots.
    free: fn(&[(i32, i32)]) -> usize,
}

const RIGHT: Way = Way {
    refusal: |length, sound, valid| match (length, sound, valid) {
        (false, _, _) => 1,
        (_, false, _) => 2,
        (_, _, false) => 3,
        _ => 0,
    },
    choose: |e, new| {
        vec![enlargement(e, new), half_enlargement(e, new), area(e), half_perimeter(e)]
    },
    full: |count| count == 8,
    needed: |way| upward(way) + usize::from(upward(way) == way.len()),
    free: |slots| slots.iter().filter(|slot| slot.0 == 0).count(),
};

/// The full nodes from the leaf up to the first that is not full.
fn upward(way: &[bool]) -> usize {
    way.iter().rev().take_while(|full| **full).count()
}

/// The full nodes from the root down to the first that is not full.
fn downward(way: &[bool]) -> usize {
    way.iter().take_while(|full| **full).count()
}

/// All full nodes, gaps or not.
fn any(way: &[bool]) -> usize {
    way.iter().filter(|full| **full).count()
}

fn root(way: &[bool]) -> bool {
    way[0]
}

fn leaf(way: &[bool]) -> bool {
    way[way.len() - 1]
}

impl Way {
    fn told(&self, Case { pool, rect }: &Case) -> Result<[u32; 2], i32> {
        let (slot, longest) = if pool.first() == Some(&2) { (50, 204_808) } else { (42, 172_040) };
        let length_right =
            (8 + slot..=longest).contains(&pool.len()) && pool.len() % slot == 8 % slot;
        let rect = Rect::from_words(*rect);
        match (self.refusal)(length_right, sound(pool), rect.valid()) {
            0 => (),
            number => return Err(number),
        }
        let slots: Vec<(i32, i32)> = each_slot(pool).map(|slot| (slot[0], slot[1])).collect();
        let needed = (self.needed)(&self.down(pool, &rect));
        Ok([needed as u32, (self.free)(&slots) as u32])
    }

    /// Whether each node on the way is full.
    fn down(&self, pool: &[i32], rect: &Rect) -> Vec<bool> {
        let (mut slot, mut way) = (pool[1], Vec::new());
        loop {
            let words = slot_words(pool, Slot(slot as usize));
            way.push((self.full)(words[1]));
            if words[0] == 1 {
                return way;
            }
            let entries = entries(pool, Slot(slot as usize)).into_iter();
            let chosen = entries.min_by_key(|entry| (self.choose)(&entry.rect(), rect));
            slot = chosen.expect("an inner node has entries").pointer;
        }
    }
}

/// Which slots are counted as needed.
fn slips_of_the_run() -> Vec<(&'static str, Way)> {
    let needed = |needed| Way { needed, ..RIGHT };
    vec![
        ("counted from the root", needed(|w| downward(w) + usize::from(root(w)))),
        ("counted from the root, the new one where all are full", {
            needed(|w| downward(w) + usize::from(any(w) == w.len()))
        }),
        ("a gap counted over", needed(|w| any(w) + usize::from(root(w)))),
        ("a gap counted over, the new root where all are full", {
            needed(|w| any(w) + usize::from(any(w) == w.len()))
        }),
        ("above a leaf with room too", {
            needed(|w| upward(&w[..w.len() - 1]) + usize::from(any(w) == w.len()))
        }),
        ("the new root's slot forgotten", needed(upward)),
        ("a slot more for every run", needed(|w| upward(w) + usize::from(leaf(w)))),
        ("a slot more for every full root", needed(|w| upward(w) + usize::from(root(w)))),
        ("a slot more in any case", needed(|w| upward(w) + 1)),
        ("two slots more with the root", {
            needed(|w| upward(w) + 2 * usize::from(upward(w) == w.len()))
        }),
        ("the leaf alone", needed(|w| usize::from(leaf(w)))),
        ("the leaf and the root alone", {
            needed(|w| usize::from(leaf(w)) * (1 + 2 * usize::from(root(w))))
        }),
        ("the height and one, whatever is full", needed(|w| w.len() + 1)),
        ("the height and one where the leaf is full", {
            needed(|w| usize::from(leaf(w)) * (w.len() + 1))
        }),
    ]
}

/// What counts as full, and as free.
fn slips_of_counting() -> Vec<(&'static str, Way)> {
    let trailing = |slots: &[(i32, i32)]| slots.iter().rev().take_while(|s| s.0 == 0).count();
    vec![
        ("full taken for seven", Way { full: |count| count == 7, ..RIGHT }),
        ("full from seven on", Way { full: |count| count >= 7, ..RIGHT }),
        ("never full at eight", Way { full: |count| count > 8, ..RIGHT }),
        ("not thin taken for full", Way { full: |count| count > 3, ..RIGHT }),
        (
            "slots without entries free",
            Way { free: |s| s.iter().filter(|s| s.1 == 0).count(), ..RIGHT },
        ),
        ("free slots at the end alone", Way { free: trailing, ..RIGHT }),
        ("all slots", Way { free: |slots| slots.len(), ..RIGHT }),
        ("the slots in use", Way { free: |s| s.iter().filter(|s| s.0 != 0).count(), ..RIGHT }),
    ]
}

/// Another leaf than the chosen one.
fn slips_of_choosing() -> Vec<(&'static str, Way)> {
    let choose = |choose| Way { choose, ..RIGHT };
    vec![
        ("the first child", choose(|_, _| vec![])),
        ("the first child that meets", choose(|e, new| vec![i128::from(!meets(e, new))])),
        ("areas alone", choose(|e, new| vec![enlargement(e, new), area(e)])),
        ("enlargement alone", choose(|e, new| vec![enlargement(e, new)])),
        ("half perimeters alone", choose(|e, n| vec![half_enlargement(e, n), half_perimeter(e)])),
        ("no half perimeter at the end", {
            choose(|e, new| vec![enlargement(e, new), half_enlargement(e, new), area(e)])
        }),
        ("the smallest area first", choose(|e, new| vec![area(e), enlargement(e, new)])),
        ("the largest enlargement", choose(|e, new| vec![-enlargement(e, new)])),
    ]
}

/// Refusals left out, or in another order.
fn slips_of_refusing() -> Vec<(&'static str, Way)> {
    let refusal = |refusal| Way { refusal, ..RIGHT };
    vec![
        ("3 before 2", {
            refusal(|length, sound, valid| match (length, valid, sound) {
                (false, _, _) => 1,
                (_, false, _) => 3,
                (_, _, false) => 2,
                _ => 0,
            })
        }),
        ("3 before 1", {
            refusal(|length, sound, valid| match (valid, length, sound) {
                (false, _, _) => 3,
                (_, false, _) => 1,
                (_, _, false) => 2,
                _ => 0,
            })
        }),
        ("2 for a wrong length", {
            refusal(|_, sound, valid| match (sound, valid) {
                (false, _) => 2,
                (_, false) => 3,
                _ => 0,
            })
        }),
        ("3 not asked", {
            refusal(|length, sound, _| match (length, sound) {
                (false, _) => 1,
                (_, false) => 2,
                _ => 0,
            })
        }),
    ]
}

fn slips() -> Vec<(&'static str, Way)> {
    [slips_of_the_run(), slips_of_counting(), slips_of_choosing(), slips_of_refusing()].concat()
}

#[test]
fn done_right_it_is_the_same() {
    let mut dice = Dice::new(8);
    let many = std::iter::repeat_with(|| drawn(&mut dice)).take(4_000);
    for case in kept().into_iter().chain(many) {
        assert_eq!(RIGHT.told(&case), outcome(&case), "{}", answered(&case));
    }
}

/// The slips that are told as the room in each of the cases.
fn not_shown(cases: &[Case]) -> Vec<&'static str> {
    let hides = |slip: &Way| cases.iter().all(|case| slip.told(case) == outcome(case));
    slips().into_iter().filter(|(_, slip)| hides(slip)).map(|(name, _)| name).collect()
}

#[test]
fn each_slip_shows() {
    assert_eq!(not_shown(&kept()), [""; 0]);
}

/// So do the few cases in `examples/room.cases`.
#[test]
fn each_slip_shows_in_the_examples() {
    let lines = include_str!("../examples/room.cases").lines();
    let cases: Vec<Case> = lines.flat_map(rooms::parse).collect();
    assert_eq!(not_shown(&cases), [""; 0]);
}

/// The drawn cases show each slip too, with no pool made for it.
#[test]
fn each_slip_shows_in_drawn_cases() {
    let mut dice = Dice::new(9);
    let drawn: Vec<Case> = std::iter::repeat_with(|| drawn(&mut dice)).take(4_000).collect();
    assert_eq!(not_shown(&drawn), [""; 0]);
}
