//! Search, insert, delete and update over the plain nodes of a map.
//!
//! Guttman's steps are named beside the lines that render them.

use crate::choose::{choose_child_counting, split_nine_counting, LEAST_ENTRIES, MOST_ENTRIES};
use crate::edition::{Edition, Owner};
use crate::events::{Decided, Sight};
use crate::geometry::{compare, Comparison, Rect};
use crate::mode::Mode;
use crate::pool::{Entry, Map, Node, Owned, Pair, Pointer, Slot};

/// "the rules call for a slot at a moment when none is free"
#[derive(Clone, Copy, Debug, PartialEq, Eq)]
pub struct NoSlotFree;

/// One step of the way down: a node and the place (from 1) of the entry taken in it.
#[derive(Clone, Copy, Debug)]
struct Step {
    node: Slot,
    place: usize,
}

/// An entry set aside, with the level of the node it stood in.
struct SetAside {
    level: i64,
    entry: Entry,
}

/// What is asked for by a search, and by whom.
struct Asked<'a> {
    window: &'a Rect,
    mode: Mode,
    owner: Option<Owner>,
}

/// The records found by a search, in order, and the number of nodes opened. The sight notes what
/// the search met on its way.
pub struct Finding {
    pub pairs: Vec<Pair>,
    pub opened: i64,
    pub sight: Sight,
}

impl Map {
    /// Whose records a batch of an owner sees and changes: "that owner's records only". In edition 1
    /// the records are nobody's, and "served on, for owners 1 and 2 alike".
    pub fn whose(&self, owner: Owner) -> Option<Owner> {
        (self.edition == Edition::Two).then_some(owner)
    }

    /// Whether the pair is held: a look at every leaf. "a pair counts as held per owner".
    pub fn held(&self, record: &Owned) -> bool {
        let mut leaves = self.nodes().iter().filter(|node| node.is_leaf());
        leaves.any(|leaf| leaf.entries.iter().any(|entry| is_record(entry, record)))
    }

    /// "Found records are ordered by record number, then low x, low y, high x, high y."
    pub fn search(&self, window: &Rect, mode: Mode, owner: Option<Owner>) -> Finding {
        let mut finding = Finding { pairs: Vec::new(), opened: 0, sight: Sight::default() };
        self.open(self.root, &Asked { window, mode, owner }, &mut finding);
        finding.pairs.sort();
        finding
    }

    /// Opens a node. "The root is always opened."
    fn open(&self, slot: Slot, asked: &Asked, finding: &mut Finding) {
        finding.opened += 1;
        for entry in &self.node(slot).entries {
            let comparison = compare(&entry.rect, asked.window);
            if comparison == Comparison::Apart {
                continue;
            }
            let listed = asked.mode.lists(comparison);
            match entry.pointer {
                // S1: "All modes open the nodes whose cover meets the window", so the mode is
                // not asked here, also where it would leave a node out.
                Pointer::Child(child) => {
                    finding.sight.covers.push(entry.rect);
                    self.open(child, asked, finding);
                }
                Pointer::Record(_) if entry.owner != asked.owner => {
                    finding.sight.others += u64::from(listed);
                }
                // S2: a record qualifies by the mode.
                Pointer::Record(number) => {
                    finding.sight.records.push(entry.rect);
                    if listed {
                        finding.pairs.push(Pair { number, rect: entry.rect });
                    }
                }
            }
        }
    }

    /// Insert of a pair that its owner does not hold.
    pub fn insert(&mut self, record: &Owned) -> Result<(), NoSlotFree> {
        self.insert_entry(Entry::of(record), 1)?;
        self.records += 1;
        Ok(())
    }

    /// Delete of a pair that its owner holds: D1 to D4.
    pub fn delete(&mut self, record: &Owned) -> Result<(), NoSlotFree> {
        let (mut path, mut passed) = (Vec::new(), 0);
        let found = self.find_leaf(self.root, record, &mut path, &mut passed);
        assert!(found, "the pair is held");
        self.trace.shares.find_leaf_passed_other += passed;
        let last = path.pop().expect("the leaf");
        // D2: "Later entries close up".
        self.node_mut(last.node).entries.remove(last.place - 1);
        self.records -= 1;
        let set_aside = self.condense(&path, last.node);
        let others = set_aside.iter().filter(|aside| of_the_other(&aside.entry, record.owner));
        self.trace.shares.other_set_aside += others.count() as u64;
        self.insert_again(set_aside)?;
        self.shorten();
        Ok(())
    }

    /// "Update deletes the old pair, then inserts the new rectangle under the same number; also
    /// where old equals new." It stays its owner's.
    pub fn update(&mut self, old: &Owned, new: &Rect) -> Result<(), NoSlotFree> {
        self.delete(old)?;
        let pair = Pair { number: old.pair.number, rect: *new };
        self.insert(&Owned { owner: old.owner, pair })
    }

    /// FL1, FL2: "FindLeaf visits children in stored order; the first exact pair found goes", the
    /// first of that owner. The path is left as the steps from the root to the leaf, the last at the
    /// pair's place. Counted are the same pairs of the other owner before it.
    fn find_leaf(
        &self,
        slot: Slot,
        record: &Owned,
        path: &mut Vec<Step>,
        passed: &mut u64,
    ) -> bool {
        for (index, entry) in self.node(slot).entries.iter().enumerate() {
            path.push(Step { node: slot, place: index + 1 });
            let found = match entry.pointer {
                Pointer::Child(child) => {
                    compare(&entry.rect, &record.pair.rect) != Comparison::Apart
                        && self.find_leaf(child, record, path, passed)
                }
                Pointer::Record(_) => {
                    *passed += u64::from(!is_record(entry, record) && is_pair(entry, &record.pair));
                    is_record(entry, record)
                }
            };
            if found {
                return true;
            }
            path.pop();
        }
        false
    }

    /// ChooseLeaf for a new record: the nodes on the way, from the root to the leaf chosen.
    pub fn way_to_leaf(&mut self, rect: &Rect) -> Vec<Slot> {
        let (path, leaf) = self.choose_node(rect, 1);
        path.iter().map(|step| step.node).chain([leaf]).collect()
    }

    /// Insert of an entry into a node of the given level, by the insert rules.
    fn insert_entry(&mut self, entry: Entry, level: i64) -> Result<(), NoSlotFree> {
        // I1
        let (path, target) = self.choose_node(&entry.rect, level);
        // I2
        let mut partner = self.add(target, entry)?;
        // I3: AdjustTree, upwards from the chosen node.
        let mut below = target;
        for step in path.into_iter().rev() {
            // AT3 comes before AT4: the cover is tight before the partner is added.
            self.tighten(step, below);
            partner = match partner {
                Some(slot) => self.add(step.node, self.entry_for(slot))?,
                None => None,
            };
            below = step.node;
        }
        // I4
        match partner {
            Some(slot) => self.grow(slot),
            None => Ok(()),
        }
    }

    /// CL1 to CL4, down to the level asked for: the steps on the way and the node chosen.
    fn choose_node(&mut self, rect: &Rect, level: i64) -> (Vec<Step>, Slot) {
        let mut path = Vec::new();
        let mut slot = self.root;
        while self.node(slot).level > level {
            let covers = self.node(slot).rects();
            let mut decided = Decided::default();
            let place = choose_child_counting(&covers, rect, &mut decided);
            let level_below = self.node(slot).level - 1;
            self.trace.note_choice(level_below, &covers[place - 1], &decided);
            path.push(Step { node: slot, place });
            slot = self.node(slot).entries[place - 1].child();
        }
        assert_eq!(self.node(slot).level, level, "the tree reaches the level");
        (path, slot)
    }

    /// "A new entry goes last." A full node splits; then its partner's slot is given.
    fn add(&mut self, slot: Slot, entry: Entry) -> Result<Option<Slot>, NoSlotFree> {
        let mut entries = self.node(slot).entries.clone();
        entries.push(entry);
        if entries.len() <= MOST_ENTRIES {
            self.node_mut(slot).entries = entries;
            return Ok(None);
        }
        self.split(slot, &entries).map(Some)
    }

    /// "Group 1 stays in the old slot. Group 2 takes the lowest free slot."
    fn split(&mut self, slot: Slot, nine: &[Entry]) -> Result<Slot, NoSlotFree> {
        let rects: Vec<Rect> = nine.iter().map(|e| e.rect).collect();
        let mut decided = Decided::default();
        let (group_1, group_2) = split_nine_counting(&rects, &mut decided);
        let members = |group: Vec<usize>| group.into_iter().map(|p| nine[p - 1]).collect();
        let level = self.node(slot).level;
        let partner = self.lowest_free_slot()?;
        self.node_mut(slot).entries = members(group_1);
        *self.node_mut(partner) = Node { level, entries: members(group_2) };
        self.trace.note_split(level, &rects, &decided);
        let of_both = level == 1 && nine.iter().any(|entry| entry.owner != nine[0].owner);
        self.trace.shares.split_of_both += u64::from(of_both);
        Ok(partner)
    }

    /// "If the root splits, a new root takes the lowest free slot then left, with entries for
    /// old root and partner in that order."
    fn grow(&mut self, partner: Slot) -> Result<(), NoSlotFree> {
        let new_root = self.lowest_free_slot()?;
        let entries = vec![self.entry_for(self.root), self.entry_for(partner)];
        self.height += 1;
        *self.node_mut(new_root) = Node { level: self.height, entries };
        self.root = new_root;
        self.trace.root_split = true;
        Ok(())
    }

    fn lowest_free_slot(&self) -> Result<Slot, NoSlotFree> {
        let index = self.nodes().iter().position(|node| node.level == 0).ok_or(NoSlotFree)?;
        Ok(Slot(index + 1))
    }

    /// CT1 to CT5. "a non-root node with fewer than 3 entries leaves its parent, its entries
    /// are set aside, and its slot is zeroed and free at once"; "Covers on the path are made
    /// tight." Gives the entries set aside, lowest level first, in stored order.
    fn condense(&mut self, path: &[Step], leaf: Slot) -> Vec<SetAside> {
        let mut set_aside = Vec::new();
        let mut below = leaf;
        for step in path.iter().rev() {
            if self.node(below).entries.len() < LEAST_ENTRIES {
                // CT3
                self.node_mut(step.node).entries.remove(step.place - 1);
                let thin = std::mem::replace(self.node_mut(below), Node::free());
                self.trace.levels_condensed.insert(thin.level);
                let level = thin.level;
                set_aside.extend(thin.entries.into_iter().map(|entry| SetAside { level, entry }));
            } else {
                // CT4
                self.tighten(*step, below);
            }
            // CT5
            below = step.node;
        }
        set_aside
    }

    /// CT6: "entries set aside are inserted again, lowest level first, in stored order, each at
    /// its own level, by the insert rules".
    fn insert_again(&mut self, set_aside: Vec<SetAside>) -> Result<(), NoSlotFree> {
        for SetAside { level, entry } in set_aside {
            let splits_before = self.trace.splits;
            self.insert_entry(entry, level)?;
            self.trace.split_by_entry_set_aside |= self.trace.splits > splits_before;
        }
        Ok(())
    }

    /// D4: "Last, an inner root with one child is freed and that child is root."
    fn shorten(&mut self) {
        let root = self.node(self.root);
        if root.is_leaf() || root.entries.len() != 1 {
            return;
        }
        let child = root.entries[0].child();
        let old_root = self.root;
        *self.node_mut(old_root) = Node::free();
        self.root = child;
        self.height -= 1;
        self.trace.root_shortened = true;
    }

    /// Makes the cover at a step tight around the node below it.
    fn tighten(&mut self, step: Step, below: Slot) {
        let tight = self.node(below).cover();
        self.node_mut(step.node).entries[step.place - 1].rect = tight;
    }

    /// The entry that a parent holds for a node.
    fn entry_for(&self, slot: Slot) -> Entry {
        Entry::over(slot, self.node(slot).cover())
    }
}

/// Whether a leaf entry is of the pair: the same number, and a rectangle that compares equal.
fn is_pair(entry: &Entry, pair: &Pair) -> bool {
    entry.pointer == Pointer::Record(pair.number)
        && compare(&entry.rect, &pair.rect) == Comparison::Equal
}

/// Whether a leaf entry is of the pair and of the owner.
fn is_record(entry: &Entry, record: &Owned) -> bool {
    is_pair(entry, &record.pair) && entry.owner == record.owner
}

/// Whether an entry is of a record that is not this owner's.
fn of_the_other(entry: &Entry, owner: Option<Owner>) -> bool {
    matches!(entry.pointer, Pointer::Record(_)) && entry.owner != owner
}
