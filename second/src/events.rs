//! Counts of what happened on the way, so that a test can tell that it met every case.

use std::collections::BTreeSet;

use crate::geometry::{area, compare, Comparison, Rect};
use crate::mode::Mode;

/// Choices of insert that a half perimeter decided (document 02, Req 05): with that comparison left
/// out of its rule, and all others kept, another would have been chosen.
#[derive(Clone, Debug, Default, PartialEq, Eq)]
pub struct Decided {
    pub choose_leaf_by_half_enlargement: u64,
    pub choose_leaf_by_half_perimeter: u64,
    pub pick_seeds_by_half_d: u64,
    pub pick_next_by_half_difference: u64,
    pub group_by_half_enlargement: u64,
    pub group_by_half_perimeter: u64,
}

impl Decided {
    /// Adds the counts of another.
    fn add(&mut self, other: &Decided) {
        self.choose_leaf_by_half_enlargement += other.choose_leaf_by_half_enlargement;
        self.choose_leaf_by_half_perimeter += other.choose_leaf_by_half_perimeter;
        self.pick_seeds_by_half_d += other.pick_seeds_by_half_d;
        self.pick_next_by_half_difference += other.pick_next_by_half_difference;
        self.group_by_half_enlargement += other.group_by_half_enlargement;
        self.group_by_half_perimeter += other.group_by_half_perimeter;
    }
}

/// Where the records of the other owner came in (document 02, Req 07). In an edition 1 pool nothing
/// of this happens.
#[derive(Clone, Debug, Default, PartialEq, Eq)]
pub struct Shares {
    /// Leaves split whose nine entries were of both owners.
    pub split_of_both: u64,
    /// Entries of the other owner that were set aside and inserted again.
    pub other_set_aside: u64,
    /// The same pair of the other owner, met by FindLeaf before the owner's own.
    pub find_leaf_passed_other: u64,
    /// Records of the other owner that a search met and the mode lists.
    pub search_passed_other: u64,
    /// Inserts, and updates to another rectangle, of a pair that the other owner holds.
    pub insert_of_others_pair: u64,
    pub update_to_others_pair: u64,
    /// Deletes and updates refused 5, where the other owner holds the pair.
    pub delete_5_others_pair: u64,
    pub update_5_others_pair: u64,
}

impl Shares {
    /// Each counter with its name, in a fixed order.
    pub fn named(&self) -> [(&'static str, u64); 8] {
        [
            ("split_of_both", self.split_of_both),
            ("other_set_aside", self.other_set_aside),
            ("find_leaf_passed_other", self.find_leaf_passed_other),
            ("search_passed_other", self.search_passed_other),
            ("insert_of_others_pair", self.insert_of_others_pair),
            ("update_to_others_pair", self.update_to_others_pair),
            ("delete_5_others_pair", self.delete_5_others_pair),
            ("update_5_others_pair", self.update_5_others_pair),
        ]
    }

    /// Adds the counts of another.
    fn add(&mut self, other: &Shares) {
        self.split_of_both += other.split_of_both;
        self.other_set_aside += other.other_set_aside;
        self.find_leaf_passed_other += other.find_leaf_passed_other;
        self.search_passed_other += other.search_passed_other;
        self.insert_of_others_pair += other.insert_of_others_pair;
        self.update_to_others_pair += other.update_to_others_pair;
        self.delete_5_others_pair += other.delete_5_others_pair;
        self.update_5_others_pair += other.update_5_others_pair;
    }
}

/// What one request did to the tree. Levels are counted from the leaves, leaf 1.
#[derive(Clone, Debug, Default)]
pub struct Trace {
    pub splits: u64,
    pub levels_split: BTreeSet<i64>,
    pub root_split: bool,
    pub levels_condensed: BTreeSet<i64>,
    pub split_by_entry_set_aside: bool,
    pub root_shortened: bool,
    pub decided: Decided,
    /// As in the events of the same names.
    pub flat_inner_chosen: u64,
    pub flat_inner_split: u64,
    pub shares: Shares,
}

impl Trace {
    /// Takes in the choice of a child, whose level and cover are given, and what decided it.
    pub fn note_choice(&mut self, level: i64, chosen: &Rect, decided: &Decided) {
        let flat_inner = level > 1 && area(chosen) == 0 && *decided != Decided::default();
        self.flat_inner_chosen += u64::from(flat_inner);
        self.decided.add(decided);
    }

    /// Takes in the split of a node of a level, and what decided how its nine entries are divided.
    pub fn note_split(&mut self, level: i64, nine: &[Rect], decided: &Decided) {
        self.splits += 1;
        self.levels_split.insert(level);
        let flat_inner = level > 1 && nine.iter().all(|rect| area(rect) == 0);
        self.flat_inner_split += u64::from(flat_inner);
        self.decided.add(decided);
    }
}

/// What one search met: the covers of the children that it opened, and the rectangles of all
/// records that meet the window, listed by the mode or not. Records of the other owner are only
/// counted, those that the mode lists.
#[derive(Clone, Debug, Default)]
pub struct Sight {
    pub covers: Vec<Rect>,
    pub records: Vec<Rect>,
    pub others: u64,
}

/// Counters over all requests of a call. All but the refusals count accepted requests alone.
#[derive(Clone, Debug, Default, PartialEq, Eq)]
pub struct Events {
    /// Nodes split (several may be split in one request).
    pub node_split: u64,
    /// Requests that split nodes on two or more levels.
    pub split_two_levels: u64,
    /// Requests in which the root split.
    pub root_split: u64,
    /// Requests that set entries aside on one level.
    pub condense_one_level: u64,
    /// Requests that set entries aside on two or more levels.
    pub condense_two_levels: u64,
    /// Requests in which an entry set aside split a node when it went in again.
    pub set_aside_split: u64,
    /// Requests in which an inner root with one child was freed.
    pub root_shortened: u64,
    /// Choices that a half perimeter decided (several may be in one request).
    pub decided: Decided,
    /// Of ChooseLeaf's, those that took an inner node with a cover of no area.
    pub flat_inner_chosen: u64,
    /// Inner nodes split whose nine covers all have no area.
    pub flat_inner_split: u64,
    pub refused_7_insert: u64,
    pub refused_7_delete: u64,
    pub refused_7_update: u64,
    /// Records listed by inside, and not equal to the window.
    pub inside_found: u64,
    /// Records listed by enclosing, and not equal to the window.
    pub enclosing_found: u64,
    /// Records equal to the window, listed in each of the modes.
    pub equal_found_meeting: u64,
    pub equal_found_inside: u64,
    pub equal_found_enclosing: u64,
    /// Of `inside_found` and `enclosing_found`, the records that share a side with the window.
    pub inside_touching: u64,
    pub enclosing_touching: u64,
    /// Records that meet the window, and that inside or enclosing does not list.
    pub inside_passed_over: u64,
    pub enclosing_passed_over: u64,
    /// Children opened by inside whose cover is not inside the window, and by enclosing whose cover
    /// does not enclose it: what a search would lose that asked the mode of covers too.
    pub inside_opened_not_inside: u64,
    pub enclosing_opened_not_enclosing: u64,
    /// Where the records of the other owner came in. They have a list of names of their own.
    pub shares: Shares,
}

impl Events {
    /// Takes in what an accepted request did.
    pub fn note(&mut self, trace: &Trace) {
        self.node_split += trace.splits;
        self.split_two_levels += u64::from(trace.levels_split.len() >= 2);
        self.root_split += u64::from(trace.root_split);
        self.condense_one_level += u64::from(trace.levels_condensed.len() == 1);
        self.condense_two_levels += u64::from(trace.levels_condensed.len() >= 2);
        self.set_aside_split += u64::from(trace.split_by_entry_set_aside);
        self.root_shortened += u64::from(trace.root_shortened);
        self.decided.add(&trace.decided);
        self.flat_inner_chosen += trace.flat_inner_chosen;
        self.flat_inner_split += trace.flat_inner_split;
        self.shares.add(&trace.shares);
    }

    /// Takes in what an accepted search met.
    pub fn note_search(&mut self, mode: Mode, window: &Rect, sight: &Sight) {
        self.shares.search_passed_other += sight.others;
        for record in &sight.records {
            self.note_record(mode, window, record);
        }
        let not_of_the_mode = |cover: &&Rect| !mode.lists(compare(cover, window));
        let count = sight.covers.iter().filter(not_of_the_mode).count() as u64;
        match mode {
            Mode::Meeting => (),
            Mode::Inside => self.inside_opened_not_inside += count,
            Mode::Enclosing => self.enclosing_opened_not_enclosing += count,
        }
    }

    fn note_record(&mut self, mode: Mode, window: &Rect, record: &Rect) {
        let touching = u64::from(shares_a_side(record, window));
        match (mode, compare(record, window)) {
            (Mode::Meeting, Comparison::Equal) => self.equal_found_meeting += 1,
            (Mode::Inside, Comparison::Equal) => self.equal_found_inside += 1,
            (Mode::Enclosing, Comparison::Equal) => self.equal_found_enclosing += 1,
            (Mode::Inside, Comparison::Inside) => {
                self.inside_found += 1;
                self.inside_touching += touching;
            }
            (Mode::Enclosing, Comparison::Enclosing) => {
                self.enclosing_found += 1;
                self.enclosing_touching += touching;
            }
            (Mode::Meeting, _) => (),
            (Mode::Inside, _) => self.inside_passed_over += 1,
            (Mode::Enclosing, _) => self.enclosing_passed_over += 1,
        }
    }

    /// Each counter with its name, in a fixed order.
    pub fn named(&self) -> [(&'static str, u64); 29] {
        [
            ("node_split", self.node_split),
            ("split_two_levels", self.split_two_levels),
            ("root_split", self.root_split),
            ("condense_one_level", self.condense_one_level),
            ("condense_two_levels", self.condense_two_levels),
            ("set_aside_split", self.set_aside_split),
            ("root_shortened", self.root_shortened),
            ("choose_leaf_by_half_enlargement", self.decided.choose_leaf_by_half_enlargement),
            ("choose_leaf_by_half_perimeter", self.decided.choose_leaf_by_half_perimeter),
            ("pick_seeds_by_half_d", self.decided.pick_seeds_by_half_d),
            ("pick_next_by_half_difference", self.decided.pick_next_by_half_difference),
            ("group_by_half_enlargement", self.decided.group_by_half_enlargement),
            ("group_by_half_perimeter", self.decided.group_by_half_perimeter),
            ("flat_inner_chosen", self.flat_inner_chosen),
            ("flat_inner_split", self.flat_inner_split),
            ("refused_7_insert", self.refused_7_insert),
            ("refused_7_delete", self.refused_7_delete),
            ("refused_7_update", self.refused_7_update),
            ("inside_found", self.inside_found),
            ("enclosing_found", self.enclosing_found),
            ("equal_found_meeting", self.equal_found_meeting),
            ("equal_found_inside", self.equal_found_inside),
            ("equal_found_enclosing", self.equal_found_enclosing),
            ("inside_touching", self.inside_touching),
            ("enclosing_touching", self.enclosing_touching),
            ("inside_passed_over", self.inside_passed_over),
            ("enclosing_passed_over", self.enclosing_passed_over),
            ("inside_opened_not_inside", self.inside_opened_not_inside),
            ("enclosing_opened_not_enclosing", self.enclosing_opened_not_enclosing),
        ]
    }

    /// Adds the counters of another.
    pub fn add(&mut self, other: &Events) {
        self.node_split += other.node_split;
        self.split_two_levels += other.split_two_levels;
        self.root_split += other.root_split;
        self.condense_one_level += other.condense_one_level;
        self.condense_two_levels += other.condense_two_levels;
        self.set_aside_split += other.set_aside_split;
        self.root_shortened += other.root_shortened;
        self.decided.add(&other.decided);
        self.flat_inner_chosen += other.flat_inner_chosen;
        self.flat_inner_split += other.flat_inner_split;
        self.refused_7_insert += other.refused_7_insert;
        self.refused_7_delete += other.refused_7_delete;
        self.refused_7_update += other.refused_7_update;
        self.inside_found += other.inside_found;
        self.enclosing_found += other.enclosing_found;
        self.equal_found_meeting += other.equal_found_meeting;
        self.equal_found_inside += other.equal_found_inside;
        self.equal_found_enclosing += other.equal_found_enclosing;
        self.inside_touching += other.inside_touching;
        self.enclosing_touching += other.enclosing_touching;
        self.inside_passed_over += other.inside_passed_over;
        self.enclosing_passed_over += other.enclosing_passed_over;
        self.inside_opened_not_inside += other.inside_opened_not_inside;
        self.enclosing_opened_not_enclosing += other.enclosing_opened_not_enclosing;
        self.shares.add(&other.shares);
    }

    /// `events name=value name=value ..`
    pub fn line(&self) -> String {
        let fields: Vec<String> =
            self.named().iter().map(|(name, value)| format!("{name}={value}")).collect();
        format!("events {}", fields.join(" "))
    }
}

/// Whether a side of the one is the same side of the other: low x with low x, and so on.
fn shares_a_side(a: &Rect, b: &Rect) -> bool {
    a.low_x == b.low_x || a.low_y == b.low_y || a.high_x == b.high_x || a.high_y == b.high_y
}
