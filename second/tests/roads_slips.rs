//! Slips that the half perimeters of Req 05 can be made with, each of which the kept examples show.
//!
//! Inserts are done here a second time, over a tree of lists, with what each rule compares apart.
//! Done right they leave what `call` leaves; with one rule wrong they leave another tree for some
//! of the kept examples, and for some of the drawn histories of roads.

use second::generate::history;
use second::pool::{entries, slot_words, Slot};
use second::script::{blank_pool, parse};
use second::style::{Style, STYLES};
use second::{call, cover, joint_cover, Answer, Found, Rect, Request};

/// What a rule compares, in its order.
type Quantities = Vec<i128>;

/// The rules. The one who chooses takes the earliest of the best.
#[derive(Clone, Copy)]
struct Way {
    half: fn(&Rect) -> i128,
    /// Of an entry and the new rectangle; the least is chosen.
    choose_leaf: fn(&Way, &Rect, &Rect) -> Quantities,
    /// Of two entries; the largest is chosen.
    pick_seeds: fn(&Way, &Rect, &Rect) -> Quantities,
    /// Of both covers and an entry; the largest is chosen.
    pick_next: fn(&Way, &[Rect; 2], &Rect) -> Quantities,
    /// Of a group's cover, its size and the entry; the least is chosen.
    group: fn(&Way, &Rect, i128, &Rect) -> Quantities,
}

const RIGHT: Way = Way {
    half: |r| i128::from(r.high_x - r.low_x + r.high_y - r.low_y),
    choose_leaf: |w, e, new| vec![grown(e, new), w.half_grown(e, new), area(e), (w.half)(e)],
    pick_seeds: |w, a, b| vec![grown(a, b) - area(b), w.half_grown(a, b) - (w.half)(b)],
    pick_next: |w, covers, e| vec![apart(covers, e), w.half_apart(covers, e)],
    group: |w, c, size, e| vec![grown(c, e), w.half_grown(c, e), area(c), (w.half)(c), size],
};

fn area(r: &Rect) -> i128 {
    i128::from(r.high_x - r.low_x) * i128::from(r.high_y - r.low_y)
}

fn grown(a: &Rect, b: &Rect) -> i128 {
    area(&joint_cover(a, b)) - area(a)
}

fn apart(covers: &[Rect; 2], entry: &Rect) -> i128 {
    (grown(&covers[0], entry) - grown(&covers[1], entry)).abs()
}

impl Way {
    fn half_grown(&self, a: &Rect, b: &Rect) -> i128 {
        (self.half)(&joint_cover(a, b)) - (self.half)(a)
    }

    /// The difference of the two, with its sign.
    fn half_ahead(&self, covers: &[Rect; 2], entry: &Rect) -> i128 {
        self.half_grown(&covers[0], entry) - self.half_grown(&covers[1], entry)
    }

    fn half_apart(&self, covers: &[Rect; 2], entry: &Rect) -> i128 {
        self.half_ahead(covers, entry).abs()
    }

    /// The indices of both groups, in the order of joining.
    fn split(&self, nine: &[Rect]) -> [Vec<usize>; 2] {
        let pairs = (0..9).flat_map(|a| (a + 1..9).map(move |b| (a, b)));
        let (a, b) = largest(pairs, |&(a, b)| (self.pick_seeds)(self, &nine[a], &nine[b]));
        let mut groups = [vec![a], vec![b]];
        let mut left: Vec<usize> = (0..9).filter(|&k| k != a && k != b).collect();
        while !left.is_empty() {
            if let Some(group) = groups.iter_mut().find(|group| group.len() + left.len() == 3) {
                group.append(&mut left);
                break;
            }
            let of = |group: &Vec<usize>| group.iter().map(|&k| nine[k]).collect::<Vec<Rect>>();
            let covers = [0, 1].map(|g| cover(&of(&groups[g])).expect("a seed"));
            let next =
                largest(left.iter().copied(), |&k| (self.pick_next)(self, &covers, &nine[k]));
            let rank =
                |&g: &usize| (self.group)(self, &covers[g], groups[g].len() as i128, &nine[next]);
            let group = least(0..2, rank);
            groups[group].push(next);
            left.retain(|&k| k != next);
        }
        groups
    }
}

/// The first with the least quantities.
fn least<T>(all: impl Iterator<Item = T>, of: impl Fn(&T) -> Quantities) -> T {
    all.min_by_key(of).expect("some")
}

/// The first with the largest: what is least when all signs are turned.
fn largest<T>(all: impl Iterator<Item = T>, of: impl Fn(&T) -> Quantities) -> T {
    least(all, |item| of(item).into_iter().map(|quantity| -quantity).collect())
}

/// Slots are left out: what is in which node, in its order, says all about the choices.
#[derive(Clone, Debug, PartialEq)]
enum Tree {
    Leaf(Vec<(Rect, i32)>),
    Inner(Vec<Tree>),
}

impl Tree {
    /// What is below a slot of a pool.
    fn read(pool: &[i32], slot: i32) -> Tree {
        let slot = Slot(slot as usize);
        let entries = entries(pool, slot).into_iter();
        match slot_words(pool, slot)[0] {
            1 => Tree::Leaf(entries.map(|entry| (entry.rect(), entry.pointer)).collect()),
            _ => Tree::Inner(entries.map(|entry| Tree::read(pool, entry.pointer)).collect()),
        }
    }

    fn rects(&self) -> Vec<Rect> {
        match self {
            Tree::Leaf(records) => records.iter().map(|record| record.0).collect(),
            Tree::Inner(children) => children.iter().map(Tree::cover).collect(),
        }
    }

    fn cover(&self) -> Rect {
        cover(&self.rects()).expect("a child has entries")
    }

    /// An insert at the root.
    fn insert(self, rect: Rect, number: i32, way: &Way) -> Tree {
        match self.insert_below(rect, number, way) {
            (tree, None) => tree,
            (tree, Some(partner)) => Tree::Inner(vec![tree, partner]),
        }
    }

    /// The node that is left, and its partner where it was split.
    fn insert_below(self, rect: Rect, number: i32, way: &Way) -> (Tree, Option<Tree>) {
        let covers = self.rects();
        let tree = match self {
            Tree::Leaf(mut records) => {
                records.push((rect, number));
                Tree::Leaf(records)
            }
            Tree::Inner(mut children) => {
                let cost = |&k: &usize| (way.choose_leaf)(way, &covers[k], &rect);
                let place = least(0..children.len(), cost);
                let child = std::mem::replace(&mut children[place], Tree::Leaf(vec![]));
                let (child, partner) = child.insert_below(rect, number, way);
                children[place] = child;
                children.extend(partner);
                Tree::Inner(children)
            }
        };
        tree.divided(way)
    }

    fn divided(self, way: &Way) -> (Tree, Option<Tree>) {
        let rects = self.rects();
        if rects.len() <= 8 {
            return (self, None);
        }
        let [one, two] = way.split(&rects).map(|group| match &self {
            Tree::Leaf(records) => Tree::Leaf(group.iter().map(|&k| records[k]).collect()),
            Tree::Inner(nodes) => Tree::Inner(group.iter().map(|&k| nodes[k].clone()).collect()),
        });
        (one, Some(two))
    }
}

/// The records of a history that are inserted: each pair once.
fn records(requests: &[Request]) -> Vec<(Rect, i32)> {
    let mut records = Vec::new();
    for request in requests.iter().filter(|request| request.kind == 1 && request.number > 0) {
        let record = (Rect::from_words(request.first), request.number);
        if record.0.valid() && !records.contains(&record) {
            records.push(record);
        }
    }
    records
}

fn inserted(records: &[(Rect, i32)], way: &Way) -> Tree {
    let blank = Tree::Leaf(vec![]);
    records.iter().fold(blank, |tree, &(rect, number)| tree.insert(rect, number, way))
}

/// What the program leaves, in a pool with slots enough.
fn program(records: &[(Rect, i32)]) -> Tree {
    let mut pool = blank_pool(records.len() / 2 + 1);
    let mut work = pool.clone();
    for &(rect, number) in records {
        let mut answers = [Answer::default()];
        let request = Request::insert(number, rect.to_words());
        let result = call(&mut pool, &mut work, &[request], &mut answers, &mut [] as &mut [Found]);
        assert_eq!((result, answers[0].number), (0, 0));
    }
    Tree::read(&pool, pool[1])
}

/// The inserts of the kept examples of roads.
fn kept() -> Vec<Vec<(Rect, i32)>> {
    let scripts = [
        include_str!("../examples/roads.script"),
        include_str!("../examples/roads-upright.script"),
        include_str!("../examples/roads-redrawn.script"),
        include_str!("../examples/roads-crossing.script"),
        include_str!("../examples/roads-blocks.script"),
        include_str!("../examples/roads-far.script"),
    ];
    scripts.map(|text| records(&parse(text).expect("a script").requests)).to_vec()
}

/// The inserts of drawn histories, with some hundreds of records.
fn drawn(style: Style, seeds: u64) -> Vec<Vec<(Rect, i32)>> {
    (1..=seeds).map(|seed| records(&history(style, seed, 128, 500).requests)).collect()
}

#[test]
fn done_right_it_is_the_same() {
    for records in kept() {
        assert_eq!(inserted(&records, &RIGHT), program(&records));
    }
    for (name, style) in STYLES {
        for records in drawn(style, 4) {
            assert_eq!(inserted(&records, &RIGHT), program(&records), "{name}");
        }
    }
}

const NOT_IN_CHOOSE_LEAF: Way =
    Way { choose_leaf: |_, e, new| vec![grown(e, new), area(e)], ..RIGHT };

const NOT_IN_THE_SPLIT: Way = Way {
    pick_seeds: |_, a, b| vec![grown(a, b) - area(b)],
    pick_next: |_, covers, e| vec![apart(covers, e)],
    group: |_, c, size, e| vec![grown(c, e), area(c), size],
    ..RIGHT
};

/// Asked "before going to the next rule", and not after all rules on areas.
const AFTER_ALL_AREAS: Way = Way {
    choose_leaf: |w, e, new| vec![grown(e, new), area(e), w.half_grown(e, new), (w.half)(e)],
    group: |w, c, size, e| vec![grown(c, e), area(c), w.half_grown(c, e), (w.half)(c), size],
    ..RIGHT
};

/// Slips in which places, or in which measure.
fn slips_of_all_rules() -> Vec<(&'static str, Way)> {
    vec![
        ("only in ChooseLeaf", NOT_IN_THE_SPLIT),
        ("only in the split", NOT_IN_CHOOSE_LEAF),
        ("after all areas", AFTER_ALL_AREAS),
        ("width alone", Way { half: |r| i128::from(r.high_x - r.low_x), ..RIGHT }),
        ("height alone", Way { half: |r| i128::from(r.high_y - r.low_y), ..RIGHT }),
        (
            "the longer side",
            Way { half: |r| i128::from((r.high_x - r.low_x).max(r.high_y - r.low_y)), ..RIGHT },
        ),
        (
            "the width twice",
            Way { half: |r| i128::from(2 * (r.high_x - r.low_x) + r.high_y - r.low_y), ..RIGHT },
        ),
        (
            "in 32 bits",
            Way { half: |r| i128::from((r.high_x - r.low_x + r.high_y - r.low_y) as i32), ..RIGHT },
        ),
    ]
}

fn slips_of_choose_leaf() -> Vec<(&'static str, fn(&Way, &Rect, &Rect) -> Quantities)> {
    vec![
        ("after all areas", AFTER_ALL_AREAS.choose_leaf),
        ("no half enlargement", |w, e, n| vec![grown(e, n), area(e), (w.half)(e)]),
        ("no half perimeter", |w, e, n| vec![grown(e, n), w.half_grown(e, n), area(e)]),
        ("half perimeters first", |w, e, n| {
            vec![w.half_grown(e, n), grown(e, n), area(e), (w.half)(e)]
        }),
        ("half perimeters alone", |w, e, n| vec![w.half_grown(e, n), (w.half)(e)]),
        ("half perimeter before area", |w, e, n| {
            vec![grown(e, n), w.half_grown(e, n), (w.half)(e), area(e)]
        }),
        ("of the entry, not its enlargement", |w, e, n| {
            vec![grown(e, n), (w.half)(e), area(e), (w.half)(e)]
        }),
        ("of the joint cover, not the enlargement", |w, e, n| {
            vec![grown(e, n), (w.half)(&joint_cover(e, n)), area(e), (w.half)(e)]
        }),
        ("largest half enlargement", |w, e, n| {
            vec![grown(e, n), -w.half_grown(e, n), area(e), (w.half)(e)]
        }),
        ("largest half perimeter", |w, e, n| {
            vec![grown(e, n), w.half_grown(e, n), area(e), -(w.half)(e)]
        }),
        ("only of entries without area", |w, e, n| {
            let flat = i128::from(area(e) == 0);
            vec![grown(e, n), flat * w.half_grown(e, n), area(e), flat * (w.half)(e)]
        }),
    ]
}

fn slips_of_pick_seeds() -> Vec<(&'static str, fn(&Way, &Rect, &Rect) -> Quantities)> {
    vec![
        ("no half d", |_, a, b| vec![grown(a, b) - area(b)]),
        ("unsigned", |w, a, b| {
            vec![grown(a, b) - area(b), (w.half_grown(a, b) - (w.half)(b)).abs()]
        }),
        ("nothing below zero", |w, a, b| {
            vec![grown(a, b) - area(b), (w.half_grown(a, b) - (w.half)(b)).max(0)]
        }),
        ("least half d", |w, a, b| vec![grown(a, b) - area(b), (w.half)(b) - w.half_grown(a, b)]),
        ("enlargement of the first", |w, a, b| vec![grown(a, b) - area(b), w.half_grown(a, b)]),
        ("enlargement of the second", |w, a, b| vec![grown(a, b) - area(b), w.half_grown(b, a)]),
        ("of the joint cover", |w, a, b| vec![grown(a, b) - area(b), (w.half)(&joint_cover(a, b))]),
        ("half d first", |w, a, b| vec![w.half_grown(a, b) - (w.half)(b), grown(a, b) - area(b)]),
    ]
}

fn slips_of_pick_next() -> Vec<(&'static str, fn(&Way, &[Rect; 2], &Rect) -> Quantities)> {
    vec![
        ("no half difference", |_, covers, e| vec![apart(covers, e)]),
        ("signed", |w, covers, e| vec![apart(covers, e), w.half_ahead(covers, e)]),
        ("signed the other way", |w, covers, e| vec![apart(covers, e), -w.half_ahead(covers, e)]),
        ("least half difference", |w, covers, e| vec![apart(covers, e), -w.half_apart(covers, e)]),
        ("half difference first", |w, covers, e| vec![w.half_apart(covers, e), apart(covers, e)]),
        ("of the entry", |w, covers, e| vec![apart(covers, e), (w.half)(e)]),
        ("of the joint covers", |w, covers, e| {
            let [one, two] = covers.map(|cover| (w.half)(&joint_cover(&cover, e)));
            vec![apart(covers, e), (one - two).abs()]
        }),
        ("the sum", |w, covers, e| {
            let [one, two] = covers.map(|cover| w.half_grown(&cover, e));
            vec![apart(covers, e), one + two]
        }),
    ]
}

fn slips_of_the_group() -> Vec<(&'static str, fn(&Way, &Rect, i128, &Rect) -> Quantities)> {
    vec![
        ("no half perimeters", NOT_IN_THE_SPLIT.group),
        ("after all areas", AFTER_ALL_AREAS.group),
        ("after fewer entries", |w, c, size, e| {
            vec![grown(c, e), area(c), size, w.half_grown(c, e), (w.half)(c)]
        }),
        ("half perimeter after fewer entries", |w, c, size, e| {
            vec![grown(c, e), w.half_grown(c, e), area(c), size, (w.half)(c)]
        }),
        ("no half enlargement", |w, c, size, e| vec![grown(c, e), area(c), (w.half)(c), size]),
        ("no half perimeter", |w, c, size, e| vec![grown(c, e), w.half_grown(c, e), area(c), size]),
        ("half perimeters first", |w, c, size, e| {
            vec![w.half_grown(c, e), grown(c, e), area(c), (w.half)(c), size]
        }),
        ("half perimeter before area", |w, c, size, e| {
            vec![grown(c, e), w.half_grown(c, e), (w.half)(c), area(c), size]
        }),
        ("of the group, not its enlargement", |w, c, size, e| {
            vec![grown(c, e), (w.half)(c), area(c), (w.half)(c), size]
        }),
        ("of the joint cover, not the enlargement", |w, c, size, e| {
            vec![grown(c, e), (w.half)(&joint_cover(c, e)), area(c), (w.half)(c), size]
        }),
        ("larger half perimeter", |w, c, size, e| {
            vec![grown(c, e), w.half_grown(c, e), area(c), -(w.half)(c), size]
        }),
        ("only of groups without area", |w, c, size, e| {
            let flat = i128::from(area(c) == 0);
            vec![grown(c, e), flat * w.half_grown(c, e), area(c), flat * (w.half)(c), size]
        }),
    ]
}

fn slips() -> Vec<(String, Way)> {
    let mut slips: Vec<(String, Way)> = Vec::new();
    let mut add = |rule: &str, name: &str, way| slips.push((format!("{rule}: {name}"), way));
    for (name, way) in slips_of_all_rules() {
        add("all rules", name, way);
    }
    for (name, choose_leaf) in slips_of_choose_leaf() {
        add("ChooseLeaf", name, Way { choose_leaf, ..RIGHT });
    }
    for (name, pick_seeds) in slips_of_pick_seeds() {
        add("PickSeeds", name, Way { pick_seeds, ..RIGHT });
    }
    for (name, pick_next) in slips_of_pick_next() {
        add("PickNext", name, Way { pick_next, ..RIGHT });
    }
    for (name, group) in slips_of_the_group() {
        add("the group", name, Way { group, ..RIGHT });
    }
    slips
}

#[test]
fn each_slip_shows() {
    let kept: Vec<_> = kept().into_iter().map(|records| (program(&records), records)).collect();
    for (name, slip) in slips() {
        let shows = kept.iter().any(|(due, records)| inserted(records, &slip) != *due);
        assert!(shows, "not shown: {name}");
    }
}

/// The drawn histories show each slip too, with no example made for it. It takes the limits to see
/// that 32 bits are too few.
#[test]
fn each_slip_shows_in_drawn_histories() {
    let styles = [Style::Road, Style::Roads, Style::Limits];
    let histories = styles.into_iter().flat_map(|style| drawn(style, 5));
    let drawn: Vec<_> = histories.map(|records| (program(&records), records)).collect();
    for (name, slip) in slips() {
        let shows = drawn.iter().any(|(due, records)| inserted(records, &slip) != *due);
        assert!(shows, "not shown: {name}");
    }
}
