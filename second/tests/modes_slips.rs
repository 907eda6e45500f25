//! Slips that the modes of a search can be made with, each of which the kept example shows.
//!
//! A search is done here a second time, over the words of the pool, with its steps apart. Done
//! right it gives what `call` gives; with one step wrong it gives another list or another opened
//! count for some search of `examples/modes.script`.

mod common;

use common::batch;
use second::call::{ENCLOSING, INSIDE};
use second::generate::history;
use second::pool::{entries, slot_words, Slot};
use second::script::{blank_pool, parse};
use second::style::STYLES;
use second::{Rect, Request};

/// Asked of two rectangles.
type Asked = fn(&Rect, &Rect) -> bool;

/// The steps.
#[derive(Clone, Copy)]
struct Way {
    /// Whether a record is listed, by the record and the window.
    meeting: Asked,
    inside: Asked,
    /// The same, by the window and the record: so a slip of inside is one of enclosing too.
    enclosing: Asked,
    /// Whether a child is opened, by its cover and the window.
    opened_by_inside: Asked,
    opened_by_enclosing: Asked,
}

const RIGHT: Way = Way {
    meeting: meets,
    inside: lies_in,
    enclosing: lies_in,
    opened_by_inside: meets,
    opened_by_enclosing: meets,
};

fn meets(a: &Rect, b: &Rect) -> bool {
    let beside = a.high_x < b.low_x || b.high_x < a.low_x;
    let above = a.high_y < b.low_y || b.high_y < a.low_y;
    !beside && !above
}

fn lies_in(a: &Rect, b: &Rect) -> bool {
    let corner_in = |x: i64, y: i64| meets(&Rect::new(x, y, x, y), b);
    corner_in(a.low_x, a.low_y) && corner_in(a.high_x, a.high_y)
}

fn holds(a: &Rect, b: &Rect) -> bool {
    lies_in(b, a)
}

fn strictly_in(a: &Rect, b: &Rect) -> bool {
    b.low_x < a.low_x && b.low_y < a.low_y && a.high_x < b.high_x && a.high_y < b.high_y
}

/// The records found, by number, and the nodes opened.
type Finding = (Vec<i32>, i32);

impl Way {
    fn search(&self, pool: &[i32], request: &Request) -> Finding {
        let mut finding = (Vec::new(), 0);
        self.open(pool, pool[1], request, &mut finding);
        finding.0.sort();
        finding
    }

    fn open(&self, pool: &[i32], slot: i32, request: &Request, finding: &mut Finding) {
        finding.1 += 1;
        let window = Rect::from_words(request.first);
        let opened = match request.kind {
            INSIDE => self.opened_by_inside,
            ENCLOSING => self.opened_by_enclosing,
            _ => meets,
        };
        let level = slot_words(pool, Slot(slot as usize))[0];
        for entry in entries(pool, Slot(slot as usize)) {
            let rect = entry.rect();
            if level > 1 && opened(&rect, &window) {
                self.open(pool, entry.pointer, request, finding);
            }
            if level == 1 && self.lists(request.kind, &rect, &window) {
                finding.0.push(entry.pointer);
            }
        }
    }

    fn lists(&self, kind: i32, record: &Rect, window: &Rect) -> bool {
        match kind {
            INSIDE => (self.inside)(record, window),
            ENCLOSING => (self.enclosing)(window, record),
            _ => (self.meeting)(record, window),
        }
    }

    /// The first of these searches for which it differs from the program, over one pool.
    fn differs<'a>(&self, pool: &[i32], searches: &'a [Request]) -> Option<&'a Request> {
        searches.iter().find(|request| self.search(pool, request) != program(pool, request))
    }
}

fn program(pool: &[i32], request: &Request) -> Finding {
    common::found_by(&mut pool.to_vec(), *request)
}

/// The kept example: the pool that its inserts leave, and its searches.
fn kept() -> (Vec<i32>, Vec<Request>) {
    let script = parse(include_str!("../examples/modes.script")).expect("a script");
    let (searches, inserts): (Vec<Request>, Vec<Request>) =
        script.requests.into_iter().partition(Request::is_search);
    let mut pool = script.pool;
    batch(&mut pool, &inserts);
    (pool, searches)
}

#[test]
fn the_kept_example_has_two_levels_and_every_mode() {
    let (pool, searches) = kept();
    assert_eq!(pool[..4], [1, 3, 2, 10]);
    let of_kind = |kind| searches.iter().filter(|r| r.kind == kind).count();
    assert_eq!([4, 5, 6].map(of_kind), [4, 3, 3]);
}

#[test]
fn done_right_it_is_the_same() {
    let (pool, searches) = kept();
    assert_eq!(RIGHT.differs(&pool, &searches), None);
    for (name, style) in STYLES {
        for seed in 1..=10 {
            let (pool, searches) = drawn(style, seed);
            assert!(searches.len() > 20);
            assert_eq!(RIGHT.differs(&pool, &searches), None, "{name}, seed {seed}");
        }
    }
}

/// The pool of a history of at most 64 records, and the accepted searches of it.
fn drawn(style: second::style::Style, seed: u64) -> (Vec<i32>, Vec<Request>) {
    let drawn = history(style, seed, 8, 400);
    assert_ne!(drawn.pool, blank_pool(8));
    let valid = |r: &Request| r.is_search() && Rect::from_words(r.first).valid();
    (drawn.pool, drawn.requests.into_iter().filter(valid).collect())
}

/// Slips of inside and of enclosing alike.
fn slips_of_lying_in() -> Vec<(&'static str, Asked)> {
    vec![
        ("strict", strictly_in),
        ("strict, or equal", |a, b| strictly_in(a, b) || a == b),
        ("equal left out", |a, b| lies_in(a, b) && a != b),
        ("only equal", |a, b| a == b),
        ("the other way round", holds),
        ("either way", |a, b| lies_in(a, b) || holds(a, b)),
        ("asked as meeting", meets),
        ("low x not asked", |a, b| meets(a, b) && lies_in(&Rect { low_x: b.low_x, ..*a }, b)),
        ("low y not asked", |a, b| meets(a, b) && lies_in(&Rect { low_y: b.low_y, ..*a }, b)),
        ("high x not asked", |a, b| meets(a, b) && lies_in(&Rect { high_x: b.high_x, ..*a }, b)),
        ("high y not asked", |a, b| meets(a, b) && lies_in(&Rect { high_y: b.high_y, ..*a }, b)),
        ("low x strict", |a, b| a == b || lies_in(a, b) && a.low_x != b.low_x),
        ("low y strict", |a, b| a == b || lies_in(a, b) && a.low_y != b.low_y),
        ("high x strict", |a, b| a == b || lies_in(a, b) && a.high_x != b.high_x),
        ("high y strict", |a, b| a == b || lies_in(a, b) && a.high_y != b.high_y),
    ]
}

/// Slips of a search as a whole. The last ones leave a node out by the mode, or open one that
/// does not meet the window.
fn slips_of_searching() -> Vec<(&'static str, Way)> {
    vec![
        ("inside and enclosing swapped", Way { inside: holds, enclosing: holds, ..RIGHT }),
        ("equal left out of meeting", Way { meeting: |a, b| meets(a, b) && a != b, ..RIGHT }),
        ("meeting asked as inside", Way { meeting: lies_in, ..RIGHT }),
        ("meeting asked as enclosing", Way { meeting: holds, ..RIGHT }),
        ("inside opens covers inside", Way { opened_by_inside: lies_in, ..RIGHT }),
        ("inside opens covers enclosing", Way { opened_by_inside: holds, ..RIGHT }),
        ("enclosing opens covers enclosing", Way { opened_by_enclosing: holds, ..RIGHT }),
        ("inside opens every node", Way { opened_by_inside: |_, _| true, ..RIGHT }),
        ("enclosing opens every node", Way { opened_by_enclosing: |_, _| true, ..RIGHT }),
    ]
}

#[test]
fn each_slip_shows() {
    let (pool, searches) = kept();
    let shows = |slip: Way| slip.differs(&pool, &searches).is_some();
    for (name, slip) in slips_of_lying_in() {
        assert!(shows(Way { inside: slip, ..RIGHT }), "not shown: inside, {name}");
        assert!(shows(Way { enclosing: slip, ..RIGHT }), "not shown: enclosing, {name}");
    }
    for (name, slip) in slips_of_searching() {
        assert!(shows(slip), "not shown: {name}");
    }
}

/// A search that leaves out, by the mode, nodes that it has no need of: each list is right, and
/// the opened count tells.
#[test]
fn a_node_left_out_shows_in_the_opened_count() {
    let (pool, searches) = kept();
    let slip = Way { opened_by_enclosing: holds, ..RIGHT };
    for request in searches.iter().filter(|r| r.kind == ENCLOSING) {
        let ((list, opened), due) = (slip.search(&pool, request), program(&pool, request));
        assert_eq!(list, due.0);
        assert!(opened < due.1, "{request:?}");
    }
}
