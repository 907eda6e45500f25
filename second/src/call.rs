//! "What comes back": a batch of requests over one pool, with the table's checks in its order.

use crate::edition::{Edition, Owner, NO_SUCH, OTHER_OWNER};
use crate::events::{Events, Trace};
use crate::geometry::Rect;
use crate::mode::Mode;
use crate::pool::{slots_of, Map, Owned, Pair, RecordNumber};
use crate::sound::sound;
use crate::tree::NoSlotFree;

pub const INSERT: i32 = 1;
pub const DELETE: i32 = 2;
pub const UPDATE: i32 = 3;
/// "kind 4 keeps meeting; kinds 5 and 6 .. are inside and enclosing"
pub const SEARCH: i32 = 4;
pub const INSIDE: i32 = 5;
pub const ENCLOSING: i32 = 6;

/// "A batch has 0 to 1,024 requests."
pub const MOST_REQUESTS: usize = 1_024;

/// What `call` returns for a request of none of the six kinds ("A request is of one of the four
/// kinds", and Req 01 adds two).
pub const NO_SUCH_KIND: i32 = NO_SUCH;

/// Ten words: the kind, the record number, the rectangle inserted, deleted, to be replaced, or
/// the window, and the new rectangle of an update.
#[derive(Clone, Copy, Debug, Default, PartialEq, Eq)]
pub struct Request {
    pub kind: i32,
    pub number: i32,
    pub first: [i32; 4],
    pub second: [i32; 4],
}

impl Request {
    pub fn insert(number: i32, rect: [i32; 4]) -> Request {
        Request { kind: INSERT, number, first: rect, second: [0; 4] }
    }

    pub fn delete(number: i32, rect: [i32; 4]) -> Request {
        Request { kind: DELETE, number, first: rect, second: [0; 4] }
    }

    pub fn update(number: i32, old: [i32; 4], new: [i32; 4]) -> Request {
        Request { kind: UPDATE, number, first: old, second: new }
    }

    pub fn search(window: [i32; 4]) -> Request {
        Request { kind: SEARCH, number: 0, first: window, second: [0; 4] }
    }

    /// A search for the records that lie in the window.
    pub fn inside(window: [i32; 4]) -> Request {
        Request { kind: INSIDE, ..Request::search(window) }
    }

    /// A search for the records that hold the window.
    pub fn enclosing(window: [i32; 4]) -> Request {
        Request { kind: ENCLOSING, ..Request::search(window) }
    }

    /// Whether it is a search, of any mode.
    pub fn is_search(&self) -> bool {
        (SEARCH..=ENCLOSING).contains(&self.kind)
    }

    pub fn from_words(words: [i32; 10]) -> Request {
        Request {
            kind: words[0],
            number: words[1],
            first: [words[2], words[3], words[4], words[5]],
            second: [words[6], words[7], words[8], words[9]],
        }
    }

    fn old_or_only_pair(&self) -> Pair {
        Pair { number: self.record_number(), rect: Rect::from_words(self.first) }
    }

    fn new_pair(&self) -> Pair {
        Pair { number: self.record_number(), rect: Rect::from_words(self.second) }
    }

    fn record_number(&self) -> RecordNumber {
        RecordNumber(i64::from(self.number))
    }
}

/// "number, found, start, opened"
#[derive(Clone, Copy, Debug, Default, PartialEq, Eq)]
pub struct Answer {
    pub number: i32,
    pub found: i32,
    pub start: i32,
    pub opened: i32,
}

impl Answer {
    /// "Changes and refusals report zeros for the last three".
    fn plain(number: i32) -> Answer {
        Answer { number, ..Answer::default() }
    }
}

/// One place of the found list.
#[derive(Clone, Copy, Debug, Default, PartialEq, Eq, PartialOrd, Ord)]
pub struct Found {
    pub number: i32,
    pub low_x: i32,
    pub low_y: i32,
    pub high_x: i32,
    pub high_y: i32,
}

impl Found {
    fn of(pair: &Pair) -> Found {
        let [low_x, low_y, high_x, high_y] = pair.rect.to_words();
        let number = i32::try_from(pair.number.0).expect("a record number fits a word");
        Found { number, low_x, low_y, high_x, high_y }
    }
}

/// The batch over one pool, which is owner 1's.
pub fn call(
    pool: &mut [i32],
    work: &mut [i32],
    requests: &[Request],
    answers: &mut [Answer],
    found: &mut [Found],
) -> i32 {
    call_as(pool, work, requests, answers, found, Owner::One.number())
}

/// "A batch belongs to one owner, with its own lists; it sees and changes that owner's records
/// only" (document 02, Req 07).
pub fn call_as(
    pool: &mut [i32],
    work: &mut [i32],
    requests: &[Request],
    answers: &mut [Answer],
    found: &mut [Found],
    owner: i32,
) -> i32 {
    call_counting(pool, work, requests, answers, found, owner, &mut Events::default())
}

/// The same, adding to the counters what happened on the way.
pub fn call_counting(
    pool: &mut [i32],
    work: &mut [i32],
    requests: &[Request],
    answers: &mut [Answer],
    found: &mut [Found],
    owner: i32,
    events: &mut Events,
) -> i32 {
    if too_many(requests, answers) {
        return 9;
    }
    let Some(owner) = Owner::numbered(owner) else {
        return OTHER_OWNER;
    };
    if let Some(number) = refused_after_13(pool, work, requests) {
        return number;
    }
    let map = Map::read(pool);
    let mut batch = Batch { owner: map.whose(owner), map, found, filled: 0, events };
    for (request, answer) in requests.iter().zip(answers.iter_mut()) {
        *answer = batch.one(request);
    }
    batch.map.write(pool);
    // "On return 0 the workspace equals the pool."
    work.copy_from_slice(pool);
    0
}

/// "more than 1,024 requests, or answer list of another length than the request list"
fn too_many(requests: &[Request], answers: &[Answer]) -> bool {
    requests.len() > MOST_REQUESTS || answers.len() != requests.len()
}

/// The checks of the whole call in the table's order are 9, then "13 for another owner, after 9",
/// for a pool of either edition; then these: 1, 2, and the kinds.
fn refused_after_13(pool: &[i32], work: &[i32], requests: &[Request]) -> Option<i32> {
    if slots_of(pool).is_none() || work.len() != pool.len() {
        return Some(1);
    }
    if !sound(pool) {
        return Some(2);
    }
    let known = |request: &Request| (INSERT..=ENCLOSING).contains(&request.kind);
    (!requests.iter().all(known)).then_some(NO_SUCH_KIND)
}

/// A batch in progress: whose records it sees, the map as the requests so far have left it, and the
/// places filled.
struct Batch<'a> {
    owner: Option<Owner>,
    map: Map,
    found: &'a mut [Found],
    filled: usize,
    events: &'a mut Events,
}

impl Batch<'_> {
    fn one(&mut self, request: &Request) -> Answer {
        match request.kind {
            INSERT => self.insert(request),
            DELETE => self.delete(request),
            UPDATE => self.update(request),
            SEARCH => self.search(request, Mode::Meeting),
            INSIDE => self.search(request, Mode::Inside),
            ENCLOSING => self.search(request, Mode::Enclosing),
            _ => unreachable!("the kinds were looked at before"),
        }
    }

    /// The pair as a record of the batch's owner.
    fn own(&self, pair: Pair) -> Owned {
        Owned { owner: self.owner, pair }
    }

    /// 1 where the other owner holds the pair, else 0: for the counters alone.
    fn held_by_the_other(&self, pair: Pair) -> u64 {
        let held = |owner: Owner| self.map.held(&Owned { owner: Some(owner.other()), pair });
        u64::from(self.owner.is_some_and(held))
    }

    /// Checks 3, 4, 6, 7.
    fn insert(&mut self, request: &Request) -> Answer {
        let pair = request.old_or_only_pair();
        if !pair.rect.valid() {
            return Answer::plain(3);
        }
        if request.number < 1 {
            return Answer::plain(4);
        }
        let record = self.own(pair);
        if self.map.held(&record) {
            return Answer::plain(6);
        }
        let of_the_other = self.held_by_the_other(pair);
        let answer = self.change(|map| map.insert(&record));
        match answer.number {
            0 => self.events.shares.insert_of_others_pair += of_the_other,
            _ => self.events.refused_7_insert += 1,
        }
        answer
    }

    /// Checks 3, 4, 5, 7.
    fn delete(&mut self, request: &Request) -> Answer {
        let pair = request.old_or_only_pair();
        if !pair.rect.valid() {
            return Answer::plain(3);
        }
        if request.number < 1 {
            return Answer::plain(4);
        }
        let record = self.own(pair);
        if !self.map.held(&record) {
            self.events.shares.delete_5_others_pair += self.held_by_the_other(pair);
            return Answer::plain(5);
        }
        let answer = self.change(|map| map.delete(&record));
        self.events.refused_7_delete += u64::from(answer.number == 7);
        answer
    }

    /// Checks 3 (either rectangle), 4, 5, 6 ("new pair held and not the old pair"), 7.
    fn update(&mut self, request: &Request) -> Answer {
        let (old, new) = (request.old_or_only_pair(), request.new_pair());
        if !old.rect.valid() || !new.rect.valid() {
            return Answer::plain(3);
        }
        if request.number < 1 {
            return Answer::plain(4);
        }
        if !self.map.held(&self.own(old)) {
            self.events.shares.update_5_others_pair += self.held_by_the_other(old);
            return Answer::plain(5);
        }
        if self.map.held(&self.own(new)) && new != old {
            return Answer::plain(6);
        }
        let record = self.own(old);
        let to_the_others = if new == old { 0 } else { self.held_by_the_other(new) };
        let answer = self.change(|map| map.update(&record, &new.rect));
        match answer.number {
            0 => self.events.shares.update_to_others_pair += to_the_others,
            _ => self.events.refused_7_update += 1,
        }
        answer
    }

    /// Makes a change on a copy, so that "a refused request changes neither pool nor found
    /// list", at whatever moment 7 is given.
    fn change(&mut self, act: impl Fn(&mut Map) -> Result<(), NoSlotFree>) -> Answer {
        let mut copy = self.map.clone();
        copy.trace = Trace::default();
        match act(&mut copy) {
            Ok(()) => {
                self.events.note(&copy.trace);
                self.map = copy;
                Answer::plain(0)
            }
            Err(NoSlotFree) => Answer::plain(7),
        }
    }

    /// Checks 3, 8, the same in every mode ("Refusals: none new"). "8 reports found and opened as
    /// they would have been, start zero." In edition 2 "Opened is reported as 0", beside 8 too.
    fn search(&mut self, request: &Request, mode: Mode) -> Answer {
        let window = Rect::from_words(request.first);
        if !window.valid() {
            return Answer::plain(3);
        }
        let finding = self.map.search(&window, mode, self.owner);
        let count = finding.pairs.len();
        let opened = match self.map.edition {
            Edition::One => finding.opened as i32,
            Edition::Two => 0,
        };
        if count > self.found.len() - self.filled {
            return Answer { number: 8, found: count as i32, start: 0, opened };
        }
        self.events.note_search(mode, &window, &finding.sight);
        let start = self.filled;
        for (place, pair) in self.found[start..].iter_mut().zip(&finding.pairs) {
            *place = Found::of(pair);
        }
        self.filled += count;
        Answer { number: 0, found: count as i32, start: start as i32, opened }
    }
}
