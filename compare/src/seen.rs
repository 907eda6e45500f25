//! What the calls met, so that a run can say that it met every case.

use crate::carry_met;
use crate::lent::Lent;
use crate::owners_met;
use crate::room_met;
use crate::survey_met::Met;
use crate::tally::Tally;
use second::call::{
    DELETE, ENCLOSING, INSERT, INSIDE, MOST_REQUESTS, NO_SUCH_KIND, SEARCH, UPDATE,
};
use second::edition::OTHER_OWNER;
use second::pool::slots_of;
use second::{sound, Answer, Events, Owner, Request};
use std::collections::BTreeMap;

/// The rows of the table that refuse a call, in the order of checks.
pub const CALL_REFUSALS: [i32; 5] = [9, OTHER_OWNER, 1, 2, NO_SUCH_KIND];

/// Everything that has to be met, by name.
const WANTED: [&str; 98] = [
    "check said 0",
    "check said 1",
    "check said 2",
    "call returned 0",
    "call returned 9",
    "call returned 1",
    "call returned 2",
    "call returned -1",
    "9 where 1 was due too",
    "9 where 2 was due too",
    "9 where -1 was due too",
    "1 where 2 was due too",
    "1 where -1 was due too",
    "2 where -1 was due too",
    "-1 for kind 0",
    "-1 for kind 7",
    "batch of 0",
    "batch of 1",
    "batch of a few",
    "batch of 1,024",
    "batch of 1,025",
    "batch of 0 refused 2",
    "found list of no places",
    "found list filled to its last place",
    "found list with places beyond",
    "found list filled by several searches",
    "found list filled by searches of all modes",
    "search accepted after one refused 8",
    "workspace unlike the pool",
    "insert 0",
    "insert 3",
    "insert 4",
    "insert 6",
    "insert 7",
    "delete 0",
    "delete 3",
    "delete 4",
    "delete 5",
    "delete 7",
    "update 0",
    "update 3",
    "update 4",
    "update 5",
    "update 6",
    "update 7",
    "update of a pair to itself",
    "search 0",
    "search 3",
    "search 8",
    "search inside 0",
    "search inside 3",
    "search inside 8",
    "search enclosing 0",
    "search enclosing 3",
    "search enclosing 8",
    "pool of 1 slot",
    "pool of 2 to 12 slots",
    "pool of 128 slots",
    "pool of 4,096 slots",
    "pair held twice: found by search",
    "pair held twice: found by search inside",
    "pair held twice: found by search enclosing",
    "pair held twice: one deleted",
    "pair held twice: one updated",
    "pair held twice: insert 6",
    "pair held twice: update 6",
    "search by a survey window found records",
    "search by a survey window found nothing",
    "search inside by a survey window found records",
    "search inside by a survey window found nothing",
    "search enclosing by a survey window found records",
    "search enclosing by a survey window found nothing",
    "pool: a detached leaf",
    "pool: a detached tree",
    "pool: a node that is its own child",
    "pool: two nodes that are each other's child",
    "pool: a ring of three nodes",
    "pool: a child met twice in one node",
    "pool: a child met in two nodes",
    "pool: a detached part that leads into the tree",
    "delete and update at a leaf of 3",
    "delete and update at a leaf of 4",
    "every size found, numbers from 1 to 3",
    "every size found, all numbers equal",
    "every size found, any numbers",
    "every size found, numbers falling",
    "every size found, numbers close together, far from 1",
    "every size found, one number in ten far from the others",
    "every size found inside, numbers from 1 to 3",
    "every size found inside, all numbers equal",
    "every size found inside, any numbers",
    "every size found inside, numbers falling",
    "every size found inside, numbers close together, far from 1",
    "every size found inside, one number in ten far from the others",
    "every size found inside, one record in the other",
    "every size found enclosing, one record in the other",
    "every way for a record to lie to a window",
    "tree of four levels without area",
];

#[derive(Default)]
pub struct Seen {
    /// Which part of the run it is. It stands before each name that is met there; the first part, edition 1 as it was before there were
    /// owners, has nothing before its names.
    part: &'static str,
    counts: BTreeMap<String, u64>,
    events: BTreeMap<&'static str, Events>,
    pub survey: Met,
    requests: u64,
    tallest: i32,
}

impl Seen {
    pub fn note(&mut self, what: impl Into<String>) {
        *self.counts.entry(self.part.to_string() + &what.into()).or_default() += 1;
    }

    /// Does a part of the run.
    pub fn part(&mut self, name: &'static str, run: impl FnOnce(&mut Seen)) {
        let before = std::mem::replace(&mut self.part, name);
        run(self);
        self.part = before;
    }

    /// How often something was met, by its name with its part before it.
    fn met(&self, name: &str) -> u64 {
        self.counts.get(name).copied().unwrap_or(0)
    }

    /// What the second program noted in the calls of a part.
    pub fn events_of(&self, part: &str) -> Events {
        self.events.get(part).cloned().unwrap_or_default()
    }

    /// Notes those that are so.
    pub fn note_those<const K: usize>(&mut self, met: [(&str, bool); K]) {
        met.into_iter().filter(|(_, so)| *so).for_each(|(what, _)| self.note(what));
    }

    /// Takes in a call of an owner: what was lent, what came back, what the second program noted on its way.
    pub fn call(&mut self, lent: &Lent, owner: i32, number: i32, left: &Lent, events: &Events) {
        self.events.entry(self.part).or_default().add(events);
        self.note(format!("call returned {number}"));
        self.order_of_checks(lent, owner, number);
        self.unknown_kinds(lent, number);
        self.batch(lent.requests.len(), number);
        if number != 0 {
            return;
        }
        self.lists(lent, left);
        self.tallest = self.tallest.max(left.pool[2]);
        self.requests += lent.requests.len() as u64;
        for (request, answer) in lent.requests.iter().zip(&left.answers) {
            self.request(request, answer);
        }
    }

    /// Which other refusals would have been due, had the first check not come first.
    fn order_of_checks(&mut self, lent: &Lent, owner: i32, number: i32) {
        let Some(place) = CALL_REFUSALS.iter().position(|&n| n == number) else {
            return;
        };
        for &later in CALL_REFUSALS[place + 1..].iter().filter(|&&n| due(n, lent, owner)) {
            self.note(format!("{number} where {later} was due too"));
        }
    }

    /// The kinds next to the known ones, where nothing but a kind was wrong.
    fn unknown_kinds(&mut self, lent: &Lent, number: i32) {
        for kind in [INSERT - 1, ENCLOSING + 1] {
            if number == NO_SUCH_KIND && lent.requests.iter().any(|r| r.kind == kind) {
                self.note(format!("{number} for kind {kind}"));
            }
        }
    }

    fn batch(&mut self, size: usize, number: i32) {
        self.note(match size {
            0 => "batch of 0",
            1 => "batch of 1",
            MOST_REQUESTS => "batch of 1,024",
            1_025 => "batch of 1,025",
            _ => "batch of a few",
        });
        if size == 0 && number == 2 {
            self.note("batch of 0 refused 2");
        }
    }

    /// What the lists of an accepted call were like.
    fn lists(&mut self, lent: &Lent, left: &Lent) {
        if lent.work != lent.pool {
            self.note("workspace unlike the pool");
        }
        match slots_of(&lent.pool) {
            Some(1) => self.note("pool of 1 slot"),
            Some(2..=12) => self.note("pool of 2 to 12 slots"),
            Some(128) => self.note("pool of 128 slots"),
            Some(4_096) => self.note("pool of 4,096 slots"),
            _ => (),
        }
        let pairs = lent.requests.iter().zip(&left.answers);
        let searches: Vec<(i32, Answer)> =
            pairs.filter(|(r, _)| r.is_search()).map(|(r, a)| (r.kind, *a)).collect();
        self.found_list(lent.found.len(), &searches);
    }

    /// How the searches of an accepted call, each by its kind, used the found list.
    fn found_list(&mut self, places: usize, searches: &[(i32, Answer)]) {
        let fills = |(_, a): &&(i32, Answer)| a.number == 0 && a.found > 0;
        let filling = searches.iter().filter(fills).count();
        let filled: usize = searches.iter().filter(fills).map(|(_, a)| a.found as usize).sum();
        let by_kind = |kind| searches.iter().filter(fills).any(|&(k, _)| k == kind);
        let all_modes = [SEARCH, INSIDE, ENCLOSING].into_iter().all(by_kind);
        let mut from_refused = searches.iter().skip_while(|(_, a)| a.number != 8);
        self.note_those([
            ("found list of no places", places == 0),
            ("found list filled to its last place", filled > 0 && filled == places),
            ("found list with places beyond", filled > 0 && filled < places),
            ("found list filled by several searches", filling > 1),
            ("found list filled by searches of all modes", all_modes),
            ("search accepted after one refused 8", from_refused.any(|search| fills(&search))),
        ]);
    }

    fn request(&mut self, request: &Request, answer: &Answer) {
        self.note(format!("{} {}", kind_name(request), answer.number));
        if request.kind == UPDATE && answer.number == 0 && request.first == request.second {
            self.note("update of a pair to itself");
        }
    }

    /// Prints what was met; each thing wanted that was not met is a failure.
    pub fn report(&self, tally: &mut Tally) {
        println!("{} requests done, the tallest tree {} levels", self.requests, self.tallest);
        let all = WANTED.iter().map(|&name| (name, self.met(name)));
        let all = all.chain(self.events_of("").named()).chain(self.survey.named());
        let all =
            all.map(|(name, count)| (name.to_string(), count)).chain(owners_met::events(self));
        let wanted = carry_met::wanted().into_iter().chain(room_met::wanted());
        let more = wanted.chain(owners_met::wanted()).map(|name| (name.clone(), self.met(&name)));
        for (name, count) in all.chain(more) {
            println!("  {count:>9}  {}", name.replace('_', " "));
            tally.hold(count > 0, || format!("{name}: not met"));
        }
    }
}

/// What a request of an accepted call is called in what was met; each mode of a search has its own name.
pub fn kind_name(request: &Request) -> &'static str {
    match request.kind {
        INSERT => "insert",
        DELETE => "delete",
        UPDATE => "update",
        SEARCH => "search",
        INSIDE => "search inside",
        ENCLOSING => "search enclosing",
        _ => unreachable!("an accepted call has requests of known kinds"),
    }
}

/// Whether a row of the table that refuses a call is true of what was lent, and by whom.
fn due(number: i32, lent: &Lent, owner: i32) -> bool {
    let valid_length = slots_of(&lent.pool).is_some();
    match number {
        9 => lent.requests.len() > MOST_REQUESTS || lent.answers.len() != lent.requests.len(),
        OTHER_OWNER => Owner::numbered(owner).is_none(),
        1 => !valid_length || lent.work.len() != lent.pool.len(),
        2 => valid_length && !sound(&lent.pool),
        _ => lent.requests.iter().any(|r| !(INSERT..=ENCLOSING).contains(&r.kind)),
    }
}
