//! A history in progress; every call is made to both programs, and faulty calls come in between.

use crate::both::{lend, lend_as};
use crate::carry::Carrying;
use crate::lent::{Left, Lent};
use crate::seen::Seen;
use crate::spoil::{fill_unused, garbage_answers, garbage_found, garbage_words, muddle, spoil};
use crate::tally::Tally;
use second::call::MOST_REQUESTS;
use second::dice::Dice;
use second::edition::OWNERS;
use second::neighbours::Neighbours;
use second::pool::{blank_pool_of, each_slot, entries, slot_words, slots_of, EntryWords, Slot};
use second::style::Style;
use second::{call_as, Answer, Edition, Found, Owner, Request};

/// After so many calls in a hundred the map is carried to other offices.
const CARRIED: u64 = 10;

/// Up to so many slots a history may go on in a shorter pool.
const MAY_SHRINK: usize = 12;

/// Of a hundred batches of owner 1, so many go through the call that is told no owner.
const UNTOLD: u64 = 30;

/// Numbers that no owner has.
pub const NO_OWNERS: [i32; 8] = [0, 3, -1, i32::MIN, i32::MAX, 257, -2, 1 << 16 | 1];

/// 0, 1, a few, some dozens, 1,024.
fn batch_size(dice: &mut Dice) -> usize {
    match dice.below(1_000) {
        0..=49 => 0,
        50..=449 => 1,
        450..=849 => dice.between(2, 9) as usize,
        850..=984 => dice.between(10, 60) as usize,
        _ => MOST_REQUESTS,
    }
}

/// A history in progress.
pub struct History {
    title: String,
    edition: Edition,
    /// Whether the call is told whose the batch is; else it is owner 1's.
    told: bool,
    neighbours: Neighbours,
    owner: Owner,
    dice: Dice,
    pool: Vec<i32>,
    calls: usize,
    /// What the next call is to be counted as, where a read left the pool.
    arrived: Option<&'static str>,
}

/// A batch as drawn, and how many places its searches fill where there is room for all.
#[derive(Default)]
struct Drawn {
    requests: Vec<Request>,
    all_found: usize,
}

impl History {
    pub fn new(title: String, style: Style, seed: u64, slots: usize) -> History {
        History::of(
            Edition::One,
            title,
            Neighbours::new(Edition::One, style, seed, slots),
            seed,
            slots,
        )
    }

    /// In a pool of edition 1, by the call that is told an owner.
    pub fn of_either(title: String, style: Style, seed: u64, slots: usize) -> History {
        History { told: true, ..History::new(title, style, seed, slots) }
    }

    /// In a pool of edition 2. In one size of three the owners together want more slots than there are.
    pub fn of_both(title: String, style: Style, seed: u64, slots: usize) -> History {
        let each = if slots % 3 == 0 { slots } else { slots.div_ceil(2) };
        let neighbours = Neighbours::new(Edition::Two, style, seed, each);
        History { told: true, ..History::of(Edition::Two, title, neighbours, seed, slots) }
    }

    fn of(
        edition: Edition,
        title: String,
        neighbours: Neighbours,
        seed: u64,
        slots: usize,
    ) -> History {
        let (pool, dice) = (blank_pool_of(edition, slots), Dice::new(seed ^ 0x5EED));
        let (told, owner, calls, arrived) = (false, Owner::One, 0, None);
        History { title, edition, told, neighbours, owner, dice, pool, calls, arrived }
    }

    pub fn steps(&mut self, calls: usize, tally: &mut Tally, seen: &mut Seen) {
        for _ in 0..calls {
            let size = batch_size(&mut self.dice);
            self.step(size, tally, seen);
        }
    }

    /// The next batch; one time in four a call with faults goes before it, over the same pool.
    pub fn step(&mut self, size: usize, tally: &mut Tally, seen: &mut Seen) {
        self.calls += 1;
        if self.told {
            self.owner = self.dice.pick(&OWNERS);
        }
        let drawn = self.draw(size);
        let lent = self.lists(drawn);
        let title = format!("{}, call {}", self.title, self.calls);
        if self.dice.chance(25) {
            self.spoilt(&title, lent.clone(), tally, seen);
        }
        let left = self.lend_own(&title, &lent, tally, seen);
        tally.hold(left.number == 0, || format!("{title}: refused {}", left.number));
        self.pool = left.lent.pool;
        if let Some(what) = self.arrived.take() {
            seen.note(what);
        }
        self.probe(&title, tally, seen);
        if self.dice.chance(CARRIED) {
            self.carry(&title, tally, seen);
        }
    }

    /// The same lists with faults; where an owner is told, one time in four by none that there is.
    fn spoilt(&mut self, title: &str, mut lent: Lent, tally: &mut Tally, seen: &mut Seen) {
        spoil(&mut self.dice, &mut lent);
        let mut owner = self.owner.number();
        if self.told && self.dice.chance(25) {
            owner = self.dice.pick(&NO_OWNERS);
        }
        self.lend(&format!("{title}, spoilt"), &lent, owner, tally, seen);
    }

    /// The batch by its owner. What is owner 1's sometimes goes through the call that is told no owner, over a pool of either edition.
    fn lend_own(&mut self, title: &str, lent: &Lent, tally: &mut Tally, seen: &mut Seen) -> Left {
        if self.told && self.owner == Owner::One && self.dice.chance(UNTOLD) {
            seen.note("batch of owner 1 that is told no owner");
            return lend(title, lent, tally, seen);
        }
        self.lend(title, lent, self.owner.number(), tally, seen)
    }

    fn lend(
        &self,
        title: &str,
        lent: &Lent,
        owner: i32,
        tally: &mut Tally,
        seen: &mut Seen,
    ) -> Left {
        match self.told {
            true => lend_as(title, lent, owner, tally, seen),
            false => lend(title, lent, tally, seen),
        }
    }

    /// Carries the map to other offices. The history goes on in one of as many slots, now and then in the shortest, or stays where it is.
    pub fn carry(&mut self, title: &str, tally: &mut Tally, seen: &mut Seen) {
        let mut office = Carrying { edition: self.edition, dice: &mut self.dice, tally, seen };
        let pools = office.round_trip(title, &self.pool);
        let small = slots_of(&self.pool).is_some_and(|slots| slots <= MAY_SHRINK);
        let shrinks = small && self.dice.chance(20);
        let as_long = |pool: &&Vec<i32>| pool.len() == self.pool.len();
        let office = if shrinks { pools.first() } else { pools.iter().find(as_long) };
        let Some(pool) = office else {
            return;
        };
        self.arrived = Some(match pool.len() < self.pool.len() {
            true => "call over a shorter pool that a read left",
            false => "call over a pool that a read left",
        });
        self.pool = pool.clone();
    }

    /// "A delete can be refused 7", which is rare. Where no slot is free, a pair is deleted from each leaf that would then be too
    /// thin, each in a call of its own over the same pool.
    fn probe(&mut self, title: &str, tally: &mut Tally, seen: &mut Seen) {
        for record in deletes_that_condense(&self.pool) {
            let delete = Request::delete(record.pointer, record.rect);
            self.probe_with(delete, &record, title, tally, seen);
        }
        for records in [3, 4] {
            self.probe_leaf(records, title, tally, seen);
        }
    }

    /// A leaf that a delete leaves too thin, and one that it leaves just thick enough: a delete and an update of any record of one.
    fn probe_leaf(&mut self, records: i32, title: &str, tally: &mut Tally, seen: &mut Seen) {
        let leaves = leaves_of(&self.pool, records);
        if leaves.is_empty() {
            return;
        }
        let leaf = &leaves[self.dice.below(leaves.len() as u64) as usize];
        let record = self.dice.pick(leaf);
        let (number, rect) = (record.pointer, record.rect);
        let [x, y] = [0, 1].map(|_| self.dice.between(-1_000, 1_000) as i32);
        for request in
            [Request::delete(number, rect), Request::update(number, rect, [x, y, x + 3, y])]
        {
            self.probe_with(request, &record, title, tally, seen);
        }
        seen.note(format!("delete and update at a leaf of {records}"));
    }

    /// A request about a record, by its owner where it has one.
    fn probe_with(
        &mut self,
        request: Request,
        record: &EntryWords,
        title: &str,
        tally: &mut Tally,
        seen: &mut Seen,
    ) {
        let lent = self.lists(Drawn { requests: vec![request], all_found: 0 });
        let owner = Owner::numbered(record.owner).unwrap_or(self.owner).number();
        self.lend(&format!("{title}, probed"), &lent, owner, tally, seen);
    }

    /// Each request is drawn over the records that the requests before it left in force: the second program does them one by
    /// one, on a copy of the pool.
    fn draw(&mut self, size: usize) -> Drawn {
        let (mut pool, mut work) = (self.pool.clone(), self.pool.clone());
        let mut found = vec![Found::default(); pool.len() / 5];
        let mut drawn = Drawn::default();
        for _ in 0..size {
            let request = self.request();
            let mut answers = [Answer::default()];
            let owner = self.owner.number();
            call_as(&mut pool, &mut work, &[request], &mut answers, &mut found, owner);
            self.neighbours.answered(self.owner, &request, answers[0].number);
            drawn.requests.push(request);
            drawn.all_found += answers[0].found as usize;
        }
        drawn
    }

    /// A request of the style; now and then with several faults, or with old content in the fields that it doesn't use.
    fn request(&mut self) -> Request {
        let mut request = self.neighbours.draw(self.owner);
        if self.dice.chance(5) {
            let other = self.neighbours.draw(self.owner);
            muddle(&mut self.dice, &mut request, &other);
        }
        if self.dice.chance(50) {
            fill_unused(&mut self.dice, &mut request);
        }
        request
    }

    /// The lists of a call, with old content in each.
    fn lists(&mut self, drawn: Drawn) -> Lent {
        let places = self.places(drawn.all_found);
        Lent {
            pool: self.pool.clone(),
            work: self.workspace(),
            answers: garbage_answers(&mut self.dice, drawn.requests.len()),
            requests: drawn.requests,
            found: garbage_found(&mut self.dice, places),
        }
    }

    /// The workspace is scratch: what it holds before a call does not matter.
    fn workspace(&mut self) -> Vec<i32> {
        match self.dice.below(3) {
            0 => self.pool.clone(),
            1 => vec![0; self.pool.len()],
            _ => garbage_words(&mut self.dice, self.pool.len()),
        }
    }

    /// The length of the found list: too short, just long enough, one short of that, or long.
    fn places(&mut self, all_found: usize) -> usize {
        match self.dice.below(10) {
            0..=2 => self.dice.below(9) as usize,
            3 | 4 => all_found,
            5 => all_found.saturating_sub(1),
            _ => all_found + self.dice.below(70) as usize,
        }
    }
}

/// A record of each leaf of three, of a pool that has no free slot.
fn deletes_that_condense(pool: &[i32]) -> Vec<EntryWords> {
    if each_slot(pool).any(|slot| slot[0] == 0) {
        return Vec::new();
    }
    leaves_of(pool, 3).iter().map(|leaf| leaf[0]).collect()
}

/// The records of each leaf that has so many.
fn leaves_of(pool: &[i32], records: i32) -> Vec<Vec<EntryWords>> {
    let slots = slots_of(pool).expect("a sound pool");
    let leaves = (1..=slots).map(Slot).filter(|&s| slot_words(pool, s)[..2] == [1, records]);
    leaves.map(|leaf| entries(pool, leaf)).collect()
}
