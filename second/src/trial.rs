//! A history in progress, and all that can be said about each request of it by a plain reading of
//! the documents. The tree code is used through `call` alone.

use crate::call::{call_as, call_counting, Answer, Found, Request, INSERT, UPDATE};
use crate::carried;
use crate::dice::Dice;
use crate::edition::{Edition, Owner, OWNERS};
use crate::neighbours::Neighbours;
use crate::plain::{
    answer_due, brute_force, check_found_list, check_pool, ensure, opened_due, plain,
    rectangle_in_order, refusal_due, Outcome, UNTOUCHED,
};
use crate::pool::blank_pool_of;
use crate::selftest::Met;
use crate::style::Style;

/// More slots than any one request can call for in these histories, whose trees have at most four
/// levels: an update sets aside at most two entries on each of three levels, and each of these six,
/// and the new record, takes at most five slots.
const SLOTS_TO_SPARE: usize = 36;

/// Of a hundred requests, so many before which the other owner takes over.
const OWNER_CHANGES: u64 = 25;

/// A history in batches of one.
struct Trial {
    edition: Edition,
    slots: usize,
    neighbours: Neighbours,
    owner: Owner,
    dice: Dice,
    pool: Vec<i32>,
    outcomes: Vec<Outcome>,
}

/// Draws and does a history, then the same in longer batches, and carries the map away.
pub fn one_history(
    edition: Edition,
    style: Style,
    seed: u64,
    slots: usize,
    count: usize,
    met: &mut Met,
) -> Result<(), String> {
    let mut trial = Trial {
        edition,
        slots,
        neighbours: Neighbours::new(edition, style, seed, slots),
        owner: Owner::One,
        dice: Dice::new(seed + 1_000),
        pool: blank_pool_of(edition, slots),
        outcomes: Vec::new(),
    };
    for place in 1..=count {
        trial.step(met).map_err(|why| format!("request {place}: {why}"))?;
    }
    trial.check_in_batches()?;
    match carried::check(&trial.pool, &trial.neighbours.records())? {
        0 => met.carried += 1,
        _ => met.carried_refused_7 += 1,
    }
    Ok(())
}

impl Trial {
    /// Draws a request, does it, and checks all that can be said about it.
    fn step(&mut self, met: &mut Met) -> Result<(), String> {
        if self.dice.chance(OWNER_CHANGES) {
            self.owner = self.owner.other();
        }
        let request = self.neighbours.draw(self.owner);
        let before = self.pool.clone();
        let places = self.places_for_found();
        let mut found = vec![UNTOUCHED; places];
        let answer = self.call(request, &mut found, met)?;
        met.count(&answer);
        met.tallest = met.tallest.max(self.pool[2]);
        let outcome = if request.is_search() {
            self.check_search(&before, request, &answer, &found)?
        } else {
            ensure(found.iter().all(|f| *f == UNTOUCHED), "a change wrote the found list")?;
            self.check_change(&before, request, &answer)?
        };
        if request.kind == INSERT {
            met.told.check(&before, request.first, answer.number, &self.pool)?;
        }
        self.outcomes.push(outcome);
        self.neighbours.answered(self.owner, &request, answer.number);
        check_pool(&self.pool, &self.neighbours.records())
    }

    /// The request as a batch of one.
    fn call(
        &mut self,
        request: Request,
        found: &mut [Found],
        met: &mut Met,
    ) -> Result<Answer, String> {
        let mut work = vec![0; self.pool.len()];
        let mut answers = [plain(-1)];
        let (owner, events) = (self.owner.number(), &mut met.events);
        let pool = &mut self.pool;
        let result = call_counting(pool, &mut work, &[request], &mut answers, found, owner, events);
        ensure(result == 0, "the call was refused")?;
        ensure(work == self.pool, "the workspace differs from the pool")?;
        Ok(answers[0])
    }

    /// Mostly long enough, sometimes short, so that 8 happens.
    fn places_for_found(&mut self) -> usize {
        match self.dice.chance(75) {
            true => self.pool.len(),
            false => self.dice.below(5) as usize,
        }
    }

    fn outcome(&self, request: Request) -> Outcome {
        let owner = self.owner.number();
        Outcome { owner, request, number: 0, list: Vec::new(), opened: 0 }
    }

    fn check_search(
        &self,
        before: &[i32],
        request: Request,
        answer: &Answer,
        found: &[Found],
    ) -> Result<Outcome, String> {
        ensure(self.pool == before, "a search changed the pool")?;
        let mut outcome = self.outcome(request);
        if rectangle_in_order(request.first) {
            outcome.list = brute_force(self.neighbours.in_force(self.owner), &request);
            outcome.opened = opened_due(before, request.first);
        } else {
            outcome.number = 3;
        }
        let mut written = Vec::new();
        let due = answer_due(&outcome, &mut written, found.len());
        ensure(*answer == due, "the answer of the search is another")?;
        check_found_list(found, &written)?;
        Ok(outcome)
    }

    fn check_change(
        &self,
        before: &[i32],
        request: Request,
        answer: &Answer,
    ) -> Result<Outcome, String> {
        let mut outcome = self.outcome(request);
        if let Some(number) = refusal_due(&request, self.neighbours.in_force(self.owner)) {
            outcome.number = number;
        } else {
            let (fits, bigger) = in_a_bigger_pool(before, request, self.owner)?;
            if fits {
                let same = self.pool == bigger[..before.len()];
                ensure(same, "a pool with more slots was left otherwise")?;
            } else {
                outcome.number = 7;
            }
        }
        ensure(*answer == plain(outcome.number), "the answer of the change is another")?;
        if outcome.number != 0 {
            ensure(self.pool == before, "a refused request changed the pool")?;
        } else if request.kind == UPDATE {
            check_update_in_two(before, request, self.owner, &self.pool)?;
        }
        Ok(outcome)
    }

    /// The same history in batches, each of one owner; in edition 1 in a single one, of either.
    fn check_in_batches(&mut self) -> Result<(), String> {
        let mut pool = blank_pool_of(self.edition, self.slots);
        let outcomes = std::mem::take(&mut self.outcomes);
        let apart = |a: &Outcome, b: &Outcome| self.edition == Edition::One || a.owner == b.owner;
        for batch in outcomes.chunk_by(apart) {
            let owner = match self.edition {
                Edition::One => self.dice.pick(&OWNERS).number(),
                Edition::Two => batch[0].owner,
            };
            check_batch(&mut pool, batch, owner, &mut self.dice)?;
        }
        ensure(pool == self.pool, "the batches left another pool")
    }
}

/// A part of a history as one batch: the same answers but for start and 8.
fn check_batch(
    pool: &mut [i32],
    outcomes: &[Outcome],
    owner: i32,
    dice: &mut Dice,
) -> Result<(), String> {
    let all: usize = outcomes.iter().map(|o| o.list.len()).sum();
    let places = dice.below(all as u64 + 1) as usize;
    let requests: Vec<Request> = outcomes.iter().map(|o| o.request).collect();
    let (mut work, mut answers) = (vec![0; pool.len()], vec![plain(-1); requests.len()]);
    let mut found = vec![UNTOUCHED; places];
    let result = call_as(pool, &mut work, &requests, &mut answers, &mut found, owner);
    ensure(result == 0, "the batch was refused")?;
    ensure(work == pool, "the workspace of the batch differs from the pool")?;
    let mut written = Vec::new();
    for (outcome, answer) in outcomes.iter().zip(&answers) {
        let due = answer_due(outcome, &mut written, places);
        ensure(*answer == due, "an answer of the batch is another")?;
    }
    check_found_list(&found, &written)
}

/// The same request in a pool with slots to spare: whether it needs no slot beyond the old
/// ones, and the pool left. A slot once taken in a request stays in use to its end (what is
/// freed at the end is a root that was there before), so this tells whether 7 is due.
fn in_a_bigger_pool(
    before: &[i32],
    request: Request,
    owner: Owner,
) -> Result<(bool, Vec<i32>), String> {
    let mut bigger = before.to_vec();
    bigger.resize(before.len() + Edition::of(before).slot_words() * SLOTS_TO_SPARE, 0);
    let number = do_one(&mut bigger, request, owner);
    ensure(number == 0, "refused where slots are to spare")?;
    let fits = bigger[before.len()..].iter().all(|&word| word == 0);
    Ok((fits, bigger))
}

/// "Update deletes the old pair, then inserts the new rectangle under the same number".
fn check_update_in_two(
    before: &[i32],
    request: Request,
    owner: Owner,
    after: &[i32],
) -> Result<(), String> {
    let mut pool = before.to_vec();
    let deleted = do_one(&mut pool, Request::delete(request.number, request.first), owner);
    let inserted = do_one(&mut pool, Request::insert(request.number, request.second), owner);
    ensure(deleted == 0 && inserted == 0, "an update was accepted, its parts are not")?;
    ensure(pool == after, "an update differs from delete and insert")
}

/// A change as a batch of one; gives the answer's number.
fn do_one(pool: &mut [i32], request: Request, owner: Owner) -> i32 {
    let mut work = vec![0; pool.len()];
    let mut answers = [Answer::default()];
    match call_as(pool, &mut work, &[request], &mut answers, &mut [], owner.number()) {
        0 => answers[0].number,
        refused => refused,
    }
}
