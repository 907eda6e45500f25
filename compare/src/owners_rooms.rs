//! The room in pools that two owners share: told of the slots, whoever has them. Then one of the owners inserts, and has to find it so.

use crate::both::lend_as;
use crate::lent::Lent;
use crate::room::Asking;
use crate::seen::Seen;
use crate::spoil::{garbage_answers, garbage_words};
use crate::tally::Tally;
use second::dice::Dice;
use second::edition::OWNERS;
use second::generate::pair_of;
use second::neighbours::widened;
use second::rooms::Case;
use second::rooms_drawn::drawn;
use second::rooms_kept::kept;
use second::{records_in_leaves, Edition, Owned, Owner, Request};

/// Cases that the second program draws.
const DRAWN: usize = 250;

/// The cases of edition 1 that the second program keeps and draws, laid out for two owners.
pub fn all(dice: &mut Dice, tally: &mut Tally, seen: &mut Seen) {
    let cases: Vec<Case> = (0..DRAWN).map(|_| drawn(dice)).collect();
    let asked = Dice::new(dice.below(1 << 40));
    let mut asking = Asking { dice: asked, calls: 0, tally, seen };
    for Case { mut pool, rect } in kept().into_iter().chain(cases) {
        if Edition::One.slots_of(pool.len()).is_some() {
            pool = widened(&pool, || dice.pick(&OWNERS).number());
        }
        one(&mut asking, &pool, rect, dice);
    }
}

/// Asks, then inserts under a number by which the owner does not hold the rectangle, so that nothing but 7 can be due: one by which the other
/// owner holds it, if there is one.
fn one(asking: &mut Asking, pool: &[i32], rect: [i32; 4], dice: &mut Dice) {
    let told = asking.ask("shared", pool, rect);
    if told.number != 0 {
        return;
    }
    let (owner, held) = (dice.pick(&OWNERS), records_in_leaves(pool));
    let holds = |owner: Owner, number: i32| {
        held.contains(&Owned { owner: Some(owner), pair: pair_of(number, rect) })
    };
    let of_the_other = (1..=held.len() as i32).filter(|&number| holds(owner.other(), number));
    let number = of_the_other.chain(1..).find(|&number| !holds(owner, number));
    let number = number.expect("there are more");
    let lent = Lent {
        pool: pool.to_vec(),
        work: garbage_words(dice, pool.len()),
        requests: vec![Request::insert(number, rect)],
        answers: garbage_answers(dice, 1),
        found: vec![],
    };
    let left = lend_as("room, shared", &lent, owner.number(), asking.tally, asking.seen);
    let (answer, due) = (left.lent.answers[0].number, if told.fits() { 0 } else { 7 });
    asking.tally.hold(left.number == 0 && answer == due, || {
        format!("room, shared: {told:?}, and an insert of {rect:?}: {}, {answer}", left.number)
    });
    asking.seen.note_those([
        ("insert 0 that took slots as told", answer == 0 && told.needed > 0),
        ("insert 7 as told", answer == 7),
        ("insert as told of a pair that the other holds", holds(owner.other(), number)),
    ]);
}
