//! The worked scripts of the second program, each as one call: what is rare in drawn histories happens here for certain.

use crate::both::{lend, lend_as};
use crate::lent::Lent;
use crate::seen::Seen;
use crate::tally::Tally;
use second::edition::OWNERS;
use second::neighbours::widened;
use second::script::{parse, Script};
use second::{Answer, Found, Owner};

const SCRIPTS: [(&str, &str); 13] = [
    ("delete-refused-7", include_str!("../../second/examples/delete-refused-7.script")),
    ("mixed", include_str!("../../second/examples/mixed.script")),
    ("modes", include_str!("../../second/examples/modes.script")),
    ("roads", include_str!("../../second/examples/roads.script")),
    ("roads-blocks", include_str!("../../second/examples/roads-blocks.script")),
    ("roads-crossing", include_str!("../../second/examples/roads-crossing.script")),
    ("roads-far", include_str!("../../second/examples/roads-far.script")),
    ("roads-redrawn", include_str!("../../second/examples/roads-redrawn.script")),
    ("roads-upright", include_str!("../../second/examples/roads-upright.script")),
    ("two-levels", include_str!("../../second/examples/two-levels.script")),
    ("two-levels-pool", include_str!("../../second/examples/two-levels-pool.script")),
    ("two-levels-split", include_str!("../../second/examples/two-levels-split.script")),
    ("update-refused-7", include_str!("../../second/examples/update-refused-7.script")),
];

/// A batch of owner 2 among records of both.
const OF_BOTH: &str = include_str!("../../second/examples/shared.script");

pub fn all(tally: &mut Tally, seen: &mut Seen) {
    for (name, text) in SCRIPTS {
        let lent = lists(&parse(text).expect("a script"));
        lend(&format!("script {name}"), &lent, tally, seen);
    }
}

/// The same scripts in pools of edition 2, by each owner alone; and one of both owners.
pub fn shared(tally: &mut Tally, seen: &mut Seen) {
    for (name, text) in SCRIPTS {
        for owner in OWNERS.map(Owner::number) {
            let mut lent = lists(&parse(text).expect("a script"));
            lent.pool = widened(&lent.pool, || owner);
            lent.work = vec![0; lent.pool.len()];
            lend_as(&format!("script {name}, shared"), &lent, owner, tally, seen);
        }
    }
    let script = parse(OF_BOTH).expect("a script");
    lend_as("script shared", &lists(&script), script.owner, tally, seen);
}

fn lists(script: &Script) -> Lent {
    Lent {
        work: vec![0; script.work.unwrap_or(script.pool.len())],
        answers: vec![Answer::default(); script.answers.unwrap_or(script.requests.len())],
        found: vec![Found::default(); script.found],
        pool: script.pool.clone(),
        requests: script.requests.clone(),
    }
}
