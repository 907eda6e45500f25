//! What the rooms that were asked for met, by name, so that a run can say that it met every case.

use crate::room::Told;
use crate::seen::Seen;
use second::call::{DELETE, INSERT, UPDATE};
use second::pool::{slots_of, Map};
use second::{pairs_in_leaves, Answer, Rect, Request};

/// "0, 1, 2, 3"
const NUMBERS: [i32; 4] = [0, 1, 2, 3];

/// Slots of pools that a room has to be told of.
const SIZES: [usize; 12] = [1, 2, 3, 4, 5, 6, 8, 9, 12, 16, 24, 4_096];

/// What is seen of a call by what was lent and what came back, of the insert after it, and of a batch with the insert in it; and what only those
/// know who made a pool, and note there.
const WANTED: &[&str] = &[
    "room 1 where 3 was due too",
    "room 2 where 3 was due too",
    "room in a pool of every length",
    "room in a pool: damaged",
    "room in a pool: garbage",
    "room in a pool: cycle",
    "room in a pool: chain",
    "room in a pool: shared child",
    "room in a pool: wrong at the end",
    "room in a pool: a detached leaf",
    "room in a pool: a detached tree",
    "room in a pool: a child met twice in one node",
    "room needs 0 slots",
    "room needs 1 slot",
    "room needs 2 slots",
    "room needs 3 slots or more",
    "room needs 5 slots",
    "room, none free, none needed",
    "room, none free, some needed",
    "room of a rectangle that is held",
    "room: the chosen leaf has none",
    "room: the chosen leaf has seven",
    "room: the run includes the root, a leaf",
    "room: the run includes an inner root",
    "room: the run ends below the root",
    "room: a full parent above a leaf with room",
    "room: a full root above a node with room above a full leaf",
    "room: another leaf is full, and the chosen one is not",
    "insert 7 with slots free",
    "insert 7 with one slot too few",
    "insert 7 with height slots free",
    "insert 0 that takes every free slot",
    "insert 0 that takes some of the free slots",
    "insert 0 that takes height + 1 slots, all that are free",
    "insert 0 with height + 1 slots free or more, some needed",
    "insert 3 where no room is told",
    "insert 4 where the room told is too little",
    "insert 6 where the room told is too little",
    "insert 7 in a batch, and before the batch it fitted",
    "insert 0 in a batch, and before the batch it did not fit",
    "insert 0 in a batch, with room that a delete made",
    "insert in a batch that needs more than before the batch",
    "insert in a batch that needs less than before the batch",
    "insert in a batch with fewer slots free than before the batch",
    "insert in a batch with more slots free than before the batch",
];

/// Everything that has to be met.
pub fn wanted() -> Vec<String> {
    let numbers = NUMBERS.iter().map(|number| format!("room {number}"));
    let sizes = SIZES.iter().map(|&slots| of_size(slots));
    numbers.chain(WANTED.iter().map(|name| name.to_string())).chain(sizes).collect()
}

fn of_size(slots: usize) -> String {
    format!("room 0, slots: {slots}")
}

/// Takes in what was told of a rectangle.
pub fn told(pool: &[i32], rect: [i32; 4], told: &Told, seen: &mut Seen) {
    let Told { number, needed, free } = *told;
    seen.note(format!("room {number}"));
    let rect = Rect::from_words(rect);
    if number != 0 {
        let bad = !rect.valid();
        seen.note_those([
            ("room 1 where 3 was due too", number == 1 && bad),
            ("room 2 where 3 was due too", number == 2 && bad),
        ]);
        return;
    }
    if let Some(slots) = slots_of(pool).filter(|slots| SIZES.contains(slots)) {
        seen.note(of_size(slots));
    }
    let held = pairs_in_leaves(pool).iter().any(|pair| pair.rect == rect);
    seen.note_those([
        ("room needs 0 slots", needed == 0),
        ("room needs 1 slot", needed == 1),
        ("room needs 2 slots", needed == 2),
        ("room needs 3 slots or more", needed >= 3),
        ("room needs 5 slots", needed == 5),
        ("room, none free, none needed", free == 0 && needed == 0),
        ("room, none free, some needed", free == 0 && needed > 0),
        ("room of a rectangle that is held", held),
    ]);
    way(pool, &rect, seen);
}

/// What the way to the chosen leaf is like: where it is full, and where it is not.
fn way(pool: &[i32], rect: &Rect, seen: &mut Seen) {
    let mut map = Map::read(pool);
    let way = map.way_to_leaf(rect);
    let counts: Vec<usize> = way.iter().map(|&slot| map.node(slot).entries.len()).collect();
    let full: Vec<bool> = counts.iter().map(|&count| count == 8).collect();
    let (height, leaf) = (full.len(), counts[counts.len() - 1]);
    let (whole, parent) = (!full.contains(&false), height > 1 && full[height - 2]);
    let other_full = map.nodes().iter().any(|node| node.is_leaf() && node.entries.len() == 8);
    let gap = height > 2 && full[0] && leaf == 8 && full[1..height - 1].contains(&false);
    seen.note_those([
        ("room: the chosen leaf has none", leaf == 0),
        ("room: the chosen leaf has seven", leaf == 7),
        ("room: the run includes the root, a leaf", whole && height == 1),
        ("room: the run includes an inner root", whole && height > 1),
        ("room: the run ends below the root", leaf == 8 && !whole),
        ("room: a full parent above a leaf with room", parent && leaf < 8),
        ("room: a full root above a node with room above a full leaf", gap),
        ("room: another leaf is full, and the chosen one is not", other_full && leaf < 8),
    ]);
}

/// Takes in the answer of an insert, by what was told of the pool that it met.
pub fn answered(height: u32, told: &Told, number: i32, seen: &mut Seen) {
    let Told { needed, free, .. } = *told;
    let (accepted, refused) = (number == 0, number == 7);
    let all = accepted && needed > 0 && needed == free;
    seen.note_those([
        ("insert 7 with slots free", refused && free > 0),
        ("insert 7 with one slot too few", refused && free + 1 == needed),
        ("insert 7 with height slots free", refused && free == height),
        ("insert 0 that takes every free slot", all),
        ("insert 0 that takes some of the free slots", accepted && needed > 0 && needed < free),
        ("insert 0 that takes height + 1 slots, all that are free", all && needed == height + 1),
        (
            "insert 0 with height + 1 slots free or more, some needed",
            accepted && needed > 0 && free > height,
        ),
        ("insert 3 where no room is told", number == 3),
        ("insert 4 where the room told is too little", number == 4 && needed > free),
        ("insert 6 where the room told is too little", number == 6 && needed > free),
    ]);
}

/// Takes in an insert of a batch: what was told of it before the batch and at its moment, its answer, and the requests before it with theirs.
pub fn in_a_batch<'a>(
    before: &Told,
    moment: &Told,
    number: i32,
    earlier: impl Iterator<Item = (&'a Request, &'a Answer)>,
    seen: &mut Seen,
) {
    let changes: Vec<i32> = earlier
        .filter(|(r, a)| [INSERT, DELETE, UPDATE].contains(&r.kind) && a.number == 0)
        .map(|(r, _)| r.kind)
        .collect();
    let fitted = before.fits();
    let made = number == 0 && !fitted;
    seen.note_those([
        ("insert 7 in a batch, and before the batch it fitted", number == 7 && fitted),
        ("insert 0 in a batch, and before the batch it did not fit", made),
        ("insert 0 in a batch, with room that a delete made", made && changes == [DELETE]),
        ("insert in a batch that needs more than before the batch", moment.needed > before.needed),
        ("insert in a batch that needs less than before the batch", moment.needed < before.needed),
        (
            "insert in a batch with fewer slots free than before the batch",
            moment.free < before.free,
        ),
        ("insert in a batch with more slots free than before the batch", moment.free > before.free),
    ]);
}
