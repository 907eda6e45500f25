//! What the calls of owners have to meet (document 02, Req 07): in pools of edition 2 most of what is met in edition 1, under the same names, and
//! what owners and editions add; in pools of edition 1, by the call that is told an owner, the refusals and the answers.

use crate::carry_met::{in_one_frame, in_two_frames, of_size, SIZES};
use crate::owners::{ALIKE, SHARED};
use crate::owners_calls::REFUSED_OWNERS;
use crate::owners_files::FRAME_REFUSALS;
use crate::seen::{Seen, CALL_REFUSALS};

/// Of both parts: the answers to requests of each kind.
const ANSWERS: [(&str, &[i32]); 6] = [
    ("insert", &[0, 3, 4, 6, 7]),
    ("delete", &[0, 3, 4, 5]),
    ("update", &[0, 3, 4, 5, 6, 7]),
    ("search", &[0, 3, 8]),
    ("search inside", &[0, 3, 8]),
    ("search enclosing", &[0, 3, 8]),
];

/// Of both parts: what batches and found lists were like.
const BATCHES: &[&str] = &[
    "-1 for kind 0",
    "-1 for kind 7",
    "batch of 0",
    "batch of 0, 0",
    "batch of 0, 9",
    "batch of 0, 13",
    "batch of 0, 1",
    "batch of 0, 2",
    "batch of 1",
    "batch of a few",
    "batch of 1,025",
    "found list of no places",
    "found list filled to its last place",
    "found list with places beyond",
    "found list filled by several searches",
    "search accepted after one refused 8",
    "workspace unlike the pool",
    "update of a pair to itself",
    "pool of 1 slot",
    "pool of 2 to 12 slots",
    "delete and update at a leaf of 3",
    "delete and update at a leaf of 4",
    "call over a pool that a read left",
    "batch of owner 1 that is told no owner",
];

/// Of edition 2: calls, pools, and histories held to each other.
const CALLS: &[&str] = &[
    "check said 0",
    "check said 1",
    "check said 2",
    "delete 7",
    "batch of 1,024",
    "found list filled by searches of all modes",
    "pool of 128 slots",
    "pool of 4,096 slots",
    "call over a shorter pool that a read left",
    "pair held twice: found by search",
    "pair held twice: found by search inside",
    "pair held twice: found by search enclosing",
    "pair held twice: one deleted",
    "pair held twice: one updated",
    "pair held twice: insert 6",
    "pair held twice: update 6",
    "pair of histories that owner 1 cannot tell apart",
    "pair of histories of which one met 7",
    "such a pair, with records found",
    "such a pair, with a search refused 8",
    "such a pair, of which the other owner made more requests in one",
    "blank 0",
    "blank 1",
    "blank -1",
    "blank 0 over words of the other edition",
    "blank 0 of a length that both editions have",
    "blank -1 of a length that is right",
    "blank -1 for a rule alone",
    "blank -1 for an edition alone",
    "blank 1 of a length of the other edition",
    "blank 0, told nothing, over words of edition 2",
    "pool: sound",
    "pool: damaged",
    "pool: garbage",
    "pool: wrong at the end",
    "pool: shared child",
    "pool: cycle",
    "pool: chain",
    "pool: a detached leaf",
    "pool: a detached tree",
    "pool: a child met twice in one node",
    "pool: an owner in a free slot",
    "pool: an owner of a record that is none",
    "pool: an owner in an unused leaf entry",
    "pool: an owner in an inner entry",
    "pool: an owner in an unused inner entry",
    "pool: a record that goes to the other owner",
    "pool: word 0 was 2",
    "pool: word 0 was 1",
    "pool: word 0 is 1 again",
    "pool: another length",
    "pool: blank, of a length that both editions have",
    "pool: of a length that both editions have",
    "pool: of a length that both editions have, with the other word 0",
];

/// Of edition 2: rooms and files.
const ROOMS_AND_FILES: &[&str] = &[
    "room 0",
    "room 1",
    "room 2",
    "room 3",
    "room needs 0 slots",
    "room needs 1 slot",
    "room needs 2 slots",
    "room needs 3 slots or more",
    "room, none free, some needed",
    "room of a rectangle that is held",
    "insert 0 that took slots as told",
    "insert 7 as told",
    "insert as told of a pair that the other holds",
    "write 0",
    "write 1",
    "write 2",
    "write 8",
    "write 1 where 8 was due too",
    "write 2 where 8 was due too",
    "write 8, no bytes at all",
    "write 8, a byte short",
    "write 8, room for the last frame alone is missing",
    "write into a buffer just long enough",
    "write into a buffer with bytes beyond",
    "write into a buffer of every length",
    "write of no records",
    "write of more than 1,024 records",
    "write that drops a pair",
    "write that drops a pair, 8",
    "write of a pair that both owners hold",
    "read -1",
    "read 0",
    "read 1",
    "read 1 for the pool's length",
    "read 1 for the workspace's length",
    "read 1 where 10 was due too",
    "read 0 over a map",
    "read 0 over no pool at all",
    "read refused over a map",
    "read refused over no pool at all",
    "read 0, the workspace was unlike the pool",
    "read refused, the workspace was unlike the pool",
    "read -1 for an edition",
    "read -1 for a rule",
    "read 0, told edition 1",
    "read 0, told edition 2",
    "read 10 of a file of edition 1, told 2",
    "read 10 of a file of edition 2, told 1",
    "read 0, told nothing",
    "read 1, told nothing",
    "read 10 of a file of edition 2, told nothing",
    "round trip into as many slots",
    "round trip into fewer slots",
    "round trip into more slots",
    "round trip into just enough slots",
    "round trip of a map with a pair held twice",
    "read 7 of a written file, a slot less than it needs",
    "file that is whole",
    "file cut at every byte",
    "file with every byte changed in every bit",
    "file with every byte left out",
    "file with a wrong edition",
    "file with a count one too small",
    "file with a count one too large",
    "file with a count below zero",
    "file of edition 2 with kind 17",
    "file of edition 1 with kind 19",
    "file with every frame left out",
    "file with every frame twice",
    "file with bytes after the end",
    "file with an owner that is none",
    "file with neighbours swapped at every place",
    "file with equal neighbours at every place",
    "file in found order, the owners mixed",
    "file by owner, the larger number first",
    "file with faults in one frame",
    "file of any frames",
    "read 0 of as many records as there are slots for",
    "read 7 at the last record",
    "read 7 with records after it",
    "read 7 before a cut frame",
    "read 10 of the record that has no slot, cut",
    "read into the largest pool",
];

/// Everything that has to be met, with its part before it.
pub fn wanted() -> Vec<String> {
    let shared = CALLS.iter().chain(ROOMS_AND_FILES).map(|name| name.to_string());
    let shared = of_both_parts().into_iter().chain(shared).chain(of_frames()).chain(of_sizes());
    let alike = of_both_parts().into_iter().map(|name| ALIKE.to_string() + &name);
    alike.chain(shared.map(|name| SHARED.to_string() + &name)).collect()
}

/// Refusals of a call in their order, owners that are none, answers, batches.
fn of_both_parts() -> Vec<String> {
    let mut names = vec!["call returned 0".to_string()];
    for (place, first) in CALL_REFUSALS.iter().enumerate() {
        names.push(format!("call returned {first}"));
        let later = CALL_REFUSALS[place + 1..].iter();
        names.extend(later.map(|other| format!("{first} where {other} was due too")));
    }
    names.extend(REFUSED_OWNERS.iter().map(|owner| format!("13 for owner {owner}")));
    for (kind, numbers) in ANSWERS {
        names.extend(numbers.iter().map(|number| format!("{kind} {number}")));
    }
    names.extend(BATCHES.iter().map(|name| name.to_string()));
    names
}

/// What refuses a frame, alone, before another in the same frame, and before one in the next.
fn of_frames() -> Vec<String> {
    let mut names = Vec::new();
    for (place, first) in FRAME_REFUSALS.iter().enumerate() {
        names.push(format!("read {first}"));
        names.extend(FRAME_REFUSALS[place + 1..].iter().map(|other| in_one_frame(*first, *other)));
        names.extend(FRAME_REFUSALS.iter().map(|other| in_two_frames(*first, *other)));
    }
    names
}

fn of_sizes() -> Vec<String> {
    let both = |slots: usize| ["write 0", "read 0"].map(|what| of_size(what, slots));
    SIZES.into_iter().flat_map(both).collect()
}

/// What the second program noted in calls over pools of edition 2: what it notes in edition 1, and where the records of the other owner came in.
pub fn events(seen: &Seen) -> Vec<(String, u64)> {
    let events = seen.events_of(SHARED);
    let all = events.named().into_iter().chain(events.shares.named());
    all.map(|(name, count)| (SHARED.to_string() + name, count)).collect()
}
