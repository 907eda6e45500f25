//! The numbers that come back from a call or in an answer, by name, and the words for them.

/// A number with its words: whether a call or a request is refused, when, and what to do about it.
#[derive(Clone, Copy, Debug, PartialEq, Eq)]
pub struct Meaning {
    pub number: i32,
    pub name: &'static str,
    pub effect: &'static str,
    pub when: &'static str,
    pub what_to_do: &'static str,
}

/// The words for a number; none where no call gives it.
pub fn meaning(number: i32) -> Option<&'static Meaning> {
    NUMBERS.iter().find(|m| m.number == number)
}

/// As a log would have it: the number, its name, what is refused and when, and what to do.
impl std::fmt::Display for Meaning {
    fn fmt(&self, f: &mut std::fmt::Formatter<'_>) -> std::fmt::Result {
        let Meaning { number, name, effect, when, what_to_do } = self;
        write!(f, "{number} {name} ({effect}): {when}. What to do: {what_to_do}.")
    }
}

// Written by `tools/numbers` from bindings/numbers.txt: do not edit by hand.
/// Accepted: as defined.
pub const ACCEPTED: i32 = 0;
/// Call refused: more than 1,024 requests, or answer list of another length than the request list.
pub const BAD_LISTS: i32 = 9;
/// Call refused: another owner than 1 or 2, of a batch or of a record in a file.
pub const BAD_OWNER: i32 = 13;
/// Call refused: pool length wrong, or workspace length differs from the pool's.
pub const BAD_LENGTH: i32 = 1;
/// Call refused: pool not sound.
pub const NOT_SOUND: i32 = 2;
/// Call refused: a request is of none of the six kinds; or blanking or reading is told an edition or a rule that there is none of.
pub const NO_REQUEST: i32 = -1;
/// Call refused: a NaN, an infinity, low above high, a negative radius, or a centre, radius or finished coordinate beyond 1,000,000,000 in size.
pub const BAD_SURVEY: i32 = 12;
/// Call refused: a wrong frame, edition or count, or bytes after kind 18.
pub const BAD_FRAME: i32 = 10;
/// Request or call refused: window, old or new rectangle: a coordinate out of range, or low above high.
pub const BAD_RECTANGLE: i32 = 3;
/// Request or call refused: record number below 1.
pub const BAD_NUMBER: i32 = 4;
/// Call refused: a record not after its predecessor.
pub const NOT_AFTER: i32 = 11;
/// Request refused: delete or update: old pair not held.
pub const NOT_HELD: i32 = 5;
/// Request refused: insert: pair held; update: new pair held and not the old pair.
pub const HELD: i32 = 6;
/// Request or call refused: the rules call for a slot at a moment when none is free.
pub const NO_SLOT: i32 = 7;
/// Request or call refused: search: more found than places left in the found list; file: its buffer is short.
pub const NO_ROOM: i32 = 8;

/// Every number with its words, in the order of checks.
pub const NUMBERS: [Meaning; 15] = [
    Meaning {
        number: ACCEPTED,
        name: "accepted",
        effect: "as defined",
        when: "accepted",
        what_to_do: "nothing; the change is made, the search is answered, or the file is written or read",
    },
    Meaning {
        number: BAD_LISTS,
        name: "bad lists",
        effect: "call refused",
        when: "more than 1,024 requests, or answer list of another length than the request list",
        what_to_do: "hand over at most 1,024 requests in one call, and an answer list with one place for each; where there are more, make several calls",
    },
    Meaning {
        number: BAD_OWNER,
        name: "bad owner",
        effect: "call refused",
        when: "another owner than 1 or 2, of a batch or of a record in a file",
        what_to_do: "make the call for owner 1 or owner 2, whatever the edition of the pool; a file with another owner has been changed: get the whole file again from the office that wrote it. The pool is as it was",
    },
    Meaning {
        number: BAD_LENGTH,
        name: "bad length",
        effect: "call refused",
        when: "pool length wrong, or workspace length differs from the pool's",
        what_to_do: "lend a pool of 8 + 42N words for N slots, or of 8 + 50N where its word 0 is 2 or edition 2 is told, N from 1 to 4,096, and a workspace of the same length; a file of another length is cut, or is no pool",
    },
    Meaning {
        number: NOT_SOUND,
        name: "not sound",
        effect: "call refused",
        when: "pool not sound",
        what_to_do: "do not use this pool; it is damaged, or is no pool. Take the last good copy and make the later changes again, or insert every record into a blank one",
    },
    Meaning {
        number: NO_REQUEST,
        name: "no request",
        effect: "call refused",
        when: "a request is of none of the six kinds; or blanking or reading is told an edition or a rule that there is none of",
        what_to_do: "give each request the kind 1 insert, 2 delete, 3 update, 4 search, 5 search inside or 6 search enclosing; tell the edition 1 or 2, and the rule 0",
    },
    Meaning {
        number: BAD_SURVEY,
        name: "bad survey",
        effect: "call refused",
        when: "a NaN, an infinity, low above high, a negative radius, or a centre, radius or finished coordinate beyond 1,000,000,000 in size",
        what_to_do: "give finite numbers in millimetres, no low above its high and no radius below 0; the rectangle that comes of them, with a disc's one millimetre more, has to lie from -1,000,000,000 to 1,000,000,000",
    },
    Meaning {
        number: BAD_FRAME,
        name: "bad frame",
        effect: "call refused",
        when: "a wrong frame, edition or count, or bytes after kind 18",
        what_to_do: "get the whole file again from the office that wrote it; this one is cut, has been changed, is of another edition than told, or is no map's file. The pool is as it was",
    },
    Meaning {
        number: BAD_RECTANGLE,
        name: "bad rectangle",
        effect: "request or call refused",
        when: "window, old or new rectangle: a coordinate out of range, or low above high",
        what_to_do: "give low x, low y, high x, high y, in this order, in whole millimetres from -1,000,000,000 to 1,000,000,000, no low above high",
    },
    Meaning {
        number: BAD_NUMBER,
        name: "bad number",
        effect: "request or call refused",
        when: "record number below 1",
        what_to_do: "give a record number from 1 to 2,147,483,647",
    },
    Meaning {
        number: NOT_AFTER,
        name: "not after",
        effect: "call refused",
        when: "a record not after its predecessor",
        what_to_do: "put the file's records in order of number, low x, low y, high x, high y, each pair once, in edition 2 owner 1's first, as a written file has them. The pool is as it was",
    },
    Meaning {
        number: NOT_HELD,
        name: "not held",
        effect: "request refused",
        when: "delete or update: old pair not held",
        what_to_do: "give the record number with the rectangle exactly as it is held; a search of that place lists what is there. In edition 2 each owner holds its own pairs",
    },
    Meaning {
        number: HELD,
        name: "held",
        effect: "request refused",
        when: "insert: pair held; update: new pair held and not the old pair",
        what_to_do: "insert: nothing, if this pair is meant; it is in force already. Update: both pairs are in force; delete the old one if it is to go. In edition 2 the other owner's pairs do not count",
    },
    Meaning {
        number: NO_SLOT,
        name: "no slot",
        effect: "request or call refused",
        when: "the rules call for a slot at a moment when none is free",
        what_to_do: "delete what is no longer needed (in edition 2 both owners' records take slots) and ask again, or blank a pool with more slots (4,096 at most) and insert every record there; N slots are enough for every file of up to 2N + 1 records, and room (dustmap_room in C) tells beforehand whether an insert fits",
    },
    Meaning {
        number: NO_ROOM,
        name: "no room",
        effect: "request or call refused",
        when: "search: more found than places left in the found list; file: its buffer is short",
        what_to_do: "ask again with a longer found list (the answer says how many records this search finds), or with a smaller window; for a search enclosing, with a larger one; for a file, with a longer buffer (16 + 192N bytes are enough for N slots, and 16 + 224N in edition 2)",
    },
];
// End of what `tools/numbers` writes.
