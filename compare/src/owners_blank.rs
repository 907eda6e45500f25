//! Blanking that is told an edition and a rule: at every length of a few slots of either edition, at the lengths around the longest, and at
//! lengths that both editions have; over words that say one edition or the other.

use crate::both::first_place;
use crate::checks::ask;
use crate::margin::Among;
use crate::seen::Seen;
use crate::spoil::garbage_words;
use crate::tally::Tally;
use second::dice::Dice;
use second::edition::{EDITIONS, MOST_SLOTS};
use second::files_shared::TOLD;

mod exported {
    // Declared here and not taken from `bindings/rust`, so that what lies beside the list is seen too.
    extern "C" {
        pub fn dustmap_blank_as(pool: *mut i32, pool_len: usize, edition: i32, rule: i32) -> i32;
    }
}

/// 25 slots of edition 1 have as many words as 21 of edition 2; so have their multiples.
pub const SLOTS_ALIKE: (usize, usize) = (25, 21);

/// Lengths of a few slots of either edition, and those in between.
const LONGEST_OF_ALL: usize = 230;

pub fn all(dice: &mut Dice, tally: &mut Tally, seen: &mut Seen) {
    let around = |length: usize| [length - 1, length, length + 1];
    let longest = EDITIONS.iter().flat_map(|edition| around(edition.words(MOST_SLOTS)));
    let too_long = EDITIONS.map(|edition| edition.words(MOST_SLOTS + 1));
    let alike = [1, 2, 163].map(|k| EDITIONS[0].words(SLOTS_ALIKE.0 * k));
    let some: Vec<usize> =
        longest.chain(too_long).chain(alike.into_iter().flat_map(around)).collect();
    for edition in EDITIONS {
        for length in (0..LONGEST_OF_ALL).chain(some.iter().copied()) {
            blank(length, edition.number(), 0, dice, tally, seen);
        }
    }
    for (edition, rule) in TOLD {
        for length in [0, 49, 50, 58, 59, alike[0]] {
            blank(length, edition, rule, dice, tally, seen);
        }
    }
    for length in [50, 58, 92, 108, alike[0]] {
        untold(length, tally, seen);
    }
}

/// The call that is told nothing goes by edition 1, whatever the words say.
fn untold(length: usize, tally: &mut Tally, seen: &mut Seen) {
    let (mut ours, mut theirs) = (vec![2; length], vec![2; length]);
    let number = second::blank(&mut theirs);
    let same = dustmap::blank(&mut ours) == number && ours == theirs;
    tally.hold(same, || format!("blanking {length} words of edition 2 differs"));
    seen.note_those([("blank 0, told nothing, over words of edition 2", number == 0)]);
}

/// Blanks old words, whose word 0 says an edition, in both programs; and asks both what came of it.
fn blank(
    length: usize,
    edition: i32,
    rule: i32,
    dice: &mut Dice,
    tally: &mut Tally,
    seen: &mut Seen,
) {
    let (mut old, other) = (garbage_words(dice, length), 3 - edition.clamp(1, 2));
    if let Some(word) = old.first_mut() {
        *word = dice.pick(&[1, 2, other, *word]);
    }
    let ours = library(&old, edition, rule);
    let mut left = old.clone();
    let number = second::blank_as(&mut left, edition, rule);
    let fault = match ours {
        Ok((ours, _)) if ours != number => Some(format!("{ours}, and the second program {number}")),
        Ok((_, words)) => first_place("word", &words, &left),
        Err(fault) => Some(fault),
    };
    tally.hold(fault.is_none(), || {
        let told = format!("{length} words blanked as edition {edition}, rule {rule}");
        format!("{told}: {}", fault.unwrap_or_default())
    });
    ask("blanked", &left, tally, seen);
    seen.note(format!("blank {number}"));
    let over_the_other = old.first() == Some(&other) && number == 0;
    seen.note_those([
        ("blank 0 over words of the other edition", over_the_other),
        ("blank 0 of a length that both editions have", number == 0 && in_both(length)),
        ("blank -1 of a length that is right", number == -1 && in_either(length)),
        ("blank -1 for a rule alone", number == -1 && (1..=2).contains(&edition)),
        ("blank -1 for an edition alone", number == -1 && rule == 0),
        ("blank 1 of a length of the other edition", number == 1 && in_either(length)),
    ]);
}

fn in_both(length: usize) -> bool {
    EDITIONS.iter().all(|edition| edition.slots_of(length).is_some())
}

fn in_either(length: usize) -> bool {
    EDITIONS.iter().any(|edition| edition.slots_of(length).is_some())
}

fn library(pool: &[i32], edition: i32, rule: i32) -> Result<(i32, Vec<i32>), String> {
    let mut words = Among::new(pool, 0x5A5A);
    // SAFETY: the pointer and the count are those of one list that may hold anything.
    let number = unsafe { exported::dustmap_blank_as(words.pointer(), pool.len(), edition, rule) };
    Ok((number, words.left("pool")?))
}
