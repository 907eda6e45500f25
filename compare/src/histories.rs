//! Histories from a blank pool, in batches: in pools of edition 1, by the call that is told no owner; in the same by the call that is told one,
//! where owners 1 and 2 are served alike; and in pools of edition 2.

use crate::history::History;
use crate::seen::Seen;
use crate::tally::Tally;
use second::style::{Style, STYLES};

/// Histories of a size: slots, calls in each, histories of each style.
const PLAN: [(usize, usize, u64); 13] = [
    (1, 30, 2),
    (2, 30, 2),
    (3, 40, 4),
    (4, 40, 6),
    (5, 40, 4),
    (6, 40, 4),
    (7, 40, 3),
    (8, 40, 3),
    (9, 40, 3),
    (10, 40, 3),
    (11, 40, 3),
    (12, 50, 3),
    (128, 24, 1),
];

/// The largest pool is slow in the second program, which copies it for every change: one history, in batches of these sizes.
const LARGEST: [usize; 5] = [1_024, 1, 0, 5, 200];

/// Roads and points once more, in batches long enough for hundreds of records: so that half perimeters decide in inner nodes too.
const FLAT: [Style; 4] = [Style::Points, Style::Lines, Style::Road, Style::Roads];
const FLAT_SLOTS: usize = 128;
const FLAT_BATCHES: [usize; 4] = [600, 9, 400, 1];

/// Added to the seed, so that these are not the histories of the plan over again.
const FLAT_SEED: u64 = 1_000;

/// Histories of owners: slots and calls in each; one of each style in edition 2. Of those of up to so many slots, one of each style in edition 1 too.
const OF_OWNERS: [(usize, usize); 12] = [
    (1, 12),
    (2, 14),
    (3, 16),
    (4, 18),
    (5, 16),
    (6, 16),
    (7, 14),
    (8, 14),
    (9, 14),
    (10, 14),
    (11, 14),
    (12, 16),
];
const ALIKE: usize = 6;

/// Larger pools of two owners, in batches of these sizes: roads, so that half perimeters decide in inner nodes too, and one of the largest.
const LARGER_OF_OWNERS: [(usize, Style, [usize; 8]); 2] = [
    (128, Style::Road, [400, 9, 300, 1, 0, 60, 90, 5]),
    (4_096, Style::Clustered, [150, 1, 90, 0, 7, 40, 1, 5]),
];

/// Every size and style, from a seed.
pub fn all(seed: u64, tally: &mut Tally, seen: &mut Seen) {
    for (slots, calls, histories) in PLAN {
        for (name, style) in STYLES {
            for k in 0..histories {
                let title = format!("{name}, {slots} slots, seed {}", seed + k);
                let mut history = History::new(title, style, seed + k, slots);
                history.steps(calls, tally, seen);
            }
        }
    }
    for style in FLAT {
        let seed = seed + FLAT_SEED;
        let title = format!("{style:?}, {FLAT_SLOTS} slots, long batches, seed {seed}");
        let mut history = History::new(title, style, seed, FLAT_SLOTS);
        FLAT_BATCHES.iter().for_each(|&size| history.step(size, tally, seen));
    }
    let (name, style) = STYLES[(seed % 2) as usize];
    let mut history = History::new(format!("{name}, 4096 slots, seed {seed}"), style, seed, 4_096);
    LARGEST.iter().for_each(|&size| history.step(size, tally, seen));
    history.carry("4096 slots", tally, seen);
}

/// Histories of owners in pools of edition 1, which they see alike.
pub fn alike(seed: u64, tally: &mut Tally, seen: &mut Seen) {
    for (slots, calls) in OF_OWNERS.into_iter().take(ALIKE) {
        for (name, style) in STYLES {
            let title = format!("{name}, {slots} slots, either owner, seed {seed}");
            History::of_either(title, style, seed, slots).steps(calls, tally, seen);
        }
    }
}

/// Histories of two owners in pools of edition 2.
pub fn shared(seed: u64, tally: &mut Tally, seen: &mut Seen) {
    for (slots, calls) in OF_OWNERS {
        for (name, style) in STYLES {
            let title = format!("{name}, {slots} shared slots, seed {seed}");
            History::of_both(title, style, seed, slots).steps(calls, tally, seen);
        }
    }
    for (slots, style, sizes) in LARGER_OF_OWNERS {
        let title = format!("{style:?}, {slots} shared slots, seed {seed}");
        let mut history = History::of_both(title, style, seed, slots);
        sizes.iter().for_each(|&size| history.step(size, tally, seen));
        history.carry("shared slots, carried at last", tally, seen);
    }
}
