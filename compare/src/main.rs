//! The proved library against the second program, through the exported functions.
//!
//! usage: compare [--words | --times] [SEED [ROUNDS]]
//!
//! With --words, what the calls return and leave alone; with --times, how long some of them take alone, which wants a machine with nothing else to do.

mod both;
mod carry;
mod carry_met;
mod checks;
mod detached;
mod files;
mod histories;
mod history;
mod largest;
mod lent;
mod margin;
mod modes;
mod offices;
mod owners;
mod owners_apart;
mod owners_blank;
mod owners_calls;
mod owners_files;
mod owners_met;
mod owners_pools;
mod owners_rooms;
mod pools;
mod roads;
mod room;
mod room_histories;
mod room_met;
mod scripts;
mod seen;
mod sizes;
mod spoil;
mod survey;
mod survey_met;
mod tally;
mod twice;

use carry::Carrying;
use second::dice::Dice;
use seen::Seen;
use tally::Tally;

fn main() {
    let mut words = std::env::args().skip(1).peekable();
    let part = words.next_if(|word| word.starts_with("--"));
    let mut numbers = words.map(|word| word.parse::<u64>().expect("a number"));
    let seed = numbers.next().unwrap_or(1);
    let rounds = numbers.next().unwrap_or(1);
    let (with_words, with_times) = match part.as_deref() {
        None => (true, true),
        Some("--words") => (true, false),
        Some("--times") => (false, true),
        Some(other) => panic!("neither --words nor --times: {other}"),
    };
    let mut tally = Tally::default();
    let full = largest::filled(&mut tally);
    if with_words {
        compare(&full, seed, rounds, &mut tally);
    }
    if with_times {
        checks::times(&full, &mut tally);
        largest::time(&full, &mut tally);
    }
    println!("{} passed, {} failed", tally.passed, tally.failed);
    std::process::exit(i32::from(tally.failed > 0));
}

/// Every word that comes back of every call, and what has to be met on the way.
fn compare(full: &[i32], seed: u64, rounds: u64, tally: &mut Tally) {
    let mut dice = Dice::new(seed);
    let mut seen = Seen::default();
    checks::blanking(tally, &mut seen);
    scripts::all(tally, &mut seen);
    for round in 0..rounds {
        checks::pools(&mut dice, tally, &mut seen);
        histories::all(seed.wrapping_add(round << 20), tally, &mut seen);
        roads::all(&mut dice, tally, &mut seen);
        modes::all(&mut dice, tally, &mut seen);
        twice::all(&mut dice, tally, &mut seen);
        sizes::all(&mut dice, tally, &mut seen);
        survey::all(seed.wrapping_add(round), tally, &mut seen);
        let mut office = Carrying::new(&mut dice, tally, &mut seen);
        offices::all(&mut office);
        files::all(&mut office);
        room::all(seed.wrapping_add(round), tally, &mut seen);
        owners::all(seed.wrapping_add(round), tally, &mut seen);
    }
    for round in 0..rounds {
        largest::calls(full, &mut dice, tally, &mut seen);
        let mut office = Carrying::new(&mut dice, tally, &mut seen);
        offices::largest(full, &mut office);
        room::largest(full, seed.wrapping_add(round), tally, &mut seen);
        owners::largest(full, &mut dice, tally, &mut seen);
    }
    seen.report(tally);
}
