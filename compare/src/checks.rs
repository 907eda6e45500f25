//! Blanking, and the check of soundness, on blank, sound, damaged, garbage and hostile pools.

use crate::both::lend;
use crate::carry::Carrying;
use crate::detached;
use crate::lent::Lent;
use crate::pools;
use crate::seen::Seen;
use crate::spoil::garbage_words;
use crate::tally::Tally;
use second::damage::damaged_pool;
use second::dice::Dice;
use second::style::whole_site;
use second::{Answer, Found, Request};
use std::time::Instant;

/// Slots, and how many pools of each sort.
const PLAN: [(usize, usize); 6] = [(1, 150), (2, 150), (3, 150), (12, 150), (128, 40), (4096, 2)];

/// Asks both programs whether a pool is sound.
pub fn ask(what: &str, pool: &[i32], tally: &mut Tally, seen: &mut Seen) {
    let (ours, theirs) = (dustmap::check(pool), second::check(pool));
    tally.hold(ours == theirs, || {
        format!("{what}, {} words: {ours}, and the second program says {theirs}", pool.len())
    });
    seen.note(format!("check said {theirs}"));
}

/// Blanking, at every length up to four slots, and at lengths around the largest.
pub fn blanking(tally: &mut Tally, seen: &mut Seen) {
    for length in (0..180).chain([8 + 42 * 4096, 8 + 42 * 4097, 8 + 42 * 4096 + 1]) {
        let mut ours: Vec<i32> = (0..length).map(|i| i * 7 - 3).collect();
        let mut theirs = ours.clone();
        let same = dustmap::blank(&mut ours) == second::blank(&mut theirs) && ours == theirs;
        tally.hold(same, || format!("blanking {length} words differs"));
        ask("blanked", &ours, tally, seen);
    }
}

/// Pools of every sort and size.
pub fn pools(dice: &mut Dice, tally: &mut Tally, seen: &mut Seen) {
    for (slots, count) in PLAN {
        for (what, pool) in pools_of(slots, count, dice) {
            ask(what, &pool, tally, seen);
            seen.note(format!("pool: {what}"));
            Carrying::new(dice, tally, seen).write_any(&format!("a write, {what} pool"), &pool);
            call_over(what, pool, dice, tally, seen);
        }
    }
}

/// Sound, damaged, garbage, hostile pools of one size, and those that are not one tree.
pub fn pools_of(slots: usize, count: usize, dice: &mut Dice) -> Vec<(&'static str, Vec<i32>)> {
    let mut pools = Vec::new();
    let most = (slots as i64 * 9).min(3_000);
    for _ in 0..count {
        let seed = dice.below(1 << 40);
        let sound = pools::sound_pool(dice, slots, most);
        pools.push(("wrong at the end", pools::wrong_at_the_end(sound.clone())));
        pools.extend(detached::all(&sound));
        pools.push(("sound", sound));
        pools.extend((0..4).map(|k| ("damaged", damaged_pool(seed + k, slots))));
        pools.push(("garbage", pools::garbage(dice, slots)));
    }
    pools.push(("shared child", pools::shared_child(slots)));
    pools.push(("cycle", pools::cycle(slots)));
    pools.push(("chain", pools::chain(slots)));
    pools
}

/// An insert, and a search of each mode, over a pool that may be anything; where it is not sound, nothing may be written.
fn call_over(what: &str, pool: Vec<i32>, dice: &mut Dice, tally: &mut Tally, seen: &mut Seen) {
    let everything = whole_site().to_words();
    let requests = vec![
        Request::insert(9, [1, 2, 3, 4]),
        Request::search(everything),
        Request::inside(everything),
        Request::enclosing([2, 3, 2, 3]),
    ];
    let work = garbage_words(dice, pool.len());
    let answers = vec![Answer { number: -5, found: -6, start: -7, opened: -8 }; requests.len()];
    let found = vec![Found { number: -9, ..Found::default() }; 100];
    lend(
        &format!("a call, {what} pool"),
        &Lent { pool, work, requests, answers, found },
        tally,
        seen,
    );
}

/// The least time of several checks.
fn time(pool: &[i32]) -> f64 {
    (0..25)
        .map(|_| {
            let began = Instant::now();
            std::hint::black_box(dustmap::check(std::hint::black_box(pool)));
            began.elapsed().as_secs_f64() * 1e6
        })
        .fold(f64::INFINITY, f64::min)
}

/// The check of a hostile pool of 4,096 slots takes at most twice as long as that of a sound one.
pub fn times(sound: &[i32], tally: &mut Tally) {
    let full = time(sound);
    println!("a check of a full pool of 4,096 slots: {full:.0} us");
    let hostile = [
        ("wrong at its last leaf", pools::wrong_at_the_end(sound.to_vec())),
        ("a child shared by all", pools::shared_child(4096)),
        ("a cycle", pools::cycle(4096)),
        ("a chain", pools::chain(4096)),
    ];
    for (what, pool) in hostile {
        let took = time(&pool);
        println!("  {what}: {took:.0} us");
        tally.hold(took <= 2.0 * full, || format!("{what}: more than twice the time"));
    }
}
