//! "whether an insert will fit": that an insert is answered as it was told, that it takes the slots it was said to need, and each
//! refusal with what it leaves.

use dustmap::numbers::{ACCEPTED, NO_SLOT};
use dustmap::{blank_pool, call, room, room_into, words, Answer, Rect, Request, Room};

const MOST: i32 = 1_000_000_000;

/// What is in the two places before a call: no pool has so many slots.
const BEFORE: [u32; 2] = [u32::MAX, u32::MAX - 1];

/// The answer to one request.
fn answer(pool: &mut [i32], request: Request) -> i32 {
    let mut work = vec![0; pool.len()];
    let mut answers = [Answer::default()];
    assert_eq!(call(pool, &mut work, &[request], &mut answers, &mut []), ACCEPTED);
    answers[0].number as i32
}

fn insert(pool: &mut [i32], number: i32, rect: Rect) -> i32 {
    answer(pool, Request::insert(number, rect))
}

/// The entries of example 7, as records 1 to 9.
fn of_nine(record: i32) -> Rect {
    let at = if record == 9 { 1_000 } else { 10 * (record - 1) };
    Rect::new(at, 0, at + 10, 10)
}

/// "Level 0 is free".
fn free(pool: &[i32]) -> u32 {
    pool[words(0)..].chunks_exact(words(1) - words(0)).filter(|slot| slot[0] == 0).count() as u32
}

/// What is told of an insert, which has to agree with its other form and leaves the pool as it was.
fn told(pool: &[i32], rect: Rect) -> Room {
    let (before, mut slots) = (pool.to_vec(), BEFORE);
    let told = room(pool, &rect).expect("a sound pool, and a good rectangle");
    assert_eq!(room_into(pool, rect.to_words(), &mut slots), ACCEPTED);
    assert_eq!(slots, [told.needed, told.free]);
    assert_eq!(pool, before, "the pool is never changed");
    told
}

/// Inserts a new pair after asking, and sees that what was told is so: it is refused 7 exactly where it needs more than are free, and
/// it takes as many as it needs. Where it is refused, it takes them in the same pool with more slots.
fn step(pool: &mut [i32], number: i32, rect: Rect) -> Room {
    let told = told(pool, rect);
    assert_eq!(told.free, free(pool));
    let height = pool[2] as u32;
    assert!(told.needed <= height + 1, "never more than h + 1: {told:?}");
    let mut larger = [pool.to_vec(), vec![0; words(height as usize + 1) - words(0)]].concat();
    let before = free(&larger);
    assert_eq!(insert(&mut larger, number, rect), ACCEPTED, "h + 1 slots free are enough");
    assert_eq!(before - free(&larger), told.needed);
    let answered = insert(pool, number, rect);
    assert_eq!(answered, if told.fits() { ACCEPTED } else { NO_SLOT }, "{rect:?} {told:?}");
    assert_eq!(told.free - free(pool), if told.fits() { told.needed } else { 0 });
    told
}

#[test]
fn a_leaf_with_room_needs_none() {
    let mut pool = blank_pool(1).expect("one slot");
    for record in 1..=8 {
        assert_eq!(step(&mut pool, record, of_nine(record)), Room { needed: 0, free: 0 });
    }
    assert_eq!(step(&mut pool, 9, of_nine(9)), Room { needed: 2, free: 0 });
}

#[test]
fn a_full_root_needs_two() {
    for slots in [1, 2, 3, 12, 4000] {
        let mut pool = blank_pool(slots).expect("1 to 4,096 slots");
        for record in 1..=8 {
            assert_eq!(insert(&mut pool, record, of_nine(record)), ACCEPTED);
        }
        let told = step(&mut pool, 9, of_nine(9));
        assert_eq!(told, Room { needed: 2, free: slots as u32 - 1 });
        assert_eq!(told.fits(), slots >= 3);
    }
}

/// After the nine, slot 1 has six entries and slot 2 has three: a new one is told by the leaf that it would go to.
#[test]
fn the_chosen_leaf_decides() {
    let mut pool = blank_pool(4).expect("four slots");
    for record in 1..=9 {
        assert_eq!(insert(&mut pool, record, of_nine(record)), ACCEPTED);
    }
    let (west, east) = (Rect::new(5, 5, 5, 5), Rect::new(500, 5, 500, 5));
    for (number, needed) in [(10, 0), (11, 0), (12, 1)] {
        assert_eq!(told(&pool, west), Room { needed, free: 1 }, "the west leaf, before {number}");
        assert_eq!(told(&pool, east), Room { needed: 0, free: 1 }, "the east leaf has room");
        assert_eq!(step(&mut pool, number, west), Room { needed, free: 1 });
    }
    assert_eq!(free(&pool), 0);
}

/// Histories of small rectangles, in pools from too small to large enough, and around so few places that the covers often tie: every
/// insert is answered as it was told.
#[test]
fn every_insert_is_answered_as_it_was_told() {
    let mut met = [0; 5];
    let mut refused = 0;
    for (seed, slots, places) in [(1, 3, 200), (2, 9, 200), (3, 30, 200), (4, 200, 200), (5, 60, 7)]
    {
        let mut dice = Dice(seed);
        let mut pool = blank_pool(slots).expect("1 to 4,096 slots");
        let mut held = Vec::new();
        for number in 1..=600 {
            let rect = dice.rect(places);
            let told = step(&mut pool, number, rect);
            met[told.needed as usize] += 1;
            refused += i32::from(!told.fits());
            if told.fits() {
                held.push((number, rect));
            }
            // so that a pool that is full goes on, with other nodes full
            if !told.fits() || dice.below(4) == 0 {
                let (number, rect) = held.swap_remove(dice.below(held.len() as u32) as usize);
                answer(&mut pool, Request::delete(number, rect));
            }
        }
    }
    assert!(met.iter().all(|count| *count > 0) && refused > 100, "met {met:?}, refused {refused}");
}

/// 1 before 2 before 3, and then nothing is written.
#[test]
fn refusals_in_their_order() {
    let mut sound = blank_pool(2).expect("two slots");
    assert_eq!(insert(&mut sound, 1, Rect::new(0, 0, 1, 1)), ACCEPTED);
    let unsound = vec![3; words(2)];
    let (good, bad) = ([0, 0, 1, 1], [1, 0, 0, 0]);
    let cases: [(i32, &[i32], [i32; 4]); 8] = [
        (1, &sound[1..], good),
        (1, &sound[1..], bad),
        (1, &unsound[1..], bad),
        (1, &[], good),
        (1, &vec![0; words(4097)], good),
        (2, &unsound, good),
        (2, &unsound, bad),
        (3, &sound, bad),
    ];
    for (number, pool, rect) in cases {
        let mut slots = BEFORE;
        assert_eq!(room_into(pool, rect, &mut slots), number);
        assert_eq!(slots, BEFORE, "refused {number}, nothing is written");
        assert_eq!(room(pool, &Rect::from_words(rect)), Err(number));
    }
}

#[test]
fn bad_rectangles_are_refused_3() {
    let pool = blank_pool(2).expect("two slots");
    let bad = [
        [1, 0, 0, 0],
        [0, 1, 0, 0],
        [0, 0, MOST + 1, 0],
        [0, 0, 0, MOST + 1],
        [-MOST - 1, 0, 0, 0],
        [0, -MOST - 1, 0, 0],
        [i32::MIN, i32::MIN, i32::MAX, i32::MAX],
        [i32::MAX, i32::MAX, i32::MIN, i32::MIN],
    ];
    for rect in bad {
        let mut slots = BEFORE;
        assert_eq!((room_into(&pool, rect, &mut slots), slots), (3, BEFORE), "{rect:?}");
    }
    assert_eq!(told(&pool, Rect::new(-MOST, -MOST, MOST, MOST)), Room { needed: 0, free: 1 });
}

/// The tie goes to the leaf whose half perimeter grows less, though neither area grows: roads are flat.
#[test]
fn half_perimeters_decide_between_roads() {
    let mut pool = blank_pool(4).expect("four slots");
    let point = |x: i32| Rect::new(x, 0, x, 0);
    for record in 1..=9 {
        assert_eq!(insert(&mut pool, record, point(10 * (record - 1))), ACCEPTED);
    }
    // "groups 1 to 6, then 9, 7, 8": slot 1 has six of them, slot 2 three
    for number in [10, 11] {
        assert_eq!(step(&mut pool, number, point(number)), Room { needed: 0, free: 1 });
    }
    assert_eq!(told(&pool, point(25)), Room { needed: 1, free: 1 }, "on the full leaf");
    assert_eq!(told(&pool, point(65)), Room { needed: 0, free: 1 }, "on the other one");
    assert_eq!(told(&pool, point(54)), Room { needed: 1, free: 1 }, "4 beyond the full one");
    assert_eq!(told(&pool, point(56)), Room { needed: 0, free: 1 }, "4 before the other one");
}

/// Numbers that look random and are the same in every run.
struct Dice(u64);

impl Dice {
    fn below(&mut self, most: u32) -> u32 {
        self.0 =
            self.0.wrapping_mul(6_364_136_223_846_793_005).wrapping_add(1_442_695_040_888_963_407);
        ((self.0 >> 33) % u64::from(most)) as u32
    }

    /// A rectangle with its low corner on a grid of so many places each way, often flat.
    fn rect(&mut self, places: u32) -> Rect {
        let size = 4 + places / 20;
        let [x, y, wide, high] = [places, places, size, size].map(|most| self.below(most) as i32);
        Rect::new(x, y, x + (wide - 2).max(0), y + (high - 2).max(0))
    }
}
