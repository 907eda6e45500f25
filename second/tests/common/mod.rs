//! Small helpers for the tests.
#![allow(dead_code)]

use second::{blank, blank_as, call, call_as, Answer, Found, Rect, Request};

/// A blank pool of so many slots.
pub fn blank_pool(slots: usize) -> Vec<i32> {
    let mut pool = vec![0; 8 + 42 * slots];
    assert_eq!(blank(&mut pool), 0);
    pool
}

/// A blank pool of so many slots, of edition 2.
pub fn shared_blank(slots: usize) -> Vec<i32> {
    let mut pool = vec![-3; 8 + 50 * slots];
    assert_eq!(blank_as(&mut pool, 2, 0), 0);
    pool
}

/// Does a batch of an owner with a found list of so many places; the call has to be accepted.
pub fn batch_as(
    pool: &mut [i32],
    owner: i32,
    requests: &[Request],
    places: usize,
) -> (Vec<Answer>, Vec<Found>) {
    let (mut work, mut answers) = (vec![-3; pool.len()], vec![Answer::default(); requests.len()]);
    let mut found = vec![Found { number: -7, ..Found::default() }; places];
    assert_eq!(call_as(pool, &mut work, requests, &mut answers, &mut found, owner), 0);
    assert_eq!(work, pool);
    (answers, found)
}

/// Does one request of an owner and gives its answer's number.
pub fn number_as(pool: &mut [i32], owner: i32, request: Request) -> i32 {
    batch_as(pool, owner, &[request], 64).0[0].number
}

/// Does a batch with a found list of 64; the call has to be accepted.
pub fn batch(pool: &mut [i32], requests: &[Request]) -> (Vec<Answer>, Vec<Found>) {
    let mut work = vec![0; pool.len()];
    let mut answers = vec![Answer::default(); requests.len()];
    let mut found = vec![Found::default(); 64];
    assert_eq!(call(pool, &mut work, requests, &mut answers, &mut found), 0);
    assert_eq!(work, pool);
    (answers, found)
}

/// Does one request and gives its answer's number.
pub fn number(pool: &mut [i32], request: Request) -> i32 {
    batch(pool, &[request]).0[0].number
}

/// Does one search for the records that meet the window: their numbers and the nodes opened.
pub fn search(pool: &mut [i32], window: [i32; 4]) -> (Vec<i32>, i32) {
    found_by(pool, Request::search(window))
}

/// Does one search of any mode: the record numbers found and the nodes opened.
pub fn found_by(pool: &mut [i32], request: Request) -> (Vec<i32>, i32) {
    let (answers, found) = batch(pool, &[request]);
    assert_eq!(answers[0].number, 0);
    let numbers = found[..answers[0].found as usize].iter().map(|f| f.number).collect();
    (numbers, answers[0].opened)
}

pub fn rect(words: [i32; 4]) -> Rect {
    Rect::from_words(words)
}

pub fn point(x: i32) -> [i32; 4] {
    [x, 0, x, 0]
}

/// An upright bar, one wide and ten high.
pub fn bar(x: i32) -> [i32; 4] {
    [x, 0, x + 1, 10]
}

/// The level, the count and the pointers of a slot.
pub fn slot(pool: &[i32], slot: usize) -> (i32, Vec<i32>) {
    let words = &pool[8 + 42 * (slot - 1)..8 + 42 * slot];
    (words[0], (0..words[1] as usize).map(|i| words[2 + 5 * i + 4]).collect())
}

pub fn slot_is_zero(pool: &[i32], slot: usize) -> bool {
    pool[8 + 42 * (slot - 1)..8 + 42 * slot].iter().all(|&w| w == 0)
}

/// Writes a node into a pool, for pools written out by hand.
pub fn put(pool: &mut [i32], slot: usize, level: i32, entries: &[([i32; 4], i32)]) {
    let words = &mut pool[8 + 42 * (slot - 1)..8 + 42 * slot];
    words.fill(0);
    words[0] = level;
    words[1] = entries.len() as i32;
    for (index, (rect, pointer)) in entries.iter().enumerate() {
        words[2 + 5 * index..6 + 5 * index].copy_from_slice(rect);
        words[6 + 5 * index] = *pointer;
    }
}

/// A tree of height 3 in nine slots with 18 records. Leaf s (1 to 6) holds the bars at
/// x = 100s, 100s + 2, 100s + 4 as records 10s, 10s + 1, 10s + 2; 7 is over leaves 1 to 3,
/// 8 over 4 to 6, and 9 is the root.
pub fn three_levels() -> Vec<i32> {
    let mut pool = vec![0; 8 + 42 * 9];
    pool[..4].copy_from_slice(&[1, 9, 3, 18]);
    for s in 1..=6 {
        let entries: Vec<_> = (0..3).map(|i| (bar(100 * s + 2 * i), 10 * s + i)).collect();
        put(&mut pool, s as usize, 1, &entries);
    }
    let cover = |s: i32| ([100 * s, 0, 100 * s + 5, 10], s);
    put(&mut pool, 7, 2, &[cover(1), cover(2), cover(3)]);
    put(&mut pool, 8, 2, &[cover(4), cover(5), cover(6)]);
    put(&mut pool, 9, 3, &[([100, 0, 305, 10], 7), ([400, 0, 605, 10], 8)]);
    assert!(second::sound(&pool));
    pool
}

/// Three leaves in a pool of four slots: eight bars from x = 0, three in the middle, eight from
/// x = 1000. No slot is free.
pub fn full_pool_of_four() -> Vec<i32> {
    let mut pool = vec![0; 8 + 42 * 4];
    pool[..4].copy_from_slice(&[1, 4, 2, 19]);
    let left: Vec<_> = (0..8).map(|i| (bar(i), 1 + i)).collect();
    let right: Vec<_> = (0..8).map(|i| (bar(1000 + i), 11 + i)).collect();
    put(&mut pool, 1, 1, &left);
    put(&mut pool, 2, 1, &[(bar(400), 21), (bar(500), 22), (bar(900), 23)]);
    put(&mut pool, 3, 1, &right);
    let covers = [([0, 0, 8, 10], 1), ([400, 0, 901, 10], 2), ([1000, 0, 1008, 10], 3)];
    put(&mut pool, 4, 2, &covers);
    assert!(second::sound(&pool));
    pool
}

/// A frame of `dustmap`.
pub fn frame(kind: u16, words: &[i32]) -> Vec<u8> {
    let length = 2 + 4 * words.len() as u16;
    let mut bytes = length.to_le_bytes().to_vec();
    bytes.extend(kind.to_le_bytes());
    bytes.extend(words.iter().flat_map(|w| w.to_le_bytes()));
    bytes
}
