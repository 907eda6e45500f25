//! The words for the numbers, and that what a call gives has words.

use dustmap::numbers::{meaning, HELD, NOT_SOUND, NO_REQUEST, NUMBERS};
use dustmap::{blank_pool, call, check, words, Answer, Rect, Request};

#[test]
fn every_number_has_words_and_no_other() {
    let order: Vec<i32> = NUMBERS.iter().map(|m| m.number).collect();
    assert_eq!(order, [0, 9, 13, 1, 2, -1, 12, 10, 3, 4, 11, 5, 6, 7, 8], "the order of checks");
    for number in -1..=13 {
        let found = meaning(number).expect("words");
        assert_eq!(found.number, number);
        assert!(!found.when.is_empty() && !found.what_to_do.is_empty());
    }
    assert!([-2, 14].iter().all(|number| meaning(*number).is_none()));
}

#[test]
fn a_refusal_by_its_name() {
    let mut pool = blank_pool(3).expect("3 slots");
    let (mut work, mut answers) = (vec![0; pool.len()], [Answer::default(); 2]);
    let insert = Request::insert(7, Rect::new(0, 0, 10, 10));
    assert_eq!(call(&mut pool, &mut work, &[insert, insert], &mut answers, &mut []), 0);
    assert_eq!(answers[1].number as i32, HELD);
    let said = meaning(HELD).expect("words").to_string();
    assert!(said.starts_with("6 held (request refused): insert: pair held;"), "{said}");
    for kind in [i32::MIN, -1, 0, 7, i32::MAX] {
        let other = Request { kind, ..insert };
        assert_eq!(call(&mut pool, &mut work, &[other], &mut answers[..1], &mut []), NO_REQUEST);
    }
    assert_eq!(check(&vec![3; words(3)]), NOT_SOUND);
}
