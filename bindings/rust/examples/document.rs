//! The example of document 01, through the crate: prints what `dustmap` prints for it.

use dustmap::{Answer, Found, Rect, Request};

/// A batch of one, and its lines.
fn one(place: usize, pool: &mut [i32], work: &mut [i32], request: Request) {
    let mut answers = [Answer::default()];
    let mut found = [Found::default(); 64];
    let number = dustmap::call(pool, work, &[request], &mut answers, &mut found);
    assert_eq!(number, 0, "the pool is sound");
    let Answer { number, found: count, opened, .. } = answers[0];
    println!("{place} {number} {count} {opened}");
    // A search refused 8 reports how many there are, and lists none.
    let listed = if number == 0 { count as usize } else { 0 };
    for Found { number, rect: Rect { low_x, low_y, high_x, high_y } } in &found[..listed] {
        println!("{number} {low_x} {low_y} {high_x} {high_y}");
    }
}

fn main() {
    let mut pool = dustmap::blank_pool(128).expect("128 slots");
    let mut work = vec![0; pool.len()];
    assert_eq!(dustmap::check(&pool), 0, "a blank pool is sound");
    let zone = Rect::from_words([0, 0, 10, 10]);
    let requests = [
        Request::insert(7, zone),
        Request::insert(7, zone),
        Request::search(Rect::from_words([10, 10, 20, 20])),
        Request::delete(7, Rect::from_words([0, 0, 10, 11])),
    ];
    for (index, request) in requests.into_iter().enumerate() {
        one(index + 1, &mut pool, &mut work, request);
    }
}
