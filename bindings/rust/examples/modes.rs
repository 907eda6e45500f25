//! How a planner closes a block, through the crate: zones are inserted, and the block is searched in the three modes, all in one
//! call. Prints what `dustmap` prints for examples/modes.frames.

use dustmap::{Answer, Found, Rect, Request};

const BLOCK: Rect = Rect::new(100_000, 50_000, 300_000, 200_000);

/// Records 1 to 7: a stockpile inside the block; a haul road along its south side, which touches three sides from within; the same
/// block on an older plan, equal; the quarry, which encloses it; a conveyor, which its east side cuts; a stockpile that touches it
/// from outside; the gate, apart from it.
const ZONES: [Rect; 7] = [
    Rect::new(140_000, 80_000, 180_000, 120_000),
    Rect::new(100_000, 50_000, 300_000, 58_000),
    Rect::new(100_000, 50_000, 300_000, 200_000),
    Rect::new(0, 0, 400_000, 250_000),
    Rect::new(250_000, 150_000, 350_000, 150_000),
    Rect::new(300_000, 60_000, 340_000, 90_000),
    Rect::new(310_000, 20_000, 330_000, 30_000),
];

/// The line of an answer, and those of the records that a search has listed: the found list has them from the answer's start on.
fn show(place: usize, answer: &Answer, found: &[Found]) {
    let Answer { number, found: count, start, opened } = *answer;
    println!("{place} {number} {count} {opened}");
    let listed = if number == 0 { count as usize } else { 0 };
    for Found { number, rect: Rect { low_x, low_y, high_x, high_y } } in
        &found[start as usize..][..listed]
    {
        println!("{number} {low_x} {low_y} {high_x} {high_y}");
    }
}

fn main() {
    let mut pool = dustmap::blank_pool(128).expect("128 slots");
    let mut work = vec![0; pool.len()];
    let mut requests: Vec<Request> =
        (1..).zip(ZONES).map(|(number, zone)| Request::insert(number, zone)).collect();
    requests.extend([
        Request::search(BLOCK),
        Request::search_inside(BLOCK),
        Request::search_enclosing(BLOCK),
    ]);
    let mut answers = vec![Answer::default(); requests.len()];
    let mut found = [Found::default(); 64];
    let number = dustmap::call(&mut pool, &mut work, &requests, &mut answers, &mut found);
    assert_eq!(number, 0, "a blank pool is sound");
    for (index, answer) in answers.iter().enumerate() {
        show(index + 1, answer, &found);
    }
}
