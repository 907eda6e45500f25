//! How dispatch uses doubles, through the crate: a surveyor's boxes are inserted, and searched by a point, a box and a disc.
//! Prints each rectangle that comes of them, then what `dustmap` prints for the request.

use dustmap::{Answer, Found, Rect, Request};

/// Fractions go outward, below zero too; a conveyor is flat and stays so; whole millimetres stay as they are.
const BOXES: [[f64; 4]; 3] = [
    [-1250.5, -300.25, 1000.75, 200.0],
    [2000.25, 480.0, 2600.5, 480.0],
    [1500.0, 900.0, 1800.0, 1200.0],
];

fn line(what: &str, Rect { low_x, low_y, high_x, high_y }: Rect) {
    println!("{what} {low_x} {low_y} {high_x} {high_y}");
}

/// A batch of one, and its lines.
fn one(place: usize, pool: &mut [i32], work: &mut [i32], request: Request) {
    let mut answers = [Answer::default()];
    let mut found = [Found::default(); 64];
    let number = dustmap::call(pool, work, &[request], &mut answers, &mut found);
    assert_eq!(number, 0, "the pool is sound");
    let Answer { number, found: count, opened, .. } = answers[0];
    println!("{place} {number} {count} {opened}");
    let listed = if number == 0 { count as usize } else { 0 };
    for Found { number, rect } in &found[..listed] {
        line(&number.to_string(), *rect);
    }
}

fn main() {
    let mut pool = dustmap::blank_pool(128).expect("128 slots");
    let mut work = vec![0; pool.len()];
    for (number, [low_x, low_y, high_x, high_y]) in (1..).zip(BOXES) {
        let rect = Rect::from_box(low_x, low_y, high_x, high_y).expect("a good box");
        line("rectangle", rect);
        one(number as usize, &mut pool, &mut work, Request::insert(number, rect));
    }
    let windows = [
        Rect::from_point(-1250.25, 0.5),
        Rect::from_box(900.5, -50.0, 2000.0, 480.5),
        Rect::from_disc(1900.0, 700.0, 250.5),
        Rect::from_disc(1900.0, 700.0, -1.0),
    ];
    for (place, window) in (BOXES.len() + 1..).zip(windows) {
        match window {
            Ok(window) => {
                line("window", window);
                one(place, &mut pool, &mut work, Request::search(window));
            }
            Err(number) => println!("refused {number}"),
        }
    }
}
