//! How a crew at a remote pit tells from the map whether an insert will fit, through the crate: asked before each insert, the map
//! says how many slots it needs and how many are free, and then answers as it has told. Two inserts in one batch were told of the
//! same free slot, and the first takes it. Prints what the map tells and answers, in a pool of two slots and in one of four.

use dustmap::{Answer, Rect, Request, Room};

/// Records 1 to 19: a row of eight stockpiles; one far away in the east; two sensors in the west, and five in the east; one more in
/// the west, and one in the east; and no rectangle: low above high.
const ZONES: [Rect; 19] = [
    Rect::new(0, 0, 10_000, 10_000),
    Rect::new(10_000, 0, 20_000, 10_000),
    Rect::new(20_000, 0, 30_000, 10_000),
    Rect::new(30_000, 0, 40_000, 10_000),
    Rect::new(40_000, 0, 50_000, 10_000),
    Rect::new(50_000, 0, 60_000, 10_000),
    Rect::new(60_000, 0, 70_000, 10_000),
    Rect::new(70_000, 0, 80_000, 10_000),
    Rect::new(1_000_000, 0, 1_010_000, 10_000),
    sensor(15_000),
    sensor(25_000),
    sensor(200_000),
    sensor(300_000),
    sensor(400_000),
    sensor(500_000),
    sensor(600_000),
    sensor(5_000),
    sensor(900_000),
    Rect::new(10_000, 0, 0, 10_000),
];

/// A sensor is a point.
const fn sensor(x: i32) -> Rect {
    Rect::new(x, 5_000, x, 5_000)
}

/// What an insert of the record would need, and what is free; or the number by which the question is refused.
fn told(pool: &[i32], record: usize) -> String {
    match dustmap::room(pool, &ZONES[record - 1]) {
        Ok(Room { needed, free }) => format!("record {record} needs {needed}, {free} free"),
        Err(number) => format!("record {record} refused {number}"),
    }
}

/// Inserts of these records as one batch: the answers.
fn insert(pool: &mut [i32], records: &[usize]) -> String {
    let mut work = vec![0; pool.len()];
    let insert_of = |record: &usize| Request::insert(*record as i32, ZONES[record - 1]);
    let requests: Vec<Request> = records.iter().map(insert_of).collect();
    let mut answers = vec![Answer::default(); requests.len()];
    let number = dustmap::call(pool, &mut work, &requests, &mut answers, &mut []);
    assert_eq!(number, 0, "the pool is sound");
    let numbers: Vec<String> = answers.iter().map(|answer| answer.number.to_string()).collect();
    format!("answered {}", numbers.join(" "))
}

/// A pool of so many slots, and records 1 to the last, one by one.
fn fill(slots: usize, last: usize) -> Vec<i32> {
    println!("{slots} slots");
    let mut pool = dustmap::blank_pool(slots).expect("1 to 4,096 slots");
    for record in 1..=last {
        step(&mut pool, record);
    }
    pool
}

/// What the map tells of an insert, and what it then answers.
fn step(pool: &mut [i32], record: usize) {
    println!("{}, {}", told(pool, record), insert(pool, &[record]));
}

fn main() {
    fill(2, 9);
    let mut pool = fill(4, 16);
    println!("{}\n{}", told(&pool, 17), told(&pool, 18));
    println!("both in one batch, {}", insert(&mut pool, &[17, 18]));
    step(&mut pool, 18);
    println!("{}", told(&pool, 19));
}
