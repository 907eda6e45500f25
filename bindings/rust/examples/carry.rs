//! How a map is carried between offices, through the crate: the pit's map is filled and written to a file, and head office reads
//! that into a pool of its own and searches there. Prints what `dustmap` prints for a search at the pit; the file, a frame a line;
//! the same search at head office; and what comes of a file that lacks a byte, and of a pool that is too small.

use dustmap::{Answer, Found, Rect, Request};

/// Four slots take every file of up to nine records.
const PIT: usize = 128;
const OFFICE: usize = 4;

/// In the order in which they were surveyed, which is not that of the file: a sensor, which is a point; the crusher; a haul road,
/// its north leg, and its south leg, under the same number; two stockpiles; a conveyor, which is flat; the gate; another sensor.
const ZONES: [(i32, Rect); 9] = [
    (105, Rect::new(440_000, 110_000, 440_000, 110_000)),
    (50, Rect::new(330_000, 150_000, 352_000, 176_000)),
    (1, Rect::new(408_000, 72_000, 420_000, 300_000)),
    (1, Rect::new(40_000, 60_000, 420_000, 72_000)),
    (10, Rect::new(60_000, 80_000, 89_000, 115_000)),
    (11, Rect::new(107_000, 80_000, 142_000, 112_000)),
    (53, Rect::new(352_000, 160_000, 380_000, 160_000)),
    (2, Rect::new(0, 20_000, 40_000, 30_000)),
    (106, Rect::new(60_000, 250_000, 60_000, 250_000)),
];

const WINDOW: Rect = Rect::new(330_000, 60_000, 440_000, 170_000);

fn filled(slots: usize) -> Vec<i32> {
    let mut pool = dustmap::blank_pool(slots).expect("1 to 4,096 slots");
    let mut work = vec![0; pool.len()];
    let requests = ZONES.map(|(number, rect)| Request::insert(number, rect));
    let mut answers = [Answer::default(); ZONES.len()];
    let number = dustmap::call(&mut pool, &mut work, &requests, &mut answers, &mut []);
    assert!(number == 0 && answers.iter().all(|answer| answer.number == 0), "every zone fits");
    pool
}

/// A search of the same place in either map, and its lines.
fn search(place: usize, pool: &mut [i32]) {
    let mut work = vec![0; pool.len()];
    let (mut answers, mut found) = ([Answer::default()], [Found::default(); 64]);
    let request = [Request::search(WINDOW)];
    let number = dustmap::call(pool, &mut work, &request, &mut answers, &mut found);
    let Answer { number: answered, found: count, opened, .. } = answers[0];
    assert_eq!((number, answered), (0, 0), "the pool is sound, and the list long enough");
    println!("{place} {answered} {count} {opened}");
    for Found { number, rect: Rect { low_x, low_y, high_x, high_y } } in &found[..count as usize] {
        println!("{number} {low_x} {low_y} {high_x} {high_y}");
    }
}

/// The file of a pool of so many slots.
fn written(pool: &[i32], slots: usize) -> Vec<u8> {
    let mut file = vec![0; dustmap::file_bytes(slots)];
    let length = dustmap::write(pool, &mut file).expect("a sound pool, and bytes enough");
    file.truncate(length);
    file
}

/// A frame a line: its first two bytes say how many follow.
fn show(mut file: &[u8]) {
    while let [low, high, ..] = *file {
        let (frame, rest) = file.split_at(2 + usize::from(u16::from_le_bytes([low, high])));
        println!("{}", frame.iter().map(|byte| format!("{byte:02x}")).collect::<String>());
        file = rest;
    }
}

/// The number that comes back, 0 or a refusal.
fn read(pool: &mut [i32], file: &[u8]) -> i32 {
    let mut work = vec![0; pool.len()];
    dustmap::read(pool, &mut work, file).err().unwrap_or(0)
}

fn main() {
    let mut pit = filled(PIT);
    search(1, &mut pit);

    let file = written(&pit, PIT);
    println!("written {}", file.len());
    show(&file);

    let mut office = vec![0; dustmap::words(OFFICE)];
    println!("read {}", read(&mut office, &file));
    search(2, &mut office);
    let same = written(&office, OFFICE) == file;
    println!("written again {}", if same { "the same" } else { "other bytes" });

    println!("a byte missing {}", read(&mut office, &file[..file.len() - 1]));
    println!("one slot {}", read(&mut vec![0; dustmap::words(1)], &file));
    search(3, &mut office);
}
