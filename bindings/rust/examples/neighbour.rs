//! How two neighbours share one map, through the crate: each inserts its zones into a pool of edition 2, one of them the same pair,
//! and each sees its own. The neighbour deletes the pair, and ours stays. The file carries the owners to another office. Last, what
//! one can tell of the other: the slots are shared, so that an insert may be refused 7. Prints whose batch it is, and then what
//! `dustmap` prints for its requests; and the file, a frame a line, with what comes of it.

use dustmap::{Answer, Edition, Found, Owner, Rect, Request, Rule};

const SITE: usize = 8;
const OFFICE: usize = 4;

/// The road along the boundary, which both keep; and all that there is on both sides of it.
const ROAD: Rect = Rect::new(0, 50_000, 400_000, 60_000);
const ALL: Rect = Rect::new(0, 0, 400_000, 120_000);
const SMALL: Rect = Rect::new(0, 0, 1, 1);

/// A blank pool of edition 2.
fn blank(slots: usize) -> Vec<i32> {
    dustmap::blank_pool_as(slots, Edition::Two, Rule::Quadratic).expect("1 to 4,096 slots")
}

/// A batch of that owner, and its lines.
fn ask(pool: &mut [i32], owner: Owner, requests: &[Request]) {
    let mut work = vec![0; pool.len()];
    let (mut answers, mut found) =
        (vec![Answer::default(); requests.len()], [Found::default(); 64]);
    let number = dustmap::call_as(pool, &mut work, requests, &mut answers, &mut found, owner);
    assert_eq!(number, 0, "the pool is sound");
    println!("owner {}", owner as i32);
    for (index, answer) in answers.iter().enumerate() {
        show(index + 1, answer, &found);
    }
}

/// The line of an answer, and those of the records that a search has listed.
fn show(place: usize, answer: &Answer, found: &[Found]) {
    let Answer { number, found: count, start, opened } = *answer;
    println!("{place} {number} {count} {opened}");
    let listed = if number == 0 { count as usize } else { 0 };
    for Found { number, rect: Rect { low_x, low_y, high_x, high_y } } in
        &found[start as usize..][..listed]
    {
        println!("{number} {low_x} {low_y} {high_x} {high_y}");
    }
}

/// Both sides of the boundary, in one pool: our road, a stockpile and a sensor; their road, which they cannot hold twice, another
/// stockpile and the crusher. Then they give the road up, and cannot delete ours.
fn shared() -> Vec<i32> {
    let mut site = blank(SITE);
    let ours = [
        Request::insert(1, ROAD),
        Request::insert(10, Rect::new(60_000, 20_000, 90_000, 45_000)),
        Request::insert(105, Rect::new(100_000, 55_000, 100_000, 55_000)),
        Request::search(ALL),
    ];
    let theirs = [
        Request::insert(1, ROAD),
        Request::insert(1, ROAD),
        Request::insert(10, Rect::new(60_000, 70_000, 95_000, 100_000)),
        Request::insert(20, Rect::new(200_000, 80_000, 230_000, 110_000)),
        Request::search(ALL),
    ];
    let given_up = [Request::delete(1, ROAD), Request::delete(1, ROAD), Request::search(ALL)];
    ask(&mut site, Owner::One, &ours);
    ask(&mut site, Owner::Two, &theirs);
    ask(&mut site, Owner::Two, &given_up);
    ask(&mut site, Owner::One, &[Request::search(ALL)]);
    site
}

/// The file of a pool of so many slots.
fn written(pool: &[i32], slots: usize) -> Vec<u8> {
    let mut file = vec![0; Edition::Two.file_bytes(slots)];
    let length = dustmap::write(pool, &mut file).expect("a sound pool, and bytes enough");
    file.truncate(length);
    file
}

/// A frame a line: its first two bytes say how many follow.
fn show_file(mut file: &[u8]) {
    println!("written {}", file.len());
    while let [low, high, ..] = *file {
        let (frame, rest) = file.split_at(2 + usize::from(u16::from_le_bytes([low, high])));
        println!("{}", frame.iter().map(|byte| format!("{byte:02x}")).collect::<String>());
        file = rest;
    }
}

/// The number that comes back, 0 or a refusal.
fn read(pool: &mut [i32], file: &[u8], edition: Edition) -> i32 {
    let mut work = vec![0; pool.len()];
    dustmap::read_as(pool, &mut work, file, edition, Rule::Quadratic).err().unwrap_or(0)
}

fn main() {
    let mut file = written(&shared(), SITE);
    show_file(&file);

    let mut office = blank(OFFICE);
    println!("read {}", read(&mut office, &file, Edition::Two));
    for owner in Owner::BOTH {
        ask(&mut office, owner, &[Request::search(ALL)]);
    }
    let same = written(&office, OFFICE) == file;
    println!("written again {}", if same { "the same" } else { "other bytes" });
    let mut plain = vec![0; dustmap::words(OFFICE)];
    println!("into a pool of edition 1 {}", read(&mut plain, &file, Edition::One));
    // the owner of the first record, after the frame of 12 bytes, a length and a kind
    file[16] = 3;
    println!("a record of owner 3 {}", read(&mut office, &file, Edition::Two));

    println!("one slot");
    let mut small = blank(1);
    let eight: Vec<Request> = (1..=8).map(|number| Request::insert(number, SMALL)).collect();
    ask(&mut small, Owner::Two, &eight);
    ask(&mut small, Owner::One, &[Request::search(SMALL), Request::insert(9, SMALL)]);
}
