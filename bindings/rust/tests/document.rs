//! The site examples that a call can show, and what a refused call leaves.

use dustmap::{blank, call, check, words, Answer, Found, Rect, Request};

struct Site {
    pool: Vec<i32>,
    work: Vec<i32>,
}

impl Site {
    fn new(slots: usize) -> Site {
        let mut pool = vec![-1; words(slots)];
        assert_eq!(blank(&mut pool), 0);
        Site { work: vec![0; pool.len()], pool }
    }

    /// A batch with room for so many records: the answers, and the found list.
    fn ask(&mut self, requests: &[Request], room: usize) -> (Vec<Answer>, Vec<Found>) {
        let mut answers = vec![Answer::default(); requests.len()];
        let mut found = vec![Found::default(); room];
        assert_eq!(call(&mut self.pool, &mut self.work, requests, &mut answers, &mut found), 0);
        assert_eq!(self.pool, self.work, "the workspace equals the pool");
        assert_eq!(check(&self.pool), 0);
        (answers, found)
    }
}

fn answer(number: u32, found: u32, start: u32, opened: u32) -> Answer {
    Answer { number, found, start, opened }
}

/// The entries of example 7, as records 1 to 9.
fn nine() -> Vec<Request> {
    let mut all: Vec<Request> =
        (0..8).map(|k| Request::insert(k + 1, Rect::new(10 * k, 0, 10 * k + 10, 10))).collect();
    all.push(Request::insert(9, Rect::new(1000, 0, 1010, 10)));
    all
}

#[test]
fn the_example_of_the_document() {
    let mut site = Site::new(128);
    let held = Rect::new(0, 0, 10, 10);
    let (answers, found) = site.ask(
        &[
            Request::insert(7, held),
            Request::insert(7, held),
            Request::search(Rect::new(10, 10, 20, 20)),
            Request::delete(7, Rect::new(0, 0, 10, 11)),
        ],
        64,
    );
    assert_eq!(
        answers,
        [answer(0, 0, 0, 0), answer(6, 0, 0, 0), answer(0, 1, 0, 1), answer(5, 0, 0, 0)]
    );
    assert_eq!(found[0], Found { number: 7, rect: held });
    assert_eq!(found[1], Found::default(), "places beyond stay");
}

#[test]
fn searches_fill_the_found_list_one_after_another() {
    let mut site = Site::new(12);
    site.ask(&nine(), 0);
    let (answers, found) = site.ask(
        &[
            Request::search(Rect::new(55, 0, 58, 10)),
            Request::search(Rect::new(60, 0, 60, 0)),
            Request::search(Rect::new(2000, 0, 2000, 0)),
            Request::search(Rect::new(60, 0, 60, 0)),
        ],
        4,
    );
    assert_eq!(
        answers,
        [answer(0, 1, 0, 2), answer(0, 2, 1, 3), answer(0, 0, 3, 1), answer(8, 2, 0, 3)]
    );
    let numbers: Vec<i32> = found.iter().map(|r| r.number).collect();
    assert_eq!(numbers, [6, 6, 7, 0]);
}

#[test]
fn the_last_of_nine_goes() {
    let mut site = Site::new(12);
    site.ask(&nine(), 0);
    let (answers, _) = site.ask(&[Request::delete(9, Rect::new(1000, 0, 1010, 10))], 0);
    assert_eq!(answers, [answer(0, 0, 0, 0)]);
    assert_eq!(site.pool[..4], [1, 1, 1, 8], "height 1, root slot 1, eight records");
    let numbers: Vec<i32> = (0..8).map(|k| site.pool[8 + 2 + 5 * k + 4]).collect();
    assert_eq!(numbers, [1, 2, 3, 4, 5, 6, 7, 8]);
    assert!(site.pool[8 + 42..8 + 3 * 42].iter().all(|w| *w == 0), "slots 2 and 3 zero");
}

#[test]
fn the_edge_of_the_range() {
    let mut site = Site::new(1);
    let most = 1_000_000_000;
    let (answers, _) = site.ask(
        &[
            Request::insert(1, Rect::new(0, 0, most, 0)),
            Request::insert(1, Rect::new(0, 0, most + 1, 0)),
        ],
        0,
    );
    assert_eq!(answers, [answer(0, 0, 0, 0), answer(3, 0, 0, 0)]);
}

#[test]
fn a_refused_call_writes_nothing() {
    let search = Request::search(Rect::new(0, 0, 1, 1));
    let other = Request { kind: 7, ..search };
    let mut sound = vec![0; words(2)];
    assert_eq!(blank(&mut sound), 0);
    let unsound = vec![3; words(2)];
    // the pool, the workspace's length, the requests, the answer list's length, and the number: 9 before 1 before 2 before -1
    let cases: [(&[i32], usize, Vec<Request>, usize, i32); 8] = [
        (&sound, words(2), vec![search; 1025], 1025, 9),
        (&unsound[1..], words(2), vec![other; 2], 1, 9),
        (&unsound[1..], words(2) - 1, vec![other], 1, 1),
        (&sound, words(2) + 1, vec![search], 1, 1),
        (&unsound, words(2), vec![other], 1, 2),
        (&unsound, words(2), vec![], 0, 2),
        (&sound, words(2), vec![search, other], 2, -1),
        (&[], 0, vec![], 0, 1),
    ];
    for (pool, workspace, requests, places, number) in cases {
        let (mut pool_now, mut work) = (pool.to_vec(), vec![5; workspace]);
        let mut answers = vec![answer(1, 2, 3, 4); places];
        let mut found = vec![Found { number: 8, rect: Rect::new(1, 2, 3, 4) }; 3];
        assert_eq!(call(&mut pool_now, &mut work, &requests, &mut answers, &mut found), number);
        assert_eq!(pool_now, pool);
        assert!(work.iter().all(|w| *w == 5));
        assert!(answers.iter().all(|a| *a == answer(1, 2, 3, 4)));
        assert!(found.iter().all(|f| f.number == 8));
    }
}
