//! "The neighbour's carts" (document 02, Req 07), over drawn histories: what one owner does is not
//! seen by the other; in edition 1 both are served alike; and one owner alone is as in edition 1.

mod common;

use common::shared_blank;
use second::dice::Dice;
use second::edition::OWNERS;
use second::generate::{history, Generator};
use second::neighbours::{script, widened};
use second::rooms::{line, Case};
use second::rooms_kept::kept;
use second::script::{blank_pool, parse, run};
use second::style::STYLES;
use second::{call_as, room, Answer, Edition, Found, Owner, Request};

/// What a call gives: its number, the answers and the found list.
type Given = (i32, Vec<Answer>, Vec<Found>);

fn called(pool: &mut [i32], owner: i32, requests: &[Request], places: usize) -> Given {
    let (mut work, mut answers) = (pool.to_vec(), vec![Answer::default(); requests.len()]);
    let mut found = vec![Found::default(); places];
    let number = call_as(pool, &mut work, requests, &mut answers, &mut found, owner);
    assert_eq!(work, pool);
    (number, answers, found)
}

/// The batches of owner 1 in a history, with the places of their found lists: drawn where owner 1 is
/// alone.
fn own_batches(generator: &mut Generator, dice: &mut Dice) -> Vec<(Vec<Request>, usize)> {
    let (mut pool, mut batches) = (shared_blank(40), Vec::new());
    for _ in 0..12 {
        let mut batch = Vec::new();
        for _ in 0..dice.below(6) {
            let request = generator.draw();
            let (_, answers, _) = called(&mut pool, 1, &[request], 400);
            generator.answered(&request, answers[0].number);
            batch.push(request);
        }
        batches.push((batch, dice.below(30) as usize));
    }
    batches
}

/// The same batches of owner 1, between batches that a neighbour draws from the seed, many of them
/// about owner 1's own pairs. None where a request is refused 7.
fn beside_a_neighbour(batches: &[(Vec<Request>, usize)], seed: u64) -> Option<Vec<Given>> {
    let (mut pool, mut dice) = (shared_blank(40), Dice::new(seed));
    let mut given = Vec::new();
    for (requests, places) in batches {
        given.push(called(&mut pool, 1, requests, *places));
        let any = dice.between(0, 9);
        let theirs: Vec<Request> = (0..any).map(|_| dice.pick(&theirs(batches))).collect();
        let (number, answers, _) = called(&mut pool, 2, &theirs, 9);
        assert_eq!(number, 0);
        if answers.iter().any(|answer| answer.number == 7) {
            return None;
        }
    }
    let refused_7 = given.iter().any(|(_, answers, _)| answers.iter().any(|a| a.number == 7));
    (!refused_7).then_some(given)
}

/// Requests of a neighbour who inserts, deletes and updates the same pairs, and others.
fn theirs(batches: &[(Vec<Request>, usize)]) -> Vec<Request> {
    let own = batches.iter().flat_map(|(requests, _)| requests);
    let beside =
        |r: &Request| [Request::insert(r.number, r.first), Request::delete(r.number, r.first), *r];
    let away = Request::insert(77, [900, 900, 901, 901]);
    own.flat_map(beside).chain([away, Request::delete(77, [900, 900, 901, 901])]).collect()
}

/// "Take two histories of batches from blank edition 2 pools of one length with the same batches,
/// lists and workspaces lent for owner 1, and no request refused 7: owner 1's answers and found lists
/// are the same."
#[test]
fn what_the_neighbour_does_is_not_seen() {
    let mut compared = 0;
    for (place, (_, style)) in STYLES.into_iter().enumerate() {
        for seed in 0..6 {
            let mut dice = Dice::new(100 * seed + place as u64);
            let batches = own_batches(&mut Generator::new(style, seed, 6), &mut dice);
            let mut all = (1..5).map(|other| beside_a_neighbour(&batches, 10 * seed + other));
            let first = all.next().flatten();
            for other in all {
                if let (Some(one), Some(two)) = (&first, &other) {
                    assert_eq!(one, two, "{style:?}, seed {seed}");
                    compared += 1;
                }
            }
        }
    }
    assert!(compared > 100, "only {compared} pairs of histories met no 7");
}

/// "Edition 1 pools are served on, for owners 1 and 2 alike".
#[test]
fn owners_are_alike_in_edition_1() {
    for (_, style) in STYLES {
        let requests = history(style, 3, 5, 150).requests;
        let mut pools = [blank_pool(5), blank_pool(5)];
        for batch in requests.chunks(7) {
            let [one, two] = [0, 1].map(|k| called(&mut pools[k], OWNERS[k].number(), batch, 30));
            assert_eq!(one, two);
            assert_eq!(pools[0], pools[1]);
        }
    }
}

/// One owner alone in an edition 2 pool: as in edition 1, but for opened and the layout.
#[test]
fn one_owner_alone_is_as_in_edition_1() {
    for (_, style) in STYLES {
        for owner in OWNERS {
            let requests = history(style, 4, 6, 150).requests;
            let (mut first, mut second) = (blank_pool(6), shared_blank(6));
            for batch in requests.chunks(9) {
                let (number, mut answers, found) = called(&mut first, 1, batch, 40);
                answers.iter_mut().for_each(|answer| answer.opened = 0);
                let due = (number, answers, found);
                assert_eq!(called(&mut second, owner.number(), batch, 40), due);
                assert_eq!(second, widened(&first, || owner.number()));
            }
        }
    }
}

/// The words of an edition 2 pool without the owners. They have to be those that the record numbers
/// say: owner 1 has the odd ones.
fn without_owners(pool: &[i32]) -> Vec<i32> {
    let mut narrow = pool[..8].to_vec();
    narrow[0] = 1;
    for slot in pool[8..].chunks_exact(50) {
        narrow.extend(&slot[..2]);
        for (place, entry) in slot[2..].chunks_exact(6).enumerate() {
            let in_use = slot[0] == 1 && (place as i32) < slot[1];
            assert_eq!(entry[5], if in_use { 2 - entry[4] % 2 } else { 0 });
            narrow.extend(&entry[..5]);
        }
    }
    narrow
}

/// Geometry, splits and slots are shared: where every number has one owner, the records lie as if
/// all were one owner's, and 7 is given at the same requests. A split or a reinsertion keeps each
/// entry's owner.
#[test]
fn geometry_is_shared() {
    for (_, style) in STYLES {
        for slots in [3, 6, 14] {
            let (mut first, mut second) = (blank_pool(slots), shared_blank(slots));
            for request in history(style, 9, slots, 200).requests {
                if request.is_search() {
                    continue;
                }
                let owner = 2 - request.number.rem_euclid(2);
                let due = called(&mut first, 1, &[request], 0);
                assert_eq!(called(&mut second, owner, &[request], 0), due);
                assert_eq!(without_owners(&second), first);
            }
        }
    }
}

/// The room for an insert is told of the slots, whoever has them.
#[test]
fn room_is_shared() {
    let mut owners = Dice::new(1);
    for Case { pool, rect } in kept() {
        if Edition::One.slots_of(pool.len()).is_none() {
            continue;
        }
        let wide = widened(&pool, || owners.pick(&OWNERS).number());
        let (mut slots, mut wide_slots) = ([71, 72], [71, 72]);
        let due = if pool[0] == 1 { room(&pool, rect, &mut slots) } else { 1 };
        assert_eq!(room(&wide, rect, &mut wide_slots), due, "{}", line(&Case { pool, rect }));
        assert_eq!(wide_slots, slots);
    }
}

/// Scripts of two owners, and what an owner that is none gets.
#[test]
fn scripts_of_two_owners() {
    for (_, style) in STYLES {
        let text = script(style, 5, 4, 40);
        assert_eq!(text, script(style, 5, 4, 40));
        assert_ne!(text, script(style, 6, 4, 40));
        let parsed = parse(&text).expect("a script");
        assert_eq!(Edition::of(&parsed.pool), Edition::Two);
        assert!(Owner::numbered(parsed.owner).is_some());
        assert!(run(&parsed).starts_with("result 0\n"));
    }
    let first =
        |text: &str| run(&parse(text).expect("a script")).lines().next().map(str::to_string);
    assert_eq!(first("blank 1 2\nowner 3\n"), Some("result 13".to_string()));
    assert_eq!(first("blank 1\nowner 3\n"), Some("result 13".to_string()));
    assert_eq!(first("blank 1 2\nowner 2\n"), Some("result 0".to_string()));
    assert_eq!(first("blank 0 2\nowner 2\n"), Some("result 1".to_string()));
    assert_eq!(parse("blank 3 2").expect("a script").pool, shared_blank(3));
    assert_eq!(parse("blank 3 1").expect("a script").pool, blank_pool(3));
    assert!(["blank 1 3", "blank 1 0", "blank 1 2 2", "owner", "owner 1 2", "owner x"]
        .into_iter()
        .all(|line| parse(line).is_err()));
}
