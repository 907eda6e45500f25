//! "The neighbour's carts": that each owner of a pool of edition 2 sees and changes its own records only, that the other owner's
//! batches cannot be told from its answers, and each refusal with what it leaves. The files are in `neighbour_files.rs`.

use dustmap::numbers::{ACCEPTED, BAD_LENGTH, BAD_OWNER, HELD, NOT_HELD, NO_ROOM, NO_SLOT};
use dustmap::{blank_pool, blank_pool_as, call, call_as, check, plain, room, Room};
use dustmap::{Answer, Edition, Found, Owner, Rect, Request, Rule};

const ZONE: Rect = Rect::new(0, 0, 10, 10);
const EVERYTHING: Rect = Rect::new(-1_000_000_000, -1_000_000_000, 1_000_000_000, 1_000_000_000);

fn shared(slots: usize) -> Vec<i32> {
    blank_pool_as(slots, Edition::Two, Rule::Quadratic).expect("1 to 4,096 slots")
}

/// A batch of that owner: the answers, and the found list, which has so many places.
fn ask(
    pool: &mut [i32],
    owner: Owner,
    requests: &[Request],
    places: usize,
) -> (Vec<Answer>, Vec<Found>) {
    let mut work = vec![-1; pool.len()];
    let mut answers = vec![Answer::default(); requests.len()];
    let mut found = vec![Found::default(); places];
    let number = call_as(pool, &mut work, requests, &mut answers, &mut found, owner);
    assert_eq!(number, ACCEPTED);
    assert_eq!(work, pool, "the workspace equals the pool");
    assert_eq!(check(pool), ACCEPTED);
    (answers, found)
}

/// The number that one request of that owner is answered with.
fn answer(pool: &mut [i32], owner: Owner, request: Request) -> i32 {
    ask(pool, owner, &[request], 0).0[0].number as i32
}

/// What that owner's search of a window lists.
fn found(pool: &mut [i32], owner: Owner, window: Rect) -> Vec<Found> {
    let (answers, mut found) = ask(pool, owner, &[Request::search(window)], 8 * 4096);
    assert_eq!((answers[0].number, answers[0].start), (0, 0));
    found.truncate(answers[0].found as usize);
    found
}

fn record(number: i32, rect: Rect) -> Found {
    Found { number, rect }
}

/// Record k of a row, each its own square.
fn square(k: i32) -> Rect {
    Rect::new(10 * k, 0, 10 * k + 5, 5)
}

#[test]
fn a_blank_pool_of_each_edition() {
    for (edition, slot) in [(Edition::One, 42), (Edition::Two, 50)] {
        for slots in [1, 3, 4096] {
            let pool = blank_pool_as(slots, edition, Rule::Quadratic).expect("1 to 4,096 slots");
            assert_eq!(pool.len(), 8 + slot * slots);
            assert_eq!(pool[..9], [edition as i32, 1, 1, 0, 0, 0, 0, 0, 1]);
            assert!(pool[9..].iter().all(|word| *word == 0));
            assert_eq!((check(&pool), Edition::of(&pool)), (ACCEPTED, edition));
        }
        for slots in [0, 4097] {
            assert_eq!(blank_pool_as(slots, edition, Rule::Quadratic), None);
        }
    }
    assert_eq!(blank_pool(7), blank_pool_as(7, Edition::One, Rule::Quadratic));
}

/// "Blanking and reading are told the edition .. and go by it": what was in the pool is not looked at.
#[test]
fn blanking_is_refused_minus_1_before_1() {
    for word in [0, 1, 2, 3] {
        for (number, length, edition, rule) in [
            (ACCEPTED, 8 + 42, 1, 0),
            (ACCEPTED, 8 + 50, 2, 0),
            (BAD_LENGTH, 8 + 50, 1, 0),
            (BAD_LENGTH, 8 + 42, 2, 0),
            (BAD_LENGTH, 8, 2, 0),
            (BAD_LENGTH, 8 + 50 * 4097, 2, 0),
            (BAD_LENGTH, 0, 1, 0),
            (-1, 8 + 42, 0, 0),
            (-1, 8 + 50, 3, 0),
            (-1, 8 + 50, i32::MIN, 0),
            (-1, 8 + 42, 1, -1),
            (-1, 8 + 50, 2, 99),
            (-1, 7, 3, 0),
            (-1, 7, 1, i32::MAX),
        ] {
            let mut pool = vec![word; length];
            assert_eq!(plain::blank_as(&mut pool, edition, rule), number, "{edition} {rule}");
            let blank = blank_pool_as(1, Edition::of(&[edition]), Rule::Quadratic);
            let left = if number == ACCEPTED { blank } else { Some(vec![word; length]) };
            assert_eq!(Some(pool), left, "refused, nothing is written");
        }
    }
}

#[test]
fn each_owner_holds_a_pair_for_itself() {
    let mut pool = shared(3);
    let insert = Request::insert(7, ZONE);
    for owner in Owner::BOTH {
        assert_eq!(answer(&mut pool, owner, Request::delete(7, ZONE)), NOT_HELD);
        assert_eq!(answer(&mut pool, owner, insert), ACCEPTED);
        assert_eq!(answer(&mut pool, owner, insert), HELD);
        assert_eq!(found(&mut pool, owner, ZONE), [record(7, ZONE)]);
    }
    assert_eq!(pool[3], 2, "word 3 counts both owners' records");
    assert_eq!(pool[8..22], [1, 2, 0, 0, 10, 10, 7, 1, 0, 0, 10, 10, 7, 2], "an owner a record");

    assert_eq!(answer(&mut pool, Owner::Two, Request::delete(7, ZONE)), ACCEPTED);
    assert_eq!(answer(&mut pool, Owner::Two, Request::delete(7, ZONE)), NOT_HELD);
    assert_eq!(found(&mut pool, Owner::Two, EVERYTHING), []);
    assert_eq!(found(&mut pool, Owner::One, EVERYTHING), [record(7, ZONE)]);
}

#[test]
fn an_update_is_of_the_owners_own() {
    let mut pool = shared(3);
    let (old, new) = (ZONE, square(5));
    let update = Request::update(7, old, new);
    for owner in Owner::BOTH {
        assert_eq!(answer(&mut pool, owner, Request::insert(7, old)), ACCEPTED);
    }
    assert_eq!(answer(&mut pool, Owner::One, Request::insert(7, new)), ACCEPTED);
    assert_eq!(answer(&mut pool, Owner::One, update), HELD);
    assert_eq!(answer(&mut pool, Owner::Two, update), ACCEPTED, "the other's pair does not count");
    assert_eq!(answer(&mut pool, Owner::Two, update), NOT_HELD, "nor can it be moved");
    assert_eq!(found(&mut pool, Owner::One, EVERYTHING), [record(7, old), record(7, new)]);
    assert_eq!(found(&mut pool, Owner::Two, EVERYTHING), [record(7, new)]);
}

/// In every mode, in found order, and with no node reported as opened; beside 8 too.
#[test]
fn searches_list_the_owners_own() {
    let mut pool = shared(40);
    for number in (1..=60).rev() {
        let owner = if number % 3 == 0 { Owner::Two } else { Owner::One };
        assert_eq!(answer(&mut pool, owner, Request::insert(number, square(number))), ACCEPTED);
    }
    assert!(pool[2] > 1, "a tree that has nodes to open");
    let window = Rect::new(100, 0, 305, 5);
    let searches =
        [Request::search, Request::search_inside, Request::search_enclosing].map(|of| of(window));
    for (owner, third) in [(Owner::One, false), (Owner::Two, true)] {
        let due: Vec<Found> =
            (10..=30).filter(|k| (k % 3 == 0) == third).map(|k| record(k, square(k))).collect();
        let count = due.len() as u32;
        let (answers, found) = ask(&mut pool, owner, &searches, 2 * due.len() - 1);
        let told =
            |number: i32, found: u32| Answer { number: number as u32, found, ..Answer::default() };
        assert_eq!(answers[..2], [told(ACCEPTED, count), told(NO_ROOM, count)]);
        assert_eq!(answers[2], Answer { start: count, ..told(ACCEPTED, 0) });
        assert_eq!(found[..due.len()], due);
        assert!(found[due.len()..].iter().all(|f| *f == Found::default()), "places beyond stay");
    }
}

/// "Edition 1 pools are served on, for owners 1 and 2 alike".
#[test]
fn a_pool_of_edition_1_serves_both_alike() {
    let mut pools = [(); 3].map(|()| blank_pool(12).expect("12 slots"));
    let mut dice = Dice(3);
    for _ in 0..400 {
        let request = dice.request();
        let mut given = Vec::new();
        for (pool, owner) in pools.iter_mut().zip([None, Some(Owner::One), Some(Owner::Two)]) {
            let (mut work, mut answers) = (vec![0; pool.len()], [Answer::default()]);
            let mut found = [Found::default(); 9];
            let number = match owner {
                None => call(pool, &mut work, &[request], &mut answers, &mut found),
                Some(owner) => {
                    call_as(pool, &mut work, &[request], &mut answers, &mut found, owner)
                }
            };
            given.push((number, answers, found, pool.clone()));
        }
        assert_eq!(given[0], given[1], "dustmap_call is owner 1");
        assert_eq!(given[0], given[2], "the owners are served alike");
    }
}

#[test]
fn a_batch_of_no_owner_told_is_owner_1s() {
    let (mut told, mut not_told) = (shared(12), shared(12));
    let mut work = vec![0; told.len()];
    let (mut answers, mut found) = ([Answer::default()], [Found::default(); 64]);
    let mut dice = Dice(8);
    for _ in 0..300 {
        let request = dice.request();
        if dice.below(2) == 0 {
            let other = dice.request();
            ask(&mut told, Owner::Two, &[other], 64);
            ask(&mut not_told, Owner::Two, &[other], 64);
        }
        found.fill(Found::default());
        assert_eq!(call(&mut not_told, &mut work, &[request], &mut answers, &mut found), ACCEPTED);
        let (due_answers, due_found) = ask(&mut told, Owner::One, &[request], 64);
        assert_eq!((&answers[..], &found[..]), (&due_answers[..], &due_found[..]));
        assert_eq!(told, not_told);
    }
}

/// "Take two histories of batches .. with the same batches, lists and workspaces lent for owner 1, and no request refused 7: owner 1's
/// answers and found lists are the same."
#[test]
fn the_others_batches_cannot_be_told() {
    let mut searched = 0;
    for seed in 1..=6 {
        let (mut ours, mut theirs) = (Dice(seed), [Dice(100 + seed), Dice(200 + seed)]);
        let mut pools = [shared(400), shared(400)];
        for _ in 0..120 {
            for (pool, dice) in pools.iter_mut().zip(&mut theirs) {
                let batch = dice.batch();
                let (answers, _) = ask(pool, Owner::Two, &batch, 300);
                assert!(answers.iter().all(|a| a.number as i32 != NO_SLOT), "slots enough");
            }
            let batch = ours.batch();
            let given = pools.each_mut().map(|pool| ask(pool, Owner::One, &batch, 20));
            assert_eq!(given[0], given[1]);
            searched += given[0].0.iter().filter(|a| a.found > 0).count();
        }
        assert_ne!(pools[0], pools[1], "though the pools differ");
    }
    assert!(searched > 300, "{searched} searches that found something");
}

/// Where the owners' numbers differ, the tree is the one that the same requests leave in a pool of edition 1, with an owner in each
/// entry of a leaf: "geometry, slots and 7 are shared".
#[test]
fn the_tree_and_its_slots_are_shared() {
    let mut refused = 0;
    for (seed, slots) in [(1, 4), (2, 12), (3, 60)] {
        let (mut pool, mut one) = (shared(slots), blank_pool(slots).expect("1 to 4,096 slots"));
        let mut dice = Dice(seed);
        for _ in 0..500 {
            let (owner, request) = dice.apart();
            let (answers, found) = ask(&mut pool, owner, &[request], 8 * slots);
            let (plain_answers, plain_found) = ask(&mut one, Owner::One, &[request], 8 * slots);
            assert_eq!(answers[0].number, plain_answers[0].number, "{request:?}");
            let listed = plain_found.into_iter().filter(|r| r.number > 0);
            let own = listed.filter(|r| owner_of(r.number) == owner);
            assert!(own.eq(found.into_iter().filter(|r| r.number > 0)));
            assert_eq!(without_owners(&pool), one);
            refused += u32::from(answers[0].number as i32 == NO_SLOT);
            let rect = dice.rect();
            assert_eq!(room(&pool, &rect), room(&one, &rect));
        }
    }
    assert!(refused > 20, "{refused} refused 7");
}

/// The pool of edition 1 with the same tree; each record's owner has to be that of its number.
fn without_owners(pool: &[i32]) -> Vec<i32> {
    let mut one = pool[..8].to_vec();
    one[0] = 1;
    for slot in pool[8..].chunks_exact(50) {
        one.extend(&slot[..2]);
        for (at, entry) in slot[2..].chunks_exact(6).enumerate() {
            let held = slot[0] == 1 && (at as i32) < slot[1];
            assert_eq!(entry[5], if held { owner_of(entry[4]) as i32 } else { 0 });
            one.extend(&entry[..5]);
        }
    }
    one
}

/// In `the_tree_and_its_slots_are_shared` odd numbers are owner 1's.
fn owner_of(number: i32) -> Owner {
    if number % 2 == 1 {
        Owner::One
    } else {
        Owner::Two
    }
}

/// All that one owner learns of the other.
#[test]
fn the_other_owner_may_take_the_last_slot() {
    let mut pool = shared(1);
    for number in 1..=8 {
        assert_eq!(
            answer(&mut pool, Owner::Two, Request::insert(number, square(number))),
            ACCEPTED
        );
    }
    assert_eq!(room(&pool, &square(9)), Ok(Room { needed: 2, free: 0 }));
    assert_eq!(found(&mut pool, Owner::One, EVERYTHING), []);
    assert_eq!(answer(&mut pool, Owner::One, Request::insert(9, square(9))), NO_SLOT);
    assert_eq!(answer(&mut pool, Owner::Two, Request::delete(8, square(8))), ACCEPTED);
    assert_eq!(answer(&mut pool, Owner::One, Request::insert(9, square(9))), ACCEPTED);
}

/// "1 or 2, as a sixth word (zero in inner entries; anything else and the pool isn't sound)".
#[test]
fn an_owner_word_that_is_none_is_refused_2() {
    let mut pool = shared(3);
    for number in 1..=9 {
        let owner = if number < 5 { Owner::One } else { Owner::Two };
        assert_eq!(answer(&mut pool, owner, Request::insert(number, square(number))), ACCEPTED);
    }
    assert_eq!(pool[1..4], [3, 2, 9], "slots 1 and 2 are leaves, slot 3 is the root");
    let owner_word = |slot: usize, entry: usize| 8 + 50 * (slot - 1) + 2 + 6 * entry + 5;
    let (leaf, unused, inner) = (owner_word(1, 0), owner_word(1, 7), owner_word(3, 0));
    assert_eq!([pool[leaf], pool[unused], pool[inner]], [1, 0, 0]);
    for (at, word, number) in [
        (leaf, 2, 0),
        (leaf, 1, 0),
        (leaf, 0, 2),
        (leaf, 3, 2),
        (leaf, -1, 2),
        (unused, 1, 2),
        (inner, 1, 2),
        (inner, 2, 2),
    ] {
        let mut other = pool.clone();
        other[at] = word;
        assert_eq!(check(&other), number, "{word} at {at}");
        assert_eq!(room(&other, &ZONE).err().unwrap_or(0), number);
    }
}

/// "a pool whose word 0 isn't 2 is measured as edition 1": 21 slots of 50 words are 25 of 42, and a blank pool of the one is, but for
/// word 0, one of the other.
#[test]
fn word_0_says_how_a_pool_is_measured() {
    for (word, number) in [(2, 0), (1, 0), (0, 2), (3, 2), (-2, 2)] {
        let mut pool = shared(21);
        pool[0] = word;
        assert_eq!(check(&pool), number, "word 0 is {word}");
    }
    for (word, number) in [(2, 0), (1, 1), (0, 1), (3, 1)] {
        let mut pool = shared(20);
        pool[0] = word;
        assert_eq!(check(&pool), number, "1000 words of slots, word 0 is {word}");
    }
    let mut pool = blank_pool(24).expect("24 slots");
    pool[0] = 2;
    assert_eq!(check(&pool), 1, "1008 words of slots");
    assert_eq!([2, 1, 0, 3].map(|word| Edition::of(&[word]) as i32), [2, 1, 1, 1]);
    assert_eq!(Edition::of(&[]), Edition::One);
}

/// 9 before 13 before 1 before 2 before -1, for a pool of edition 1 too; and then nothing is written.
#[test]
fn a_refused_call_writes_nothing() {
    let search = Request::search(ZONE);
    let other = Request { kind: 7, ..search };
    for edition in [Edition::One, Edition::Two] {
        let sound = blank_pool_as(2, edition, Rule::Quadratic).expect("two slots");
        let mut unsound = sound.clone();
        unsound[2] = 9;
        // the pool, the workspace's length, the requests, the answer list's length, the owner, and the number
        let cases: [(&[i32], usize, &[Request], usize, i32, i32); 12] = [
            (&sound, sound.len(), &[search], 2, 1, 9),
            (&sound, sound.len(), &[search; 1025], 1025, 3, 9),
            (&unsound[1..], 0, &[other], 0, 0, 9),
            (&unsound[1..], 0, &[other], 1, 0, BAD_OWNER),
            (&sound, sound.len(), &[search], 1, 3, BAD_OWNER),
            (&sound, sound.len(), &[], 0, -1, BAD_OWNER),
            (&[], 0, &[], 0, i32::MIN, BAD_OWNER),
            (&sound[1..], sound.len() - 1, &[other], 1, 2, 1),
            (&sound, sound.len() + 1, &[search], 1, 1, 1),
            (&unsound, sound.len(), &[other], 1, 2, 2),
            (&unsound, sound.len(), &[], 0, 1, 2),
            (&sound, sound.len(), &[search, other], 2, 2, -1),
        ];
        for (pool, workspace, requests, places, owner, number) in cases {
            let (mut pool_now, mut work) = (pool.to_vec(), vec![5; workspace]);
            let before = Answer { number: 1, found: 2, start: 3, opened: 4 };
            let mut answers = vec![before; places];
            let mut found = [record(8, ZONE); 3];
            let given =
                plain::call_as(&mut pool_now, &mut work, requests, &mut answers, &mut found, owner);
            assert_eq!(given, number, "owner {owner}");
            assert_eq!(pool_now, pool);
            assert!(work.iter().all(|w| *w == 5) && answers.iter().all(|a| *a == before));
            assert_eq!(found, [record(8, ZONE); 3]);
        }
    }
}

#[test]
fn the_enums_have_no_other() {
    for number in [i32::MIN, -1, 0, 3, i32::MAX] {
        assert_eq!(Edition::try_from(number), Err(number));
        assert_eq!(Owner::try_from(number), Err(number));
    }
    assert_eq!([1, 2].map(Edition::try_from), [Ok(Edition::One), Ok(Edition::Two)]);
    assert_eq!([1, 2].map(Owner::try_from), [Ok(Owner::One), Ok(Owner::Two)]);
    assert_eq!(Owner::BOTH.map(Owner::other), [Owner::Two, Owner::One]);
    assert_eq!((Edition::default(), Owner::default()), (Edition::One, Owner::One));
}

/// Numbers that look random and are the same in every run; requests around few places and numbers, so that pairs come again.
struct Dice(u64);

impl Dice {
    fn below(&mut self, most: u32) -> u32 {
        self.0 =
            self.0.wrapping_mul(6_364_136_223_846_793_005).wrapping_add(1_442_695_040_888_963_407);
        ((self.0 >> 33) % u64::from(most)) as u32
    }

    fn rect(&mut self) -> Rect {
        let [x, y, wide, high] = [4, 3, 2, 2].map(|most| 10 * self.below(most) as i32);
        Rect::new(x, y, x + wide, y + high)
    }

    /// A request of any kind, for one of nine numbers; now and then with a bad rectangle or number.
    fn request(&mut self) -> Request {
        let number = self.below(10) as i32;
        let (kind, first, second) = (1 + self.below(6) as i32, self.rect(), self.rect());
        let first = if self.below(40) == 0 { Rect::new(1, 0, 0, 0) } else { first };
        Request { kind, number, first, second }
    }

    fn batch(&mut self) -> Vec<Request> {
        (0..self.below(12)).map(|_| self.request()).collect()
    }

    /// A request and the owner that its number has; a search of either.
    fn apart(&mut self) -> (Owner, Request) {
        let owner = Owner::BOTH[self.below(2) as usize];
        let number = 2 * (1 + self.below(9) as i32) - i32::from(owner == Owner::One);
        (owner, Request { number, ..self.request() })
    }
}
