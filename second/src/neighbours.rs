//! Histories of two owners in one pool (document 02, Req 07).

use crate::call::{call_as, Answer, Found, Request, DELETE, INSERT, UPDATE};
use crate::dice::Dice;
use crate::edition::{Edition, Owner, HEAD_WORDS, OWNERS};
use crate::generate::Generator;
use crate::pool::{blank_pool_of, Owned, Pair};
use crate::script::{pool_line, request_line};
use crate::style::Style;

/// Of a hundred requests, so many are about a record of the other owner.
const ABOUT_THE_OTHERS: u64 = 20;

/// Draws the requests of both owners. In edition 2 there is a list of pairs in force for each of
/// them, in edition 1 one for both alike.
pub struct Neighbours {
    edition: Edition,
    generators: Vec<Generator>,
    dice: Dice,
}

impl Neighbours {
    /// Each list fills and empties about as many slots as are told.
    pub fn new(edition: Edition, style: Style, seed: u64, slots: usize) -> Neighbours {
        let generators = match edition {
            Edition::One => vec![Generator::new(style, seed, slots)],
            // Dice of its own for each owner, so that one does not draw what the other drew.
            Edition::Two => [0, 1]
                .map(|k| Generator::new(style, seed.wrapping_mul(2).wrapping_add(k), slots))
                .into(),
        };
        Neighbours { edition, generators, dice: Dice::new(seed ^ 0x0707) }
    }

    fn list(&self, owner: Owner) -> usize {
        match (self.edition, owner) {
            (Edition::Two, Owner::Two) => 1,
            _ => 0,
        }
    }

    /// The pairs that an owner sees.
    pub fn in_force(&self, owner: Owner) -> &[Pair] {
        self.generators[self.list(owner)].in_force()
    }

    /// All records, with their owners where they have one.
    pub fn records(&self) -> Vec<Owned> {
        let owned = |owner: Option<Owner>, pairs: &[Pair]| -> Vec<Owned> {
            pairs.iter().map(|&pair| Owned { owner, pair }).collect()
        };
        match self.edition {
            Edition::One => owned(None, self.in_force(Owner::One)),
            Edition::Two => OWNERS.map(|owner| owned(Some(owner), self.in_force(owner))).concat(),
        }
    }

    /// The next request of an owner; now and then about a record of the other.
    pub fn draw(&mut self, owner: Owner) -> Request {
        let list = self.list(owner);
        let request = self.generators[list].draw();
        if self.edition == Edition::One || !self.dice.chance(ABOUT_THE_OTHERS) {
            return request;
        }
        let others = self.generators[1 - list].in_force();
        if others.is_empty() {
            return request;
        }
        let pair = self.dice.pick(others);
        self.about(request, &pair)
    }

    /// The same request about a pair of the other owner, or an update that leads to its rectangle.
    fn about(&mut self, request: Request, pair: &Pair) -> Request {
        let (number, rect) = (pair.number.0 as i32, pair.rect.to_words());
        match request.kind {
            INSERT | DELETE => Request { number, first: rect, ..request },
            UPDATE if self.dice.chance(30) => Request { number, first: rect, ..request },
            UPDATE => Request { second: rect, ..request },
            _ => Request { first: rect, ..request },
        }
    }

    /// Takes in how the last request of an owner was answered.
    pub fn answered(&mut self, owner: Owner, request: &Request, number: i32) {
        let list = self.list(owner);
        self.generators[list].answered(request, number);
    }

    /// Draws a request of an owner and does it as a batch of one.
    pub fn step(&mut self, pool: &mut [i32], owner: Owner) -> Request {
        let request = self.draw(owner);
        let (mut work, mut answers) = (pool.to_vec(), [Answer::default()]);
        let mut found = vec![Found::default(); self.records().len()];
        let number = call_as(pool, &mut work, &[request], &mut answers, &mut found, owner.number());
        assert_eq!(number, 0, "slots are 1 to 4,096");
        self.answered(owner, &request, answers[0].number);
        request
    }

    /// So many requests by either owner, as it comes.
    pub fn steps(&mut self, pool: &mut [i32], count: usize) {
        for _ in 0..count {
            let owner = self.dice.pick(&OWNERS);
            self.step(pool, owner);
        }
    }
}

/// The edition 2 pool that so many requests of both owners leave.
pub fn shared_pool(style: Style, seed: u64, slots: usize, count: usize) -> Vec<i32> {
    let mut pool = blank_pool_of(Edition::Two, slots);
    Neighbours::new(Edition::Two, style, seed, slots.div_ceil(2)).steps(&mut pool, count);
    pool
}

/// The words of a pool of edition 1, sound or not, laid out as edition 2: word 0 is one more, and each
/// entry has a sixth word, which is drawn for the entries in use of a leaf, and zero elsewhere.
pub fn widened(pool: &[i32], mut owner: impl FnMut() -> i32) -> Vec<i32> {
    let mut wide = pool[..HEAD_WORDS].to_vec();
    wide[0] = wide[0].wrapping_add(1);
    for slot in pool[HEAD_WORDS..].chunks_exact(Edition::One.slot_words()) {
        wide.extend(&slot[..2]);
        for (index, entry) in slot[2..].chunks_exact(Edition::One.entry_words()).enumerate() {
            wide.extend(entry);
            let in_use = slot[0] == 1 && (index as i32) < slot[1];
            wide.push(if in_use { owner() } else { 0 });
        }
    }
    wide
}

/// A batch of one owner over an edition 2 pool that both have left, as a script. The found list is
/// drawn short or long, so that 8 happens too.
pub fn script(style: Style, seed: u64, slots: usize, count: usize) -> String {
    let mut dice = Dice::new(seed.wrapping_add(1));
    let mut neighbours = Neighbours::new(Edition::Two, style, seed, slots.div_ceil(2));
    let mut pool = blank_pool_of(Edition::Two, slots);
    neighbours.steps(&mut pool, dice.below(10 * slots as u64) as usize);
    let (owner, found) = (dice.pick(&OWNERS), dice.pick(&[3, 8, 64, 256]));
    let mut output = format!("# {style:?} history of two owners, seed {seed}\n");
    output.push_str(&format!("{}\nwork same\n", pool_line(&pool)));
    output.push_str(&format!("found {found}\nowner {}\n", owner.number()));
    for _ in 0..count {
        output.push_str(&request_line(&neighbours.step(&mut pool, owner)));
        output.push('\n');
    }
    output
}
