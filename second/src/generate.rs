//! Histories drawn from a seed: a mix of the six kinds, with some refusals.

use crate::call::{call, Answer, Found, Request, DELETE, INSERT, UPDATE};
use crate::dice::Dice;
use crate::geometry::{joint_cover, Rect, COORDINATE_LIMIT};
use crate::pool::{Pair, RecordNumber};
use crate::script::{blank_pool, request_line};
use crate::style::{whole_site, window_one_off, window_within, Style, STYLES};

/// A search of a window.
type Search = fn([i32; 4]) -> Request;

/// "A search carries one of three modes": meeting, inside, enclosing.
pub const SEARCHES: [Search; 3] = [Request::search, Request::inside, Request::enclosing];

/// Draws requests one after another and keeps the pairs in force, so that most deletes find their pair.
pub struct Generator {
    style: Style,
    dice: Dice,
    in_force: Vec<Pair>,
    /// Filling up to the mark, or emptying down to a part of it.
    filling: bool,
    mark: usize,
    most_records: usize,
}

impl Generator {
    pub fn new(style: Style, seed: u64, slots: usize) -> Generator {
        // Dice of its own for each style and seed.
        let mut dice = Dice::new(seed.wrapping_mul(STYLES.len() as u64).wrapping_add(style as u64));
        // `duplicates` has 36 pairs in all.
        let most_records = if style == Style::Duplicates { slots.min(4) * 8 } else { slots * 8 };
        let mark = dice.between(6, most_records.max(7) as i64) as usize;
        Generator { style, dice, in_force: Vec::new(), filling: true, mark, most_records }
    }

    pub fn in_force(&self) -> &[Pair] {
        &self.in_force
    }

    /// The next request of the history.
    pub fn draw(&mut self) -> Request {
        self.turn_the_tide();
        let kind = self.dice.weighted(&self.weights());
        let fault = self.dice.chance(7);
        match kind {
            0 => self.insert(fault),
            1 => self.delete(fault),
            2 => self.update(fault),
            _ => self.search(fault),
        }
    }

    /// Takes in how the last request was answered.
    pub fn answered(&mut self, request: &Request, number: i32) {
        // A full pool turns the tide only one time in ten, so that histories stay where slots are short.
        if number == 7 && self.dice.chance(10) {
            self.filling = false;
        }
        if number != 0 {
            return;
        }
        if request.kind == DELETE || request.kind == UPDATE {
            let old = pair_of(request.number, request.first);
            let place = self.in_force.iter().position(|p| *p == old).expect("it was in force");
            self.in_force.remove(place);
        }
        if request.kind == INSERT {
            self.in_force.push(pair_of(request.number, request.first));
        }
        if request.kind == UPDATE {
            self.in_force.push(pair_of(request.number, request.second));
        }
    }

    /// Weights of insert, delete, update and search.
    fn weights(&self) -> [u64; 4] {
        match (self.style, self.filling) {
            (Style::Churn, true) => [74, 6, 10, 10],
            (Style::Churn, false) => [10, 60, 20, 10],
            (_, true) => [60, 10, 15, 15],
            (_, false) => [25, 40, 18, 17],
        }
    }

    /// Fill up to the mark, then empty to a quarter of it (an eighth in `churn`), and so on.
    fn turn_the_tide(&mut self) {
        let held = self.in_force.len();
        let low = if self.style == Style::Churn { self.mark / 8 } else { self.mark / 4 };
        if self.filling && held >= self.mark {
            self.filling = false;
        } else if !self.filling && held <= low {
            self.filling = true;
            self.mark = self.dice.between(6, self.most_records.max(7) as i64) as usize;
        }
    }

    fn insert(&mut self, fault: bool) -> Request {
        let fresh = self.fresh_pair();
        let mut request = Request::insert(number_word(&fresh), fresh.rect.to_words());
        if fault {
            match self.dice.below(3) {
                0 => request.first = self.bad_rect(request.first),
                1 => request.number = self.bad_number(),
                _ => request = self.of_pair_in_force(Request::insert),
            }
        }
        request
    }

    fn delete(&mut self, fault: bool) -> Request {
        let mut request = self.of_pair_in_force(Request::delete);
        if fault {
            match self.dice.below(4) {
                0 => request.first = self.bad_rect(request.first),
                1 => request.number = self.bad_number(),
                2 => request.number = self.style.number(&mut self.dice),
                _ => request.first = self.style.rect(&mut self.dice).to_words(),
            }
        }
        request
    }

    fn update(&mut self, fault: bool) -> Request {
        let new = self.new_rect().to_words();
        let mut request = self.of_pair_in_force(|n, old| Request::update(n, old, new));
        if fault {
            match self.dice.below(7) {
                0 => request.first = self.bad_rect(request.first),
                1 => request.second = self.bad_rect(request.second),
                2 => request.number = self.bad_number(),
                3 => request.first = self.style.rect(&mut self.dice).to_words(),
                4 => request.second = request.first,
                _ => request.second = self.rect_in_force_under(request.number),
            }
        }
        request
    }

    fn search(&mut self, fault: bool) -> Request {
        let window = self.window();
        let mut request = self.dice.pick(&SEARCHES)(window.to_words());
        // A search has no number: this field is not looked at.
        request.number = self.dice.pick(&[0, -1, 5]);
        if fault {
            request.first = self.bad_rect(request.first);
        }
        request
    }

    /// Mostly a window made from rectangles in force, so that inside and enclosing often find
    /// something: one of them, one of them but for a side, one that lies in one of them, or one
    /// that holds several. Else the whole site, or a window of the style.
    fn window(&mut self) -> Rect {
        if self.in_force.is_empty() {
            return self.style.window(&mut self.dice);
        }
        let rect = self.dice.pick(&self.in_force).rect;
        match self.dice.weighted(&[20, 15, 15, 15, 5, 30]) {
            0 => rect,
            1 => window_one_off(&rect, &mut self.dice),
            2 => window_within(&rect, &mut self.dice),
            3 => self.window_that_holds(rect),
            4 => whole_site(),
            _ => self.style.window(&mut self.dice),
        }
    }

    /// The joint cover of a rectangle and one to three others in force: some of them share a side
    /// with it, and others may lie deeper in it.
    fn window_that_holds(&mut self, rect: Rect) -> Rect {
        let more = self.dice.between(1, 3);
        (0..more).fold(rect, |all, _| joint_cover(&all, &self.dice.pick(&self.in_force).rect))
    }

    /// A new pair; one time in five under the number of a pair in force.
    fn fresh_pair(&mut self) -> Pair {
        let rect = self.new_rect();
        if self.dice.chance(20) && !self.in_force.is_empty() {
            let place = self.dice.below(self.in_force.len() as u64) as usize;
            return Pair { number: self.in_force[place].number, rect };
        }
        Pair { number: RecordNumber(i64::from(self.style.number(&mut self.dice))), rect }
    }

    /// A rectangle of the style; one time in ten one that is there already.
    fn new_rect(&mut self) -> Rect {
        if self.dice.chance(10) && !self.in_force.is_empty() {
            let place = self.dice.below(self.in_force.len() as u64) as usize;
            return self.in_force[place].rect;
        }
        self.style.rect(&mut self.dice)
    }

    /// Mostly of a pair in force; in `duplicates` one time in five of any pair of the style.
    fn of_pair_in_force(&mut self, make: impl Fn(i32, [i32; 4]) -> Request) -> Request {
        let any_pair = self.style == Style::Duplicates && self.dice.chance(20);
        if any_pair || self.in_force.is_empty() {
            let rect = self.style.rect(&mut self.dice);
            return make(self.style.number(&mut self.dice), rect.to_words());
        }
        let place = self.dice.below(self.in_force.len() as u64) as usize;
        let pair = self.in_force[place];
        make(number_word(&pair), pair.rect.to_words())
    }

    /// A rectangle held under the number, if there is one, else any rectangle.
    fn rect_in_force_under(&mut self, number: i32) -> [i32; 4] {
        let same = |p: &&Pair| number_word(p) == number;
        let rects: Vec<Rect> = self.in_force.iter().filter(same).map(|p| p.rect).collect();
        match rects.is_empty() {
            true => self.style.rect(&mut self.dice).to_words(),
            false => self.dice.pick(&rects).to_words(),
        }
    }

    /// Low above high, or a coordinate out of range.
    fn bad_rect(&mut self, rect: [i32; 4]) -> [i32; 4] {
        let mut bad = rect;
        let axis = self.dice.below(2) as usize;
        if self.dice.chance(50) {
            bad[axis] = 1_000;
            bad[axis + 2] = 999;
        } else {
            let beyond = COORDINATE_LIMIT as i32 + 1;
            let place = self.dice.below(4) as usize;
            bad[place] = self.dice.pick(&[beyond, -beyond, i32::MAX, i32::MIN]);
        }
        bad
    }

    fn bad_number(&mut self) -> i32 {
        self.dice.pick(&[0, 0, -1, i32::MIN])
    }
}

/// The pair of a number and a rectangle in words.
pub fn pair_of(number: i32, rect: [i32; 4]) -> Pair {
    Pair { number: RecordNumber(i64::from(number)), rect: Rect::from_words(rect) }
}

fn number_word(pair: &Pair) -> i32 {
    i32::try_from(pair.number.0).expect("a record number fits a word")
}

/// A history from a blank pool, and the pool that it leaves.
pub struct History {
    pub requests: Vec<Request>,
    pub pool: Vec<i32>,
}

/// Draws a history; each request is done as a batch of one to learn what is in force.
pub fn history(style: Style, seed: u64, slots: usize, count: usize) -> History {
    let mut generator = Generator::new(style, seed, slots);
    let mut pool = blank_pool(slots);
    let mut work = pool.clone();
    let mut found = vec![Found::default(); slots * 8];
    let mut requests = Vec::new();
    for _ in 0..count {
        let request = generator.draw();
        let mut answers = [Answer::default()];
        let result = call(&mut pool, &mut work, &[request], &mut answers, &mut found);
        assert_eq!(result, 0, "slots are 1 to 4,096");
        generator.answered(&request, answers[0].number);
        requests.push(request);
    }
    History { requests, pool }
}

/// The history as a script. The found list is drawn short or long, so that 8 happens too.
pub fn script(style: Style, seed: u64, slots: usize, count: usize) -> String {
    let mut dice = Dice::new(seed.wrapping_add(1));
    let found = dice.pick(&[8, 64, 64, 256, 1_024, 4_096]);
    let mut output = format!("# {style:?} history, seed {seed}, {count} requests\n");
    output.push_str(&format!("blank {slots}\nwork same\nfound {found}\n"));
    for request in history(style, seed, slots, count).requests {
        output.push_str(&request_line(&request));
        output.push('\n');
    }
    output
}
