//! How many questions were asked, and how often the answer was right.

/// This many differences are printed; the rest are only counted.
const MOST_SHOWN: usize = 40;

#[derive(Default)]
pub struct Tally {
    pub passed: usize,
    pub failed: usize,
}

impl Tally {
    /// Counts one question. It is printed only where the answer was wrong.
    pub fn hold(&mut self, right: bool, what: impl FnOnce() -> String) {
        if right {
            self.passed += 1;
            return;
        }
        self.failed += 1;
        if self.failed <= MOST_SHOWN {
            println!("{}", what());
        }
    }
}
