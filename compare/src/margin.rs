//! Lists that are lent from the middle of longer ones, so that what lies beside them is seen.

/// Items before and after a list that are not lent with it.
const MARGIN: usize = 8;

/// A list that is lent from the middle of a longer one. What is before it and after it has to stay.
pub struct Among<T> {
    all: Vec<T>,
    beyond: T,
}

impl<T: Copy + PartialEq> Among<T> {
    pub fn new(list: &[T], beyond: T) -> Among<T> {
        let margin = [beyond; MARGIN];
        Among { all: [&margin, list, &margin].concat(), beyond }
    }

    /// The first of the items that are lent, or where it would be.
    pub fn pointer(&mut self) -> *mut T {
        self.all.as_mut_ptr().wrapping_add(MARGIN)
    }

    /// The list as it was left.
    pub fn left(self, what: &str) -> Result<Vec<T>, String> {
        let (before, rest) = self.all.split_at(MARGIN);
        let (list, after) = rest.split_at(rest.len() - MARGIN);
        if before.iter().chain(after).any(|item| *item != self.beyond) {
            return Err(format!("wrote beyond the {what}"));
        }
        Ok(list.to_vec())
    }
}
