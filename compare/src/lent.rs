//! What a call is lent, and what comes back of it.

use second::{Answer, Found, Request};

/// All that a call is lent, in the types of the second program.
#[derive(Clone)]
pub struct Lent {
    pub pool: Vec<i32>,
    pub work: Vec<i32>,
    pub requests: Vec<Request>,
    pub answers: Vec<Answer>,
    pub found: Vec<Found>,
}

/// What came back: the number, and the lists as the second program left them.
pub struct Left {
    pub number: i32,
    pub lent: Lent,
}
