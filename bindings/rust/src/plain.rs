//! The calls that are told an owner, or an edition and a rule, as plain numbers, with the number that comes back: for a program that
//! takes them from elsewhere, and for tests of what is refused. A number that no enum has is refused: 13 for an owner, -1 for an
//! edition or a rule.

use crate::{exported, Answer, Found, Request};

/// As `blank_as`: -1 for an edition or a rule that there is none of, then 1 for the length, and nothing written; else 0.
pub fn blank_as(pool: &mut [i32], edition: i32, rule: i32) -> i32 {
    // SAFETY: as for `blank`.
    unsafe { exported::dustmap_blank_as(pool.as_mut_ptr(), pool.len(), edition, rule) }
}

/// As `call_as`: 0, or the refusal of the whole call, 9, 13 for an owner that is neither 1 nor 2, 1, 2 or -1, checked in this order,
/// and nothing written.
pub fn call_as(
    pool: &mut [i32],
    work: &mut [i32],
    requests: &[Request],
    answers: &mut [Answer],
    found: &mut [Found],
    owner: i32,
) -> i32 {
    // SAFETY: as for `call`.
    unsafe {
        exported::dustmap_call_as(
            pool.as_mut_ptr(),
            pool.len(),
            work.as_mut_ptr(),
            work.len(),
            requests.as_ptr(),
            requests.len(),
            answers.as_mut_ptr(),
            answers.len(),
            found.as_mut_ptr(),
            found.len(),
            owner,
        )
    }
}

/// As `read_as`: -1 for an edition or a rule that there is none of, then 1, and nothing written; 0; or what is wrong with the first
/// frame at fault.
pub fn read_as(pool: &mut [i32], work: &mut [i32], file: &[u8], edition: i32, rule: i32) -> i32 {
    // SAFETY: as for `read`.
    unsafe {
        exported::dustmap_read_as(
            pool.as_mut_ptr(),
            pool.len(),
            work.as_mut_ptr(),
            work.len(),
            file.as_ptr(),
            file.len(),
            edition,
            rule,
        )
    }
}
