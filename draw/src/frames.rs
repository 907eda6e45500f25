//! The frames that `dustmap` reads: "two bytes length of what follows, two bytes kind, then signed 32-bit words, all
//! little-endian".

use dustmap::{Rect, Request, DELETE, INSERT, SEARCH, SEARCH_ENCLOSING, SEARCH_INSIDE, UPDATE};

/// The requests of the frames, up to the first bad one; and whether there was one.
pub fn requests(mut bytes: &[u8]) -> (Vec<Request>, bool) {
    let mut requests = Vec::new();
    while !bytes.is_empty() {
        match next(&mut bytes) {
            Some(request) => requests.push(request),
            None => return (requests, true),
        }
    }
    (requests, false)
}

/// Takes a frame off the front; none where it is cut, of unknown kind or of wrong length.
fn next(bytes: &mut &[u8]) -> Option<Request> {
    let (length, rest) = bytes.split_first_chunk::<2>()?;
    let (body, rest) = rest.split_at_checked(usize::from(u16::from_le_bytes(*length)))?;
    let (kind, words) = body.split_first_chunk::<2>()?;
    *bytes = rest;
    request(i32::from(u16::from_le_bytes(*kind)), words)
}

/// "Kind 1 insert and 2 delete: number, rectangle (length 22). 3 update: number, old, new (38). 4 search: window (18)." "kinds 5
/// and 6, of the same layout, are inside and enclosing". The lengths count the kind's two bytes.
fn request(kind: i32, bytes: &[u8]) -> Option<Request> {
    let words: Vec<i32> = bytes
        .chunks(4)
        .map(|b| b.try_into().map(i32::from_le_bytes))
        .collect::<Result<_, _>>()
        .ok()?;
    let rect =
        |at: usize| Rect::from_words([words[at], words[at + 1], words[at + 2], words[at + 3]]);
    match (kind, words.len()) {
        (INSERT, 5) => Some(Request::insert(words[0], rect(1))),
        (DELETE, 5) => Some(Request::delete(words[0], rect(1))),
        (UPDATE, 9) => Some(Request::update(words[0], rect(1), rect(5))),
        (SEARCH, 4) => Some(Request::search(rect(0))),
        (SEARCH_INSIDE, 4) => Some(Request::search_inside(rect(0))),
        (SEARCH_ENCLOSING, 4) => Some(Request::search_enclosing(rect(0))),
        _ => None,
    }
}
