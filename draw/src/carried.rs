//! A file that carries a map between offices. It is drawn as the pool that a read of it leaves.

use crate::asked::refused;
use dustmap::{read_as, Edition, Rule};

/// "kind 16 first": no frame of a request has that kind.
const HEAD: [u8; 2] = [16, 0];

/// Whether the bytes are a map's file, and not frames of requests.
pub fn is_file(bytes: &[u8]) -> bool {
    bytes.get(2..4) == Some(&HEAD)
}

/// The pool of so many slots that a read of the file leaves, in the edition that the file has.
pub fn pool(bytes: &[u8], slots: usize) -> Result<Vec<i32>, String> {
    let edition = edition(bytes);
    let mut pool = vec![0; edition.words(slots)];
    let mut work = pool.clone();
    read_as(&mut pool, &mut work, bytes, edition, Rule::Quadratic)
        .map_err(|number| refused("file", number))?;
    Ok(pool)
}

/// "(edition 1, record count)": what the first word says. Where that is no edition, the library refuses the file as one of edition 1.
fn edition(bytes: &[u8]) -> Edition {
    let word = bytes.get(4..).and_then(|rest| rest.first_chunk()).map(|w| i32::from_le_bytes(*w));
    word.and_then(|number| Edition::try_from(number).ok()).unwrap_or_default()
}
