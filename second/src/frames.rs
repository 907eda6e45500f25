//! Frames: "two bytes length of what follows, two bytes kind, then signed 32-bit words, all
//! little-endian". `dustmap` reads them, and a file of records is made of them.

/// A frame taken off the front of some bytes.
#[derive(Clone, Copy, Debug, PartialEq, Eq)]
pub struct Frame<'a> {
    pub kind: u16,
    /// What the length field says: two for the kind, and the bytes of the words.
    pub length: usize,
    pub body: &'a [u8],
}

impl Frame<'_> {
    /// The words of a frame whose length is known to leave whole words.
    pub fn words(&self) -> Vec<i32> {
        self.body.chunks_exact(4).map(|b| i32::from_le_bytes([b[0], b[1], b[2], b[3]])).collect()
    }
}

/// Takes a frame off the front. None where it is cut, or has no kind.
pub fn take_frame<'a>(rest: &mut &'a [u8]) -> Option<Frame<'a>> {
    let length = usize::from(take_two(rest)?);
    let mut body = rest.get(..length)?;
    *rest = &rest[length..];
    let kind = take_two(&mut body)?;
    Some(Frame { kind, length, body })
}

fn take_two(rest: &mut &[u8]) -> Option<u16> {
    let two = rest.get(..2)?;
    let value = u16::from_le_bytes([two[0], two[1]]);
    *rest = &rest[2..];
    Some(value)
}

/// The length field of a frame of so many words.
pub fn length_of(words: usize) -> usize {
    2 + 4 * words
}

/// The bytes of a frame.
pub fn frame(kind: u16, words: &[i32]) -> Vec<u8> {
    let length = u16::try_from(length_of(words.len())).expect("a short frame");
    let mut bytes = length.to_le_bytes().to_vec();
    bytes.extend(kind.to_le_bytes());
    bytes.extend(words.iter().flat_map(|word| word.to_le_bytes()));
    bytes
}
