//! The lengths of the layouts of docs/IMAGE.md, and numbers in bytes, low byte first.

/// How long a table's image is.
pub const IMAGE_BYTES: usize = 33_618;

/// How many replicas there are at most, and rows of a table: replies, votes and marks have so many.
pub const REPLICAS: usize = 7;

pub(crate) const COLUMNS: usize = 32;
pub(crate) const REQUESTS: usize = 4;
pub(crate) const SET_BYTES: usize = REPLICAS;
pub(crate) const REQUEST_BYTES: usize = 27;
pub(crate) const BATCH_BYTES: usize = 1 + REQUESTS * REQUEST_BYTES;
pub(crate) const REPLY_BYTES: usize = 8 + SET_BYTES;
pub(crate) const CONTENTS_BYTES: usize = REPLY_BYTES + BATCH_BYTES;
pub(crate) const SLOT_BYTES: usize = 18 + CONTENTS_BYTES;
pub(crate) const RECORD_BYTES: usize = 21 + CONTENTS_BYTES;
pub(crate) const OUT_BYTES: usize = 1 + 2 * RECORD_BYTES;

pub(crate) type Image = [u8; IMAGE_BYTES];
pub(crate) type SetBytes = [u8; SET_BYTES];
pub(crate) type ContentsBytes = [u8; CONTENTS_BYTES];
pub(crate) type Out = [u8; OUT_BYTES];
pub(crate) type Order = [u8; REPLICAS * COLUMNS];
pub(crate) type Ran = [u8; 8];
pub(crate) type Marks = [u8; REPLICAS];
pub(crate) type Replies = [u8; REPLICAS * (1 + REPLY_BYTES)];
pub(crate) type ReplyBytes = [u8; REPLY_BYTES];
pub(crate) type Votes = [u8; REPLICAS * (2 + CONTENTS_BYTES)];

// The same lengths as the documents have them.
const _: () = assert!(CONTENTS_BYTES == 124 && SLOT_BYTES == 142 && RECORD_BYTES == 145 && OUT_BYTES == 291);
const _: () = assert!(size_of::<Replies>() == 112 && size_of::<Votes>() == 882 && size_of::<Order>() == 224);
const _: () = assert!(1_810 + REPLICAS * COLUMNS * SLOT_BYTES == IMAGE_BYTES);

/// The number in the 8 bytes there.
pub(crate) fn word(bytes: &[u8], at: usize) -> u64 {
    let mut word = [0; 8];
    word.copy_from_slice(&bytes[at..at + 8]);
    u64::from_le_bytes(word)
}

pub(crate) fn put_word(bytes: &mut [u8], at: usize, number: u64) {
    bytes[at..at + 8].copy_from_slice(&number.to_le_bytes());
}

/// A mark is 0 or 1; another byte stands for nothing.
pub(crate) fn mark(byte: u8) -> Option<bool> {
    match byte {
        0 => Some(false),
        1 => Some(true),
        _ => None,
    }
}

pub(crate) fn marks(bytes: &[u8]) -> Option<[bool; REPLICAS]> {
    let mut marks = [false; REPLICAS];
    for (to, byte) in marks.iter_mut().zip(bytes) {
        *to = mark(*byte)?;
    }
    Some(marks)
}

pub(crate) fn put_marks(marks: &[bool; REPLICAS]) -> Marks {
    marks.map(u8::from)
}
