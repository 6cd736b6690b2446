//! What a slot, a message and a record hold, and how it lies in bytes. Reading answers `None` where a byte stands for
//! nothing.

use crate::answers::{unknown, DONE};
use crate::bytes::{
    put_word, word, ContentsBytes, SetBytes, CONTENTS_BYTES, REPLICAS, REQUESTS, REQUEST_BYTES, SET_BYTES,
};
use crate::raw;
use std::fmt;

/// The status of a slot, in rising order.
#[derive(Clone, Copy, Debug, PartialEq, Eq, PartialOrd, Ord, Hash)]
pub enum Status {
    /// Nothing is known of the slot.
    Null,
    /// A PreAccept is stored.
    PreAccepting,
    /// An Accept is stored.
    Accepting,
    /// The contents are decided.
    Committed,
    /// The slot has run.
    Executed,
}

impl Status {
    pub(crate) fn of(byte: u8) -> Option<Status> {
        use Status::*;
        [Null, PreAccepting, Accepting, Committed, Executed].get(usize::from(byte)).copied()
    }
}

/// A dependency set: per row nothing or a column.
///
/// A column above 254 is kept as 254; like every column of 32 or more it is refused with 4.
#[derive(Clone, Copy, PartialEq, Eq, Hash)]
pub struct DepSet(SetBytes); // per row 0 for nothing, else the column and one

impl DepSet {
    /// The empty set.
    pub const EMPTY: DepSet = DepSet([0; SET_BYTES]);

    /// The set with these columns, row 0 first; in later rows it has nothing. More than 7 rows do not compile.
    pub fn of<const ROWS: usize>(columns: [Option<u64>; ROWS]) -> DepSet {
        const { assert!(ROWS <= REPLICAS, "a dependency set has 7 rows") };
        let mut set = DepSet::EMPTY;
        for (byte, column) in set.0.iter_mut().zip(columns) {
            *byte = column.map_or(0, |c| u8::try_from(c).unwrap_or(u8::MAX).saturating_add(1));
        }
        set
    }

    /// Per row nothing or the column.
    pub fn columns(&self) -> [Option<u64>; REPLICAS] {
        self.0.map(|byte| byte.checked_sub(1).map(u64::from))
    }

    /// Per row the greater column, or the only one.
    pub fn union(self, other: DepSet) -> DepSet {
        let mut out = DepSet::EMPTY;
        match raw::union(&self.0, &other.0, &mut out.0) {
            DONE => out,
            number => unknown("nj_union", number),
        }
    }

    pub(crate) fn read(bytes: &[u8]) -> DepSet {
        let mut set = DepSet::EMPTY;
        set.0.copy_from_slice(&bytes[..SET_BYTES]);
        set
    }

    pub(crate) fn write(&self, to: &mut [u8]) {
        to[..SET_BYTES].copy_from_slice(&self.0);
    }
}

/// As in `[1,_,3,_,_,_,_]`.
impl fmt::Display for DepSet {
    fn fmt(&self, f: &mut fmt::Formatter<'_>) -> fmt::Result {
        let columns = self.columns().map(|column| column.map_or("_".to_string(), |c| c.to_string()));
        write!(f, "[{}]", columns.join(","))
    }
}

impl fmt::Debug for DepSet {
    fn fmt(&self, f: &mut fmt::Formatter<'_>) -> fmt::Result {
        fmt::Display::fmt(self, f)
    }
}

/// What a request does.
#[derive(Clone, Copy, Debug, PartialEq, Eq, Hash)]
pub enum Kind {
    /// Neither a put nor a get: it has no key.
    Other,
    /// Puts the value under the key.
    Put {
        /// 0 to 255; another is refused with 5.
        key: u16,
        /// Any number.
        value: u64,
    },
    /// Reads the key.
    Get {
        /// 0 to 255; another is refused with 5.
        key: u16,
    },
}

/// A request of a client.
#[derive(Clone, Copy, Debug, PartialEq, Eq, Hash)]
pub struct Request {
    /// Whose it is.
    pub client: u64,
    /// The client's own number for it.
    pub id: u64,
    /// What it does.
    pub kind: Kind,
}

impl Request {
    fn read(bytes: &[u8]) -> Option<Request> {
        let key = u16::from_le_bytes([bytes[17], bytes[18]]);
        let kind = match bytes[16] {
            0 => Kind::Other,
            1 => Kind::Put { key, value: word(bytes, 19) },
            2 => Kind::Get { key },
            _ => return None,
        };
        Some(Request { client: word(bytes, 0), id: word(bytes, 8), kind })
    }

    fn write(&self, to: &mut [u8]) {
        let (kind, key, value) = match self.kind {
            Kind::Other => (0, 0, 0),
            Kind::Put { key, value } => (1, key, value),
            Kind::Get { key } => (2, key, 0),
        };
        put_word(to, 0, self.client);
        put_word(to, 8, self.id);
        to[16] = kind;
        to[17..19].copy_from_slice(&key.to_le_bytes());
        put_word(to, 19, value);
    }
}

/// A batch: at most 4 requests; more are refused with 5. The empty one does nothing.
pub type Batch = Vec<Request>;

fn read_batch(bytes: &[u8]) -> Option<Batch> {
    let count = usize::from(bytes[0]);
    if count > REQUESTS {
        return None;
    }
    bytes[1..].chunks_exact(REQUEST_BYTES).take(count).map(Request::read).collect()
}

/// A batch over 4 has no room: its count goes over, for the core to refuse, with the first four requests.
pub(crate) fn write_batch(batch: &[Request], to: &mut [u8]) {
    to[0] = u8::try_from(batch.len()).unwrap_or(u8::MAX);
    for (room, request) in to[1..].chunks_exact_mut(REQUEST_BYTES).take(REQUESTS).zip(batch) {
        request.write(room);
    }
}

/// What a slot, a message or a record holds.
#[derive(Clone, Debug, PartialEq, Eq, Hash)]
pub struct Contents {
    /// The sequence number, up to 4,294,967,295; a greater one is refused with 6.
    pub sequence: u64,
    /// The slots that it depends on.
    pub dependencies: DepSet,
    /// The requests.
    pub batch: Batch,
}

impl Contents {
    pub(crate) fn read(bytes: &[u8]) -> Option<Contents> {
        let batch = read_batch(&bytes[15..CONTENTS_BYTES])?;
        Some(Contents { sequence: word(bytes, 0), dependencies: DepSet::read(&bytes[8..]), batch })
    }

    pub(crate) fn bytes(&self) -> ContentsBytes {
        let mut bytes = [0; CONTENTS_BYTES];
        put_word(&mut bytes, 0, self.sequence);
        self.dependencies.write(&mut bytes[8..]);
        write_batch(&self.batch, &mut bytes[15..]);
        bytes
    }
}
