//! What a call answers, and how it is read from the number and the bytes that the core gives.

use crate::bytes::{word, Order, Out, Ran, COLUMNS, RECORD_BYTES};
use crate::contents::{Contents, Status};
use crate::messages::Place;
use crate::refusal::Refusal;

pub(crate) const DONE: u64 = 100;
pub(crate) const IGNORED: u64 = 101;
pub(crate) const NOT_YET: u64 = 102;
pub(crate) const ALREADY: u64 = 103;
pub(crate) const WAIT: u64 = 104;
pub(crate) const COMMITTED: u64 = 105;
pub(crate) const ACCEPTING: u64 = 106;
pub(crate) const PRE_ACCEPTING: u64 = 107;

/// What a message is answered.
#[derive(Clone, Debug, PartialEq, Eq)]
pub enum Handled {
    /// Done: what the call puts out, at most two records, to be logged or sent in this order.
    Done(Vec<Record>),
    /// Ignored: the ballot test failed, or an AcceptReply was not one to count. Null slots up to the column may have been
    /// added.
    Ignored,
}

/// What an attempt is answered.
#[derive(Clone, Debug, PartialEq, Eq)]
pub enum Attempted {
    /// Done: the slots run, in the order in which they run, the asked one among them.
    Done(Vec<Place>),
    /// The slot or something that it leads to is not below its row's commit bar; nothing changes.
    NotYet,
    /// The slot has run before; nothing changes.
    Already,
}

/// What a log event that is not refused does.
#[derive(Clone, Debug, PartialEq, Eq)]
pub struct Logged {
    /// The slots run, in the order in which they run.
    pub ran: Vec<Place>,
    /// What the call puts out, at most two records, to be logged or sent in this order.
    pub records: Vec<Record>,
}

/// What a record is, and to whom it goes.
#[derive(Clone, Copy, Debug, PartialEq, Eq, Hash)]
pub enum What {
    /// A record for the log.
    Log,
    /// A CommitNotice to all.
    CommitNotice,
    /// A PreAcceptReply.
    PreAcceptReply {
        /// The peer that it goes to.
        to: u64,
    },
    /// An AcceptReply.
    AcceptReply {
        /// The peer that it goes to.
        to: u64,
    },
    /// An ExpPrepareReply.
    ExpPrepareReply {
        /// The peer that it goes to.
        to: u64,
        /// The ballot that the ExpPrepare asked with.
        asked: u64,
    },
    /// A note to self, of a slot that this copy leads: its ballot, sequence and dependencies.
    NoteToSelf,
}

/// A record that a call puts out, with the values that the slot has then. What a reply or note has no use for need not be
/// sent.
#[derive(Clone, Debug, PartialEq, Eq)]
pub struct Record {
    /// What it is, and to whom it goes.
    pub what: What,
    /// The slot.
    pub place: Place,
    /// Its status.
    pub status: Status,
    /// Its ballot.
    pub ballot: u64,
    /// Its sequence, dependencies and batch.
    pub contents: Contents,
}

impl Record {
    fn read(bytes: &[u8]) -> Option<Record> {
        let (to, asked) = (u64::from(bytes[1]), word(bytes, 5));
        let what = match bytes[0] {
            1 => What::Log,
            2 => What::CommitNotice,
            3 => What::PreAcceptReply { to },
            4 => What::AcceptReply { to },
            5 => What::ExpPrepareReply { to, asked },
            6 => What::NoteToSelf,
            _ => return None,
        };
        Some(Record {
            what,
            place: Place { row: bytes[2].into(), column: bytes[3].into() },
            status: Status::of(bytes[4])?,
            ballot: word(bytes, 13),
            contents: Contents::read(&bytes[21..])?,
        })
    }
}

/// The function never gives this answer: that is no refusal to hand on, but a fault.
pub(crate) fn unknown(function: &str, number: u64) -> ! {
    panic!("{function} answered {number}, which it never does: a fault of the archive")
}

/// The refusal that the function answered.
pub(crate) fn refused(function: &str, number: u64) -> Refusal {
    Refusal::of(number).unwrap_or_else(|| unknown(function, number))
}

/// What the function wrote, where it can be read.
pub(crate) fn written<T>(function: &str, read: Option<T>) -> T {
    read.unwrap_or_else(|| panic!("{function} wrote a byte that stands for nothing: a fault of the archive"))
}

/// The records of an output.
pub(crate) fn records(function: &str, out: &Out) -> Vec<Record> {
    let count = usize::from(out[0]);
    let all: Option<Vec<Record>> = out[1..].chunks_exact(RECORD_BYTES).take(count).map(Record::read).collect();
    written(function, all.filter(|records| records.len() == count))
}

/// The slots run, of an order list.
pub(crate) fn places(function: &str, order: &Order, ran: &Ran) -> Vec<Place> {
    let count = usize::try_from(u64::from_le_bytes(*ran)).ok();
    let entries = written(function, count.and_then(|count| order.get(..count)));
    let place = |entry: &u8| (usize::from(*entry) / COLUMNS, usize::from(*entry) % COLUMNS);
    entries.iter().map(place).map(|(row, column)| Place { row: row as u64, column: column as u64 }).collect()
}
