//! Plain data in the words of the rules: what the Rust is given, and what is read back from it.
use std::collections::BTreeMap;

pub type Deps = Vec<Option<usize>>;

#[derive(Clone, Copy, PartialEq, Eq, Debug)]
pub struct Config {
    pub n: usize,
    pub own: usize,
    pub simple: usize,
    pub sup: usize,
}

#[derive(Clone, Copy, PartialEq, Eq, PartialOrd, Ord, Debug)]
pub enum Status {
    Null,
    PreAccepting,
    Accepting,
    Committed,
    Executed,
}

impl Status {
    /// By their numbers in bytes and traces.
    pub const ALL: [Status; 5] =
        [Status::Null, Status::PreAccepting, Status::Accepting, Status::Committed, Status::Executed];

    /// The status that a log event of this number is of: only three are logged.
    pub fn logged(number: u64) -> Option<Status> {
        matches!(number, 1..=3).then(|| Status::ALL[number as usize])
    }
}

#[derive(Clone, PartialEq, Eq, Debug)]
pub enum Kind {
    Other,
    Put { key: u64, value: u64 },
    Get { key: u64 },
}

#[derive(Clone, PartialEq, Eq, Debug)]
pub struct Request {
    pub client: u64,
    pub id: u64,
    pub kind: Kind,
}

#[derive(Clone, PartialEq, Eq, Debug)]
pub struct Contents {
    pub seq: u64,
    pub deps: Deps,
    pub batch: Vec<Request>,
}

#[derive(Clone, PartialEq, Eq, Debug)]
pub struct Slot {
    pub ballot: u64,
    pub status: Status,
    pub contents: Contents,
    pub source: Option<usize>,
    /// The leader's accept marks, a bit a replica.
    pub marks: Option<u64>,
}

#[derive(Clone, PartialEq, Eq, Debug)]
pub struct Table {
    pub rows: Vec<Vec<Slot>>,
    pub bars: Vec<usize>,
    pub keys: BTreeMap<u64, Deps>,
}

/// Row and column, as a trace gives them: any number.
#[derive(Clone, Copy, PartialEq, Eq, Debug)]
pub struct Place {
    pub row: u64,
    pub col: u64,
}

#[derive(Clone, Copy, PartialEq, Eq, Debug)]
pub enum Store {
    PreAccept,
    Accept,
    CommitNotice,
}

/// An event of a trace. Dependencies are 0 for nothing, or a column and one; the status of a log event is any number too.
#[derive(Clone, PartialEq, Eq, Debug)]
pub enum Event {
    Store { what: Store, peer: u64, at: Place, ballot: u64, seq: u64, deps: Vec<u64>, batch: Vec<Request> },
    AcceptReply { peer: u64, at: Place, ballot: u64 },
    ExpPrepare { peer: u64, at: Place, ballot: u64 },
    Logged { at: Place, status: u64 },
    Attempt { at: Place },
    Lead { at: Place },
}

#[derive(Clone, Copy, PartialEq, Eq, Debug)]
pub enum Answer {
    Done,
    Ignored,
    NotYet,
    Already,
    Refused(u8),
}

pub type SlotAt = (usize, usize);

/// What a call hands to the hubs, with all that a record of the rules has. The Rust's PreAcceptReply has no status and no
/// batch, its AcceptReply nothing but the ballot: what it lacks is the slot's, as it stands.
#[derive(Clone, PartialEq, Eq, Debug)]
pub enum Output {
    Log {
        status: Status,
        slot: SlotAt,
        ballot: u64,
        contents: Contents,
    },
    CommitNotice {
        slot: SlotAt,
        ballot: u64,
        contents: Contents,
    },
    PreAcceptReply {
        to: usize,
        slot: SlotAt,
        ballot: u64,
        status: Status,
        contents: Contents,
    },
    NoteToSelf {
        slot: SlotAt,
        ballot: u64,
        status: Status,
        contents: Contents,
    },
    AcceptReply {
        to: usize,
        slot: SlotAt,
        ballot: u64,
        status: Status,
        contents: Contents,
    },
    ExpPrepareReply {
        to: usize,
        slot: SlotAt,
        new_ballot: u64,
        ballot: u64,
        status: Status,
        contents: Contents,
    },
    /// What the base of the rules has no record for.
    Beyond(String),
}

/// What one event did.
#[derive(Clone, PartialEq, Eq, Debug)]
pub struct Stepped {
    pub answer: Answer,
    pub output: Vec<Output>,
    /// The slots handed to the state machine, in order.
    pub submitted: Vec<SlotAt>,
    /// What the Rust went on to do where the base of the rules ends, and what was put back.
    pub put_back: Vec<Output>,
}

#[derive(Clone, PartialEq, Eq, Debug)]
pub struct Reply {
    pub replica: usize,
    pub seq: u64,
    pub deps: Deps,
}

#[derive(Clone, PartialEq, Eq, Debug)]
pub struct Vote {
    pub replica: usize,
    pub status: Status,
    pub contents: Contents,
}

/// What a recovery choice is asked with, besides the quorum.
#[derive(Clone, PartialEq, Eq, Debug)]
pub struct Prepare {
    pub row: usize,
    pub highest: u64,
    pub default: u64,
    pub acks: Vec<usize>,
    pub votes: Vec<Vote>,
}
