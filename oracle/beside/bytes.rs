//! How a call of a C function of crates/host lies in bytes.
use summerset::plain::{Config, Contents, Deps, Kind, Request as Asked, Status};
use summerset::refusals::{self, COLUMNS};

/// What `out` is filled with before a call, and how many bytes behind it, and behind an image, are watched.
pub const FILL: u8 = 0xA5;
pub const BEHIND: usize = 16;

pub const REPLICAS: usize = 7;
pub const SET: usize = 7;
pub const WORD: usize = 8;
pub const REQUEST: usize = 27;
pub const REQUESTS: usize = 4;
pub const BATCH: usize = 1 + REQUESTS * REQUEST;
pub const BATCH_IN_CONTENTS: usize = WORD + SET;
pub const CONTENTS: usize = BATCH_IN_CONTENTS + BATCH;
/// A table's image, and what a handler puts out.
pub const IMAGE: usize = 33_618;
pub const OUT: usize = 291;
/// The least entries of the order list that an attempt is lent: one for each slot that there is room for.
pub const ORDER: usize = 224;
pub const KIND_IN_REQUEST: usize = 16;
pub const KEY_IN_REQUEST: usize = 17;
pub const VALUE_IN_REQUEST: usize = 19;

/// Where the sequences and the sets of the replies, or of the votes, begin; the marks begin at 0.
pub struct Parts {
    pub seqs: usize,
    pub deps: usize,
    pub length: usize,
}

pub const REPLIES: Parts = Parts { seqs: 7, deps: 63, length: 112 };
pub const VOTES: Parts = Parts { seqs: 14, deps: 70, length: 882 };
pub const VOTE_STATUSES: usize = 7;
pub const VOTE_BATCHES: usize = 119;

#[derive(Clone, Copy, PartialEq, Eq, Debug)]
pub enum Function {
    Union,
    Fast,
    RustChoice,
    PaperChoice,
    Open,
    PreAccept,
    Accept,
    CommitNotice,
    AcceptReply,
    ExpPrepare,
    Lead,
    Attempt,
    Logged,
}

impl Function {
    pub const ALL: [Function; 13] = [
        Function::Union,
        Function::Fast,
        Function::RustChoice,
        Function::PaperChoice,
        Function::Open,
        Function::PreAccept,
        Function::Accept,
        Function::CommitNotice,
        Function::AcceptReply,
        Function::ExpPrepare,
        Function::Lead,
        Function::Attempt,
        Function::Logged,
    ];

    pub fn name(self) -> &'static str {
        match self {
            Function::Union => "union",
            Function::Fast => "fast decision",
            Function::RustChoice => "recovery choice, the Rust's counts",
            Function::PaperChoice => "recovery choice, the paper's count",
            Function::Open => "open",
            Function::PreAccept => "PreAccept",
            Function::Accept => "Accept",
            Function::CommitNotice => "CommitNotice",
            Function::AcceptReply => "AcceptReply",
            Function::ExpPrepare => "ExpPrepare",
            Function::Lead => "Lead",
            Function::Attempt => "Attempt",
            Function::Logged => "Logged",
        }
    }

    /// Its number in a request and in a list.
    pub fn number(self) -> u8 {
        self as u8 + 1
    }

    pub fn is_choice(self) -> bool {
        matches!(self, Function::RustChoice | Function::PaperChoice)
    }

    pub fn takes_contents(self) -> bool {
        matches!(self, Function::PreAccept | Function::Accept | Function::CommitNotice)
    }

    /// Whether it works on a table; its second slice then says how the image is spoiled.
    pub fn takes_table(self) -> bool {
        self as u8 >= Function::Open as u8
    }

    /// Whether it may run slots: it is lent an order list, its first slice, and `ran`, the number of slots run.
    pub fn takes_list(self) -> bool {
        matches!(self, Function::Attempt | Function::Logged)
    }

    /// The least lengths of its two slices, of `out` and of `ran`. An order list may be short: that is refused by a number
    /// of its own.
    pub fn lengths(self) -> [usize; 4] {
        match self {
            Function::Union => [SET, SET, SET, 0],
            Function::Fast => [REPLIES.length, REPLICAS, WORD + SET, 0],
            Function::RustChoice | Function::PaperChoice => [REPLICAS, VOTES.length, CONTENTS, 0],
            Function::Open => [0; 4],
            Function::PreAccept | Function::Accept | Function::CommitNotice => [CONTENTS, 0, OUT, 0],
            Function::AcceptReply | Function::ExpPrepare | Function::Lead => [0, 0, OUT, 0],
            Function::Attempt => [0, 0, 0, WORD],
            Function::Logged => [0, 0, OUT, WORD],
        }
    }
}

/// A call as it is made: anything may stand in it.
#[derive(Clone, Debug)]
pub struct Request {
    pub function: Function,
    pub numbers: Vec<u64>,
    pub slices: [Vec<u8>; 2],
    pub out: usize,
    pub ran: usize,
}

impl Request {
    /// With as much room for what it writes as it has to have.
    pub fn new(function: Function, numbers: Vec<u64>, slices: [Vec<u8>; 2]) -> Self {
        let [_, _, out, ran] = function.lengths();
        Request { function, numbers, slices, out, ran }
    }

    /// The first four numbers, where they are within the bounds; of the union there are none.
    pub fn config(&self) -> Option<Config> {
        refusals::config(self.numbers.get(..4)?.try_into().ok()?)
    }

    /// Where the slot that a handler is called for stands among all, 32 a row, where there is room for it.
    pub fn index(&self) -> Option<usize> {
        let at = if matches!(self.function, Function::Lead | Function::Attempt | Function::Logged) { 0 } else { 1 };
        let (row, col) = (*self.numbers.get(at)?, *self.numbers.get(at + 1)?);
        (row < REPLICAS as u64 && col < COLUMNS).then(|| (row * COLUMNS + col) as usize)
    }

    /// The order list that what may run slots is lent, as it is before.
    pub fn list(&self) -> Option<&[u8]> {
        self.function.takes_list().then_some(&self.slices[0])
    }

    /// The number of a log event's status.
    pub fn log_status(&self) -> Option<u64> {
        (self.function == Function::Logged).then(|| self.numbers[2])
    }

    pub fn put(&self, frame: &mut Vec<u8>) {
        frame.push(self.function.number());
        for number in &self.numbers {
            frame.extend(number.to_le_bytes());
        }
        for slice in &self.slices {
            frame.extend((slice.len() as u32).to_le_bytes());
            frame.extend(slice);
        }
        for length in [self.out, self.ran] {
            frame.extend((length as u32).to_le_bytes());
        }
    }
}

pub const DONE: u64 = 100;
pub const IGNORED: u64 = 101;
pub const NOT_YET: u64 = 102;
pub const ALREADY: u64 = 103;
pub const WAIT: u64 = 104;

/// What a call returns, what it writes to `out` and, where it may run slots, to `ran` and the order list, and the image
/// after it, where it works on one.
#[derive(Clone, PartialEq, Eq, Debug)]
pub struct Answer {
    pub code: u64,
    pub out: Vec<u8>,
    pub ran: Vec<u8>,
    pub order: Vec<u8>,
    pub image: Vec<u8>,
}

impl Answer {
    pub fn of(code: u64, out: Vec<u8>) -> Self {
        Answer { code, out, ran: vec![], order: vec![], image: vec![] }
    }

    pub fn unwritten(code: u64) -> Self {
        Answer::of(code, vec![])
    }

    pub fn is_refused(&self) -> bool {
        self.code < DONE
    }

    /// How many slots were run: that many entries of the order list are theirs.
    pub fn slots_run(&self) -> usize {
        word(&self.ran, 0) as usize
    }

    /// Of this request, with the bytes that are watched: what is not written of `out`, `ran` and the order list, and what is
    /// behind, is as it was.
    pub fn with_watched(mut self, request: &Request) -> Self {
        self.out.resize(request.out + BEHIND, FILL);
        if let Some(list) = request.list() {
            self.ran.resize(request.ran + BEHIND, FILL);
            self.order.extend(&list[self.order.len()..]);
            self.order.extend([FILL; BEHIND]);
        }
        if request.function.takes_table() {
            self.image.resize(IMAGE + BEHIND, FILL);
        }
        self
    }

    /// Whether there are contents in `out`, by the code and by the room there is.
    pub fn has_contents(&self, function: Function) -> bool {
        matches!(self.code, DONE | 105..=107) && self.out.len() >= function.lengths()[2]
    }
}

pub fn word(bytes: &[u8], at: usize) -> u64 {
    u64::from_le_bytes(bytes[at..at + WORD].try_into().expect("eight bytes"))
}

pub fn put(bytes: &mut [u8], at: usize, what: &[u8]) {
    bytes[at..at + what.len()].copy_from_slice(what);
}

pub fn set_bytes(deps: &Deps) -> [u8; SET] {
    let mut bytes = [0; SET];
    for (byte, dep) in bytes.iter_mut().zip(deps) {
        *byte = dep.map_or(0, |col| col as u8 + 1);
    }
    bytes
}

pub fn set_at(bytes: &[u8], at: usize, rows: usize) -> Deps {
    bytes[at..at + rows].iter().map(|byte| byte.checked_sub(1).map(usize::from)).collect()
}

fn request_bytes(request: &Asked) -> [u8; REQUEST] {
    let (kind, key, value) = match request.kind {
        Kind::Other => (0, 0, 0),
        Kind::Put { key, value } => (1, key, value),
        Kind::Get { key } => (2, key, 0),
    };
    let mut bytes = [0; REQUEST];
    put(&mut bytes, 0, &request.client.to_le_bytes());
    put(&mut bytes, WORD, &request.id.to_le_bytes());
    bytes[KIND_IN_REQUEST] = kind;
    put(&mut bytes, KEY_IN_REQUEST, &(key as u16).to_le_bytes());
    put(&mut bytes, VALUE_IN_REQUEST, &value.to_le_bytes());
    bytes
}

pub fn key_at(bytes: &[u8]) -> u64 {
    u64::from(u16::from_le_bytes([bytes[KEY_IN_REQUEST], bytes[KEY_IN_REQUEST + 1]]))
}

fn request_at(bytes: &[u8], at: usize) -> Asked {
    let bytes = &bytes[at..at + REQUEST];
    let (key, value) = (key_at(bytes), word(bytes, VALUE_IN_REQUEST));
    let kind = match bytes[KIND_IN_REQUEST] {
        0 => Kind::Other,
        1 => Kind::Put { key, value },
        _ => Kind::Get { key },
    };
    Asked { client: word(bytes, 0), id: word(bytes, WORD), kind }
}

/// A count of more than there is room for is written as it is.
pub fn batch_bytes(batch: &[Asked]) -> [u8; BATCH] {
    let mut bytes = [0; BATCH];
    bytes[0] = batch.len() as u8;
    for (i, request) in batch.iter().take(REQUESTS).enumerate() {
        put(&mut bytes, 1 + i * REQUEST, &request_bytes(request));
    }
    bytes
}

pub fn batch_at(bytes: &[u8], at: usize) -> Vec<Asked> {
    (0..bytes[at] as usize).map(|i| request_at(bytes, at + 1 + i * REQUEST)).collect()
}

/// Requests past a batch's count are nobody's: they are not compared.
pub fn clear_past_count(batch: &mut [u8]) {
    let count = (batch[0] as usize).min(REQUESTS);
    batch[1 + REQUEST * count..BATCH].fill(0);
}

pub fn first_bytes(seq: u64, deps: &Deps) -> Vec<u8> {
    [&seq.to_le_bytes()[..], &set_bytes(deps)].concat()
}

pub fn contents_bytes(contents: &Contents) -> Vec<u8> {
    [&first_bytes(contents.seq, &contents.deps)[..], &batch_bytes(&contents.batch)].concat()
}

pub fn marks_of(replicas: impl Iterator<Item = usize>) -> [u8; REPLICAS] {
    let mut marks = [0; REPLICAS];
    for r in replicas {
        marks[r] = 1;
    }
    marks
}

pub fn marked(marks: &[u8]) -> Vec<usize> {
    (0..REPLICAS).filter(|r| marks[*r] == 1).collect()
}

pub fn status_at(bytes: &[u8], at: usize) -> Status {
    Status::ALL[bytes[at] as usize]
}
