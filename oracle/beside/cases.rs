//! The questions in plain words, and as calls.
use crate::bytes::{
    self, ALREADY, BATCH, DONE, Function, IGNORED, NOT_YET, ORDER, REPLIES, Request, SET, VOTE_BATCHES, VOTE_STATUSES,
    VOTES, WORD,
};
use summerset::drive::deps_of;
use summerset::plain::{
    Answer as Answered, Config, Contents, Deps, Event, Place, Prepare, Reply, Stepped, Store, Vote,
};

#[derive(Clone, PartialEq, Eq, Debug)]
pub enum Case {
    Union { a: Deps, b: Deps },
    Fast { config: Config, avoided: bool, replies: Vec<Reply>, silent: Vec<usize> },
    Choice { by: Function, config: Config, prepare: Prepare },
}

pub fn numbers_of(config: &Config) -> [u64; 4] {
    [config.n, config.own, config.simple, config.sup].map(|number| number as u64)
}

/// The call that opens a table.
pub fn open(config: &Config) -> Request {
    call(Function::Open, numbers_of(config).to_vec(), vec![])
}

/// An event of a run as the call of its function, with zeros wherever nothing stands.
pub fn handler(event: &Event) -> Request {
    let message = |peer: u64, at: &Place, ballot: u64| vec![peer, at.row, at.col, ballot];
    match event {
        Event::Store { what, peer, at, ballot, seq, deps, batch } => {
            let function = match what {
                Store::PreAccept => Function::PreAccept,
                Store::Accept => Function::Accept,
                Store::CommitNotice => Function::CommitNotice,
            };
            let contents = Contents { seq: *seq, deps: deps_of(deps), batch: batch.clone() };
            call(function, message(*peer, at, *ballot), bytes::contents_bytes(&contents))
        }
        Event::AcceptReply { peer, at, ballot } => call(Function::AcceptReply, message(*peer, at, *ballot), vec![]),
        Event::ExpPrepare { peer, at, ballot } => call(Function::ExpPrepare, message(*peer, at, *ballot), vec![]),
        Event::Lead { at } => call(Function::Lead, vec![at.row, at.col], vec![]),
        Event::Attempt { at } => call(Function::Attempt, vec![at.row, at.col], vec![0; ORDER]),
        Event::Logged { at, status } => call(Function::Logged, vec![at.row, at.col, *status], vec![0; ORDER]),
    }
}

fn call(function: Function, numbers: Vec<u64>, contents: Vec<u8>) -> Request {
    Request::new(function, numbers, [contents, vec![]])
}

/// The code of what an event did. What the Rust submits is not looked at, since some of it has run before, nor what is put
/// back of a note to self.
pub fn code_of(event: &Event, did: &Stepped) -> Result<u64, String> {
    if !does_no_more(event, did) {
        return Err(format!("more than the event does: {event:?}, {did:?}"));
    }
    let is_attempt = matches!(event, Event::Attempt { .. });
    let is_message = !is_attempt && !matches!(event, Event::Logged { .. });
    match did.answer {
        Answered::Refused(number) => Ok(u64::from(number)),
        Answered::Done => Ok(DONE),
        Answered::Ignored if is_message => Ok(IGNORED),
        Answered::NotYet if is_attempt => Ok(NOT_YET),
        Answered::Already if is_attempt => Ok(ALREADY),
        answer => Err(format!("no answer of the event: {event:?}, {answer:?}")),
    }
}

/// Only attempts and log events submit something, and an attempt does nothing else; only of a note to self is something put
/// back.
fn does_no_more(event: &Event, did: &Stepped) -> bool {
    let [is_silent, submits, is_undone] = [did.output.is_empty(), !did.submitted.is_empty(), !did.put_back.is_empty()];
    match event {
        Event::Attempt { .. } => is_silent && !is_undone,
        Event::Logged { status: 1, .. } => !submits,
        Event::Logged { .. } => (is_silent || !submits) && !is_undone,
        _ => !submits && !is_undone,
    }
}

fn replies_bytes(replies: &[Reply]) -> Vec<u8> {
    let mut bytes = vec![0; REPLIES.length];
    bytes::put(&mut bytes, 0, &bytes::marks_of(replies.iter().map(|r| r.replica)));
    for r in replies {
        bytes::put(&mut bytes, REPLIES.seqs + WORD * r.replica, &r.seq.to_le_bytes());
        bytes::put(&mut bytes, REPLIES.deps + SET * r.replica, &bytes::set_bytes(&r.deps));
    }
    bytes
}

fn votes_bytes(votes: &[Vote]) -> Vec<u8> {
    let mut bytes = vec![0; VOTES.length];
    bytes::put(&mut bytes, 0, &bytes::marks_of(votes.iter().map(|v| v.replica)));
    for v in votes {
        bytes[VOTE_STATUSES + v.replica] = v.status as u8;
        bytes::put(&mut bytes, VOTES.seqs + WORD * v.replica, &v.contents.seq.to_le_bytes());
        bytes::put(&mut bytes, VOTES.deps + SET * v.replica, &bytes::set_bytes(&v.contents.deps));
        bytes::put(&mut bytes, VOTE_BATCHES + BATCH * v.replica, &bytes::batch_bytes(&v.contents.batch));
    }
    bytes
}

fn reply_at(bytes: &[u8], replica: usize, n: usize) -> Reply {
    let seq = bytes::word(bytes, REPLIES.seqs + WORD * replica);
    Reply { replica, seq, deps: bytes::set_at(bytes, REPLIES.deps + SET * replica, n) }
}

fn vote_at(bytes: &[u8], replica: usize, n: usize) -> Vote {
    let contents = Contents {
        seq: bytes::word(bytes, VOTES.seqs + WORD * replica),
        deps: bytes::set_at(bytes, VOTES.deps + SET * replica, n),
        batch: bytes::batch_at(bytes, VOTE_BATCHES + BATCH * replica),
    };
    Vote { replica, status: bytes::status_at(bytes, VOTE_STATUSES + replica), contents }
}

impl Case {
    pub fn function(&self) -> Function {
        match self {
            Case::Union { .. } => Function::Union,
            Case::Fast { .. } => Function::Fast,
            Case::Choice { by, .. } => *by,
        }
    }

    /// As a call, with zeros wherever nothing stands.
    pub fn request(&self) -> Request {
        let function = self.function();
        let (numbers, slices) = match self {
            Case::Union { a, b } => (vec![], [bytes::set_bytes(a).to_vec(), bytes::set_bytes(b).to_vec()]),
            Case::Fast { config, avoided, replies, silent } => {
                let mut numbers = numbers_of(config).to_vec();
                numbers.push(u64::from(*avoided));
                let silent = bytes::marks_of(silent.iter().copied());
                (numbers, [replies_bytes(replies), silent.to_vec()])
            }
            Case::Choice { config, prepare, .. } => {
                let mut numbers = numbers_of(config).to_vec();
                numbers.extend([prepare.row as u64, prepare.highest, prepare.default]);
                let acks = bytes::marks_of(prepare.acks.iter().copied());
                (numbers, [acks.to_vec(), votes_bytes(&prepare.votes)])
            }
        };
        Request::new(function, numbers, slices)
    }

    /// What a call asks that is not refused: only what is marked, and requests up to the count.
    pub fn of(request: &Request) -> Case {
        let [first, second] = &request.slices;
        if request.function == Function::Union {
            return Case::Union { a: bytes::set_at(first, 0, SET), b: bytes::set_at(second, 0, SET) };
        }
        let config = request.config().expect("a call that is not refused");
        let n = config.n;
        if request.function == Function::Fast {
            let replies = bytes::marked(first).into_iter().map(|r| reply_at(first, r, n)).collect();
            let avoided = request.numbers[4] == 1;
            return Case::Fast { config, avoided, replies, silent: bytes::marked(second) };
        }
        let prepare = Prepare {
            row: request.numbers[4] as usize,
            highest: request.numbers[5],
            default: request.numbers[6],
            acks: bytes::marked(first),
            votes: bytes::marked(second).into_iter().map(|r| vote_at(second, r, n)).collect(),
        };
        Case::Choice { by: request.function, config, prepare }
    }
}
