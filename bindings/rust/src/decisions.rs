//! The fast decision and the recovery choices: replies and votes by replica, a decision out.

use crate::answers::{refused, written, ACCEPTING, COMMITTED, PRE_ACCEPTING, WAIT};
use crate::bytes::{put_marks, put_word, word, ContentsBytes, Marks, Replies, Votes};
use crate::bytes::{BATCH_BYTES, CONTENTS_BYTES, REPLICAS, REPLY_BYTES, SET_BYTES};
use crate::contents::{write_batch, Contents, DepSet, Status};
use crate::messages::Config;
use crate::raw;
use crate::refusal::Refusal;

/// What a replica replied to a PreAccept, and what a fast decision decides on.
#[derive(Clone, Copy, Debug, PartialEq, Eq, Hash)]
pub struct Reply {
    /// The sequence number.
    pub sequence: u64,
    /// The dependencies.
    pub dependencies: DepSet,
}

/// The fast decision.
#[derive(Clone, Copy, Debug, PartialEq, Eq, Hash)]
pub enum FastDecision {
    /// Wait for more replies.
    Wait,
    /// Committed with these.
    Committed(Reply),
    /// Accepting with these.
    Accepting(Reply),
}

/// The fast decision on the replies to a PreAccept. `avoided`: the fast path is avoided. `replies`: by replica; one is acked
/// exactly when it has a reply. `silent`: which replicas are silent.
///
/// # Errors
/// Refusals 1, 2, 4 and 6.
pub fn fast_decision(
    config: Config,
    avoided: bool,
    replies: &[Option<Reply>; REPLICAS],
    silent: &[bool; REPLICAS],
) -> Result<FastDecision, Refusal> {
    let mut out = [0; REPLY_BYTES];
    let number = raw::fast_decision(config, avoided, &reply_bytes(replies), &put_marks(silent), &mut out);
    let decided = Reply { sequence: word(&out, 0), dependencies: DepSet::read(&out[8..]) };
    match number {
        WAIT => Ok(FastDecision::Wait),
        COMMITTED => Ok(FastDecision::Committed(decided)),
        ACCEPTING => Ok(FastDecision::Accepting(decided)),
        number => Err(refused("nj_fast_decision", number)),
    }
}

/// Marks, then sequences, then dependency sets. Of a replica without a reply all is 0.
fn reply_bytes(replies: &[Option<Reply>; REPLICAS]) -> Replies {
    let mut bytes = [0; REPLICAS * (1 + REPLY_BYTES)];
    for (i, reply) in replies.iter().enumerate() {
        let Some(reply) = reply else { continue };
        bytes[i] = 1;
        put_word(&mut bytes, REPLICAS + 8 * i, reply.sequence);
        reply.dependencies.write(&mut bytes[9 * REPLICAS + SET_BYTES * i..]);
    }
    bytes
}

/// What a recovery choice is about.
#[derive(Clone, Copy, Debug, PartialEq, Eq, Hash)]
pub struct Prepare {
    /// The slot's row.
    pub row: u64,
    /// The highest ballot that was voted at.
    pub highest: u64,
    /// The row's default ballot.
    pub default: u64,
}

/// What a replica has voted: its slot's status and contents.
#[derive(Clone, Debug, PartialEq, Eq, Hash)]
pub struct Vote {
    /// The status.
    pub status: Status,
    /// Sequence, dependencies and batch.
    pub contents: Contents,
}

/// A recovery choice.
#[derive(Clone, Debug, PartialEq, Eq, Hash)]
pub enum RecoveryChoice {
    /// Wait for more acks.
    Wait,
    /// Committed with these.
    Committed(Contents),
    /// Accepting with these.
    Accepting(Contents),
    /// PreAccepting with these.
    PreAccepting(Contents),
}

/// The recovery choice, the Rust's. `acks`: which replicas have acked. `votes`: by replica.
///
/// # Errors
/// Refusals 1, 2, 4, 5 and 6.
pub fn rust_choice(
    config: Config,
    prepare: Prepare,
    acks: &[bool; REPLICAS],
    votes: &[Option<Vote>; REPLICAS],
) -> Result<RecoveryChoice, Refusal> {
    choice("nj_rust_choice", acks, votes, |acks, votes, out| raw::rust_choice(config, prepare, acks, votes, out))
}

/// The recovery choice, the paper's: at least ⌊N/2⌋ identical votes take the place of the Rust's counts.
///
/// # Errors
/// Refusals 1, 2, 4, 5 and 6.
pub fn paper_choice(
    config: Config,
    prepare: Prepare,
    acks: &[bool; REPLICAS],
    votes: &[Option<Vote>; REPLICAS],
) -> Result<RecoveryChoice, Refusal> {
    choice("nj_paper_choice", acks, votes, |acks, votes, out| raw::paper_choice(config, prepare, acks, votes, out))
}

fn choice(
    function: &str,
    acks: &[bool; REPLICAS],
    votes: &[Option<Vote>; REPLICAS],
    call: impl FnOnce(&Marks, &Votes, &mut ContentsBytes) -> u64,
) -> Result<RecoveryChoice, Refusal> {
    let mut out = [0; CONTENTS_BYTES];
    let number = call(&put_marks(acks), &vote_bytes(votes), &mut out);
    let chosen = || written(function, Contents::read(&out));
    match number {
        WAIT => Ok(RecoveryChoice::Wait),
        COMMITTED => Ok(RecoveryChoice::Committed(chosen())),
        ACCEPTING => Ok(RecoveryChoice::Accepting(chosen())),
        PRE_ACCEPTING => Ok(RecoveryChoice::PreAccepting(chosen())),
        number => Err(refused(function, number)),
    }
}

/// Marks, then statuses, sequences, dependency sets and batches. Of a replica without a vote all is 0.
fn vote_bytes(votes: &[Option<Vote>; REPLICAS]) -> Votes {
    let mut bytes = [0; REPLICAS * (2 + CONTENTS_BYTES)];
    for (i, vote) in votes.iter().enumerate() {
        let Some(Vote { status, contents }) = vote else { continue };
        bytes[i] = 1;
        bytes[REPLICAS + i] = *status as u8;
        put_word(&mut bytes, 2 * REPLICAS + 8 * i, contents.sequence);
        contents.dependencies.write(&mut bytes[10 * REPLICAS + SET_BYTES * i..]);
        write_batch(&contents.batch, &mut bytes[17 * REPLICAS + BATCH_BYTES * i..][..BATCH_BYTES]);
    }
    bytes
}
