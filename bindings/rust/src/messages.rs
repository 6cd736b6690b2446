//! What a caller gives besides contents. Every number is passed as it is.

use std::fmt;

/// A configuration: N 1 to 7, own below N, 1 ≤ simple ≤ super ≤ N. Another is refused with 1.
#[derive(Clone, Copy, Debug, PartialEq, Eq, Hash)]
pub struct Config {
    /// How many replicas there are, N.
    pub n: u64,
    /// The own number.
    pub own: u64,
    /// How many make a simple quorum.
    pub simple: u64,
    /// How many make a super quorum.
    pub sup: u64,
}

/// Where a slot is, printed as `row.column`.
#[derive(Clone, Copy, Debug, PartialEq, Eq, PartialOrd, Ord, Hash)]
pub struct Place {
    /// The row, below N.
    pub row: u64,
    /// The column, below 32.
    pub column: u64,
}

impl fmt::Display for Place {
    fn fmt(&self, f: &mut fmt::Formatter<'_>) -> fmt::Result {
        write!(f, "{}.{}", self.row, self.column)
    }
}

/// An AcceptReply or ExpPrepare, and the head of a PreAccept, Accept or CommitNotice.
#[derive(Clone, Copy, Debug, PartialEq, Eq, Hash)]
pub struct Message {
    /// Who sent it, below N.
    pub peer: u64,
    /// The slot that it is about.
    pub place: Place,
    /// Its ballot.
    pub ballot: u64,
}

/// What a slot has been logged as.
#[derive(Clone, Copy, Debug, PartialEq, Eq, Hash)]
pub enum LogStatus {
    /// Logged PreAccepting: what goes out then is put out.
    PreAccepting = 1,
    /// Logged Accepting: so too.
    Accepting = 2,
    /// Logged Committed: the row's commit bar may rise, and slots below the bars run.
    Committed = 3,
}
