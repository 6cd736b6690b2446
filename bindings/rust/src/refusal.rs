//! The refusals, by the numbers and words of the rules.

use std::fmt;

/// Why a call was refused. It changed nothing: table, output and order list stay as before.
#[derive(Clone, Copy, Debug, PartialEq, Eq, Hash)]
pub enum Refusal {
    /// 1: configuration or table outside the bounds, or a bar past its row's slots.
    OutsideBounds = 1,
    /// 2: peer, row, reply, vote, ack or silent replica at N or more.
    NoReplica = 2,
    /// 3: column 32 or more.
    NoColumn = 3,
    /// 4: a dependency at column 32 or more, or in a row N or more.
    BadDependency = 4,
    /// 5: batch over 4, or the key of a put or get above 255.
    BadBatch = 5,
    /// 6: a sequence, given or about to be stored, over the limit.
    OverLimit = 6,
    /// 7: a log event or Lead for a slot not in the table.
    NoSlot = 7,
    /// 8: the lent order list has fewer than 224 entries. This crate lends 224, so it does not come up here.
    ShortOrder = 8,
    /// 10: of the C functions, an unknown log status. [`LogStatus`](crate::LogStatus) has the known ones, so it does not
    /// come up here.
    Unreadable = 10,
}

impl Refusal {
    /// Its number in the rules.
    pub fn number(self) -> u64 {
        self as u64
    }

    pub(crate) fn of(number: u64) -> Option<Refusal> {
        use Refusal::*;
        let all =
            [OutsideBounds, NoReplica, NoColumn, BadDependency, BadBatch, OverLimit, NoSlot, ShortOrder, Unreadable];
        all.into_iter().find(|refusal| refusal.number() == number)
    }

    fn words(self) -> &'static str {
        match self {
            Refusal::OutsideBounds => "configuration or table outside the bounds, or a bar past its row's slots",
            Refusal::NoReplica => "peer, row, reply, vote, ack or silent replica at N or more",
            Refusal::NoColumn => "column 32 or more",
            Refusal::BadDependency => "a dependency at column 32 or more, or in a row N or more",
            Refusal::BadBatch => "batch over 4, or the key of a put or get above 255",
            Refusal::OverLimit => "a sequence, given or about to be stored, over the limit",
            Refusal::NoSlot => "a log event or Lead for a slot not in the table",
            Refusal::ShortOrder => "Attempt or any Logged: the lent order list has fewer than 224 entries",
            Refusal::Unreadable => {
                "trace number not in shortest form or over 64 bits (a tenth byte above 1), unknown tag, kind or log status, \
                 or batch count over 4"
            }
        }
    }
}

/// `refused`, the number, and the words of the rules.
impl fmt::Display for Refusal {
    fn fmt(&self, f: &mut fmt::Formatter<'_>) -> fmt::Result {
        write!(f, "refused {}: {}", self.number(), self.words())
    }
}

impl std::error::Error for Refusal {}
