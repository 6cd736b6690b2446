//! The replica core of EPaxos for a host in Rust: the table, its handlers, the run order and the decisions, each proved to
//! meet its contract, as 13 C functions in an archive. This crate lends them bytes and reads their answers; it decides
//! nothing itself. Sockets, timers and disks stay with the host.
//!
//! A [`Table`] is one copy's state. A message, an attempt or a log event is a call of one of its methods, which answers what
//! the core answered: what is to be logged or sent ([`Record`]), the slots run, or a [`Refusal`], which leaves the table as
//! it was, byte for byte. Numbers go to the core as they are given: its bounds are its own to test.
//!
//! ```no_run
//! use njimbaros::{Config, Contents, DepSet, Handled, Kind, LogStatus, Message, Place, Request, Table};
//!
//! # fn main() -> Result<(), njimbaros::Refusal> {
//! let mut table = Table::open(Config { n: 3, own: 0, simple: 2, sup: 3 })?;
//! let place = Place { row: 1, column: 0 };
//! let put = Request { client: 1, id: 1, kind: Kind::Put { key: 5, value: 9 } };
//! let contents = Contents { sequence: 1, dependencies: DepSet::EMPTY, batch: vec![put] };
//!
//! // a commit comes in: the host writes its log record to the disk, and says so
//! match table.commit_notice(Message { peer: 1, place, ballot: 1 }, &contents)? {
//!     Handled::Done(records) => println!("to be logged or sent: {records:?}"),
//!     Handled::Ignored => println!("of an older ballot"),
//! }
//! for slot in table.logged(place, LogStatus::Committed)?.ran {
//!     println!("run {slot}"); // run 1.0
//! }
//! # Ok(())
//! # }
//! ```
//!
//! A message needs up to 20,480 bytes of stack, opening a table 131,072, an attempt or a log event up to 356,352, which a
//! thread of Rust's has (2 MB) unless it is asked for with less.

#![deny(missing_docs, unsafe_code)]

mod answers;
mod bytes;
mod contents;
mod decisions;
mod messages;
mod raw;
mod refusal;
mod table;

pub use answers::{Attempted, Handled, Logged, Record, What};
pub use bytes::{IMAGE_BYTES, REPLICAS};
pub use contents::{Batch, Contents, DepSet, Kind, Request, Status};
pub use decisions::{fast_decision, paper_choice, rust_choice, FastDecision, Prepare, RecoveryChoice, Reply, Vote};
pub use messages::{Config, LogStatus, Message, Place};
pub use refusal::Refusal;
pub use table::{Slot, Table, WrongLength};
