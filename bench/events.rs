//! The events that are timed: messages, log events and attempts.
use crate::bytes::{ALREADY, DONE, NOT_YET};
use crate::shapes::{self, ASKED};
use crate::tables::{BALLOT, COLUMNS, PEER, ROWS, before, contents, full, places, slot};
use std::cmp::Ordering;
use summerset::drive::numbers_of;
use summerset::plain::{Event, Place, Slot, SlotAt, Status, Store, Table};

/// Events on a table. In a sample each copy of the table takes all of them, one after the other.
pub struct Case {
    pub table: Table,
    pub events: Vec<Event>,
    pub copies: usize,
    /// What each event is answered, and how many slots it runs.
    pub answer: u64,
    pub ran: usize,
}

/// A case that is made once it is asked for: bench/where asks for one alone.
pub struct Named {
    pub name: String,
    /// The constant of the header that has the stack of the C function.
    pub stack: &'static str,
    /// Whether it is asked to take at most half of the Rust's time.
    pub is_bound: bool,
    pub case: Box<dyn FnOnce() -> Case>,
}

fn named(name: &str, stack: &'static str, case: impl FnOnce() -> Case + 'static) -> Named {
    Named { name: name.into(), stack, is_bound: false, case: Box::new(case) }
}

fn place((row, col): SlotAt) -> Place {
    Place { row: row as u64, col: col as u64 }
}

/// One event for each slot of a full table.
fn for_each(
    name: &str,
    stack: &'static str,
    held: impl Fn(SlotAt) -> Slot + 'static,
    event: impl Fn(SlotAt) -> Event + 'static,
) -> Named {
    let events = move || places().map(event).collect();
    named(name, stack, || Case { table: full(0, held), events: events(), copies: 1, answer: DONE, ran: 0 })
}

/// A message with what the slot holds, at its ballot, to a slot that has not come as far.
fn stores(what: Store, stack: &'static str, lower: Status, puts: usize) -> Named {
    let name = format!("{what:?}, {puts} put{}", if puts == 1 { "" } else { "s" });
    let event = move |at| {
        let held = contents(at, before(at), puts);
        let (peer, deps) = (PEER as u64, numbers_of(&held.deps));
        Event::Store { what, peer, at: place(at), ballot: BALLOT, seq: held.seq, deps, batch: held.batch }
    };
    for_each(&name, stack, move |at| slot(at, lower, puts), event)
}

fn all_stores(puts: usize) -> Vec<Named> {
    vec![
        stores(Store::PreAccept, "NJ_STACK_PRE_ACCEPT", Status::PreAccepting, puts),
        stores(Store::Accept, "NJ_STACK_ACCEPT", Status::PreAccepting, puts),
        stores(Store::CommitNotice, "NJ_STACK_COMMIT_NOTICE", Status::Accepting, puts),
    ]
}

/// An AcceptReply to each slot, all of them led and marked so.
fn accept_replies(name: &str, marks: u64) -> Named {
    let peer = u64::from(marks.trailing_ones());
    let led = move |at| Slot { marks: Some(marks), ..slot(at, Status::Accepting, 1) };
    for_each(name, "NJ_STACK_ACCEPT_REPLY", led, move |at| Event::AcceptReply { peer, at: place(at), ballot: BALLOT })
}

fn exp_prepare() -> Named {
    let event = |at| Event::ExpPrepare { peer: 2, at: place(at), ballot: BALLOT + 1 };
    for_each("ExpPrepare, answered", "NJ_STACK_EXP_PREPARE", |at| slot(at, Status::Accepting, 1), event)
}

fn logged(name: &str, status: Status) -> Named {
    let event = move |at| Event::Logged { at: place(at), status: status as u64 };
    for_each(name, "NJ_STACK_LOGGED", move |at| slot(at, status, 1), event)
}

/// In the middle of each row, everything before having run, and nothing after committed.
fn at_the_bar() -> Case {
    let bar = COLUMNS / 2;
    let status = |col: usize| match col.cmp(&bar) {
        Ordering::Less => Status::Executed,
        Ordering::Equal => Status::Committed,
        Ordering::Greater => Status::PreAccepting,
    };
    let event = |row| Event::Logged { at: place((row, bar)), status: Status::Committed as u64 };
    let table = full(bar, |at| slot(at, status(at.1), 1));
    Case { table, events: (0..ROWS).map(event).collect(), copies: 4, answer: DONE, ran: 1 }
}

pub fn messages() -> Vec<Named> {
    let mut cases = all_stores(1);
    cases.extend(all_stores(4));
    cases.extend([
        accept_replies("AcceptReply, below the quorum", 0b001),
        accept_replies("AcceptReply, makes the quorum", 0b111),
        exp_prepare(),
        logged("Logged PreAccepting, replies to the source", Status::PreAccepting),
        logged("Logged Accepting, replies to the source", Status::Accepting),
        named("Logged Committed at the bar, runs one slot", "NJ_STACK_LOGGED", at_the_bar),
    ]);
    cases
}

/// So many attempts on each of so many copies of a table.
fn attempt(name: &str, table: fn() -> Table, at: SlotAt, [times, copies]: [usize; 2], did: (u64, usize)) -> Named {
    let (answer, ran) = did;
    let events = vec![Event::Attempt { at: place(at) }; times];
    let name = format!("Attempt, {name}");
    named(&name, "NJ_STACK_ATTEMPT", move || Case { table: table(), events, copies, answer, ran })
}

/// One on a full table, which is asked to take at most half of the Rust's time.
fn on_full(name: &str, table: fn() -> Table, copies: usize, ran: usize) -> Named {
    Named { is_bound: true, ..attempt(name, table, ASKED, [1, copies], (DONE, ran)) }
}

/// Attempts that change nothing are made again and again on one table.
pub fn attempts() -> Vec<Named> {
    vec![
        attempt("one new slot", shapes::small, (0, 0), [1, 64], (DONE, 1)),
        on_full("one component", shapes::one_component, 1, 224),
        on_full("no dependencies", shapes::no_dependencies, 1, 224),
        on_full("a chain across the rows", shapes::chain, 1, 224),
        on_full("one slot over 223 that have run", shapes::one_slot, 4, 1),
        attempt("not yet", shapes::not_yet, ASKED, [64, 1], (NOT_YET, 0)),
        attempt("already", shapes::already, ASKED, [64, 1], (ALREADY, 0)),
    ]
}
