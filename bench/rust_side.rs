//! The Rust, on messages in its own form.
use crate::clock::{Side, each, time};
use crate::events::Case;
use crate::once::between_marks;
use crate::tables::CONFIG;
use std::hint::black_box;
use summerset::drive::deps_of;
use summerset::plain::{Contents, Event, Output, Place, SlotAt, Status, Table};
use summerset::protocols::epaxos::replica::{Prepared, Replica};

#[derive(Clone)]
enum Call {
    Hear(usize, Prepared),
    Logged(SlotAt, Status),
    Attempt(SlotAt),
}

pub struct RustSide {
    start: Replica,
    /// For the call that is not timed.
    spare: Replica,
    copies: Vec<Replica>,
    calls: Vec<Call>,
}

/// What one event did: the Rust's yes or no to an attempt, and what it handed on.
pub struct Did {
    pub yes: bool,
    pub output: Vec<Output>,
    pub ran: usize,
}

fn slot_at(at: &Place) -> SlotAt {
    (at.row as usize, at.col as usize)
}

fn call(event: &Event) -> Call {
    match event {
        Event::Store { what, peer, at, ballot, seq, deps, batch } => {
            let contents = Contents { seq: *seq, deps: deps_of(deps), batch: batch.clone() };
            Call::Hear(*peer as usize, Prepared::store(*what, slot_at(at), *ballot, &contents))
        }
        Event::AcceptReply { peer, at, ballot } => {
            Call::Hear(*peer as usize, Prepared::accept_reply(slot_at(at), *ballot))
        }
        Event::ExpPrepare { peer, at, ballot } => {
            Call::Hear(*peer as usize, Prepared::exp_prepare(slot_at(at), *ballot))
        }
        Event::Logged { at, status } => Call::Logged(slot_at(at), Status::logged(*status).expect("a log status")),
        Event::Attempt { at } => Call::Attempt(slot_at(at)),
        Event::Lead { .. } => panic!("the Rust has no event of its own to lead a slot"),
    }
}

fn make(replica: &mut Replica, call: Call) -> bool {
    match call {
        Call::Hear(peer, message) => replica.hear(peer, message),
        Call::Logged(at, status) => replica.logged(at, status),
        Call::Attempt(at) => return replica.attempt(at),
    }
    true
}

fn slots_run(replica: &Replica) -> usize {
    replica.table().rows.iter().flatten().filter(|slot| slot.status == Status::Executed).count()
}

impl RustSide {
    pub fn new(case: &Case) -> Self {
        let replica = || Replica::holding(&CONFIG, &case.table);
        let copies = (0..case.copies).map(|_| replica()).collect();
        RustSide { start: replica(), spare: replica(), copies, calls: case.events.iter().map(call).collect() }
    }

    /// What the events of a sample do, one after the other, and the table after them.
    pub fn did(&mut self) -> (Vec<Did>, Table) {
        let replica = &mut self.copies[0];
        replica.put_back(&self.start);
        let one = |call: &Call| {
            let before = slots_run(replica);
            let yes = make(replica, call.clone());
            Did { yes, output: replica.take_output(), ran: slots_run(replica) - before }
        };
        (self.calls.iter().map(one).collect(), replica.table())
    }

    /// The first call alone, between the marks.
    pub fn once(&mut self) {
        let (replica, call) = (&mut self.copies[0], self.calls[0].clone());
        between_marks(|| {
            black_box(make(replica, call));
        });
    }
}

impl Side for RustSide {
    fn sample(&mut self) -> f64 {
        let RustSide { start, spare, copies, .. } = self;
        copies.iter_mut().chain([&mut *spare]).for_each(|replica| replica.put_back(start));
        let of_copy = |i| self.calls.iter().map(move |call| (i, call.clone()));
        let mut calls: Vec<(usize, Call)> = (0..copies.len()).flat_map(of_copy).collect();
        let many = calls.len();
        make(spare, self.calls[0].clone());
        let all = time(|| {
            for (i, call) in calls.drain(..) {
                black_box(make(&mut copies[i], call));
            }
        });
        each(all, many)
    }
}
