//! Takes one replica of the Rust through a trace, event by event.
use crate::plain::{Answer, Config, Contents, Deps, Event, Output, Place, Slot, SlotAt, Status, Stepped, Store, Table};
use crate::protocols::epaxos::replica::Replica;
use crate::{refusals, show, utils};

pub struct Driver {
    config: Config,
    replica: Replica,
}

fn slot_at(at: &Place) -> SlotAt {
    (at.row as usize, at.col as usize)
}

/// Of numbers that are 0 for nothing, or a column and one.
pub fn deps_of(numbers: &[u64]) -> Deps {
    numbers.iter().map(|d| d.checked_sub(1).map(|col| col as usize)).collect()
}

/// The numbers of which a set is.
pub fn numbers_of(deps: &Deps) -> Vec<u64> {
    deps.iter().map(|d| d.map_or(0, |col| col as u64 + 1)).collect()
}

fn done_if(acted: bool) -> Answer {
    if acted { Answer::Done } else { Answer::Ignored }
}

impl Driver {
    pub fn new(config: Config) -> Self {
        Driver { replica: Replica::new(&config), config }
    }

    pub fn table(&self) -> Table {
        self.replica.table()
    }

    /// Refusals first, then the Rust. Where the Rust gives no answer, it is read from what the call did.
    pub fn step(&mut self, event: &Event) -> Stepped {
        if let Some(number) = self.refusal(event) {
            return Stepped { answer: Answer::Refused(number), output: vec![], submitted: vec![], put_back: vec![] };
        }
        let (answer, output) = match event {
            Event::Store { what, peer, at, ballot, seq, deps, batch } => {
                let contents = Contents { seq: *seq, deps: deps_of(deps), batch: batch.clone() };
                self.heard(|r| r.store(*what, *peer as usize, slot_at(at), *ballot, &contents))
            }
            Event::ExpPrepare { peer, at, ballot } => {
                self.heard(|r| r.exp_prepare(*peer as usize, slot_at(at), *ballot))
            }
            Event::AcceptReply { peer, at, ballot } => self.accept_reply(*peer as usize, slot_at(at), *ballot),
            Event::Logged { at, status } => {
                let status = Status::logged(*status).expect("a status that is not refused");
                if status == Status::PreAccepting && self.is_led(slot_at(at)) {
                    return self.note_to_self(slot_at(at));
                }
                self.replica.logged(slot_at(at), status);
                (Answer::Done, self.replica.take_output())
            }
            Event::Attempt { at } => (self.attempt(slot_at(at)), self.replica.take_output()),
            Event::Lead { at } => {
                self.replica.lead(slot_at(at));
                (Answer::Done, vec![])
            }
        };
        Stepped { answer, output, submitted: self.replica.take_submitted(), put_back: vec![] }
    }

    fn refusal(&self, event: &Event) -> Option<u8> {
        let is_held = |row, col| self.replica.slot((row, col)).is_some();
        refusals::refusal(&self.config, event, is_held).or_else(|| self.over_when_stored(event))
    }

    /// Refusal 6 of a sequence about to be stored, which comes after the ballot.
    fn over_when_stored(&self, event: &Event) -> Option<u8> {
        let Event::Store { what: Store::PreAccept, at, ballot, batch, .. } = event else {
            return None;
        };
        let held = self.replica.slot(slot_at(at)).map_or(0, |s| s.ballot);
        (*ballot >= held && self.replica.next_sequence(batch) > refusals::SEQUENCE).then_some(6)
    }

    fn is_led(&self, slot: SlotAt) -> bool {
        self.replica.slot(slot).is_some_and(|s| s.marks.is_some())
    }

    /// A message whose ballot test passes always hands something on.
    fn heard(&mut self, message: impl FnOnce(&mut Replica)) -> (Answer, Vec<Output>) {
        message(&mut self.replica);
        let output = self.replica.take_output();
        (done_if(!output.is_empty()), output)
    }

    /// One that is not ignored sets a mark.
    fn accept_reply(&mut self, peer: usize, slot: SlotAt, ballot: u64) -> (Answer, Vec<Output>) {
        let before = self.replica.slot(slot).and_then(|s| s.marks);
        self.replica.accept_reply(peer, slot, ballot);
        let after = self.replica.slot(slot).and_then(|s| s.marks);
        (done_if(before != after), self.replica.take_output())
    }

    fn attempt(&mut self, slot: SlotAt) -> Answer {
        let has_run = self.replica.slot(slot).is_some_and(|s| s.status == Status::Executed);
        match (self.replica.attempt(slot), has_run) {
            (false, _) => Answer::NotYet,
            (true, true) => Answer::Already,
            (true, false) => Answer::Done,
        }
    }

    /// Logged PreAccepting on a led slot: the Rust calls its reply handler as myself, and that goes on to decide; the
    /// base has the note alone. So the call is seen by the line that it tells, and the slot is put back.
    fn note_to_self(&mut self, slot: SlotAt) -> Stepped {
        let held = self.replica.slot(slot).expect("a slot that is not refused");
        let Slot { ballot, status, contents, .. } = held;
        let own = self.replica.own();
        let start = format!("received PreAcceptReply <- {own} for slot {}.{} ", slot.0, slot.1);
        // at ballot 0 the Rust takes its own call for a suspicion, and tells that
        let rest = match ballot {
            0 => "failure suspected".into(),
            _ => format!("bal {ballot} seq {} deps {}", contents.seq, show::set(&contents.deps)),
        };
        let replica = &mut self.replica;
        let (put_back, lines) = utils::listen(|| replica.undone(slot, |r| r.logged(slot, Status::PreAccepting)));
        let note = match lines.contains(&(start + &rest)) {
            true => Output::NoteToSelf { slot, ballot, status, contents },
            false => Output::Beyond(format!("no note to self among {lines:?}")),
        };
        Stepped { answer: Answer::Done, output: vec![note], submitted: vec![], put_back }
    }
}
