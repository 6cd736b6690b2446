//! Runs of the handlers with log events, drawn while the Rust goes through them: the next event is aimed by what its table
//! has.
use crate::random::Random;
use crate::run::{ACCEPTING, COMMITTED, PRE_ACCEPTING, Plan, Run, raises, slots, whole};
use summerset::plain::{Event, Kind, Place, Request, Slot, Status, Store, Table};
use summerset::refusals::{COLUMNS, KEYS, SEQUENCE};

impl Run {
    /// Draws an event. Some come once more, just as they were. Where a bar would rise and slots run that the rules do not
    /// compare, the log event is another.
    pub fn next(&self, random: &mut Random) -> Event {
        let mut event = match random.one_in(8) && !self.events.is_empty() {
            true => self.events[random.below(self.events.len())].event.clone(),
            false => self.another(random),
        };
        if let Event::Logged { at, status } = &mut event {
            if *status == COMMITTED && !self.has_attempts && raises(&self.table, at) {
                *status = random.of(&[PRE_ACCEPTING, ACCEPTING]);
            }
        }
        event
    }

    fn another(&self, random: &mut Random) -> Event {
        let n = self.config.n as u64;
        let mut event = event(n, &self.table, random);
        if self.is_far {
            go_far(&mut event, random);
        }
        if self.is_far && self.oversteps && random.one_in(16) {
            overstep(&mut event, n, random);
        }
        if let Event::Logged { status, .. } = &mut event {
            if self.oversteps && random.one_in(12) {
                *status = no_log_status(random);
            }
        }
        event
    }
}

/// A run, whole.
pub fn drawn(plan: &Plan, random: &mut Random) -> Result<Run, String> {
    whole(plan, random, |run, _, random| run.next(random))
}

/// A run of the list.
pub fn listed(random: &mut Random) -> Result<Run, String> {
    drawn(&Plan::listed(random), random)
}

/// Any column, so that rows are filled; full batches and any key.
fn go_far(event: &mut Event, random: &mut Random) {
    let any = random.word() % COLUMNS;
    let col = random.of(&[COLUMNS - 1, COLUMNS - 1, COLUMNS - 2, any]);
    match event {
        Event::Store { at, .. } | Event::ExpPrepare { at, .. } if at.col < COLUMNS && random.one_in(5) => at.col = col,
        _ => {}
    }
    if let Event::Store { batch, .. } = event {
        if random.one_in(5) {
            batch.resize_with(4, || request(random));
        }
        let keys = batch.iter_mut().filter_map(key_of);
        keys.for_each(|key| *key = if random.one_in(4) { random.word() % KEYS } else { *key });
    }
}

fn key_of(request: &mut Request) -> Option<&mut u64> {
    match &mut request.kind {
        Kind::Other => None,
        Kind::Put { key, .. } | Kind::Get { key } => Some(key),
    }
}

/// One thing out of bounds: a number that would fit if it were cut, a dependency in a row past N, too many requests.
fn overstep(event: &mut Event, n: u64, random: &mut Random) {
    let more = 1 << random.of(&[8, 16, 32, 63]);
    let (which, row) = (random.below(7), n as usize + random.below(7));
    match event {
        Event::Store { deps, .. } if which == 0 && row < 7 => {
            deps.resize(row, 0);
            deps.push(random.of(&[1, COLUMNS, COLUMNS + 1]));
        }
        Event::Store { batch, .. } if which == 1 => {
            let count = random.of(&[5, 6, usize::from(u8::MAX)]);
            batch.resize_with(count, || request(random));
        }
        Event::Store { batch, .. } if which == 2 => batch.iter_mut().filter_map(key_of).for_each(|key| *key |= KEYS),
        Event::Store { seq, .. } if which == 3 => *seq = seq.wrapping_add(1 << 32),
        Event::Store { peer, .. } | Event::AcceptReply { peer, .. } | Event::ExpPrepare { peer, .. } if which == 4 => {
            *peer = peer.wrapping_add(more)
        }
        Event::Store { at, .. }
        | Event::AcceptReply { at, .. }
        | Event::ExpPrepare { at, .. }
        | Event::Logged { at, .. }
        | Event::Attempt { at }
        | Event::Lead { at } => {
            let number = if which == 5 { &mut at.row } else { &mut at.col };
            *number = number.wrapping_add(more);
        }
    }
}

/// Often a mark for a slot that is Accepting and led, or a Lead of one; now and then a note to self.
fn event(n: u64, table: &Table, random: &mut Random) -> Event {
    let accepting = |is_led: bool| slots(table, |s| s.status == Status::Accepting && s.marks.is_some() == is_led);
    let (led, unled, leads) = (accepting(true), accepting(false), slots(table, |s| s.marks.is_some()));
    match random.below(20) {
        0 if !led.is_empty() => Event::Lead { at: random.of(&led).0 },
        1..=7 if !led.is_empty() => accept_reply(n, random.of(&led), random),
        8 if !unled.is_empty() => accept_reply(n, random.of(&unled), random),
        9..=11 if !unled.is_empty() => Event::Lead { at: random.of(&unled).0 },
        12 | 13 if !led.is_empty() => Event::Logged { at: random.of(&led).0, status: ACCEPTING },
        14 if !leads.is_empty() => Event::Logged { at: random.of(&leads).0, status: PRE_ACCEPTING },
        _ => any_event(n, table, random),
    }
}

fn any_event(n: u64, table: &Table, random: &mut Random) -> Event {
    let (at, ballot) = aim(n, table, random);
    let peer = peer(n, random);
    match random.below(20) {
        0 => Event::AcceptReply { peer, at, ballot },
        1..=3 => Event::ExpPrepare { peer, at, ballot },
        4 | 5 => Event::Lead { at },
        6 => wild(n, random),
        7..=10 => Event::Logged { at, status: log_status(random) },
        _ => {
            let (seq, deps) = (sequence(random), deps(n, random));
            Event::Store { what: what(random), peer, at, ballot, seq, deps, batch: batch(random) }
        }
    }
}

/// Mostly of the slot's ballot and from a peer that is not marked yet.
pub fn accept_reply(n: u64, (at, slot): (Place, &Slot), random: &mut Random) -> Event {
    let marks = slot.marks.unwrap_or(0);
    let unmarked: Vec<u64> = (0..n).filter(|p| marks >> p & 1 == 0).collect();
    let any = unmarked.is_empty() || random.one_in(5);
    let peer = if any { peer(n, random) } else { random.of(&unmarked) };
    let ballot = if random.one_in(8) { ballot(random) } else { slot.ballot };
    Event::AcceptReply { peer, at, ballot }
}

fn either(fits: u64, is_out: u64, random: &mut Random) -> u64 {
    if random.one_in(4) { is_out } else { fits }
}

/// Out of bounds in several things at once, so that the order of the refusals shows.
fn wild(n: u64, random: &mut Random) -> Event {
    let at = Place { row: either(0, n, random), col: either(0, COLUMNS, random) };
    if random.one_in(4) {
        return Event::Logged { at, status: log_status(random) };
    }
    let mut either = |fits: u64, is_out: u64| either(fits, is_out, random);
    let (peer, seq, key) = (either(0, n), either(1, SEQUENCE + 1), either(5, KEYS));
    let mut deps = vec![0; n as usize];
    deps[0] = either(1, COLUMNS + 1);
    let batch = vec![Request { client: 1, id: 1, kind: Kind::Put { key, value: 1 } }];
    Event::Store { what: what(random), peer, at, ballot: 1, seq, deps, batch }
}

/// Of a log event, by its number.
pub fn log_status(random: &mut Random) -> u64 {
    random.of(&[PRE_ACCEPTING, ACCEPTING, COMMITTED])
}

/// A number that no log event has: next to those that there are, or one that would fit if it were cut.
pub fn no_log_status(random: &mut Random) -> u64 {
    let cut = log_status(random) + (1 << random.of(&[8, 16, 32, 63]));
    random.of(&[0, COMMITTED + 1, u64::MAX, cut, cut, cut])
}

fn what(random: &mut Random) -> Store {
    random.of(&[Store::PreAccept, Store::PreAccept, Store::Accept, Store::Accept, Store::CommitNotice])
}

/// A slot that is there, with its ballot or one about it; or any place and ballot.
fn aim(n: u64, table: &Table, random: &mut Random) -> (Place, u64) {
    let there = slots(table, |_| true);
    let any = ballot(random);
    if there.is_empty() || random.one_in(3) {
        return (place(n, random), any);
    }
    let (at, slot) = random.of(&there);
    let (less, more) = (slot.ballot.saturating_sub(1), slot.ballot.saturating_add(1));
    (at, random.of(&[less, slot.ballot, slot.ballot, more, any]))
}

pub fn place(n: u64, random: &mut Random) -> Place {
    let (row, any) = (peer(n, random), random.below(4) as u64);
    let col = match random.below(60) {
        0 | 1 => COLUMNS - 1,
        2 => COLUMNS,
        3 => u64::MAX,
        _ => random.of(&[0, any]),
    };
    Place { row, col }
}

/// Of a peer or a row: mostly below n.
fn peer(n: u64, random: &mut Random) -> u64 {
    let any = random.word() % n;
    if random.one_in(40) { random.of(&[n, u64::MAX]) } else { random.of(&[0, any, any]) }
}

fn ballot(random: &mut Random) -> u64 {
    if random.one_in(30) { u64::MAX } else { random.of(&[0, 1, 1, 2, 3]) }
}

pub fn sequence(random: &mut Random) -> u64 {
    match random.below(24) {
        0..=3 => SEQUENCE,
        4 => SEQUENCE - 1,
        5 => random.of(&[SEQUENCE + 1, SEQUENCE + 1, u64::MAX]),
        _ => random.below(6) as u64,
    }
}

/// 0 for nothing, or a column and one.
pub fn deps(n: u64, random: &mut Random) -> Vec<u64> {
    let mut number = || {
        let any = random.word() % (COLUMNS + 1);
        random.of(&[0, 0, 0, 1, 2, any])
    };
    let mut deps: Vec<u64> = (0..n).map(|_| number()).collect();
    if random.one_in(25) {
        deps[random.below(n as usize)] = random.of(&[COLUMNS + 1, u64::from(u8::MAX)]);
    }
    deps
}

pub fn batch(random: &mut Random) -> Vec<Request> {
    let count = random.of(&[0, 1, 1, 1, 2, 2, 3, 4]);
    (0..count).map(|_| request(random)).collect()
}

pub fn request(random: &mut Random) -> Request {
    let (key, value) = (key(random), word(random));
    let kind = random.of(&[Kind::Other, Kind::Put { key, value }, Kind::Put { key, value }, Kind::Get { key }]);
    Request { client: word(random), id: word(random), kind }
}

fn key(random: &mut Random) -> u64 {
    if random.one_in(30) { random.of(&[KEYS, u64::from(u16::MAX)]) } else { random.of(&[0, 5, 5, 5, KEYS - 1]) }
}

fn word(random: &mut Random) -> u64 {
    let any = random.word();
    if random.one_in(40) { random.of(&[u64::MAX, any]) } else { random.below(5) as u64 }
}
