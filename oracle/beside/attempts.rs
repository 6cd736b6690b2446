//! Runs with attempts, as far as the rules compare these: no empty batch is committed, and no committed slot altered or
//! lowered. Slots are committed row by row from the lowest column on, log events raise the bars behind them, and attempts
//! are aimed by what the Rust's table has.
use crate::aim::{Aim, deps};
use crate::random::Random;
use crate::run::{self, ACCEPTING, COMMITTED, Run};
use crate::{reach, runs};
use summerset::drive::deps_of;
use summerset::plain::{Contents, Event, Place, Slot, Status, Store, Table};

/// The next event, `left` events before the last: a slot is committed, a bar rises, any event of the handlers or log event,
/// an attempt, of which there are fewer while no slot waits for one.
pub fn next(run: &Run, aim: &Aim, left: usize, random: &mut Random) -> Event {
    let is_at_end = left < aim.end();
    let rising = rising(&run.table, aim, is_at_end);
    if !rising.is_empty() && (is_at_end || random.one_in(aim.leisure)) {
        return Event::Logged { at: random.of(&rising), status: COMMITTED };
    }
    if random.one_in(2) && reach::might_run(&run.table) {
        return leave(run, random);
    }
    let waits = !waiting(&run.table, 1).is_empty() || random.one_in(4);
    let event = if random.one_in(8) {
        logged(run, random)
    } else if is_at_end || waits && random.one_in(aim.patience) {
        attempt(run, random)
    } else if random.one_in(6) {
        within(aim, run.next(random))
    } else {
        commit(run, aim, random)
    };
    kept(event, &run.table, random)
}

/// A run, whole.
pub fn drawn(aim: &Aim, random: &mut Random) -> Result<Run, String> {
    run::whole(&aim.plan, random, |run, left, random| next(run, aim, left, random))
}

/// A run of the list.
pub fn listed(random: &mut Random) -> Result<Run, String> {
    drawn(&Aim::listed(random), random)
}

/// One slot that waits for what never comes holds up all that lead to it, so most runs have none.
fn within(aim: &Aim, mut event: Event) -> Event {
    if let Event::Store { deps, .. } = &mut event {
        let most = |row: usize| if aim.is_wild { u64::MAX } else { aim.open(row) as u64 };
        deps.iter_mut().enumerate().for_each(|(row, number)| *number = most(row).min(*number));
    }
    event
}

/// The slots at bars that rise when they are logged; of a row with a cork once that is committed, or at the end.
fn rising(table: &Table, aim: &Aim, is_at_end: bool) -> Vec<Place> {
    let is_time = |row: usize| is_at_end || !aim.has_cork(row) || height(&table.rows[row]) >= aim.width;
    let rows = (0..table.rows.len()).filter(|row| is_time(*row));
    let bars = rows.map(|row| Place { row: row as u64, col: table.bars[row] as u64 });
    bars.filter(|at| run::raises(table, at)).collect()
}

/// Up to the first slot that is absent or not committed.
fn height(slots: &[Slot]) -> usize {
    slots.iter().take_while(|slot| slot.status >= Status::Committed).count()
}

/// Of any status, Committed in half: of a slot that is there, at a row's bar where one is there, behind a row's last slot,
/// anywhere.
fn logged(run: &Run, random: &mut Random) -> Event {
    let Run { table, config, .. } = run;
    let there: Vec<Place> = run::slots(table, |_| true).into_iter().map(|(at, _)| at).collect();
    let is_at_bar = |at: &Place| at.col as usize == table.bars[at.row as usize];
    let at_bars: Vec<Place> = there.iter().copied().filter(is_at_bar).collect();
    let row = random.below(config.n);
    let at = match random.below(10) {
        0..=4 if !at_bars.is_empty() => random.of(&at_bars),
        0..=7 if !there.is_empty() => random.of(&there),
        8 => Place { row: row as u64, col: table.rows[row].len() as u64 },
        _ => runs::place(config.n as u64, random),
    };
    let any = runs::log_status(random);
    Event::Logged { at, status: random.of(&[COMMITTED, any]) }
}

/// What log events left, though it might run, another that raises no bar leaves too: Logged Committed below a bar, or at one
/// whose slot is not committed. Where there is no such slot an ExpPrepare puts one there.
fn leave(run: &Run, random: &mut Random) -> Event {
    let Run { table, config, .. } = run;
    let is_low = |row: &usize| table.rows[*row].get(table.bars[*row]).is_some_and(|s| s.status < Status::Committed);
    let low: Vec<usize> = (0..config.n).filter(is_low).collect();
    let row = if low.is_empty() { random.below(config.n) } else { random.of(&low) };
    let at = Place { row: row as u64, col: table.bars[row] as u64 };
    match random.below(4) {
        0 => Event::Logged { at: Place { col: at.col.saturating_sub(1), ..at }, status: COMMITTED },
        1 | 2 if low.is_empty() => Event::ExpPrepare { peer: 0, at, ballot: 0 },
        _ => Event::Logged { at, status: COMMITTED },
    }
}

fn of_status(table: &Table, wanted: Status) -> Vec<Place> {
    run::slots(table, |slot| slot.status == wanted).into_iter().map(|(at, _)| at).collect()
}

/// The slots that are committed, have not run, and are so much below their bars.
fn waiting(table: &Table, by: usize) -> Vec<Place> {
    let is_below = |at: &Place| at.col as usize + by <= table.bars[at.row as usize];
    of_status(table, Status::Committed).into_iter().filter(is_below).collect()
}

/// Mostly of a slot that is committed, below its bar and has not run, and of these one that is not its row's last below the
/// bar: that one was attempted when the bar rose.
fn attempt(run: &Run, random: &mut Random) -> Event {
    let Run { table, config, .. } = run;
    let (committed, executed) = (of_status(table, Status::Committed), of_status(table, Status::Executed));
    let (inner, below) = (waiting(table, 2), waiting(table, 1));
    let row = random.below(config.n);
    let mut at = match random.below(20) {
        0..=10 if !inner.is_empty() => random.of(&inner),
        0..=14 if !below.is_empty() => random.of(&below),
        0..=15 if !committed.is_empty() => random.of(&committed),
        0..=16 if !executed.is_empty() => random.of(&executed),
        17 => Place { row: row as u64, col: table.rows[row].len() as u64 },
        18 => Place { row: row as u64, col: table.bars[row] as u64 },
        _ => runs::place(config.n as u64, random),
    };
    if random.one_in(40) {
        let number = if random.one_in(2) { &mut at.row } else { &mut at.col };
        *number = number.wrapping_add(1 << random.of(&[8, 16, 32, 63]));
    }
    Event::Attempt { at }
}

/// In a row that is not filled yet, mostly its first slot that is not committed. One that is Accepting is often committed by
/// marks.
fn commit(run: &Run, aim: &Aim, random: &mut Random) -> Event {
    let heights = run.table.rows.iter().map(|slots| height(slots)).enumerate();
    let open: Vec<_> = heights.filter(|(_, height)| *height < aim.width).collect();
    if open.is_empty() {
        return attempt(run, random);
    }
    let (row, height) = random.of(&open);
    let past = if random.one_in(8) { random.below(3) } else { 0 };
    let col = (height + past).min(aim.last_column());
    let at = Place { row: row as u64, col: col as u64 };
    let held = run.table.rows[row].get(col);
    if let Some(slot) = held.filter(|slot| slot.status == Status::Accepting && random.one_in(2)) {
        return mark(run, at, slot, random);
    }
    let commit = Store::CommitNotice;
    Event::Store {
        what: random.of(&[Store::PreAccept, Store::Accept, commit, commit, commit, commit, commit, commit]),
        peer: random.below(run.config.n) as u64,
        at,
        ballot: random.of(&[0, 1, 2]).max(held.map_or(0, |slot| slot.ballot)),
        seq: runs::sequence(random),
        deps: deps(&run.table, aim, (row, col), random),
        batch: runs::batch(random),
    }
}

/// What brings a slot that is Accepting nearer to a quorum: a lead, the own mark by a log event, a peer's.
fn mark(run: &Run, at: Place, slot: &Slot, random: &mut Random) -> Event {
    match slot.marks {
        None => Event::Lead { at },
        Some(marks) if marks >> run.config.own & 1 == 0 && random.one_in(2) => Event::Logged { at, status: ACCEPTING },
        Some(_) => runs::accept_reply(run.config.n as u64, (at, slot), random),
    }
}

/// The event, or one in its place that keeps to what the rules compare: nothing empty is accepted or committed, and what
/// would change a committed slot is of a lesser ballot, so that it is ignored, or an attempt on that slot.
fn kept(mut event: Event, table: &Table, random: &mut Random) -> Event {
    let Event::Store { what, at, ballot, seq, deps, batch, .. } = &mut event else {
        return event;
    };
    if batch.is_empty() && *what != Store::PreAccept {
        batch.push(runs::request(random));
    }
    let slots = table.rows.get(at.row as usize).map_or(&[][..], |slots| slots);
    let Some(slot) = slots.get(at.col as usize).filter(|slot| slot.status >= Status::Committed) else {
        return event;
    };
    let given = Contents { seq: *seq, deps: deps_of(deps), batch: batch.clone() };
    let is_told_again = *what == Store::CommitNotice && slot.status == Status::Committed && slot.contents == given;
    if is_told_again || *ballot < slot.ballot {
        return event;
    }
    if slot.ballot == 0 || random.one_in(4) {
        return Event::Attempt { at: *at };
    }
    *ballot = slot.ballot - 1;
    event
}

/// Whether a step kept to what the rules compare. Not to is a fault of the comparison.
pub fn are_comparable(before: &Table, after: &Table) -> bool {
    let is_committed = |slot: &Slot| slot.status >= Status::Committed;
    let stays = |(at, slot): (Place, &Slot)| {
        let now = &after.rows[at.row as usize][at.col as usize];
        now.status >= slot.status && now.contents == slot.contents
    };
    run::slots(before, is_committed).into_iter().all(stays)
        && run::slots(after, is_committed).iter().all(|(_, slot)| !slot.contents.batch.is_empty())
}
