//! The tables of the attempts: those of crates/bench_order, with a put in each slot, and some others.
use crate::tables::{COLUMNS, ROWS, contents, full, slot, with_keys};
use summerset::plain::{Contents, Deps, Slot, SlotAt, Status, Table};

/// The slot asked for: the last of the last row.
pub const ASKED: SlotAt = (ROWS - 1, COLUMNS - 1);

fn lasts() -> Deps {
    vec![Some(COLUMNS - 1); ROWS]
}

fn committed(at: SlotAt, deps: Deps) -> Slot {
    Slot { contents: Contents { deps, ..contents(at, vec![], 1) }, ..slot(at, Status::Committed, 1) }
}

/// Every slot waits for the last of every row.
pub fn one_component() -> Table {
    full(COLUMNS, |at| committed(at, lasts()))
}

/// Only the slot asked for waits for others, for the last of every row.
pub fn no_dependencies() -> Table {
    full(COLUMNS, |at| committed(at, if at == ASKED { lasts() } else { vec![None; ROWS] }))
}

/// Column after column, and in each row after row.
fn link((row, col): SlotAt) -> Deps {
    let mut deps = vec![None; ROWS];
    match row.checked_sub(1) {
        Some(above) => deps[above] = Some(col),
        None => deps[ROWS - 1] = col.checked_sub(1),
    }
    deps
}

pub fn chain() -> Table {
    full(COLUMNS, |at| committed(at, link(at)))
}

/// The same, where all but the slot asked for have run.
pub fn one_slot() -> Table {
    let status = |at| if at == ASKED { Status::Committed } else { Status::Executed };
    full(COLUMNS, |at| Slot { status: status(at), ..committed(at, link(at)) })
}

/// One slot in all the table, which waits for nothing.
pub fn small() -> Table {
    let mut rows = vec![vec![]; ROWS];
    rows[0].push(committed((0, 0), vec![None; ROWS]));
    let mut bars = vec![0; ROWS];
    bars[0] = 1;
    with_keys(rows, bars)
}

/// One component of which a slot in the middle row is at its bar.
pub fn not_yet() -> Table {
    let mut table = one_component();
    table.bars[ROWS / 2] = COLUMNS - 1;
    table
}

pub fn already() -> Table {
    full(COLUMNS, |at| Slot { status: Status::Executed, ..committed(at, link(at)) })
}
