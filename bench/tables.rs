//! Full tables: 7 rows of 32 slots.
use std::collections::BTreeMap;
use summerset::plain::{Config, Contents, Deps, Kind, Request, Slot, SlotAt, Status, Table};

pub const CONFIG: Config = Config { n: 7, own: 0, simple: 4, sup: 5 };
pub const ROWS: usize = 7;
pub const COLUMNS: usize = 32;
pub const BALLOT: u64 = 1;
/// Who sends what a slot has been told.
pub const PEER: usize = 1;

/// All slots, a column after the other.
pub fn places() -> impl Iterator<Item = SlotAt> {
    (0..COLUMNS).flat_map(|col| (0..ROWS).map(move |row| (row, col)))
}

/// Puts of different keys; there are 64 keys for each of the four places in a batch.
fn batch((row, col): SlotAt, puts: usize) -> Vec<Request> {
    let i = (ROWS * col + row) as u64;
    let put = |place: u64| Kind::Put { key: 64 * place + i % 64, value: 1_000_000 + i };
    (0..puts as u64).map(|place| Request { client: 1 + i % 5, id: 4 * i + place, kind: put(place) }).collect()
}

/// A sequence that is far from the slot's place.
pub fn sequence((row, col): SlotAt) -> u64 {
    ((COLUMNS * row + col) * 37 % (ROWS * COLUMNS)) as u64
}

/// The column before in every row.
pub fn before((_, col): SlotAt) -> Deps {
    vec![col.checked_sub(1); ROWS]
}

pub fn contents(at: SlotAt, deps: Deps, puts: usize) -> Contents {
    Contents { seq: sequence(at), deps, batch: batch(at, puts) }
}

/// Told by a peer, not led, with the column before for its dependencies.
pub fn slot(at: SlotAt, status: Status, puts: usize) -> Slot {
    Slot { ballot: BALLOT, status, contents: contents(at, before(at), puts), source: Some(PEER), marks: None }
}

/// The highest column of each row that puts the key.
fn raise(keys: &mut BTreeMap<u64, Deps>, (row, col): SlotAt, slot: &Slot) {
    for request in &slot.contents.batch {
        if let Kind::Put { key, .. } = request.kind {
            let highest = &mut keys.entry(key).or_insert_with(|| vec![None; ROWS])[row];
            *highest = (*highest).max(Some(col));
        }
    }
}

/// Every slot there, and all bars at one column.
pub fn full(bar: usize, slot: impl Fn(SlotAt) -> Slot) -> Table {
    let row = |row: usize| (0..COLUMNS).map(|col| slot((row, col))).collect();
    with_keys((0..ROWS).map(row).collect(), vec![bar; ROWS])
}

pub fn with_keys(rows: Vec<Vec<Slot>>, bars: Vec<usize>) -> Table {
    let mut keys = BTreeMap::new();
    for (row, slots) in rows.iter().enumerate() {
        for (col, slot) in slots.iter().enumerate() {
            raise(&mut keys, (row, col), slot);
        }
    }
    Table { rows, bars, keys }
}
