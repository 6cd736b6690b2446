//! A table's image and a handler's output in bytes, by docs/IMAGE.md.
use crate::bytes::{self, BATCH, BATCH_IN_CONTENTS, IMAGE, OUT, REPLICAS, SET, WORD};
use crate::cases::numbers_of;
use summerset::plain::{Config, Contents, Output, Slot, SlotAt, Status, Table};
use summerset::refusals::COLUMNS;

/// Of the image: N, own, simple and super come first.
pub const LENGTHS: usize = 4;
pub const BARS: usize = 11;
pub const KEY_COLUMNS: usize = 18;
pub const SLOTS: usize = 1_810;

/// Of a slot.
pub const SLOT: usize = 142;
pub const STATUS: usize = 0;
pub const SOURCE: usize = 1;
pub const LED: usize = 2;
pub const MARKS: usize = 3;
pub const BALLOT: usize = 10;
pub const IN_SLOT: usize = 18;

/// Of the output: how many records, then the records, each with its contents at its end.
pub const RECORDS: usize = 1;
pub const RECORD: usize = 145;
const IN_RECORD: usize = 21;

/// How many slots the image has room for.
pub const ROOM: usize = REPLICAS * COLUMNS as usize;

/// How the bytes of a part are read.
#[derive(Clone, Copy, PartialEq, Eq)]
pub enum Form {
    Number,
    Set,
    Batch,
    Bytes,
}

/// A field of a slot or of a record.
pub struct Part {
    pub name: &'static str,
    pub at: usize,
    pub length: usize,
    pub form: Form,
}

const fn part(name: &'static str, at: usize, length: usize, form: Form) -> Part {
    Part { name, at, length, form }
}

pub const HEAD: [Part; 4] = [
    part("N", 0, 1, Form::Number),
    part("own", 1, 1, Form::Number),
    part("simple", 2, 1, Form::Number),
    part("super", 3, 1, Form::Number),
];

pub const SLOT_PARTS: [Part; 8] = [
    part("status", STATUS, 1, Form::Number),
    part("source", SOURCE, 1, Form::Number),
    part("led", LED, 1, Form::Number),
    part("marks", MARKS, REPLICAS, Form::Bytes),
    part("ballot", BALLOT, WORD, Form::Number),
    part("sequence", IN_SLOT, WORD, Form::Number),
    part("dependencies", IN_SLOT + WORD, SET, Form::Set),
    part("batch", IN_SLOT + BATCH_IN_CONTENTS, BATCH, Form::Batch),
];

pub const RECORD_PARTS: [Part; 10] = [
    part("what", 0, 1, Form::Number),
    part("peer", 1, 1, Form::Number),
    part("row", 2, 1, Form::Number),
    part("column", 3, 1, Form::Number),
    part("status", 4, 1, Form::Number),
    part("ballot asked with", 5, WORD, Form::Number),
    part("ballot", 13, WORD, Form::Number),
    part("sequence", IN_RECORD, WORD, Form::Number),
    part("dependencies", IN_RECORD + WORD, SET, Form::Set),
    part("batch", IN_RECORD + BATCH_IN_CONTENTS, BATCH, Form::Batch),
];

/// Where the slot at this index among all stands: 32 a row.
pub fn slot_at(index: usize) -> usize {
    SLOTS + SLOT * index
}

/// Row and column of that index.
pub fn place(index: usize) -> SlotAt {
    (index / COLUMNS as usize, index % COLUMNS as usize)
}

/// The index of a slot, which is its entry in an order list.
pub fn entry(&(row, col): &SlotAt) -> u8 {
    (row * COLUMNS as usize + col) as u8
}

/// Whether its row is as long as that.
pub fn is_held(image: &[u8], index: usize) -> bool {
    let (row, col) = place(index);
    col < image[LENGTHS + row] as usize
}

fn slot_bytes(slot: &Slot) -> [u8; SLOT] {
    let mut bytes = [0; SLOT];
    let marks = slot.marks.unwrap_or(0);
    bytes[STATUS] = slot.status as u8;
    bytes[SOURCE] = slot.source.map_or(0, |peer| peer as u8 + 1);
    bytes[LED] = u8::from(slot.marks.is_some());
    bytes::put(&mut bytes, MARKS, &bytes::marks_of((0..REPLICAS).filter(|r| marks >> r & 1 == 1)));
    bytes::put(&mut bytes, BALLOT, &slot.ballot.to_le_bytes());
    bytes::put(&mut bytes, IN_SLOT, &bytes::contents_bytes(&slot.contents));
    bytes
}

/// The image of the Rust's table, with zeros wherever nothing stands.
pub fn of(config: &Config, table: &Table) -> Vec<u8> {
    let mut image = vec![0; IMAGE];
    bytes::put(&mut image, 0, &numbers_of(config).map(|number| number as u8));
    for (row, (slots, bar)) in table.rows.iter().zip(&table.bars).enumerate() {
        image[LENGTHS + row] = slots.len() as u8;
        image[BARS + row] = *bar as u8;
        for (col, slot) in slots.iter().enumerate() {
            bytes::put(&mut image, slot_at(usize::from(entry(&(row, col)))), &slot_bytes(slot));
        }
    }
    for (key, set) in &table.keys {
        bytes::put(&mut image, KEY_COLUMNS + SET * *key as usize, &bytes::set_bytes(set));
    }
    image
}

/// What a handler or a log event hands on, in one form for all kinds.
pub struct Record<'a> {
    pub what: u8,
    pub to: usize,
    pub asked: u64,
    pub slot: SlotAt,
    pub ballot: u64,
    pub status: Status,
    pub contents: &'a Contents,
}

impl Record<'_> {
    pub fn of(output: &Output) -> Result<Record<'_>, String> {
        let (what, to, asked, slot, ballot, status, contents) = match output {
            Output::Log { status, slot, ballot, contents } => (1, 0, 0, slot, ballot, *status, contents),
            Output::CommitNotice { slot, ballot, contents } => (2, 0, 0, slot, ballot, Status::Committed, contents),
            Output::PreAcceptReply { to, slot, ballot, status, contents } => {
                (3, *to, 0, slot, ballot, *status, contents)
            }
            Output::AcceptReply { to, slot, ballot, status, contents } => (4, *to, 0, slot, ballot, *status, contents),
            Output::ExpPrepareReply { to, slot, new_ballot, ballot, status, contents } => {
                (5, *to, *new_ballot, slot, ballot, *status, contents)
            }
            Output::NoteToSelf { slot, ballot, status, contents } => (6, 0, 0, slot, ballot, *status, contents),
            Output::Beyond(what) => return Err(format!("no record: {what}")),
        };
        Ok(Record { what, to, asked, slot: *slot, ballot: *ballot, status, contents })
    }

    fn bytes(&self) -> Vec<u8> {
        let (row, col) = self.slot;
        let head = [self.what, self.to as u8, row as u8, col as u8, self.status as u8];
        let ballots = [self.asked.to_le_bytes(), self.ballot.to_le_bytes()].concat();
        [&head[..], &ballots, &bytes::contents_bytes(self.contents)].concat()
    }
}

/// What the Rust handed on, as `out` has it.
pub fn out_of(output: &[Output]) -> Result<Vec<u8>, String> {
    let mut out = vec![output.len() as u8];
    for record in output {
        out.extend(Record::of(record)?.bytes());
    }
    if out.len() > OUT {
        return Err(format!("{} records, and there is room for two", output.len()));
    }
    out.resize(OUT, 0);
    Ok(out)
}

/// Requests past a batch's count are nobody's, in the records and in the slots.
pub fn clear_past_counts(out: &mut [u8], image: &mut [u8]) {
    for record in out.get_mut(RECORDS..OUT).unwrap_or_default().chunks_mut(RECORD) {
        bytes::clear_past_count(&mut record[IN_RECORD + BATCH_IN_CONTENTS..]);
    }
    for slot in image[SLOTS..IMAGE].chunks_mut(SLOT) {
        bytes::clear_past_count(&mut slot[IN_SLOT + BATCH_IN_CONTENTS..]);
    }
}

/// Slots past a row's length are nobody's, where something was put there.
pub fn clear_past_lengths(image: &mut [u8]) {
    for index in (0..ROOM).filter(|index| !is_held(image, *index)).collect::<Vec<_>>() {
        image[slot_at(index)..][..SLOT].fill(0);
    }
}
