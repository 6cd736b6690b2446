//! A line of a list: a question in decimal numbers, then its answer.
use crate::bytes::{self, Answer, DONE, SET, WORD};
use crate::cases::{Case, code_of, numbers_of};
use crate::image::{self, Record};
use crate::numbers;
use crate::run::{Happened, Run};
use summerset::drive;
use summerset::plain::{Contents, Deps, Event, Output, Request, Slot, SlotAt, Table};

/// What each line holds, for its reader.
pub const LEGEND: &str = "\
Written by oracle/freeze, and not by hand. One case a line, in decimal numbers; a set is per row 0 or a column and one.
1 union: two sets of 7 rows; the code, the union.
2 fast decision: n own simple super avoided; how many replies, each: replica, sequence, set of n rows;
  how many silent, each: replica; the code, sequence, set.
3 recovery choice: n own simple super row highest default; how many acks, each: replica;
  how many votes, each: replica, status, sequence, set, batch; the code, sequence, set, batch.
4 recovery choice by the paper's count: the same.
5 identify: n; how many refreshes of key columns that were empty, each: row, column, batch; the batch to identify;
  the code, the set.
6 handlers in a run: n own simple super; how many events on a table that was empty, each: tag (1 PreAccept, 2 Accept,
  3 CommitNotice, 4 AcceptReply, 5 ExpPrepare, 6 Logged, 7 Attempt, 8 Lead), for 1 to 3 peer, row, column, ballot,
  sequence, set of n rows, batch, for 4 and 5 peer, row, column, ballot, for 6 row, column, status, for 7 and 8 row,
  column; then what it did: the code, how many records, each: what (1 log, 2 CommitNotice to all, 3 PreAcceptReply,
  4 AcceptReply, 5 ExpPrepareReply, 6 a note to self), the peer it goes to and the ballot it was asked with (0 where
  none), row, column, ballot, status, sequence, set, batch; for 6 and 7 how many slots ran, then each of these in rising
  order, 32 times its row and its column, whatever the order in which they ran; after the last event the table: per row
  its length and bar, each slot: ballot, status, sequence, set, batch, source (0 none, or a peer and one), led, marks (a
  bit a replica); how many keys have columns, each: key, set.
A batch: its count, then per request client, id, kind: 0 other, 1 put, then key and value, 2 get, then key.
Codes: 100 done, 101 ignored, 102 not yet, 103 already, 104 wait, 105 Committed, 106 Accepting, 107 PreAccepting, below
100 a refusal's number.
After a wait all is 0. A status: 0 Null, 1 PreAccepting, 2 Accepting, 3 Committed, 4 Executed.
";

const IDENTIFY: u64 = 5;
const RUN: u64 = 6;

#[derive(Default)]
struct Line(Vec<u64>);

impl Line {
    fn put(&mut self, numbers: impl IntoIterator<Item = u64>) {
        self.0.extend(numbers);
    }

    fn put_set(&mut self, deps: &Deps) {
        self.put(drive::numbers_of(deps));
    }

    fn put_replicas(&mut self, replicas: &[usize]) {
        self.put([replicas.len() as u64]);
        self.put(replicas.iter().map(|r| *r as u64));
    }

    fn put_batch(&mut self, batch: &[Request]) {
        self.put(numbers::batch(batch));
    }

    fn put_contents(&mut self, contents: &Contents) {
        self.put([contents.seq]);
        self.put_set(&contents.deps);
        self.put_batch(&contents.batch);
    }

    fn put_question(&mut self, case: &Case) {
        match case {
            Case::Union { a, b } => {
                self.put_set(a);
                self.put_set(b);
            }
            Case::Fast { config, avoided, replies, silent } => {
                self.put(numbers_of(config));
                self.put([u64::from(*avoided), replies.len() as u64]);
                for r in replies {
                    self.put([r.replica as u64, r.seq]);
                    self.put_set(&r.deps);
                }
                self.put_replicas(silent);
            }
            Case::Choice { config, prepare, .. } => {
                self.put(numbers_of(config));
                self.put([prepare.row as u64, prepare.highest, prepare.default]);
                self.put_replicas(&prepare.acks);
                self.put([prepare.votes.len() as u64]);
                for v in &prepare.votes {
                    self.put([v.replica as u64, v.status as u64]);
                    self.put_contents(&v.contents);
                }
            }
        }
    }

    /// What is not written is 0 here.
    fn put_answer(&mut self, case: &Case, answer: &Answer) {
        let mut out = answer.out.clone();
        out.resize(case.function().lengths()[2], 0);
        self.put([answer.code]);
        match case {
            Case::Union { .. } => self.put_set(&bytes::set_at(&out, 0, SET)),
            Case::Fast { config, .. } => {
                self.put([bytes::word(&out, 0)]);
                self.put_set(&bytes::set_at(&out, WORD, config.n));
            }
            Case::Choice { config, .. } => {
                let deps = bytes::set_at(&out, WORD, config.n);
                let batch = bytes::batch_at(&out, WORD + SET);
                self.put_contents(&Contents { seq: bytes::word(&out, 0), deps, batch });
            }
        }
    }

    fn put_happened(&mut self, happened: &Happened) -> Result<(), String> {
        let Happened { event, did, run } = happened;
        self.put(numbers::event(event));
        self.put([code_of(event, did)?, did.output.len() as u64]);
        for record in &did.output {
            self.put_record(record)?;
        }
        if matches!(event, Event::Logged { .. } | Event::Attempt { .. }) {
            self.put([run.len() as u64]);
            self.put(run.iter().map(|slot| u64::from(image::entry(slot))));
        }
        Ok(())
    }

    fn put_record(&mut self, record: &Output) -> Result<(), String> {
        let r = Record::of(record)?;
        self.put([u64::from(r.what), r.to as u64, r.asked]);
        self.put([r.slot.0 as u64, r.slot.1 as u64, r.ballot, r.status as u64]);
        self.put_contents(r.contents);
        Ok(())
    }

    fn put_slot(&mut self, slot: &Slot) {
        self.put([slot.ballot, slot.status as u64]);
        self.put_contents(&slot.contents);
        let source = slot.source.map_or(0, |peer| peer as u64 + 1);
        self.put([source, u64::from(slot.marks.is_some()), slot.marks.unwrap_or(0)]);
    }

    fn put_table(&mut self, table: &Table) {
        for (slots, bar) in table.rows.iter().zip(&table.bars) {
            self.put([slots.len() as u64, *bar as u64]);
            slots.iter().for_each(|slot| self.put_slot(slot));
        }
        self.put([table.keys.len() as u64]);
        for (key, set) in &table.keys {
            self.put([*key]);
            self.put_set(set);
        }
    }

    fn text(&self) -> String {
        self.0.iter().map(u64::to_string).collect::<Vec<_>>().join(" ")
    }
}

/// Of a call.
pub fn call(case: &Case, answer: &Answer) -> String {
    let mut line = Line::default();
    line.put([u64::from(case.function().number())]);
    line.put_question(case);
    line.put_answer(case, answer);
    line.text()
}

/// Of identify, after refreshes.
pub fn identify(n: usize, stores: &[(SlotAt, Vec<Request>)], batch: &[Request], set: &Deps) -> String {
    let mut line = Line::default();
    line.put([IDENTIFY, n as u64, stores.len() as u64]);
    for ((row, col), stored) in stores {
        line.put([*row as u64, *col as u64]);
        line.put_batch(stored);
    }
    line.put_batch(batch);
    line.put([DONE]);
    line.put_set(set);
    line.text()
}

/// Of a run of the handlers.
pub fn run(run: &Run) -> Result<String, String> {
    let mut line = Line::default();
    line.put([RUN]);
    line.put(numbers_of(&run.config));
    line.put([run.events.len() as u64]);
    for happened in &run.events {
        line.put_happened(happened)?;
    }
    line.put_table(&run.table);
    Ok(line.text())
}
