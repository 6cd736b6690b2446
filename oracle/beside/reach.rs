//! What an attempt or a log event meets in the table, for the counts and to aim by: nothing is expected by it.
use crate::bytes::{ALREADY, DONE, NOT_YET, REPLICAS};
use crate::run::{ACCEPTING, Happened, PRE_ACCEPTING, Run};
use summerset::plain::{Event, Place, SlotAt, Status, Table};

/// What was met, by name, and by how many slots a bar rose.
#[derive(Clone, Default)]
pub struct Met {
    pub names: Vec<&'static str>,
    pub rise: usize,
}

/// How many slots of each row are reached. A slot depends on its earlier neighbour, so these are the first of the row.
type Heights = [usize; REPLICAS];

fn is_in((row, col): SlotAt, heights: &Heights) -> bool {
    col < heights[row]
}

/// From a slot, itself among them; also to where no slot is.
fn heights((row, col): SlotAt, table: &Table) -> Heights {
    let mut heights = [0; REPLICAS];
    heights[row] = col + 1;
    loop {
        let before = heights;
        for (row, slots) in table.rows.iter().enumerate() {
            for slot in slots.iter().take(before[row]) {
                let numbers = slot.contents.deps.iter().map(|dep| dep.map_or(0, |col| col + 1));
                heights.iter_mut().zip(numbers).for_each(|(height, number)| *height = number.max(*height));
            }
        }
        if heights == before {
            return heights;
        }
    }
}

/// Whether some row's last slot below its bar is committed, and all that it leads to is below its bar.
pub fn might_run(table: &Table) -> bool {
    let is_committed = |row: usize, bar: usize| table.rows[row][bar - 1].status == Status::Committed;
    let is_below = |heights: Heights| table.bars.iter().zip(heights).all(|(bar, height)| height <= *bar);
    let mut bars = table.bars.iter().enumerate().filter(|(_, bar)| **bar > 0);
    bars.any(|(row, bar)| is_committed(row, *bar) && is_below(heights((row, bar - 1), table)))
}

fn reached(heights: &Heights, table: &Table, is_met: impl Fn(Status) -> bool) -> Vec<SlotAt> {
    let mut slots = Vec::new();
    for (row, held) in table.rows.iter().enumerate() {
        let reached = held.iter().enumerate().take(heights[row]);
        slots.extend(reached.filter(|(_, slot)| is_met(slot.status)).map(|(col, _)| (row, col)));
    }
    slots
}

/// What the last event of a run met, where it is an attempt or a log event, by the code that it is answered with.
pub fn met(run: &Run, code: u64) -> Met {
    let Some(Happened { event, run: slots, .. }) = run.events.last().filter(|_| code >= DONE) else {
        return Met::default();
    };
    let tables @ [before, after] = [&run.before, &run.table];
    match event {
        Event::Attempt { at } => Met { names: attempt_names(slot_at(at), before, code), rise: 0 },
        Event::Logged { at, status } => {
            let names = match *status {
                PRE_ACCEPTING => vec![reply_name(slot_at(at), before)],
                ACCEPTING => vec![mark_name(slot_at(at), tables)],
                _ => bar_names(slot_at(at), tables, slots),
            };
            let row = slot_at(at).0;
            Met { names, rise: after.bars[row] - before.bars[row] }
        }
        _ => Met::default(),
    }
}

fn slot_at(at: &Place) -> SlotAt {
    (at.row as usize, at.col as usize)
}

fn attempt_names(at: SlotAt, table: &Table, code: u64) -> Vec<&'static str> {
    let heights = heights(at, table);
    match code {
        NOT_YET => vec![why_not_yet(at, table, &heights)],
        ALREADY => vec!["Already"],
        _ => names_of_done(table, &heights),
    }
}

fn reply_name((row, col): SlotAt, before: &Table) -> &'static str {
    let slot = &before.rows[row][col];
    match (slot.marks, slot.source) {
        (Some(_), _) => "PreAccepting, a note to self",
        (None, Some(_)) => "PreAccepting, a reply to the source",
        (None, None) => "PreAccepting, nothing",
    }
}

fn mark_name((row, col): SlotAt, [before, after]: [&Table; 2]) -> &'static str {
    let [slot, now] = [before, after].map(|table| &table.rows[row][col]);
    match (slot.marks, slot.source) {
        (Some(_), _) if now.status != slot.status => "Accepting, led: the own mark makes a quorum",
        (Some(marks), _) if now.marks != Some(marks) => "Accepting, led: the own mark",
        (Some(_), _) => "Accepting, led: ignored",
        (None, Some(_)) => "Accepting, a reply to the source",
        (None, None) => "Accepting, nothing",
    }
}

/// `run` has the slots that ran. Those that the bar's tail does not lead to ran by attempts of other rows.
fn bar_names((row, col): SlotAt, [before, after]: [&Table; 2], run: &[SlotAt]) -> Vec<&'static str> {
    let [bar, risen] = [before, after].map(|table| table.bars[row]);
    if bar == risen {
        return vec![if col == bar { "Committed, at a bar that stays" } else { "Committed, not at the bar" }];
    }
    let tail = (row, risen - 1);
    let mut names = vec!["Committed, the bar rises"];
    if after.rows[row][tail.1].status != Status::Executed {
        names.push("Committed, the bar rises, the tail is NotYet");
    }
    let heights = heights(tail, before);
    if run.iter().any(|slot| slot.0 != row) {
        names.push("Committed, slots of other rows run");
    }
    if run.iter().any(|slot| !is_in(*slot, &heights)) {
        names.push("Committed, slots of other rows run by attempts of their own");
    }
    names
}

fn why_not_yet((row, col): SlotAt, table: &Table, heights: &Heights) -> &'static str {
    let is_absent = |row: usize| heights[row] > table.rows[row].len();
    if col >= table.rows[row].len() {
        "NotYet, the slot is not there"
    } else if col >= table.bars[row] {
        "NotYet, the slot is not below its bar"
    } else if (0..table.rows.len()).any(is_absent) {
        "NotYet, it leads to a slot that is not there"
    } else {
        "NotYet, it leads to a slot that is not below its bar"
    }
}

fn names_of_done(table: &Table, heights: &Heights) -> Vec<&'static str> {
    let run = reached(heights, table, |status| status != Status::Executed);
    let mut names = vec![match run.len() {
        0 | 1 => "Done, of one slot",
        2..=7 => "Done, of 2 to 7 slots",
        8..=63 => "Done, of 8 to 63 slots",
        _ => "Done, of 64 slots or more",
    }];
    if run.iter().any(|slot| slot.0 != run[0].0) {
        names.push(if has_cycle(&run, table) {
            "Done, a cycle across rows"
        } else {
            "Done, across rows with no cycle"
        });
    }
    if !reached(heights, table, |status| status == Status::Executed).is_empty() {
        names.push("Done, it leads to slots that have run");
    }
    names
}

/// Whether two slots of different rows each lead to the other.
fn has_cycle(run: &[SlotAt], table: &Table) -> bool {
    let reached: Vec<Heights> = run.iter().map(|slot| heights(*slot, table)).collect();
    let both = |i: usize, j: usize| is_in(run[i], &reached[j]) && is_in(run[j], &reached[i]);
    (0..run.len()).any(|i| (0..i).any(|j| run[i].0 != run[j].0 && both(i, j)))
}
