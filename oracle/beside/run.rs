//! A run: the Rust taken through events on a table that begins empty.
use crate::random::Random;
use crate::rust_says::caught;
use crate::{attempts, draw};
use summerset::drive::Driver;
use summerset::plain::{Config, Event, Place, Slot, SlotAt, Status, Stepped, Table};

/// The statuses of log events.
pub const PRE_ACCEPTING: u64 = Status::PreAccepting as u64;
pub const ACCEPTING: u64 = Status::Accepting as u64;
pub const COMMITTED: u64 = Status::Committed as u64;

/// How a run is drawn. A far one goes to the ends of rows, batches and numbers.
pub struct Plan {
    pub config: Config,
    pub length: usize,
    pub is_far: bool,
    /// Whether an event may have more than the list has room for.
    pub oversteps: bool,
    /// Whether it keeps to what the rules compare of attempts.
    pub has_attempts: bool,
}

const SHORT: usize = 12;
const LONGEST: usize = 40;

impl Plan {
    /// Some runs are long, some far, and of these half of seven replicas.
    pub fn any(random: &mut Random) -> Plan {
        let config = draw::config(random);
        let length = 1 + random.below(SHORT);
        let mut plan = Plan { config, length, is_far: false, oversteps: true, has_attempts: false };
        if random.one_in(6) {
            plan.length = SHORT + 1 + random.below(LONGEST - SHORT);
        }
        plan.is_far = random.one_in(2);
        if plan.is_far && random.one_in(2) {
            plan.config = draw::config_of(7, random);
        }
        plan
    }

    /// As the list has them.
    pub fn listed(random: &mut Random) -> Plan {
        Plan { oversteps: false, ..Plan::any(random) }
    }
}

/// An event, what it did, and the slots that stand run after it and did not before, by row and column: whatever the Rust
/// submitted, and in whatever order.
#[derive(Clone)]
pub struct Happened {
    pub event: Event,
    pub did: Stepped,
    pub run: Vec<SlotAt>,
}

/// On a table that begins empty: what happened, the table before the last event and after it.
pub struct Run {
    pub config: Config,
    pub events: Vec<Happened>,
    pub before: Table,
    pub table: Table,
    driver: Driver,
    pub is_far: bool,
    pub oversteps: bool,
    pub has_attempts: bool,
}

impl Run {
    pub fn new(plan: &Plan) -> Run {
        let driver = Driver::new(plan.config);
        let Plan { config, is_far, oversteps, has_attempts, .. } = *plan;
        let (before, table) = (driver.table(), driver.table());
        Run { config, events: Vec::new(), before, table, driver, is_far, oversteps, has_attempts }
    }

    /// Takes the Rust through an event: what it did, or what it says where it panics.
    pub fn take(&mut self, event: &Event) -> Result<Happened, String> {
        let did = caught(|| self.driver.step(event))?;
        let after = self.driver.table();
        if self.has_attempts && !attempts::are_comparable(&self.table, &after) {
            return Err(
                "a fault of the comparison: a committed slot is altered or lowered, or has an empty batch".into()
            );
        }
        let happened = Happened { event: event.clone(), did, run: run_between(&self.table, &after) };
        self.events.push(happened.clone());
        self.before = std::mem::replace(&mut self.table, after);
        Ok(happened)
    }
}

/// Of events that are drawn one by one, each with how many there are after it.
pub fn whole(
    plan: &Plan,
    random: &mut Random,
    next: impl Fn(&Run, usize, &mut Random) -> Event,
) -> Result<Run, String> {
    let mut run = Run::new(plan);
    for left in (0..plan.length).rev() {
        let event = next(&run, left, random);
        run.take(&event)?;
    }
    Ok(run)
}

/// Whether Logged Committed of this place raises its row's bar.
pub fn raises(table: &Table, at: &Place) -> bool {
    let is_at_bar = table.bars.get(at.row as usize).is_some_and(|bar| *bar as u64 == at.col);
    is_at_bar && table.rows[at.row as usize].get(at.col as usize).is_some_and(|slot| slot.status >= Status::Committed)
}

pub fn slots(table: &Table, are_wanted: impl Fn(&Slot) -> bool) -> Vec<(Place, &Slot)> {
    let mut wanted = Vec::new();
    for (row, held) in table.rows.iter().enumerate() {
        for (col, slot) in held.iter().enumerate().filter(|(_, slot)| are_wanted(slot)) {
            wanted.push((Place { row: row as u64, col: col as u64 }, slot));
        }
    }
    wanted
}

fn run_between(before: &Table, after: &Table) -> Vec<SlotAt> {
    let has_run = |slot: &Slot| slot.status == Status::Executed;
    let run = slots(after, has_run).into_iter().map(|(at, _)| (at.row as usize, at.col as usize));
    run.filter(|(row, col)| !before.rows[*row].get(*col).is_some_and(has_run)).collect()
}
