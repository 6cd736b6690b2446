//! How a run with attempts is drawn, and what its slots wait for.
use crate::draw;
use crate::random::Random;
use crate::run::Plan;
use crate::runs;
use summerset::plain::{SlotAt, Table};
use summerset::refusals::COLUMNS;

/// What a slot waits for.
#[derive(Clone, Copy)]
enum Web {
    Nothing,
    /// The last slot of some rows: chains.
    Behind,
    /// The same column of the next row: a cycle through all rows.
    Ring,
    /// Columns about its own, slots among them that are still to come.
    About,
    /// Any slots that are there or to come.
    Any,
}

const WEBS: [Web; 5] = [Web::Nothing, Web::Behind, Web::Ring, Web::About, Web::Any];

/// Of one run.
pub struct Aim {
    pub plan: Plan,
    web: Web,
    /// How many columns are filled.
    pub width: usize,
    /// Whether a slot may also wait for columns that are never filled.
    pub is_wild: bool,
    /// The rows, a bit each, whose last slot waits for what never comes, and whose bar rises once that slot is committed. It
    /// runs nothing then: what is below, and what waits for that, is left to attempts and to other log events.
    corks: u64,
    /// One event in so many is an attempt before the run is at its end, and one in so many raises a bar that can rise.
    pub patience: usize,
    pub leisure: usize,
}

impl Aim {
    /// Most are of few columns; one in fifty fills the whole table, and few attempts come before its end. A cork waits for
    /// the column past the last, so there has to be one.
    pub fn any(random: &mut Random) -> Aim {
        let is_full = random.one_in(50);
        let config = if is_full { draw::config_of(7, random) } else { draw::config(random) };
        let width = if is_full { COLUMNS as usize } else { random.of(&[1, 2, 2, 3, 4, 6]) };
        let some = random.word();
        let corks = random.of(&[0, 0, 0, some, u64::MAX]);
        let width = if corks == 0 { width } else { width.clamp(2, COLUMNS as usize - 1) };
        let is_far = random.one_in(8);
        let plan = Plan { config, length: 0, is_far, oversteps: true, has_attempts: true };
        let (patience, leisure) = (if is_full { 80 } else { random.of(&[4, 12, 60]) }, random.of(&[3, 8, 60]));
        let (web, is_wild) = (random.of(&WEBS), random.one_in(4));
        Aim { plan, web, width, is_wild, corks, patience, leisure }.of_length(random)
    }

    /// As the list has them: few columns, and nothing that its lines have no room for.
    pub fn listed(random: &mut Random) -> Aim {
        let aim = Aim::any(random);
        let plan = Plan { config: draw::config(random), oversteps: false, ..aim.plan };
        Aim { plan, width: aim.width.min(3), ..aim }.of_length(random)
    }

    /// Long enough for mostly all of its slots to be committed before its end.
    fn of_length(mut self, random: &mut Random) -> Aim {
        let slots = self.plan.config.n * self.width;
        self.plan.length = 2 * slots + random.below(slots.min(50) + 8) + self.end();
        self
    }

    /// How many events at its end are left for bars and attempts.
    pub fn end(&self) -> usize {
        let n = self.plan.config.n;
        if self.corks == 0 { n + 3 } else { 3 * n + 2 }
    }

    pub fn has_cork(&self, row: usize) -> bool {
        self.corks >> row & 1 == 1
    }

    /// Nothing is stored past a cork.
    pub fn last_column(&self) -> usize {
        if self.corks == 0 { COLUMNS as usize - 1 } else { self.width - 1 }
    }

    /// How many columns of a row are without a cork.
    pub fn open(&self, row: usize) -> usize {
        self.width - usize::from(self.has_cork(row))
    }
}

/// 0 for nothing, or a column and one.
pub fn deps(table: &Table, aim: &Aim, (row, col): SlotAt, random: &mut Random) -> Vec<u64> {
    let n = table.rows.len();
    let mut deps = web(table, aim, (row, col), random);
    if aim.has_cork(row) && col + 1 == aim.width {
        deps[random.below(n)] = aim.width as u64 + 1;
    }
    deps
}

fn web(table: &Table, aim: &Aim, (row, col): SlotAt, random: &mut Random) -> Vec<u64> {
    let n = table.rows.len();
    if aim.is_wild && random.one_in(12) {
        return runs::deps(n as u64, random);
    }
    let web = if random.one_in(6) { random.of(&WEBS) } else { aim.web };
    let width = |of: usize| if col < aim.open(row) { aim.open(of) } else { aim.width };
    let mut number = |of: usize| match web {
        Web::Nothing => 0,
        Web::Behind if of == row || random.one_in(2) => 0,
        Web::Behind => table.rows[of].len().min(width(of)),
        Web::Ring if of != (row + 1) % n => 0,
        Web::Ring => col + 1,
        Web::About | Web::Any if random.one_in(2) => 0,
        Web::About => (col + random.below(3)).min(width(of)),
        Web::Any => 1 + random.below(width(of)),
    };
    (0..n).map(|of| number(of) as u64).collect()
}
