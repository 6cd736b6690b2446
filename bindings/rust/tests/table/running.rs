//! The run order: bars, attempts, and the worked case on two copies.

use crate::{bars, edit, empty, first_edit, from, lengths, place, put, status};
use njimbaros::{Attempted, Config, Contents, DepSet, Handled, Kind, LogStatus, Logged, Request, Status, Table};

/// 0.0, of sequence 2, puts key 5 and waits for 1.0.
fn first() -> Contents {
    edit(2, DepSet::of([None, Some(0), None]))
}

/// 1.0, of sequence 1, gets key 5 and waits for 0.0.
fn second() -> Contents {
    let get = Request { client: 2, id: 1, kind: Kind::Get { key: 5 } };
    Contents { sequence: 1, dependencies: DepSet::of([Some(0)]), batch: vec![get] }
}

/// A CommitNotice of peer 1, which has to be done.
fn commit(table: &mut Table, row: u64, column: u64, contents: &Contents) {
    let handled = table.commit_notice(from(1, place(row, column), 1), contents);
    assert!(matches!(handled, Ok(Handled::Done(_))), "{handled:?}");
}

fn logged(table: &mut Table, row: u64, column: u64) -> Logged {
    table.logged(place(row, column), LogStatus::Committed).expect("the slot is in the table")
}

fn nothing() -> Logged {
    Logged { ran: vec![], records: vec![] }
}

pub(crate) fn worked_case_on_two_copies() {
    let mut one = empty();
    commit(&mut one, 0, 0, &first());
    assert_eq!(logged(&mut one, 0, 0), nothing());
    assert_eq!(bars(&one), [1, 0, 0]);
    commit(&mut one, 1, 0, &second());
    let ran_by_one = logged(&mut one, 1, 0);

    let mut other = Table::open(Config { own: 1, sup: 2, ..crate::three() }).expect("within the bounds");
    commit(&mut other, 1, 0, &second());
    assert_eq!(logged(&mut other, 1, 0), nothing());
    assert_eq!(bars(&other), [0, 1, 0]);
    assert_eq!(other.attempt(place(1, 0)), Ok(Attempted::NotYet));
    commit(&mut other, 0, 0, &first());
    let ran_by_other = logged(&mut other, 0, 0);
    assert_eq!(other.attempt(place(1, 0)), Ok(Attempted::Already));

    assert_eq!(ran_by_one, Logged { ran: vec![place(1, 0), place(0, 0)], records: vec![] });
    assert_eq!(ran_by_other, ran_by_one);
    let said: Vec<String> = ran_by_one.ran.iter().map(|slot| slot.to_string()).collect();
    assert_eq!(said, ["1.0", "0.0"]);
    for copy in [&one, &other] {
        assert_eq!((bars(copy), lengths(copy)), ([1, 1, 0], [1, 1, 0]));
        for (slot, contents) in [(place(0, 0), first()), (place(1, 0), second())] {
            assert_eq!(copy.slot(slot).map(|s| (s.status, s.contents)), Some((Status::Executed, contents)));
        }
    }
}

pub(crate) fn attempt_absent() {
    let mut table = empty();
    let before = table.clone();
    assert_eq!(table.attempt(place(1, 2)), Ok(Attempted::NotYet));
    assert_eq!(table, before);
    assert_eq!(lengths(&table), [0, 0, 0]);
}

pub(crate) fn attempt_not_yet_then_already() {
    let mut table = empty();
    commit(&mut table, 0, 0, &first());
    logged(&mut table, 0, 0);
    let before = table.clone();
    assert_eq!(table.attempt(place(0, 0)), Ok(Attempted::NotYet));
    assert_eq!(table, before);
    commit(&mut table, 1, 0, &second());
    logged(&mut table, 1, 0);
    let before = table.clone();
    for slot in [place(0, 0), place(1, 0)] {
        assert_eq!(table.attempt(slot), Ok(Attempted::Already));
    }
    assert_eq!(table, before);
}

/// The bars stand as the host had them on its disk, and nothing has run yet: an attempt runs the component.
pub(crate) fn a_component_by_sequence() {
    let mut table = empty();
    commit(&mut table, 0, 0, &first());
    commit(&mut table, 1, 0, &second());
    let mut image = table.image().to_vec();
    image[11] = 1;
    image[12] = 1;
    for asked in [place(0, 0), place(1, 0)] {
        let mut copy = Table::from_image(&image).expect("the length is an image's");
        assert_eq!(copy.attempt(asked), Ok(Attempted::Done(vec![place(1, 0), place(0, 0)])));
        assert_eq!([0, 1].map(|row| status(&copy, place(row, 0))), [Some(Status::Executed); 2]);
        assert_eq!(copy.attempt(asked), Ok(Attempted::Already));
    }
}

pub(crate) fn bar_past_two_slots() {
    let mut table = empty();
    let alone = Contents { batch: vec![put(7)], ..first_edit() };
    commit(&mut table, 0, 0, &alone);
    commit(&mut table, 0, 1, &alone);
    assert_eq!(logged(&mut table, 0, 1), nothing());
    assert_eq!(bars(&table), [0, 0, 0]);
    assert_eq!(logged(&mut table, 0, 0).ran, [place(0, 0), place(0, 1)]);
    assert_eq!(bars(&table), [2, 0, 0]);
    assert_eq!(logged(&mut table, 0, 0), nothing());
}
