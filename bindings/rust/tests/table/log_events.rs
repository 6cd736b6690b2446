//! Log events of PreAccepting and Accepting: what goes out, and to whom. Those of Committed are with the run order.

use crate::{bars, empty, first_edit, from, place, status};
use njimbaros::{LogStatus, Logged, Record, Status, Table, What};

const AT: (u64, u64) = (0, 0);

fn logged(table: &mut Table, status: LogStatus) -> Logged {
    let logged = table.logged(place(AT.0, AT.1), status).expect("the slot is in the table");
    assert_eq!((&logged.ran[..], bars(table)), (&[][..], [0, 0, 0]));
    logged
}

/// Records of 0.0 at ballot 5.
fn records<const COUNT: usize>(whats: [What; COUNT], status: Status) -> Vec<Record> {
    let record = |what| Record { what, place: place(AT.0, AT.1), status, ballot: 5, contents: first_edit() };
    whats.map(record).to_vec()
}

fn pre_accepted() -> Table {
    let mut table = empty();
    table.pre_accept(from(1, place(AT.0, AT.1), 5), &first_edit()).expect("within the bounds");
    table
}

fn accepted() -> Table {
    let mut table = empty();
    table.accept(from(2, place(AT.0, AT.1), 5), &first_edit()).expect("within the bounds");
    table
}

pub(crate) fn pre_accepting_is_replied() {
    let mut table = pre_accepted();
    let before = table.clone();
    let reply = records([What::PreAcceptReply { to: 1 }], Status::PreAccepting);
    assert_eq!(logged(&mut table, LogStatus::PreAccepting).records, reply);
    assert_eq!(table, before);
}

pub(crate) fn pre_accepting_led_is_noted() {
    let mut table = pre_accepted();
    table.lead(place(AT.0, AT.1)).expect("the slot is in the table");
    let note = records([What::NoteToSelf], Status::PreAccepting);
    assert_eq!(logged(&mut table, LogStatus::PreAccepting).records, note);
}

pub(crate) fn accepting_is_replied() {
    let mut table = accepted();
    let reply = records([What::AcceptReply { to: 2 }], Status::Accepting);
    assert_eq!(logged(&mut table, LogStatus::Accepting).records, reply);
}

/// As an AcceptReply from myself: one mark; with that of 1 a simple quorum.
pub(crate) fn accepting_led_is_marked() {
    let mut table = accepted();
    table.lead(place(AT.0, AT.1)).expect("the slot is in the table");
    let mut late = table.clone();
    assert_eq!(logged(&mut table, LogStatus::Accepting).records, []);
    let marks = table.slot(place(AT.0, AT.1)).map(|slot| slot.marks);
    assert_eq!(marks, Some([true, false, false, false, false, false, false]));

    late.accept_reply(from(1, place(AT.0, AT.1), 5)).expect("within the bounds");
    let both = records([What::Log, What::CommitNotice], Status::Committed);
    assert_eq!(logged(&mut late, LogStatus::Accepting).records, both);
    assert_eq!(status(&late, place(AT.0, AT.1)), Some(Status::Committed));
}
