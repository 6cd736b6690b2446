//! The handlers: what they store, answer and put out.

use crate::{edit, empty, first_edit, from, lengths, place, put, status};
use njimbaros::{Contents, DepSet, Handled, Kind, Record, Refusal, Request, Slot, Status, What};

/// A record of 0.0 at ballot 5.
fn record(what: What, status: Status, contents: &Contents) -> Record {
    Record { what, place: place(0, 0), status, ballot: 5, contents: contents.clone() }
}

fn slot(status: Status, contents: &Contents) -> Slot {
    Slot { status, source: Some(1), led: false, marks: [false; 7], ballot: 5, contents: contents.clone() }
}

/// A null slot, as it is added.
fn null() -> Slot {
    let contents = Contents { sequence: 0, dependencies: DepSet::EMPTY, batch: vec![] };
    Slot { source: None, ballot: 0, ..slot(Status::Null, &contents) }
}

/// Key 5 has been put by 0.0 itself the second time: a repeated PreAccept is not nothing.
pub(crate) fn pre_accept_sent_again() {
    let mut table = empty();
    let message = from(1, place(0, 0), 5);
    for stored in [first_edit(), edit(2, DepSet::of([Some(0), None, None]))] {
        let logged = record(What::Log, Status::PreAccepting, &stored);
        assert_eq!(table.pre_accept(message, &first_edit()), Ok(Handled::Done(vec![logged])));
        assert_eq!(table.slot(place(0, 0)), Some(slot(Status::PreAccepting, &stored)));
    }
}

pub(crate) fn pre_accept_of_a_lower_ballot() {
    let mut table = empty();
    table.pre_accept(from(1, place(0, 0), 5), &first_edit()).expect("within the bounds");
    let before = table.clone();
    assert_eq!(table.pre_accept(from(2, place(0, 0), 4), &first_edit()), Ok(Handled::Ignored));
    assert_eq!(table, before);
}

/// The first sets the source, the second does not touch it.
pub(crate) fn accept_and_commit_notice() {
    let mut table = empty();
    let sent = edit(7, DepSet::of([None, Some(3), Some(31)]));
    let logged = record(What::Log, Status::Accepting, &sent);
    assert_eq!(table.accept(from(1, place(0, 0), 5), &sent), Ok(Handled::Done(vec![logged])));
    assert_eq!(table.slot(place(0, 0)), Some(slot(Status::Accepting, &sent)));
    let logged = record(What::Log, Status::Committed, &sent);
    assert_eq!(table.commit_notice(from(2, place(0, 0), 5), &sent), Ok(Handled::Done(vec![logged])));
    assert_eq!(table.slot(place(0, 0)), Some(slot(Status::Committed, &sent)));
    assert_eq!(lengths(&table), [1, 0, 0]);
}

pub(crate) fn exp_prepare_at_absent() {
    let mut table = empty();
    assert_eq!(table.exp_prepare(from(2, place(1, 2), 0)), Ok(Handled::Ignored));
    assert_eq!(lengths(&table), [0, 3, 0]);
    for column in 0..3 {
        assert_eq!(table.slot(place(1, column)), Some(null()));
    }
    assert_eq!(table.slot(place(1, 3)), None);
}

/// The slot's ballot stays.
pub(crate) fn exp_prepare_is_replied() {
    let mut table = empty();
    table.accept(from(1, place(0, 0), 5), &first_edit()).expect("within the bounds");
    let reply = record(What::ExpPrepareReply { to: 2, asked: 9 }, Status::Accepting, &first_edit());
    assert_eq!(table.exp_prepare(from(2, place(0, 0), 9)), Ok(Handled::Done(vec![reply])));
    let heard = Slot { source: Some(2), ..slot(Status::Accepting, &first_edit()) };
    assert_eq!(table.slot(place(0, 0)), Some(heard));
    assert_eq!(table.exp_prepare(from(2, place(0, 0), 5)), Ok(Handled::Ignored));
}

pub(crate) fn marks_make_a_quorum() {
    let mut table = empty();
    let one = from(1, place(0, 0), 5);
    table.accept(one, &first_edit()).expect("within the bounds");
    assert_eq!(table.accept_reply(one), Ok(Handled::Ignored));
    assert_eq!(table.lead(place(0, 0)), Ok(()));
    assert_eq!(table.accept_reply(one), Ok(Handled::Done(vec![])));
    let mut marked = Slot { led: true, ..slot(Status::Accepting, &first_edit()) };
    marked.marks[1] = true;
    assert_eq!(table.slot(place(0, 0)), Some(marked.clone()));
    assert_eq!(table.accept_reply(one), Ok(Handled::Ignored));
    assert_eq!(table.accept_reply(from(2, place(0, 0), 4)), Ok(Handled::Ignored));
    let records = [What::Log, What::CommitNotice].map(|what| record(what, Status::Committed, &first_edit()));
    assert_eq!(table.accept_reply(from(2, place(0, 0), 5)), Ok(Handled::Done(records.to_vec())));
    marked.marks[2] = true;
    marked.status = Status::Committed;
    assert_eq!(table.slot(place(0, 0)), Some(marked));
}

pub(crate) fn last_column() {
    let mut table = empty();
    assert!(matches!(table.pre_accept(from(1, place(0, 31), 5), &first_edit()), Ok(Handled::Done(_))));
    assert_eq!(lengths(&table), [32, 0, 0]);
    assert_eq!(status(&table, place(0, 31)), Some(Status::PreAccepting));
    let before = table.clone();
    assert_eq!(table.pre_accept(from(1, place(0, 32), 5), &first_edit()), Err(Refusal::NoColumn));
    assert_eq!(table, before);
    let far = edit(1, DepSet::of([Some(31)]));
    assert!(matches!(table.accept(from(1, place(2, 31), 5), &far), Ok(Handled::Done(_))));
    assert_eq!(table.slot(place(2, 31)).map(|slot| slot.contents), Some(far));
}

pub(crate) fn last_key() {
    let mut table = empty();
    let keyed = |key| Contents { batch: vec![put(key)], ..first_edit() };
    assert!(matches!(table.pre_accept(from(1, place(0, 0), 5), &keyed(255)), Ok(Handled::Done(_))));
    assert_eq!(table.slot(place(0, 0)).map(|slot| slot.contents), Some(keyed(255)));
    let before = table.clone();
    assert_eq!(table.pre_accept(from(1, place(0, 0), 5), &keyed(256)), Err(Refusal::BadBatch));
    assert_eq!(table, before);
}

/// Four requests, and every number at its greatest, are stored and put out as they were given.
pub(crate) fn every_kind_of_request() {
    let mut table = empty();
    let request = |id, kind| Request { client: u64::MAX - id, id, kind };
    let kinds = [
        Kind::Put { key: 255, value: u64::MAX },
        Kind::Get { key: 254 },
        Kind::Other,
        Kind::Put { key: 0, value: 1 << 40 },
    ];
    let batch = kinds.iter().zip(1..).map(|(kind, id)| request(id, *kind)).collect();
    let sent = Contents { sequence: 4_294_967_295, dependencies: DepSet::of([Some(1), None, Some(30)]), batch };
    let message = from(2, place(2, 1), u64::MAX);
    let logged = Record {
        what: What::Log,
        place: place(2, 1),
        status: Status::Committed,
        ballot: u64::MAX,
        contents: sent.clone(),
    };
    assert_eq!(table.commit_notice(message, &sent), Ok(Handled::Done(vec![logged])));
    assert_eq!(table.slot(place(2, 1)).map(|slot| (slot.ballot, slot.contents)), Some((u64::MAX, sent)));
}
