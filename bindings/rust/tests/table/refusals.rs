//! A refusal of each kind that a caller can cause, each with the image as it was, byte for byte.

use crate::{edit, empty, first_edit, from, place, put};
use njimbaros::{Config, Contents, DepSet, Handled, Kind, LogStatus, Message, Place, Refusal, Request, Table};

type Call<'a> = (&'a str, Box<dyn Fn(&mut Table) -> Option<Refusal> + 'a>);

fn call<'a, T>(name: &'a str, made: impl Fn(&mut Table) -> Result<T, Refusal> + 'a) -> Call<'a> {
    (name, Box::new(move |table| made(table).err()))
}

/// The three messages that have contents.
fn proposals(message: Message, contents: &Contents) -> Vec<Call<'_>> {
    vec![
        call("PreAccept", move |table| table.pre_accept(message, contents)),
        call("Accept", move |table| table.accept(message, contents)),
        call("CommitNotice", move |table| table.commit_notice(message, contents)),
    ]
}

/// The calls that name a place and no peer.
fn placed<'a>(place: Place) -> Vec<Call<'a>> {
    let logged = |status| move |table: &mut Table| table.logged(place, status);
    vec![
        call("Lead", move |table| table.lead(place)),
        call("Attempt", move |table| table.attempt(place)),
        call("Logged PreAccepting", logged(LogStatus::PreAccepting)),
        call("Logged Accepting", logged(LogStatus::Accepting)),
        call("Logged Committed", logged(LogStatus::Committed)),
    ]
}

fn messages(message: Message, contents: &Contents) -> Vec<Call<'_>> {
    let mut calls = proposals(message, contents);
    calls.push(call("AcceptReply", move |table| table.accept_reply(message)));
    calls.push(call("ExpPrepare", move |table| table.exp_prepare(message)));
    calls
}

/// Every call on a table.
fn all(message: Message, contents: &Contents) -> Vec<Call<'_>> {
    let mut calls = messages(message, contents);
    calls.extend(placed(message.place));
    calls
}

/// Each call is refused so, and leaves the image as it was.
fn refused(table: &Table, refusal: Refusal, calls: Vec<Call<'_>>) {
    assert!(!calls.is_empty());
    for (name, made) in calls {
        let mut table = table.clone();
        let before = table.image().to_vec();
        assert_eq!(made(&mut table), Some(refusal), "{name}");
        assert!(table.image() == before, "{name} changed the image");
    }
}

/// With slots in every row: 0.0, 1.0 and 1.1, 2.0.
fn table() -> Table {
    let mut table = empty();
    for at in [place(0, 0), place(1, 1), place(2, 0)] {
        assert!(matches!(table.accept(from(1, at, 5), &first_edit()), Ok(Handled::Done(_))));
    }
    table
}

fn message() -> Message {
    from(1, place(0, 0), 5)
}

pub(crate) fn configuration() {
    let opened = |n, own, simple, sup| Table::open(Config { n, own, simple, sup }).map(|table| table.config());
    for (n, own, simple, sup) in [
        (0, 0, 0, 0),
        (8, 0, 5, 8),
        (3, 3, 2, 3),
        (3, 0, 0, 3),
        (3, 0, 3, 2),
        (3, 0, 2, 4),
        (u64::MAX, 0, 2, 3),
        ((1 << 32) + 3, 0, 2, 3),
    ] {
        assert_eq!(opened(n, own, simple, sup), Err(Refusal::OutsideBounds), "{n} {own} {simple} {sup}");
    }
    let most = Config { n: 7, own: 6, simple: 4, sup: 7 };
    assert_eq!(Table::open(most).map(|table| table.config()), Ok(most));
    assert_eq!(opened(1, 0, 1, 1), Ok(Config { n: 1, own: 0, simple: 1, sup: 1 }));
}

/// What stands for nothing, and what is out of bounds.
pub(crate) fn spoiled_image() {
    let contents = first_edit();
    let sound = table();
    let slot = 1_810; // that of 0.0
    for (at, byte) in [
        (0, 8),              // N
        (1, 3),              // own
        (4, 33),             // the length of row 0
        (11, 2),             // the bar of row 0, past its one slot
        (18, 33),            // a column of key 0
        (slot, 5),           // status
        (slot + 2, 2),       // led
        (slot + 3, 2),       // a mark
        (slot + 22, 1),      // the sequence's fifth byte
        (slot + 26, 33),     // a dependency
        (slot + 33, 5),      // the batch's count
        (slot + 34 + 16, 3), // a kind
    ] {
        let mut image = sound.image().to_vec();
        image[at] = byte;
        let spoiled = Table::from_image(&image).expect("the length is an image's");
        refused(&spoiled, Refusal::OutsideBounds, all(message(), &contents));
    }
}

pub(crate) fn peer_or_row() {
    let contents = first_edit();
    for number in [3, 7, 256, u64::MAX] {
        refused(&table(), Refusal::NoReplica, messages(from(number, place(0, 0), 5), &contents));
        refused(&table(), Refusal::NoReplica, all(from(1, place(number, 0), 5), &contents));
    }
}

pub(crate) fn column() {
    let contents = first_edit();
    for column in [32, 256, (1 << 32) + 1, u64::MAX] {
        refused(&table(), Refusal::NoColumn, all(from(1, place(0, column), 5), &contents));
    }
}

pub(crate) fn dependency() {
    for column in [32, 254, 255, 256, u64::MAX] {
        let far = edit(1, DepSet::of([None, Some(column)]));
        refused(&table(), Refusal::BadDependency, proposals(message(), &far));
    }
    for set in [DepSet::of([None, None, None, Some(0)]), DepSet::of([None, None, None, None, None, None, Some(31)])] {
        refused(&table(), Refusal::BadDependency, proposals(message(), &edit(1, set)));
    }
}

/// 260 is 4 past 256: a count cut to a byte would be taken.
pub(crate) fn batch_over_four() {
    for count in [5, 255, 256, 260, 1_000] {
        let many = Contents { batch: vec![put(5); count], ..first_edit() };
        refused(&table(), Refusal::BadBatch, proposals(message(), &many));
    }
    let four = Contents { batch: vec![put(5); 4], ..first_edit() };
    for (name, made) in proposals(message(), &four) {
        assert_eq!(made(&mut table()), None, "{name}");
    }
}

pub(crate) fn key() {
    let get = |key| Request { client: 1, id: 1, kind: Kind::Get { key } };
    for past in [put(256), put(u16::MAX), get(256)] {
        let contents = Contents { batch: vec![put(5), get(255), put(0), past], ..first_edit() };
        refused(&table(), Refusal::BadBatch, proposals(message(), &contents));
    }
}

/// It is looked at before the ballot.
pub(crate) fn sequence_given() {
    for sequence in [1 << 32, u64::MAX] {
        let over = edit(sequence, DepSet::EMPTY);
        refused(&table(), Refusal::OverLimit, proposals(from(1, place(0, 0), 0), &over));
        refused(&empty(), Refusal::OverLimit, proposals(message(), &over));
    }
}

/// A slot has the greatest sequence, so that what waits for it would have one more. No null slot is added either.
pub(crate) fn sequence_to_be_stored() {
    let mut table = empty();
    let most = edit(4_294_967_295, DepSet::EMPTY);
    assert!(matches!(table.commit_notice(message(), &most), Ok(Handled::Done(_))));
    let next = from(1, place(0, 1), 5);
    refused(&table, Refusal::OverLimit, vec![call("PreAccept", |table| table.pre_accept(next, &first_edit()))]);
    // its ballot is looked at first, and an Accept is stored as it is
    assert!(matches!(table.accept(from(1, place(0, 1), 6), &first_edit()), Ok(Handled::Done(_))));
    assert_eq!(table.pre_accept(next, &first_edit()), Ok(Handled::Ignored));
}

pub(crate) fn slot_not_in_the_table() {
    for at in [place(0, 1), place(1, 2), place(2, 31)] {
        let calls = placed(at).into_iter().filter(|(name, _)| *name != "Attempt").collect();
        refused(&table(), Refusal::NoSlot, calls);
    }
}

/// Each call without the first reason is refused for the second, and so on.
pub(crate) fn the_first_reason() {
    let everything = Contents { batch: vec![put(256); 5], ..edit(1 << 32, DepSet::of([Some(32)])) };
    let mut spoiled = table().image().to_vec();
    spoiled[0] = 9;
    let spoiled = Table::from_image(&spoiled).expect("the length is an image's");
    refused(&spoiled, Refusal::OutsideBounds, proposals(from(3, place(3, 32), 0), &everything));
    refused(&table(), Refusal::NoReplica, proposals(from(3, place(3, 32), 0), &everything));
    refused(&table(), Refusal::NoColumn, proposals(from(1, place(0, 32), 0), &everything));
    refused(&table(), Refusal::BadDependency, proposals(message(), &everything));
    let bare = Contents { dependencies: DepSet::EMPTY, ..everything };
    refused(&table(), Refusal::BadBatch, proposals(message(), &bare));
    let single = Contents { batch: vec![put(5)], ..bare };
    refused(&table(), Refusal::OverLimit, proposals(message(), &single));
}

/// Those of the rules, each with its number.
pub(crate) fn words() {
    let refusals = [
        (Refusal::OutsideBounds, "refused 1: configuration or table outside the bounds, or a bar past its row's slots"),
        (Refusal::NoReplica, "refused 2: peer, row, reply, vote, ack or silent replica at N or more"),
        (Refusal::NoColumn, "refused 3: column 32 or more"),
        (Refusal::BadDependency, "refused 4: a dependency at column 32 or more, or in a row N or more"),
        (Refusal::BadBatch, "refused 5: batch over 4, or the key of a put or get above 255"),
        (Refusal::OverLimit, "refused 6: a sequence, given or about to be stored, over the limit"),
        (Refusal::NoSlot, "refused 7: a log event or Lead for a slot not in the table"),
        (Refusal::ShortOrder, "refused 8: Attempt or any Logged: the lent order list has fewer than 224 entries"),
        (
            Refusal::Unreadable,
            "refused 10: trace number not in shortest form or over 64 bits (a tenth byte above 1), \
             unknown tag, kind or log status, or batch count over 4",
        ),
    ];
    for (refusal, said) in refusals {
        let as_error: Box<dyn std::error::Error> = refusal.into();
        assert_eq!(as_error.to_string(), said);
    }
    assert_eq!(refusals.map(|(refusal, _)| refusal.number()), [1, 2, 3, 4, 5, 6, 7, 8, 10]);
}
