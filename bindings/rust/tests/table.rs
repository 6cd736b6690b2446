//! The cases of the rules, through the crate and the archive.
//!
//! `bindings/rust/test` builds and runs it, and on x86-64 `cargo test` does.

#![no_main]

use njimbaros::{Config, Contents, DepSet, Kind, Message, Place, Request, Status, Table};

#[path = "table/decisions.rs"]
mod decisions;
#[path = "table/handlers.rs"]
mod handlers;
#[path = "table/harness.rs"]
mod harness;
#[path = "table/log_events.rs"]
mod log_events;
#[path = "table/reading.rs"]
mod reading;
#[path = "table/refusals.rs"]
mod refusals;
#[path = "table/running.rs"]
mod running;

/// A test that is not here is code that nobody calls, and does not compile.
const TESTS: &[(&str, fn())] = harness::tests![
    running::worked_case_on_two_copies,
    running::attempt_absent,
    running::attempt_not_yet_then_already,
    running::a_component_by_sequence,
    running::bar_past_two_slots,
    handlers::pre_accept_sent_again,
    handlers::pre_accept_of_a_lower_ballot,
    handlers::accept_and_commit_notice,
    handlers::exp_prepare_at_absent,
    handlers::exp_prepare_is_replied,
    handlers::marks_make_a_quorum,
    handlers::last_column,
    handlers::last_key,
    handlers::every_kind_of_request,
    log_events::pre_accepting_is_replied,
    log_events::pre_accepting_led_is_noted,
    log_events::accepting_is_replied,
    log_events::accepting_led_is_marked,
    decisions::unions,
    decisions::fast_decisions,
    decisions::fast_path_avoided,
    decisions::fast_refusals,
    decisions::recovery_choices,
    decisions::recovery_without_votes,
    decisions::recovery_refusals,
    refusals::configuration,
    refusals::spoiled_image,
    refusals::peer_or_row,
    refusals::column,
    refusals::dependency,
    refusals::batch_over_four,
    refusals::key,
    refusals::sequence_given,
    refusals::sequence_to_be_stored,
    refusals::slot_not_in_the_table,
    refusals::the_first_reason,
    refusals::words,
    reading::image_and_back,
    reading::wrong_length,
    reading::spoiled_slots,
    reading::rows_that_there_are_not,
    reading::debug_is_short,
];

#[no_mangle]
pub extern "C" fn main(_count: i32, _words: *const *const u8) -> i32 {
    harness::run(TESTS)
}

// --- what the cases begin with: N 3, own 0, simple 2, super 3

fn three() -> Config {
    Config { n: 3, own: 0, simple: 2, sup: 3 }
}

fn empty() -> Table {
    Table::open(three()).expect("the configuration is within the bounds")
}

fn place(row: u64, column: u64) -> Place {
    Place { row, column }
}

fn from(peer: u64, place: Place, ballot: u64) -> Message {
    Message { peer, place, ballot }
}

fn put(key: u16) -> Request {
    Request { client: 1, id: 1, kind: Kind::Put { key, value: 9 } }
}

/// A put of key 5.
fn edit(sequence: u64, dependencies: DepSet) -> Contents {
    Contents { sequence, dependencies, batch: vec![put(5)] }
}

fn first_edit() -> Contents {
    edit(1, DepSet::EMPTY)
}

fn status(table: &Table, place: Place) -> Option<Status> {
    table.slot(place).map(|slot| slot.status)
}

fn lengths(table: &Table) -> [u64; 3] {
    [0, 1, 2].map(|row| table.row_len(row))
}

fn bars(table: &Table) -> [u64; 3] {
    [0, 1, 2].map(|row| table.bar(row))
}
