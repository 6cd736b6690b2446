//! The unchanged Rust beside the C functions and beside the entries by value, on the same events: docs/BENCH.md.
//!   bench time ROUNDS     times all and prints the table
//!   bench names           the events, a line each
//!   bench stack           how many bytes of stack each event takes, a line each
//!   bench once SIDE EVENT one event by the C function (c) or by the Rust (rust), for its instructions to be counted
#![no_main]

mod by_value;
mod c_side;
mod checked;
mod clock;
mod decisions;
mod events;
mod header;
mod once;
mod rust_side;
mod shapes;
mod stack;
mod table;
mod tables;

// How calls, tables and events lie in bytes: as the comparison has it.
#[allow(dead_code)]
#[path = "../oracle/beside/bytes.rs"]
mod bytes;
#[allow(dead_code)]
#[path = "../oracle/beside/cases.rs"]
mod cases;
#[allow(dead_code)]
#[path = "../oracle/beside/encode.rs"]
mod encode;
#[allow(dead_code)]
#[path = "../oracle/beside/image.rs"]
mod image;
#[path = "../oracle/beside/numbers.rs"]
mod numbers;

use clock::Row;
use std::ffi::{CStr, c_char, c_int};

const USAGE: &str = "usage: bench time ROUNDS | names | stack | once c EVENT | once rust EVENT";

fn time(rounds: usize) {
    let timed = |rows: Vec<Row>| rows.into_iter().map(|row| row.timed(rounds)).collect::<Vec<_>>();
    let rows = |cases: Vec<events::Named>| cases.into_iter().map(checked::row).collect();
    let messages = timed(rows(events::messages()));
    let attempts = timed(rows(events::attempts()));
    let decided = timed(decisions::all());
    table::head();
    table::rows(&messages);
    table::rows(&attempts);
    table::rows(&decided);
    table::verdicts(&attempts);
    table::foot(rounds);
}

fn run(words: &[&str]) -> Option<()> {
    match words {
        ["time", rounds] => time(rounds.parse().ok().filter(|rounds| *rounds > 0)?),
        ["names"] => once::names(),
        ["stack"] => stack::all(),
        ["once", "c", event] => once::c(event)?,
        ["once", "rust", event] => once::rust(event)?,
        _ => return None,
    }
    Some(())
}

/// An ordinary Rust main does not start under an emulator.
#[unsafe(no_mangle)]
pub extern "C" fn main(count: c_int, words: *const *const c_char) -> c_int {
    let words = unsafe { std::slice::from_raw_parts(words, count as usize) };
    let text = |word: &*const c_char| unsafe { CStr::from_ptr(*word) }.to_str().unwrap_or_default();
    match run(&words.iter().skip(1).map(text).collect::<Vec<_>>()) {
        Some(()) => 0,
        None => {
            eprintln!("{USAGE}");
            2
        }
    }
}
