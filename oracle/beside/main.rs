//! Runs the unchanged Rust beside the C functions of crates/host and beside the trace program, and compares every answer.
//!   beside compare ANSWER SECONDS SEED   ANSWER: the program that calls the C functions
//!   beside freeze SEED DATE LIST STDOUT  writes a list of the Rust's answers, and what crates/vectors prints of it
//!   beside replay PROGRAMS FOLDER SECONDS SEED
//!                                        PROGRAMS: the folder of replay and replays; FOLDER: for the traces
//!   beside trace                         the Rust alone, on a trace in hex on standard input
mod aim;
mod answerer;
mod attempts;
mod bounds;
mod bytes;
mod cases;
mod compare;
mod differ;
mod draw;
mod encode;
mod exhaustive;
mod fixed;
mod freeze;
mod handlers;
mod image;
mod list;
mod numbers;
mod player;
mod printed;
mod random;
mod reach;
mod refused;
mod replay;
mod run;
mod runs;
mod rust_says;
mod spoil;
mod spoil_image;
mod tally;
mod trace;
mod traces;
mod words;

use std::process::ExitCode;

const USAGE: &str = "usage: beside compare ANSWER SECONDS SEED | freeze SEED DATE LIST STDOUT | \
    replay PROGRAMS FOLDER SECONDS SEED | trace";

fn number(word: &str) -> Result<u64, String> {
    word.parse().map_err(|_| format!("{word} is no number"))
}

fn run(words: &[&str]) -> Result<bool, String> {
    match words {
        ["compare", answer, seconds, seed] => compare::run(answer, number(seconds)?, number(seed)?),
        ["freeze", seed, date, list, stdout] => freeze::run(number(seed)?, date, list, stdout),
        ["replay", programs, folder, seconds, seed] => replay::run(programs, folder, number(seconds)?, number(seed)?),
        ["trace"] => trace::run(),
        _ => Err(USAGE.into()),
    }
}

fn main() -> ExitCode {
    let words: Vec<String> = std::env::args().skip(1).collect();
    let words: Vec<&str> = words.iter().map(String::as_str).collect();
    match run(&words) {
        Ok(true) => ExitCode::SUCCESS,
        Ok(false) => ExitCode::FAILURE,
        Err(what) => {
            eprintln!("beside: {what}");
            ExitCode::from(2)
        }
    }
}
