//! The Rust's answer to a case, in the bytes of the C function that is compared with it.
use crate::bytes::{self, Answer, DONE, Function, WAIT, contents_bytes, first_bytes};
use crate::cases::Case;
use std::cell::{Cell, RefCell};
use std::panic::{self, AssertUnwindSafe};
use summerset::plain::{Config, Contents, Deps, Prepare, Status};
use summerset::protocols::epaxos::replica;

thread_local! {
    static IS_ASKED: Cell<bool> = const { Cell::new(false) };
    static SAID_IN_PANIC: RefCell<String> = const { RefCell::new(String::new()) };
    static EMPTY_LISTS: RefCell<(u64, String)> = const { RefCell::new((0, String::new())) };
}

/// Panics of the Rust are caught and looked at, so they print nothing. Those of the comparison itself are printed.
pub fn keep_panics_quiet() {
    panic::set_hook(Box::new(|info| match IS_ASKED.get() {
        true => SAID_IN_PANIC.set(info.to_string()),
        false => eprintln!("beside: {info}"),
    }));
}

/// How often the Rust has panicked on an empty list of votes, and in which words.
pub fn empty_lists() -> (u64, String) {
    EMPTY_LISTS.with_borrow(Clone::clone)
}

pub fn caught<T>(ask: impl FnOnce() -> T) -> Result<T, String> {
    IS_ASKED.set(true);
    let said = panic::catch_unwind(AssertUnwindSafe(ask));
    IS_ASKED.set(false);
    said.map_err(|_| format!("the Rust panics: {}", SAID_IN_PANIC.take()))
}

/// The Rust's answer, or what it says where it panics and should not.
pub fn answer(case: &Case) -> Result<Answer, String> {
    match case {
        Case::Union { a, b } => caught(|| replica::union(a, b)).map(|set| done(&set)),
        Case::Fast { config, avoided, replies, silent } => {
            let decided = caught(|| replica::fast(config, *avoided, replies, silent))?;
            Ok(match decided {
                Some((status, seq, deps)) => went_on(status, &first_bytes(seq, &deps)),
                None => Answer::unwritten(WAIT),
            })
        }
        Case::Choice { by, config, prepare } => Ok(match choice(*by, config, prepare)? {
            Some((status, contents)) => went_on(status, &contents_bytes(&contents)),
            None => Answer::unwritten(WAIT),
        }),
    }
}

type Chosen = Result<Option<(Status, Contents)>, String>;

/// The paper's choice is the Rust's with half the population for its quorum, once enough have acked.
fn choice(by: Function, config: &Config, prepare: &Prepare) -> Chosen {
    if by == Function::RustChoice || prepare.acks.len() < config.simple {
        return rust_choice(config.n, config.simple, prepare);
    }
    let everybody = Prepare { acks: (0..config.n).collect(), ..prepare.clone() };
    match config.n / 2 {
        0 => rust_choice(config.n, 1, &without_groups(&everybody)),
        half => rust_choice(config.n, half, &everybody),
    }
}

/// At another ballot than the default one the Rust looks for no identical votes.
fn without_groups(prepare: &Prepare) -> Prepare {
    Prepare { default: !prepare.highest, ..prepare.clone() }
}

/// An empty list never has enough; the Rust panics there, exactly there, and is asked again without its groups.
fn rust_choice(n: usize, simple: usize, prepare: &Prepare) -> Chosen {
    let asked = caught(|| replica::choice(n, simple, prepare));
    if !meets_an_empty_list(simple, prepare) {
        return asked;
    }
    match asked {
        Err(said) if said.contains("index out of bounds: the len is 0 but the index is 0") => {
            EMPTY_LISTS.with_borrow_mut(|met| *met = (met.0 + 1, said));
            caught(|| replica::choice(n, simple, &without_groups(prepare)))
        }
        Err(said) => Err(said),
        Ok(_) => Err("the Rust does not panic on an empty list of votes".into()),
    }
}

fn meets_an_empty_list(simple: usize, prepare: &Prepare) -> bool {
    let decides = |s: Status| s == Status::Committed || s == Status::Accepting;
    simple == 1
        && !prepare.acks.is_empty()
        && prepare.highest == prepare.default
        && !prepare.votes.iter().any(|v| decides(v.status))
        && !prepare.votes.iter().any(|v| v.status == Status::PreAccepting && v.replica != prepare.row)
}

fn done(set: &Deps) -> Answer {
    Answer::of(DONE, bytes::set_bytes(set).to_vec())
}

fn went_on(status: Status, out: &[u8]) -> Answer {
    let code = match status {
        Status::Committed => 105,
        Status::Accepting => 106,
        _ => 107,
    };
    Answer::of(code, out.to_vec())
}
