//! What the crate does where the archive is at fault. In place of the archive's functions stand some that answer whatever a
//! test wants. An answer that the function never gives is not handed on: the call panics, and names both.

#![no_main]

use njimbaros::{fast_decision, paper_choice, rust_choice, Attempted, Config, Contents, DepSet, Handled};
use njimbaros::{LogStatus, Message, Place, Prepare, Record, Refusal, Status, Table, What, IMAGE_BYTES};
use std::panic::{catch_unwind, set_hook, take_hook, AssertUnwindSafe};
use std::sync::atomic::{AtomicU64, AtomicU8, Ordering::Relaxed};

#[path = "table/harness.rs"]
mod harness;

const TESTS: &[(&str, fn())] = harness::tests![
    faults::known_answers,
    faults::refusals,
    faults::unknown_answers,
    faults::unreadable_output,
    faults::too_many_slots_run,
];

#[no_mangle]
pub extern "C" fn main(_count: i32, _words: *const *const u8) -> i32 {
    harness::run(TESTS)
}

// --- the functions that stand in

/// What each function answers.
static ANSWER: AtomicU64 = AtomicU64::new(100);
/// What two of them write: how many records or slots run, and of which kind the records are.
static WRITTEN: [AtomicU8; 2] = [AtomicU8::new(0), AtomicU8::new(0)];

/// C lets a caller give more than these take.
macro_rules! stand_ins {
    ($($name:ident)*) => {
        $(#[no_mangle] extern "C" fn $name() -> u64 { ANSWER.load(Relaxed) })*
    };
}

stand_ins! {
    nj_union nj_fast_decision nj_rust_choice nj_paper_choice nj_open nj_pre_accept nj_accept nj_commit_notice
    nj_accept_reply nj_lead nj_logged
}

/// # Safety
/// `length` bytes are lent at `out`.
#[rustfmt::skip]
#[no_mangle]
unsafe extern "C" fn nj_exp_prepare(
    _: *mut u8, _: usize, _: u64, _: u64, _: u64, _: u64, out: *mut u8, length: usize,
) -> u64 {
    // SAFETY: so many bytes are lent
    let out = unsafe { std::slice::from_raw_parts_mut(out, length) };
    let [count, kind] = [0, 1].map(|at| WRITTEN[at].load(Relaxed));
    (out[0], out[1], out[146]) = (count, kind, kind);
    ANSWER.load(Relaxed)
}

/// # Safety
/// `length` bytes are lent at `ran`.
#[rustfmt::skip]
#[no_mangle]
unsafe extern "C" fn nj_attempt(
    _: *mut u8, _: usize, _: u64, _: u64, _: *mut u8, _: usize, ran: *mut u8, length: usize,
) -> u64 {
    // SAFETY: so many bytes are lent
    let ran = unsafe { std::slice::from_raw_parts_mut(ran, length) };
    ran[0] = WRITTEN[0].load(Relaxed);
    ANSWER.load(Relaxed)
}

// --- the calls

const CONFIG: Config = Config { n: 3, own: 0, simple: 2, sup: 3 };
const PLACE: Place = Place { row: 0, column: 0 };
const MESSAGE: Message = Message { peer: 1, place: PLACE, ballot: 5 };
const PREPARE: Prepare = Prepare { row: 0, highest: 7, default: 7 };
const CONTENTS: Contents = Contents { sequence: 1, dependencies: DepSet::EMPTY, batch: Vec::new() };

/// Makes the call, and says with what it was refused.
type Call = fn(&mut Table) -> Option<Refusal>;

/// Each function, the call that it is behind, and the answers from 100 on that it gives.
const CALLS: [(&str, Call, &[u64]); 12] = [
    ("nj_fast_decision", |_| fast_decision(CONFIG, false, &[None; 7], &[false; 7]).err(), &[104, 105, 106]),
    (
        "nj_rust_choice",
        |_| rust_choice(CONFIG, PREPARE, &[false; 7], &[const { None }; 7]).err(),
        &[104, 105, 106, 107],
    ),
    (
        "nj_paper_choice",
        |_| paper_choice(CONFIG, PREPARE, &[false; 7], &[const { None }; 7]).err(),
        &[104, 105, 106, 107],
    ),
    ("nj_open", |_| Table::open(CONFIG).err(), &[100]),
    ("nj_pre_accept", |table| table.pre_accept(MESSAGE, &CONTENTS).err(), &[100, 101]),
    ("nj_accept", |table| table.accept(MESSAGE, &CONTENTS).err(), &[100, 101]),
    ("nj_commit_notice", |table| table.commit_notice(MESSAGE, &CONTENTS).err(), &[100, 101]),
    ("nj_accept_reply", |table| table.accept_reply(MESSAGE).err(), &[100, 101]),
    ("nj_exp_prepare", |table| table.exp_prepare(MESSAGE).err(), &[100, 101]),
    ("nj_lead", |table| table.lead(PLACE).err(), &[100]),
    ("nj_attempt", |table| table.attempt(PLACE).err(), &[100, 102, 103]),
    ("nj_logged", |table| table.logged(PLACE, LogStatus::Committed).err(), &[100]),
];

/// A union is never refused.
const UNION: (&str, Call, &[u64]) = ("nj_union", |_| none(DepSet::EMPTY.union(DepSet::EMPTY)), &[100]);

fn none<T>(_: T) -> Option<Refusal> {
    None
}

const REFUSALS: [u64; 9] = [1, 2, 3, 4, 5, 6, 7, 8, 10];

fn table() -> Table {
    Table::from_image(&[0; IMAGE_BYTES]).expect("the length is an image's")
}

/// What the call does where the archive answers and writes this, or what it panics with.
fn made<T>(call: impl Fn(&mut Table) -> T, answer: u64, written: [u8; 2]) -> Result<T, String> {
    ANSWER.store(answer, Relaxed);
    for (to, byte) in WRITTEN.iter().zip(written) {
        to.store(byte, Relaxed);
    }
    let loud = take_hook();
    set_hook(Box::new(|_| ())); // these panics are wanted
    let made = catch_unwind(AssertUnwindSafe(|| call(&mut table())));
    set_hook(loud);
    made.map_err(|panic| panic.downcast_ref::<String>().cloned().unwrap_or_default())
}

mod faults {
    use super::*;

    pub(crate) fn known_answers() {
        for (name, call, answers) in CALLS.into_iter().chain([UNION]) {
            for answer in answers {
                assert_eq!(made(call, *answer, [0; 2]), Ok(None), "{name} {answer}");
            }
        }
    }

    pub(crate) fn refusals() {
        for (name, call, _) in CALLS {
            for number in REFUSALS {
                let refused = made(call, number, [0; 2]).map(|refusal| refusal.map(Refusal::number));
                assert_eq!(refused, Ok(Some(number)), "{name}");
            }
        }
    }

    pub(crate) fn unknown_answers() {
        for (name, call, answers) in CALLS.into_iter().chain([UNION]) {
            let numbers = (0..=120).chain([1 << 32, (1 << 32) + 100, u64::MAX]);
            let unknown = |number: &u64| !answers.contains(number) && (name == UNION.0 || !REFUSALS.contains(number));
            for number in numbers.filter(unknown) {
                let said = format!("{name} answered {number}, which it never does: a fault of the archive");
                assert_eq!(made(call, number, [0; 2]), Err(said));
            }
        }
    }

    /// Records of kinds that there are not, and more of them than there is room for.
    pub(crate) fn unreadable_output() {
        let call = |table: &mut Table| table.exp_prepare(MESSAGE);
        let said = "nj_exp_prepare wrote a byte that stands for nothing: a fault of the archive";
        for (count, kind) in [(1, 0), (2, 0), (1, 7), (2, 255), (3, 1), (255, 1)] {
            assert_eq!(made(call, 100, [count, kind]), Err(said.to_string()), "{count} of kind {kind}");
        }
        let contents = Contents { sequence: 0, ..CONTENTS };
        let record = Record { what: What::Log, place: PLACE, status: Status::Null, ballot: 0, contents };
        for count in 0..=2 {
            let records = vec![record.clone(); count];
            assert_eq!(made(call, 100, [count as u8, 1]), Ok(Ok(Handled::Done(records))));
        }
    }

    pub(crate) fn too_many_slots_run() {
        let call = |table: &mut Table| table.attempt(PLACE);
        let said = "nj_attempt wrote a byte that stands for nothing: a fault of the archive";
        assert_eq!(made(call, 100, [225, 0]), Err(said.to_string()));
        assert_eq!(made(call, 100, [224, 0]), Ok(Ok(Attempted::Done(vec![PLACE; 224]))));
    }
}
