//! The rows of the two decisions.
use crate::bytes::{CONTENTS, Function, Request, contents_bytes, first_bytes};
use crate::cases::Case;
use crate::clock::{Row, Side, each, time};
use crate::tables::{BALLOT, CONFIG, ROWS, before, contents, sequence};
use std::hint::black_box;
use summerset::plain::{Contents, Prepare, Reply, SlotAt, Status, Vote};
use summerset::protocols::epaxos::replica::{ChoiceAsked, FastAsked};

const CALLS: usize = 200;

unsafe extern "C" {
    fn nj_fast_decision(
        n: u64,
        own: u64,
        simple: u64,
        sup: u64,
        avoided: u64,
        replies: *const u8,
        rl: u64,
        silent: *const u8,
        sl: u64,
        out: *mut u8,
        ol: u64,
    ) -> u64;
    fn nj_rust_choice(
        n: u64,
        own: u64,
        simple: u64,
        sup: u64,
        row: u64,
        highest: u64,
        default: u64,
        acks: *const u8,
        al: u64,
        votes: *const u8,
        vl: u64,
        out: *mut u8,
        ol: u64,
    ) -> u64;
}

/// The slot that is decided about.
const AT: SlotAt = (2, 16);

/// A sample is so many calls with the same arguments.
struct Again<F>(F);

impl<F: FnMut()> Side for Again<F> {
    fn sample(&mut self) -> f64 {
        (self.0)();
        let all = time(|| (0..CALLS).for_each(|_| (self.0)()));
        each(all, CALLS)
    }
}

fn again<T>(mut ask: impl FnMut() -> T + 'static) -> Box<dyn Side> {
    Box::new(Again(move || {
        black_box(ask());
    }))
}

fn fast_code(call: &Request, out: &mut [u8; CONTENTS]) -> u64 {
    let ([n, own, simple, sup, avoided], [replies, silent]) = ([0, 1, 2, 3, 4].map(|i| call.numbers[i]), &call.slices);
    let [rl, sl] = [replies, silent].map(|s| s.len() as u64);
    let (replies, silent, out, ol) = (replies.as_ptr(), silent.as_ptr(), out.as_mut_ptr(), CONTENTS as u64);
    unsafe { nj_fast_decision(n, own, simple, sup, avoided, replies, rl, silent, sl, out, ol) }
}

fn choice_code(call: &Request, out: &mut [u8; CONTENTS]) -> u64 {
    let [n, own, simple, sup, row, highest, default] = [0, 1, 2, 3, 4, 5, 6].map(|i| call.numbers[i]);
    let [acks, votes] = &call.slices;
    let [al, vl] = [acks, votes].map(|s| s.len() as u64);
    let (acks, votes, out, ol) = (acks.as_ptr(), votes.as_ptr(), out.as_mut_ptr(), CONTENTS as u64);
    unsafe { nj_rust_choice(n, own, simple, sup, row, highest, default, acks, al, votes, vl, out, ol) }
}

fn code_of(status: Status) -> u64 {
    match status {
        Status::Committed => 105,
        Status::Accepting => 106,
        _ => 107,
    }
}

/// That both decide the same: by the number, and by the bytes that are written.
fn same(name: &str, rust: (Status, Vec<u8>), code: u64, out: &[u8]) {
    assert_eq!(code, code_of(rust.0), "{name}: what is decided");
    assert_eq!(out[..rust.1.len()], rust.1, "{name}: what goes with it");
}

/// The values of slot AT, of each replica the same or in each a sequence of its own.
fn said(replica: usize, alike: bool) -> Contents {
    let seq = sequence(AT) + if alike { 0 } else { replica as u64 };
    Contents { seq, ..contents(AT, before(AT), 1) }
}

fn fast(name: &str, alike: bool) -> Row {
    let reply = |replica| Reply { replica, seq: said(replica, alike).seq, deps: before(AT) };
    let replies: Vec<_> = (0..ROWS).map(reply).collect();
    let asked = FastAsked::new(&CONFIG, false, &replies, &[]);
    let call = Case::Fast { config: CONFIG, avoided: false, replies, silent: vec![] }.request();
    let mut out = [0; CONTENTS];
    let (status, seq, deps) = asked.decide().plain().expect("a decision");
    same(name, (status, first_bytes(seq, &deps)), fast_code(&call, &mut out), &out);
    Row {
        name: name.into(),
        stack: "NJ_STACK_FAST_DECISION",
        is_bound: false,
        rust: again(move || black_box(&asked).decide()),
        ours: again(move || fast_code(black_box(&call), &mut out)),
        by_value: None,
    }
}

fn choice(name: &str, alike: bool) -> Row {
    let vote = |replica| Vote { replica, status: Status::PreAccepting, contents: said(replica, alike) };
    let votes = (0..ROWS).map(vote).collect();
    let prepare = Prepare { row: AT.0, highest: BALLOT, default: BALLOT, acks: (0..ROWS).collect(), votes };
    let asked = ChoiceAsked::new(CONFIG.n, CONFIG.simple, &prepare);
    let call = Case::Choice { by: Function::RustChoice, config: CONFIG, prepare }.request();
    let mut out = [0; CONTENTS];
    let (status, chosen) = asked.choose().plain().expect("a choice");
    same(name, (status, contents_bytes(&chosen)), choice_code(&call, &mut out), &out);
    Row {
        name: name.into(),
        stack: "NJ_STACK_RUST_CHOICE",
        is_bound: false,
        rust: again(move || black_box(&asked).choose()),
        ours: again(move || choice_code(black_box(&call), &mut out)),
        by_value: None,
    }
}

pub fn all() -> Vec<Row> {
    vec![
        fast("fast decision, 7 replies alike", true),
        fast("fast decision, 7 different replies", false),
        choice("recovery choice, 7 votes alike", true),
        choice("recovery choice, 7 different votes", false),
    ]
}
