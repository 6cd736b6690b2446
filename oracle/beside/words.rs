//! Cases and answers in words, for whoever has to look at a difference.
use crate::bytes::{self, ALREADY, Answer, DONE, Function, IGNORED, NOT_YET, REPLICAS, SET, WAIT, WORD};
use crate::cases::Case;
use summerset::drive::deps_of;
use summerset::plain::{Config, Contents, Event, Place, Reply, Status, Vote};
use summerset::show;

/// What a code says.
pub fn meaning(code: u64) -> String {
    match code {
        0 => "wrong length".into(),
        DONE => "done".into(),
        IGNORED => "ignored".into(),
        NOT_YET => "NotYet".into(),
        ALREADY => "Already".into(),
        WAIT => "wait".into(),
        105 => "Committed".into(),
        106 => "Accepting".into(),
        107 => "PreAccepting".into(),
        number => format!("refused {number}"),
    }
}

pub fn hex(bytes: &[u8]) -> String {
    bytes.iter().map(|b| format!("{b:02x}")).collect()
}

fn each<T>(what: &str, all: &[T], word: impl Fn(&T) -> String) -> String {
    match all {
        [] => format!("no {what}"),
        _ => format!("{what} {}", all.iter().map(word).collect::<Vec<_>>().join(", ")),
    }
}

pub fn config(c: &Config) -> String {
    format!("N {}, own {}, simple {}, super {}", c.n, c.own, c.simple, c.sup)
}

fn reply(r: &Reply) -> String {
    format!("{}: ({},{})", r.replica, r.seq, show::set(&r.deps))
}

fn vote(v: &Vote) -> String {
    format!("{}: {:?} {}", v.replica, v.status, show::contents(&v.contents))
}

pub fn event(event: &Event) -> String {
    let message = |peer: &u64, at: &Place, ballot: &u64| format!("{}.{} from {peer}, ballot {ballot}", at.row, at.col);
    match event {
        Event::Store { what, peer, at, ballot, seq, deps, batch } => {
            let contents = Contents { seq: *seq, deps: deps_of(deps), batch: batch.clone() };
            format!("{what:?} {} {}", message(peer, at, ballot), show::contents(&contents))
        }
        Event::AcceptReply { peer, at, ballot } => format!("AcceptReply {}", message(peer, at, ballot)),
        Event::ExpPrepare { peer, at, ballot } => format!("ExpPrepare {}", message(peer, at, ballot)),
        Event::Lead { at } => format!("Lead {}.{}", at.row, at.col),
        Event::Attempt { at } => format!("Attempt {}.{}", at.row, at.col),
        Event::Logged { at, status } => format!("Logged {} {}.{}", log_status(*status), at.row, at.col),
    }
}

/// The status that a log event is of, or the number that is none.
pub fn log_status(number: u64) -> String {
    Status::logged(number).map_or(number.to_string(), |status| format!("{status:?}"))
}

pub fn question(case: &Case) -> String {
    match case {
        Case::Union { a, b } => format!("{} and {}", show::set(a), show::set(b)),
        Case::Fast { config: c, avoided, replies, silent } => {
            let path = if *avoided { "avoided" } else { "not avoided" };
            let replies = each("replies", replies, reply);
            format!("{}; fast path {path}; {replies}; {}", config(c), each("silent", silent, usize::to_string))
        }
        Case::Choice { config: c, prepare: p, .. } => {
            let ballots = format!("row {}, highest ballot {}, default ballot {}", p.row, p.highest, p.default);
            let votes = each("votes", &p.votes, vote);
            format!("{}; {ballots}; {}; {votes}", config(c), each("acks", &p.acks, usize::to_string))
        }
    }
}

/// The code, what it says, the contents in `out` where there are any, and its bytes.
pub fn answer(function: Function, a: &Answer) -> String {
    let held = match (function, a.has_contents(function)) {
        (_, false) => "no contents".into(),
        (Function::Union, true) => show::set(&bytes::set_at(&a.out, 0, SET)),
        (_, true) => contents(function, &a.out),
    };
    format!("{} ({}), {held}, out {}", a.code, meaning(a.code), hex(&a.out))
}

fn contents(function: Function, out: &[u8]) -> String {
    let batch = match function.is_choice() && out[WORD + SET] as usize <= bytes::REQUESTS {
        true => bytes::batch_at(out, WORD + SET),
        false => vec![],
    };
    show::contents(&Contents { seq: bytes::word(out, 0), deps: bytes::set_at(out, WORD, REPLICAS), batch })
}
