//! How answers, records and slots are printed.
use crate::plain::{Answer, Contents, Deps, Kind, Output, Request, Slot, SlotAt, Status, Table};

fn joined(words: impl Iterator<Item = String>, between: &str) -> String {
    words.collect::<Vec<_>>().join(between)
}

pub fn set(deps: &Deps) -> String {
    let row = |d: &Option<usize>| d.map_or("_".into(), |col| col.to_string());
    format!("[{}]", joined(deps.iter().map(row), ","))
}

fn request(r: &Request) -> String {
    match &r.kind {
        Kind::Other => format!("{}:{} other", r.client, r.id),
        Kind::Put { key, value } => format!("{}:{} put {key}={value}", r.client, r.id),
        Kind::Get { key } => format!("{}:{} get {key}", r.client, r.id),
    }
}

pub fn batch(requests: &[Request]) -> String {
    format!("{{{}}}", joined(requests.iter().map(request), ", "))
}

pub fn contents(c: &Contents) -> String {
    format!("({},{},{})", c.seq, set(&c.deps), batch(&c.batch))
}

/// What a reply of the Rust has of them.
fn first(c: &Contents) -> String {
    format!("({},{})", c.seq, set(&c.deps))
}

pub fn answer(a: Answer) -> String {
    match a {
        Answer::Done => "done".into(),
        Answer::Ignored => "ignored".into(),
        Answer::NotYet => "notyet".into(),
        Answer::Already => "already".into(),
        Answer::Refused(number) => format!("refused {number}"),
    }
}

pub fn slots(at: &[SlotAt]) -> String {
    joined(at.iter().map(|(row, col)| format!(" {row}.{col}")), "")
}

pub fn output(o: &Output) -> String {
    match o {
        Output::Log { status, slot: (r, c), ballot, contents: held } => {
            format!("log {status:?} {r}.{c} ballot {ballot} {}", contents(held))
        }
        Output::CommitNotice { slot: (r, c), ballot, contents: held } => {
            format!("to all CommitNotice {r}.{c} ballot {ballot} {}", contents(held))
        }
        Output::PreAcceptReply { to, slot: (r, c), ballot, contents: held, .. } => {
            format!("to {to} PreAcceptReply {r}.{c} ballot {ballot} {}", first(held))
        }
        Output::NoteToSelf { slot: (r, c), ballot, contents: held, .. } => {
            format!("note to self {r}.{c} ballot {ballot} {}", first(held))
        }
        Output::AcceptReply { to, slot: (r, c), ballot, .. } => format!("to {to} AcceptReply {r}.{c} ballot {ballot}"),
        Output::ExpPrepareReply { to, slot: (r, c), new_ballot, ballot, status, contents: held } => {
            let voted = format!("voted {ballot} {status:?} {}", contents(held));
            format!("to {to} ExpPrepareReply {r}.{c} ballot {new_ballot} {voted}")
        }
        Output::Beyond(what) => format!("beyond the rules: {what}"),
    }
}

fn slot((row, col): SlotAt, s: &Slot) -> String {
    let source = s.source.map_or("no source".into(), |r| format!("source {r}"));
    let led = s.marks.map_or("not led".into(), |m| format!("led, marks {m:b}"));
    format!("slot {row}.{col} {:?} ballot {} {}, {source}, {led}\n", s.status, s.ballot, contents(&s.contents))
}

pub fn slots_of(t: &Table) -> String {
    let row = |(r, slots): (usize, &Vec<Slot>)| joined(slots.iter().enumerate().map(|(c, s)| slot((r, c), s)), "");
    joined(t.rows.iter().enumerate().map(row), "")
}

/// Commit bar and run bar of each row.
pub fn bars(t: &Table) -> String {
    let run = |slots: &Vec<Slot>| slots.iter().take_while(|s| s.status == Status::Executed).count();
    let pairs = t.rows.iter().zip(&t.bars).map(|(slots, bar)| format!(" {bar}/{}", run(slots)));
    format!("bars{}", joined(pairs, ""))
}
