//! What the trace program has to print of a trace, by a reader that is written from the rules and by the Rust; and whether
//! a text is that.
use crate::attempts;
use crate::run::{COMMITTED, Plan, Run, raises};
use summerset::plain::{Answer, Config, Event, SlotAt, Table};
use summerset::show;
use summerset::trace::{Reader, Refusal};

/// Of one event, without its number.
pub enum Line {
    /// The answer, and the slots that ran, by row and column, in whatever order they are printed.
    Said(Answer, Vec<SlotAt>),
    /// Where slots are tried after an empty batch was committed or a committed slot altered or lowered, so that the rules
    /// do not compare which run beside the Rust: how long each row is.
    Tried { is_attempt: bool, lengths: Vec<usize> },
    /// The Rust panics.
    Fault(String),
}

/// Of a trace.
pub struct Expected {
    /// What is read of it, for whoever has to look at a difference.
    pub config: Option<Config>,
    pub events: Vec<Event>,
    pub lines: Vec<Line>,
    /// The last line; whether the run bars in it are compared. None where the trace is refused as a whole.
    bars: Option<(String, bool)>,
}

/// How many lines of events are as expected, and then the line that is not, with what is expected in its place.
pub struct Compared {
    pub events: usize,
    pub difference: Option<String>,
}

/// A run of whatever a trace has: nothing is drawn.
fn plan(config: Config) -> Plan {
    Plan { config, length: 0, is_far: false, oversteps: false, has_attempts: false }
}

pub fn expected(trace: &[u8]) -> Expected {
    let mut reader = Reader::new(trace);
    match reader.config() {
        Ok(config) => Course::new(config).to_end(&mut reader),
        Err(number) => Expected { config: None, events: vec![], lines: vec![refused(number)], bars: None },
    }
}

fn refused(number: Refusal) -> Line {
    Line::Said(Answer::Refused(number), vec![])
}

/// The Rust on its way through a trace.
struct Course {
    run: Run,
    lines: Vec<Line>,
    /// Whether no empty batch was committed, and no committed slot altered or lowered.
    is_kept: bool,
    /// Whether the rules compare which slots stand run: no slot was tried after that.
    is_known: bool,
}

impl Course {
    fn new(config: Config) -> Course {
        Course { run: Run::new(&plan(config)), lines: vec![], is_kept: true, is_known: true }
    }

    fn to_end(mut self, reader: &mut Reader) -> Expected {
        while !reader.is_at_end() && !matches!(self.lines.last(), Some(Line::Fault(_))) {
            match reader.event(self.run.config.n) {
                Ok(event) => self.step(&event),
                Err(number) => {
                    self.lines.push(refused(number));
                    break;
                }
            }
        }
        let bars = Some((show::bars(&self.run.table), self.is_known));
        let events = self.run.events.into_iter().map(|happened| happened.event).collect();
        Expected { config: Some(self.run.config), events, lines: self.lines, bars }
    }

    fn step(&mut self, event: &Event) {
        let is_raised = raises_a_bar(&self.run.table, event);
        let line = match self.run.take(event) {
            Err(said) => Line::Fault(said),
            Ok(happened) => {
                let is_attempt = matches!(event, Event::Attempt { .. });
                let is_refused = matches!(happened.did.answer, Answer::Refused(_));
                let tries = (is_attempt || is_raised) && !is_refused;
                self.is_known &= self.is_kept || !tries;
                let lengths = self.run.table.rows.iter().map(Vec::len).collect();
                match tries && !self.is_known {
                    true => Line::Tried { is_attempt, lengths },
                    false => Line::Said(happened.did.answer, happened.run),
                }
            }
        };
        self.is_kept &= attempts::are_comparable(&self.run.before, &self.run.table);
        self.lines.push(line);
    }
}

fn raises_a_bar(table: &Table, event: &Event) -> bool {
    matches!(event, Event::Logged { at, status: COMMITTED } if raises(table, at))
}

impl Expected {
    /// Whether the rules compare all of it beside the Rust.
    pub fn is_whole(&self) -> bool {
        self.bars.as_ref().is_none_or(|(_, is_known)| *is_known)
    }

    /// The lines in their order; after the first that is not as expected the others are left out.
    pub fn compare(&self, text: &str) -> Compared {
        let Some(text) = text.strip_suffix('\n') else {
            return Compared { events: 0, difference: Some(format!("no line, or the last has no end: {text:?}")) };
        };
        let mut got = text.split('\n');
        let first = usize::from(self.bars.is_some());
        for (i, line) in self.lines.iter().enumerate() {
            let printed = got.next();
            if !printed.is_some_and(|printed| line.is_met(first + i, printed)) {
                return Compared { events: i, difference: Some(told(&line.words(first + i), printed)) };
            }
        }
        let printed = got.next();
        let difference = match (&self.bars, printed) {
            (Some(bars), printed) if !printed.is_some_and(|line| are_met(bars, line)) => Some(told(&bars.0, printed)),
            (None, Some(_)) => Some(told("nothing more", printed)),
            _ => got.next().map(|line| told("nothing more", Some(line))),
        };
        Compared { events: self.lines.len(), difference }
    }
}

fn told(expected: &str, printed: Option<&str>) -> String {
    let printed = printed.map_or("nothing".into(), |line| format!("{line:?}"));
    format!("expected  {expected}\n  printed   {printed}")
}

impl Line {
    fn is_met(&self, number: usize, printed: &str) -> bool {
        match self {
            Line::Said(..) => by_place(printed) == self.words(number),
            Line::Tried { is_attempt, lengths } => is_of_attempts(number, *is_attempt, lengths, printed),
            Line::Fault(_) => false,
        }
    }

    fn words(&self, number: usize) -> String {
        match self {
            Line::Said(answer, slots) => format!("{number} {}{}", show::answer(*answer), show::slots(slots)),
            Line::Tried { is_attempt: true, .. } => format!("{number} and an answer of an attempt"),
            Line::Tried { .. } => format!("{number} done, and slots that are there, each once"),
            Line::Fault(said) => format!("{number}, but {said}"),
        }
    }
}

/// A slot as it is printed, and in no other form.
fn slot_of(word: &str) -> Option<SlotAt> {
    let (row, col) = word.split_once('.')?;
    let slot = (row.parse().ok()?, col.parse().ok()?);
    (format!("{}.{}", slot.0, slot.1) == word).then_some(slot)
}

/// A line up to its slots, and these, where all of them are slots.
fn split(line: &str) -> Option<(String, Vec<SlotAt>)> {
    let words: Vec<&str> = line.split(' ').collect();
    let count = words.iter().take_while(|word| !word.contains('.')).count();
    let slots = words[count..].iter().map(|word| slot_of(word)).collect::<Option<_>>()?;
    Some((words[..count].join(" "), slots))
}

/// A line with its slots by row and column; one that has something else there as it is.
fn by_place(line: &str) -> String {
    match split(line) {
        Some((head, mut slots)) => {
            slots.sort();
            head + &show::slots(&slots)
        }
        None => line.into(),
    }
}

/// What holds wherever slots are tried: an answer that there is, slots only with done and with an attempt's done, each
/// there and no more than once.
fn is_of_attempts(number: usize, is_attempt: bool, lengths: &[usize], line: &str) -> bool {
    let Some((head, mut slots)) = split(line) else { return false };
    let is_there = |(row, col): &SlotAt| lengths.get(*row).is_some_and(|length| col < length);
    let count = slots.len();
    slots.sort();
    slots.dedup();
    let are_slots = slots.len() == count && slots.iter().all(is_there);
    let is_done = head == format!("{number} done") && (count > 0 || !is_attempt);
    let is_none = ["notyet", "already"].iter().any(|word| head == format!("{number} {word}"));
    are_slots && (is_done || is_attempt && is_none && count == 0)
}

/// The commit bars, and the run bars where they are compared.
fn are_met((bars, is_known): &(String, bool), printed: &str) -> bool {
    match is_known {
        true => printed == bars,
        false => commit_bars(printed) == commit_bars(bars),
    }
}

/// The line without its run bars, which have to be numbers.
fn commit_bars(line: &str) -> Option<String> {
    let mut words = line.split(' ');
    let commit = |word: &str| {
        let (commit, run) = word.split_once('/')?;
        run.parse::<u8>().ok()?;
        Some(format!(" {commit}"))
    };
    let head = words.next()?.to_string();
    words.map(commit).collect::<Option<String>>().map(|bars| head + &bars)
}
