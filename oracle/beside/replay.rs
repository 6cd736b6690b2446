//! Replays traces in the trace program, and holds what it prints to what is expected.
use crate::player::{self, Player, Playing};
use crate::printed::{self, Expected, Line};
use crate::random::Random;
use crate::traces::Trace;
use crate::{fixed, rust_says, traces, words};
use std::collections::BTreeMap;
use std::time::{Duration, Instant};
use summerset::plain::Answer;
use summerset::show;

/// How many traces one process of the program replays.
const BATCH: usize = 60;

/// Of a trace that differs: how many bytes are shown at the most, beyond which its file has them, and how many of the events
/// before the line that differs.
const SHOWN: usize = 2000;
const TOLD: usize = 40;

#[derive(Default)]
struct Counts {
    traces: u64,
    events: u64,
    differ: u64,
}

#[derive(Default)]
struct Tally {
    by_kind: BTreeMap<&'static str, Counts>,
    /// As expected: the answers to events, those to whole traces, and what stands for what the rules do not compare.
    answers: BTreeMap<String, u64>,
    slots_run: usize,
    most_run: usize,
    /// How many traces the rules do not compare to their end beside the Rust.
    partly: u64,
    first_difference: Option<String>,
}

type Asked = (Trace, Expected);

struct Replay {
    player: Player,
    tally: Tally,
}

fn asked(trace: Trace) -> Asked {
    let expected = printed::expected(&trace.bytes);
    (trace, expected)
}

fn batch(random: &mut Random) -> Result<Vec<Asked>, String> {
    (0..BATCH).map(|_| traces::any(random).map(asked)).collect()
}

impl Tally {
    fn add(&mut self, expected: &Expected, events: usize) {
        self.partly += u64::from(!expected.is_whole());
        for line in &expected.lines[..events] {
            *self.answers.entry(name_of(line, expected.config.is_none())).or_default() += 1;
            if let Line::Said(_, slots) = line {
                self.slots_run += slots.len();
                self.most_run = self.most_run.max(slots.len());
            }
        }
    }

    fn sum(&self, of: impl Fn(&Counts) -> u64) -> u64 {
        self.by_kind.values().map(of).sum()
    }

    fn print(&self) {
        println!("{:<60}{:>9}{:>10}{:>8}", "compared", "traces", "events", "differ");
        for (kind, c) in &self.by_kind {
            println!("{kind:<60}{:>9}{:>10}{:>8}", c.traces, c.events, c.differ);
        }
        let answers: Vec<String> = self.answers.iter().map(|(name, times)| format!("{name} {times}")).collect();
        println!("answers expected: {}", answers.join(", "));
        println!("slots run: {}, at most {} by one event", self.slots_run, self.most_run);
        println!("traces that the rules compare in part: {}", self.partly);
        if let Some(first) = &self.first_difference {
            println!("first difference: {first}");
        }
        let [traces, events, differ] = [self.sum(|c| c.traces), self.sum(|c| c.events), self.sum(|c| c.differ)];
        println!("{events} events of {traces} traces compared, {differ} differences");
    }
}

fn name_of(line: &Line, is_header: bool) -> String {
    match line {
        Line::Said(Answer::Refused(number), _) if is_header => format!("0 refused {number}"),
        Line::Said(answer, slots) if !slots.is_empty() => format!("{} with slots", show::answer(*answer)),
        Line::Said(answer, _) => show::answer(*answer),
        Line::Tried { .. } => "tried".into(),
        Line::Fault(_) => "none".into(),
    }
}

impl Replay {
    /// Where the program did not end as it should, that is what differs in the first trace that has no whole text.
    fn compare(
        &mut self,
        kind: &'static str,
        asked: &Asked,
        text: &str,
        fault: &mut Option<String>,
    ) -> Result<(), String> {
        let (trace, expected) = asked;
        let compared = expected.compare(text);
        self.tally.add(expected, compared.events);
        let counts = self.tally.by_kind.entry(kind).or_default();
        counts.traces += 1;
        // a trace that is refused as a whole has no event
        counts.events += if expected.config.is_some() { compared.events as u64 } else { 0 };
        if let Some(what) = compared.difference {
            counts.differ += 1;
            let what = fault.take().map_or(what.clone(), |fault| format!("{what}\n  {fault}"));
            if self.tally.first_difference.is_none() {
                let kept = self.player.write("first-difference", &trace.bytes)?;
                self.tally.first_difference = Some(difference(asked, compared.events, &what, &kept));
            }
        }
        Ok(())
    }

    /// A fault that shows in no text differs by itself.
    fn blame(&mut self, kind: &'static str, fault: Option<String>) {
        if let Some(fault) = fault {
            self.tally.by_kind.entry(kind).or_default().differ += 1;
            self.tally.first_difference.get_or_insert(fault);
        }
    }

    fn end(&mut self, asked: &[Asked], playing: Playing) -> Result<Duration, String> {
        let played = self.player.end(playing)?;
        let mut fault = played.fault;
        for (asked, text) in asked.iter().zip(player::texts(&played.text, asked.len())) {
            self.compare(asked.0.kind, asked, text, &mut fault)?;
        }
        self.blame("how replays ended", fault);
        Ok(played.time)
    }

    /// The first of the batch once more, on standard input.
    fn on_standard_input(&mut self, asked: &Asked) -> Result<(), String> {
        let played = self.player.end(self.player.start_first()?)?;
        let mut fault = played.fault;
        self.compare("on standard input", asked, &played.text, &mut fault)?;
        self.blame("how replay ended", fault);
        Ok(())
    }

    /// Each by itself, and how long that takes.
    fn fixed(&mut self, random: &mut Random) -> Result<(), String> {
        for trace in fixed::all(random)? {
            let playing = self.player.start([&trace].into_iter())?;
            let (count, kind) = (trace.bytes.len(), trace.kind);
            let asked = asked(trace);
            let events = asked.1.events.len();
            let time = self.end(&[asked], playing)?.as_secs_f64();
            println!("{time:>6.1} seconds: {kind}, {count} bytes, {events} events");
        }
        Ok(())
    }

    /// The next batch is drawn, and the Rust goes through it, while the program goes through this one.
    fn at_random(&mut self, random: &mut Random, time: Duration) -> Result<(), String> {
        let end = Instant::now() + time;
        let mut next = batch(random)?;
        while Instant::now() < end {
            let playing = self.player.start(next.iter().map(|(trace, _)| trace))?;
            let asked = std::mem::replace(&mut next, batch(random)?);
            self.end(&asked, playing)?;
            self.on_standard_input(&asked[0])?;
        }
        Ok(())
    }
}

/// The trace up to the line that differs.
fn difference((trace, expected): &Asked, events: usize, what: &str, kept: &str) -> String {
    let mut lines = vec![format!("{} ({} bytes, {kept})", trace.kind, trace.bytes.len())];
    lines.extend(expected.config.iter().map(words::config));
    let told = expected.events.iter().enumerate().take(events + 1).skip(events.saturating_sub(TOLD));
    lines.extend(told.map(|(i, event)| format!("{:<10}{}", i + 1, words::event(event))));
    if (1..=SHOWN).contains(&trace.bytes.len()) {
        let hex: Vec<String> = trace.bytes.iter().map(|byte| words::hex(&[*byte])).collect();
        lines.push(hex.join(" "));
    }
    lines.push(what.into());
    lines.join("\n  ")
}

/// Whether nothing differs.
pub fn run(programs: &str, folder: &str, seconds: u64, seed: u64) -> Result<bool, String> {
    rust_says::keep_panics_quiet();
    let mut replay = Replay { player: Player::new(programs, folder)?, tally: Tally::default() };
    replay.fixed(&mut Random::new(!seed))?;
    replay.at_random(&mut Random::new(seed), Duration::from_secs(seconds))?;
    println!("seed {seed}, {seconds} seconds of traces drawn");
    replay.tally.print();
    Ok(replay.tally.sum(|c| c.differ) == 0)
}
