//! What was compared, how often, and the first difference.
use crate::bytes::{Answer, Function, Request};
use crate::handlers::Course;
use crate::reach::Met;
use crate::{rust_says, words};
use std::collections::BTreeMap;
use summerset::plain::Status;

#[derive(Default)]
struct Counts {
    exhaustive: u64,
    random: u64,
    differ: u64,
    by_code: BTreeMap<u64, u64>,
}

/// Of the handlers, or with attempts.
#[derive(Default)]
struct Runs {
    runs: u64,
    spoiled: u64,
    longest: usize,
    records: [u64; 7],
}

/// Of the attempts, or of the log events, on the tables of the runs, without those refused.
#[derive(Default)]
struct AllMet {
    all: u64,
    most_run: usize,
    highest_rise: usize,
    by_name: BTreeMap<&'static str, u64>,
}

/// How often each code came.
fn in_words(by_code: &BTreeMap<u64, u64>) -> String {
    by_code.iter().map(|(code, n)| format!("{} {n}", words::meaning(*code))).collect::<Vec<_>>().join(", ")
}

#[derive(Default)]
pub struct Tally {
    counts: [Counts; Function::ALL.len()],
    /// The codes of log events by their status, at 0 those of a number that is none.
    logged: [BTreeMap<u64, u64>; 4],
    runs: [Runs; 2],
    /// By whether they are log events.
    met: [AllMet; 2],
    first_difference: Option<String>,
}

impl Tally {
    pub fn add(&mut self, request: &Request, is_exhaustive: bool, code: u64) {
        if let Some(status) = request.log_status() {
            let known = Status::logged(status).map_or(0, |status| status as usize);
            *self.logged[known].entry(code).or_default() += 1;
        }
        let counts = &mut self.counts[request.function as usize];
        if is_exhaustive {
            counts.exhaustive += 1
        } else {
            counts.random += 1
        }
        *counts.by_code.entry(code).or_default() += 1;
    }

    pub fn add_run(&mut self, course: &Course) {
        let r = &mut self.runs[usize::from(course.has_attempts)];
        r.runs += 1;
        r.spoiled += course.spoiled();
        r.longest = r.longest.max(course.calls.len());
        r.records.iter_mut().zip(course.records).for_each(|(sum, more)| *sum += more);
    }

    /// Of an attempt or a log event on the table of the run; others have met nothing.
    pub fn add_met(&mut self, met: &Met, function: Function, expected: &Result<Answer, String>) {
        let Some(answer) = expected.as_ref().ok().filter(|_| !met.names.is_empty()) else {
            return;
        };
        let m = &mut self.met[usize::from(function == Function::Logged)];
        m.all += 1;
        m.most_run = m.most_run.max(answer.slots_run());
        m.highest_rise = m.highest_rise.max(met.rise);
        met.names.iter().for_each(|name| *m.by_name.entry(name).or_default() += 1);
    }

    pub fn differ(&mut self, function: Function, difference: impl FnOnce() -> String) {
        self.counts[function as usize].differ += 1;
        self.first_difference.get_or_insert_with(difference);
    }

    fn sum(&self, of: impl Fn(&Counts) -> u64) -> u64 {
        self.counts.iter().map(of).sum()
    }

    pub fn differences(&self) -> u64 {
        self.sum(|c| c.differ)
    }

    fn print_runs(&self) {
        for (name, r) in ["runs of the handlers", "runs with attempts"].iter().zip(&self.runs) {
            let Runs { runs, spoiled, longest, records } = r;
            let [_, log, notice, pre_accept, accept, prepare, note] = records;
            println!("{name}: {runs}, the longest of {longest} calls; {spoiled} calls spoiled");
            println!("  put out: {log} log records, {notice} CommitNotices to all, {pre_accept} PreAcceptReplies,");
            println!("  {accept} AcceptReplies, {prepare} ExpPrepareReplies, {note} notes to self");
        }
    }

    fn print_met(&self) {
        for (name, m) in ["attempts", "log events"].iter().zip(&self.met) {
            let AllMet { all, most_run, highest_rise, by_name } = m;
            println!("{name} on the table of a run, not refused: {all}, at most {most_run} slots run by one");
            by_name.iter().for_each(|(name, times)| println!("  {name}: {times}"));
            if *highest_rise > 0 {
                println!("  a bar rises by at most {highest_rise}");
            }
        }
    }

    fn print_answers(&self) {
        println!("answers expected");
        for (function, c) in Function::ALL.iter().zip(&self.counts) {
            println!("  {}: {}", function.name(), in_words(&c.by_code));
        }
        for (number, by_code) in self.logged.iter().enumerate() {
            let status = if number == 0 { "of no status".into() } else { words::log_status(number as u64) };
            println!("    {status}: {}", in_words(by_code));
        }
    }

    pub fn print(&self) {
        println!("{:<36}{:>12}{:>12}{:>9}", "compared", "all small", "random", "differ");
        for (function, c) in Function::ALL.iter().zip(&self.counts) {
            println!("{:<36}{:>12}{:>12}{:>9}", function.name(), c.exhaustive, c.random, c.differ);
        }
        self.print_answers();
        self.print_runs();
        self.print_met();
        let (times, said) = rust_says::empty_lists();
        println!("panics on an empty list of votes, caught: {times}\n  {}", said.replace('\n', " "));
        if let Some(first) = &self.first_difference {
            println!("first difference: {first}");
        }
        let all = self.sum(|c| c.exhaustive + c.random);
        println!("{all} compared, {} differences", self.differences());
    }
}
