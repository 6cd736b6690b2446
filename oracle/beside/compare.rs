//! Every case of a small world, however long that takes, then cases at random for the time that is given: a third for the
//! union and the decisions, one for runs of the handlers, one for runs with attempts.
use crate::answerer::Answerer;
use crate::bytes::{self, Answer, BATCH_IN_CONTENTS, Function, Request};
use crate::cases::Case;
use crate::handlers::{self, Course};
use crate::random::Random;
use crate::tally::Tally;
use crate::{draw, exhaustive, refused, rust_says, spoil, words};
use std::time::{Duration, Instant};

const FRAME: usize = 256;

/// How a run is drawn.
type Draw = fn(&mut Random) -> Result<Course, String>;

struct Comparison {
    answerer: Answerer,
    tally: Tally,
    waiting: Vec<Request>,
    is_exhaustive: bool,
}

/// What is to be answered: the refusal, or what the Rust says. What is not written of `out` stays as it was.
fn expected(request: &Request) -> Result<Answer, String> {
    let answer = match refused::code(request) {
        Some(code) => Answer::unwritten(code),
        None => rust_says::answer(&Case::of(request))?,
    };
    Ok(answer.with_watched(request))
}

fn up_to_count(function: Function, answer: &Answer) -> Answer {
    let mut answer = answer.clone();
    if function.is_choice() && answer.has_contents(function) {
        bytes::clear_past_count(&mut answer.out[BATCH_IN_CONTENTS..]);
    }
    answer
}

fn difference(request: &Request, expected: &Result<Answer, String>, got: &Answer) -> String {
    let function = request.function;
    let question = match refused::code(request) {
        Some(_) => "to be refused".into(),
        None => words::question(&Case::of(request)),
    };
    let lines = [
        function.name().into(),
        format!("question  {question}"),
        format!("numbers   {:?}", request.numbers),
        format!("slices    {}", words::hex(&request.slices[0])),
        format!("          {}", words::hex(&request.slices[1])),
        format!("expected  {}", expected.as_ref().map_or_else(Clone::clone, |e| words::answer(function, e))),
        format!("answered  {}", words::answer(function, got)),
    ];
    lines.join("\n  ")
}

impl Comparison {
    fn push(&mut self, request: Request) -> Result<(), String> {
        self.waiting.push(request);
        if self.waiting.len() == FRAME { self.flush() } else { Ok(()) }
    }

    /// The Rust answers while the C functions do.
    fn flush(&mut self) -> Result<(), String> {
        let requests = std::mem::take(&mut self.waiting);
        self.answerer.ask(&requests)?;
        let answers: Vec<_> = requests.iter().map(expected).collect();
        for (request, expected) in requests.iter().zip(&answers) {
            let got = self.answerer.answer(request)?;
            self.compare(request, expected, &got);
        }
        Ok(())
    }

    fn compare(&mut self, request: &Request, expected: &Result<Answer, String>, got: &Answer) {
        let function = request.function;
        self.tally.add(request, self.is_exhaustive, expected.as_ref().map_or(got.code, |e| e.code));
        let is_same = |e: &Answer| up_to_count(function, e) == up_to_count(function, got);
        if !expected.as_ref().is_ok_and(is_same) {
            self.tally.differ(function, || difference(request, expected, got));
        }
    }

    /// After the first answer that differs the others of the run are only read.
    fn compare_run(&mut self, course: &Course) -> Result<(), String> {
        let mut current = handlers::nothing();
        let mut is_same = true;
        for (number, call) in course.calls.iter().enumerate() {
            let got = self.answerer.answer(&call.request)?;
            if !is_same {
                continue;
            }
            let function = call.request.function;
            let expected = call.expected(&current);
            let settled = call.settled(got.clone(), &expected);
            is_same = expected.as_ref().is_ok_and(|e| *e == settled);
            self.tally.add(&call.request, false, expected.as_ref().map_or(got.code, |e| e.code));
            self.tally.add_met(&call.met, function, &expected);
            if !is_same {
                self.tally.differ(function, || course.difference(number, &current, &expected, &settled));
            }
            if call.spoiling.is_none() {
                current = got.image;
            }
        }
        self.tally.add_run(course);
        Ok(())
    }

    fn decisions(&mut self, random: &mut Random, time: Duration) -> Result<(), String> {
        let end = Instant::now() + time;
        while Instant::now() < end {
            for _ in 0..FRAME {
                self.push(random_request(random))?;
            }
        }
        Ok(())
    }

    /// The next run is drawn, and the Rust goes through it, while the C functions go through this one.
    fn runs(&mut self, random: &mut Random, time: Duration, draw: Draw) -> Result<(), String> {
        let end = Instant::now() + time;
        let mut next = draw(random)?;
        while Instant::now() < end {
            self.answerer.ask(next.calls.iter().map(|call| &call.request))?;
            let course = std::mem::replace(&mut next, draw(random)?);
            self.compare_run(&course)?;
        }
        Ok(())
    }
}

/// One call in three has litter where nothing is to be read, one in six is spoiled.
fn random_request(random: &mut Random) -> Request {
    use Function::{Fast, PaperChoice, RustChoice, Union};
    let function = random.of(&[Union, Fast, Fast, Fast, RustChoice, RustChoice, RustChoice, PaperChoice]);
    let mut request = draw::case(function, random).request();
    if random.one_in(3) {
        spoil::litter(&mut request, random);
    }
    if random.one_in(6) {
        spoil::spoil(&mut request, random);
    }
    request
}

/// Whether nothing differs.
pub fn run(program: &str, seconds: u64, seed: u64) -> Result<bool, String> {
    rust_says::keep_panics_quiet();
    let answerer = Answerer::start(program)?;
    let mut comparison = Comparison { answerer, tally: Tally::default(), waiting: vec![], is_exhaustive: true };
    exhaustive::each(|case| comparison.push(case.request()))?;
    comparison.flush()?;
    comparison.is_exhaustive = false;
    let third = Duration::from_secs(seconds) / 3;
    comparison.decisions(&mut Random::new(seed), third)?;
    comparison.runs(&mut Random::new(!seed), third, handlers::draw)?;
    comparison.runs(&mut Random::new(seed.rotate_left(32)), third, handlers::draw_with_attempts)?;
    println!("seed {seed}, {seconds} seconds of random cases");
    comparison.tally.print();
    Ok(comparison.tally.differences() == 0)
}
