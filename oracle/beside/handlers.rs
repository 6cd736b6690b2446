//! Runs of the handlers, and runs with attempts, log events in both: the C functions go through the events that the Rust
//! went through, some of them first on a spoiled copy of the table.
use crate::aim::Aim;
use crate::attempts;
use crate::bytes::{Answer, BEHIND, DONE, FILL, Function, IMAGE, Request};
use crate::image::Record;
use crate::random::Random;
use crate::reach::Met;
use crate::run::{Happened, Plan, Run};
use crate::spoil_image::Spoiling;
use crate::{cases, differ, image, reach, refused, spoil, spoil_image, words};
use summerset::plain::{Config, Event, Table};

/// The opening of a table, then the events in their order.
pub struct Course {
    config: Config,
    pub has_attempts: bool,
    pub calls: Vec<Call>,
    /// The image of the Rust's table after them.
    image: Vec<u8>,
    /// How many the Rust handed on of each kind of record, by the kind's number.
    pub records: [u64; 7],
}

pub struct Call {
    /// None of the opening.
    event: Option<Event>,
    pub request: Request,
    pub spoiling: Option<Spoiling>,
    /// What an attempt or a log event met.
    pub met: Met,
    /// By the Rust, where spoiling changes nothing.
    said: Result<Answer, String>,
}

/// A run of the handlers.
pub fn draw(random: &mut Random) -> Result<Course, String> {
    let plan = Plan::any(random);
    course(&plan, random, |run, _, random| run.next(random))
}

/// A run with attempts.
pub fn draw_with_attempts(random: &mut Random) -> Result<Course, String> {
    let aim = Aim::any(random);
    course(&aim.plan, random, |run, left, random| attempts::next(run, &aim, left, random))
}

/// Of events that are drawn one by one, each with how many there are after it.
fn course(
    plan: &Plan,
    random: &mut Random,
    next: impl Fn(&Run, usize, &mut Random) -> Event,
) -> Result<Course, String> {
    let mut run = Run::new(plan);
    let image = image::of(&plan.config, &run.table);
    let Plan { config, has_attempts, .. } = *plan;
    let mut course = Course { config, has_attempts, calls: vec![], image, records: [0; 7] };
    course.push(None, cases::open(&plan.config), random, opened);
    for left in (0..plan.length).rev() {
        let event = next(&run, left, random);
        if !course.take(&mut run, event, random) {
            break;
        }
    }
    for record in run.events.iter().flat_map(|happened| &happened.did.output).flat_map(Record::of) {
        course.records[usize::from(record.what)] += 1;
    }
    Ok(course)
}

/// An empty table of the numbers that are given.
fn opened(request: &Request) -> Result<Answer, String> {
    let config = request.config().ok_or("a configuration that is to be refused")?;
    let empty = Table { rows: vec![], bars: vec![], keys: Default::default() };
    Ok(Answer { image: image::of(&config, &empty), ..Answer::unwritten(DONE) })
}

/// What the Rust did, as the C function of the event answers it. In which order slots run is not the Rust's, so they stand
/// by their numbers here.
fn answer(happened: &Happened, function: Function, image: Vec<u8>) -> Result<Answer, String> {
    let Happened { event, did, run } = happened;
    let [_, _, out, _] = function.lengths();
    let mut answer = Answer { image, ..Answer::unwritten(cases::code_of(event, did)?) };
    if !answer.is_refused() && out > 0 {
        answer.out = image::out_of(&did.output)?;
    }
    if !answer.is_refused() && function.takes_list() {
        answer.order = run.iter().map(image::entry).collect();
        answer.ran = (run.len() as u64).to_le_bytes().to_vec();
    }
    Ok(answer)
}

impl Course {
    /// Takes the Rust through an event, and says whether the run goes on: it ends where the Rust panics. One event in three
    /// has litter where nothing is to be read.
    fn take(&mut self, run: &mut Run, event: Event, random: &mut Random) -> bool {
        let mut request = cases::handler(&event);
        let taken = run.take(&event);
        let said = taken.and_then(|did| answer(&did, request.function, image::of(&self.config, &run.table)));
        if random.one_in(3) {
            spoil::litter_handler(&mut request, random);
        }
        if request.list().is_some() {
            spoil::fill(&mut request.slices[0], random);
        }
        let met = said.as_ref().map_or_else(|_| Met::default(), |answer| reach::met(run, answer.code));
        self.push(Some(event), request, random, |_| said.clone());
        if let Some(call) = self.calls.last_mut() {
            call.met = met;
        }
        said.map(|answer| self.image = answer.image).is_ok()
    }

    /// One call in four is made spoiled before.
    fn push(
        &mut self,
        event: Option<Event>,
        request: Request,
        random: &mut Random,
        says: impl Fn(&Request) -> Result<Answer, String>,
    ) {
        if random.one_in(4) {
            let (request, spoiling) = spoil_image::spoiled(&request, &self.image, random);
            let (spoiling, said) = (Some(spoiling), says(&request));
            self.calls.push(Call { event: event.clone(), request, spoiling, met: Met::default(), said });
        }
        let said = says(&request);
        self.calls.push(Call { event, request, spoiling: None, met: Met::default(), said });
    }

    /// How many of its calls are.
    pub fn spoiled(&self) -> u64 {
        self.calls.iter().filter(|call| call.spoiling.is_some()).count() as u64
    }

    /// The run up to a call, and what differs in its answer.
    pub fn difference(&self, number: usize, current: &[u8], expected: &Result<Answer, String>, got: &Answer) -> String {
        let call = &self.calls[number];
        let mut lines = vec![format!("{} in a run", call.request.function.name()), words::config(&self.config)];
        let before = self.calls[..number].iter().filter(|c| c.spoiling.is_none()).chain([call]);
        let events = before.filter_map(|c| c.event.as_ref()).enumerate();
        lines.extend(events.map(|(i, event)| format!("{:<10}{}", i + 1, words::event(event))));
        lines.extend(call.spoiling.iter().map(|s| format!("spoiled   {}", s.words(current))));
        lines.push(format!("numbers   {:?}", call.request.numbers));
        let name = call.request.list().map_or("contents", |_| "order");
        lines.push(format!("{name:<10}{}", words::hex(&call.request.slices[0])));
        lines.push(format!("out       {} bytes, ran {}", call.request.out, call.request.ran));
        match expected {
            Err(said) => lines.push(format!("expected  {said}")),
            Ok(expected) => {
                lines.push(format!("expected  {} ({})", expected.code, words::meaning(expected.code)));
                lines.extend(differ::fields(expected, got).iter().map(|field| format!("differs   {field}")));
            }
        }
        lines.push(format!("answered  {} ({})", got.code, words::meaning(got.code)));
        lines.join("\n  ")
    }
}

impl Call {
    /// What is expected on the image that is current. Where the call is refused, that stays as it is to the last byte.
    pub fn expected(&self, current: &[u8]) -> Result<Answer, String> {
        let mut before = current.to_vec();
        if self.request.function == Function::Open {
            before.fill(FILL);
        }
        let refusal = self.spoiling.as_ref().and_then(|spoiling| {
            spoiling.put_in(&mut before);
            refused::on_table(&self.request, &before[..spoiling.length])
        });
        let answer = match (refusal, &self.said) {
            (Some(code), _) => Answer { image: before, ..Answer::unwritten(code) },
            (None, Ok(said)) if said.is_refused() => Answer { image: before, ..said.clone() },
            (None, Ok(said)) => self.with_what_stays(said.clone()),
            (None, Err(said)) => return Err(said.clone()),
        };
        Ok(answer.with_watched(&self.request))
    }

    fn with_what_stays(&self, mut answer: Answer) -> Answer {
        if let Some(spoiling) = self.spoiling.as_ref().filter(|_| self.request.function != Function::Open) {
            spoiling.put_what_stays(&mut answer.image);
        }
        answer
    }

    /// Without what is nobody's, where the call is not refused and may have written it, and with the entries of an order list
    /// by their numbers, as many as are expected.
    pub fn settled(&self, mut answer: Answer, expected: &Result<Answer, String>) -> Answer {
        if let Some(expected) = expected.as_ref().ok().filter(|e| !e.is_refused()) {
            if self.request.list().is_some() {
                answer.order[..expected.slots_run()].sort();
            }
            image::clear_past_counts(&mut answer.out, &mut answer.image);
            if self.spoiling.is_some() {
                image::clear_past_lengths(&mut answer.image);
            }
        }
        answer
    }
}

/// What is current before a table is opened.
pub fn nothing() -> Vec<u8> {
    vec![FILL; IMAGE + BEHIND]
}
