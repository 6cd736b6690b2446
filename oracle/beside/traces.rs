//! Traces to replay: runs of events as bytes, some of them spoiled, and bytes at random.
use crate::aim::Aim;
use crate::numbers::event as event_numbers;
use crate::random::Random;
use crate::run::{Plan, Run, slots};
use crate::{attempts, cases, draw, encode, runs};
use summerset::drive;
use summerset::plain::{Event, Kind, Store};
use summerset::trace::LONGEST;

pub struct Trace {
    pub kind: &'static str,
    pub bytes: Vec<u8>,
}

/// A trace before it is bytes: each number as its groups; which of them begin the header or an event, and which stand for
/// something only within narrow bounds.
struct Numbers {
    groups: Vec<Vec<u8>>,
    tags: Vec<usize>,
    narrow: Vec<usize>,
}

type Spoil = fn(&mut Numbers, &mut Random);

/// What is aimed at bounds stands here twice.
const SPOILS: [(&str, Spoil); 11] = [
    ("spoiled: cut", cut),
    ("spoiled: a bit flipped", flip),
    ("spoiled: a byte added", add),
    ("spoiled: a byte left out", leave_out),
    ("spoiled: a number not in its shortest form", lengthen),
    ("spoiled: a number of ten bytes or eleven", overflow),
    ("spoiled: another number", replace),
    ("spoiled: another number", replace),
    ("spoiled: a number one more", raise),
    ("spoiled: a number one more", raise),
    ("spoiled: an unknown tag", retag),
];

/// The header is met often.
const HEADER: usize = 4;

pub fn any(random: &mut Random) -> Result<Trace, String> {
    Ok(match random.below(10) {
        0 | 1 => Trace { kind: "runs of the handlers", bytes: Numbers::of(&handlers(random)?).bytes() },
        2 | 3 => Trace { kind: "runs with attempts", bytes: Numbers::of(&with_attempts(random)?).bytes() },
        4 => Trace { kind: "runs with attempts, then lowered", bytes: Numbers::of(&lowered(random)?).bytes() },
        5..=8 => spoiled(random)?,
        _ => Trace { kind: "bytes at random", bytes: at_random(random) },
    })
}

/// One in four may have what a trace has no room for, and is then read as something else.
fn handlers(random: &mut Random) -> Result<Run, String> {
    let plan = Plan { oversteps: random.one_in(4), ..Plan::any(random) };
    runs::drawn(&plan, random)
}

fn with_attempts(random: &mut Random) -> Result<Run, String> {
    let mut aim = Aim::any(random);
    aim.plan.oversteps = random.one_in(4);
    attempts::drawn(&aim, random)
}

/// Events of the handlers at its end, which alter and lower slots that have run. Nothing is tried after them, so that the rules
/// still compare which slots stand run.
fn lowered(random: &mut Random) -> Result<Run, String> {
    let mut run = with_attempts(random)?;
    run.has_attempts = false;
    for _ in 0..1 + random.below(3 * run.config.n) {
        let event = if random.one_in(2) { told_again(&run, random) } else { run.next(random) };
        if !matches!(event, Event::Attempt { .. }) {
            run.take(&event)?;
        }
    }
    Ok(run)
}

/// A slot that is there, stored once more with its own values.
fn told_again(run: &Run, random: &mut Random) -> Event {
    let there = slots(&run.table, |_| true);
    if there.is_empty() {
        return run.next(random);
    }
    let (at, slot) = random.of(&there);
    Event::Store {
        what: random.of(&[Store::CommitNotice, Store::CommitNotice, Store::Accept, Store::PreAccept]),
        peer: 0,
        at,
        ballot: slot.ballot,
        seq: slot.contents.seq,
        deps: drive::numbers_of(&slot.contents.deps),
        batch: slot.contents.batch.clone(),
    }
}

fn spoiled(random: &mut Random) -> Result<Trace, String> {
    let run = if random.one_in(2) { handlers(random)? } else { with_attempts(random)? };
    let mut numbers = Numbers::of(&run);
    let (kind, spoil) = random.of(&SPOILS);
    spoil(&mut numbers, random);
    Ok(Trace { kind, bytes: numbers.bytes() })
}

/// A run of the handlers with as many events as the longest trace holds.
pub fn longest_run(random: &mut Random) -> Result<Vec<u8>, String> {
    let plan = Plan { config: draw::config_of(7, random), ..Plan::listed(random) };
    let mut run = Run::new(&plan);
    let mut bytes = encode::header(&run.config);
    loop {
        let event = run.next(random);
        let more = encode::event(&event);
        if bytes.len() + more.len() > LONGEST {
            return Ok(bytes);
        }
        bytes.extend(more);
        run.take(&event)?;
    }
}

impl Numbers {
    fn of(run: &Run) -> Numbers {
        let mut numbers = Numbers { groups: vec![], tags: vec![], narrow: vec![] };
        numbers.put(&cases::numbers_of(&run.config), &[]);
        for happened in &run.events {
            numbers.put(&event_numbers(&happened.event), &narrow_in(&happened.event));
        }
        numbers
    }

    /// A header or an event, with the places in it of what is narrow.
    fn put(&mut self, numbers: &[u64], narrow: &[usize]) {
        let start = self.groups.len();
        self.tags.push(start);
        self.narrow.extend(narrow.iter().map(|place| start + place));
        self.groups.extend(numbers.iter().map(|number| encode::groups(*number)));
    }

    fn bytes(&self) -> Vec<u8> {
        self.groups.concat()
    }

    /// Any number of it, often one that is narrow, now and then one of the header.
    fn one(&mut self, random: &mut Random) -> &mut Vec<u8> {
        let any = random.below(self.groups.len());
        let at = match random.below(6) {
            0 => random.below(HEADER),
            1..=3 if !self.narrow.is_empty() => random.of(&self.narrow),
            _ => any,
        };
        &mut self.groups[at]
    }

    /// As bytes that are no longer told apart, and a place in them.
    fn joined(&mut self, random: &mut Random) -> (&mut Vec<u8>, usize) {
        let bytes = self.bytes();
        let count = if random.one_in(6) { HEADER } else { bytes.len() };
        self.groups = vec![bytes];
        (&mut self.groups[0], random.below(count))
    }
}

/// The places of its tag, of a log status, and of the count of its batch with each kind and key.
fn narrow_in(event: &Event) -> Vec<usize> {
    match event {
        Event::Logged { .. } => vec![0, 3],
        Event::Store { deps, batch, .. } => {
            let count = 6 + deps.len();
            let mut places = vec![0, count];
            let mut next = count + 1;
            for request in batch {
                places.push(next + 2);
                let length = match request.kind {
                    Kind::Other => 3,
                    Kind::Get { .. } => 4,
                    Kind::Put { .. } => 5,
                };
                places.extend((length > 3).then_some(next + 3));
                next += length;
            }
            places
        }
        _ => vec![0],
    }
}

fn cut(numbers: &mut Numbers, random: &mut Random) {
    let (bytes, at) = numbers.joined(random);
    bytes.truncate(at);
}

fn flip(numbers: &mut Numbers, random: &mut Random) {
    let (bytes, at) = numbers.joined(random);
    bytes[at] ^= 1 << random.below(8);
}

fn add(numbers: &mut Numbers, random: &mut Random) {
    let (bytes, at) = numbers.joined(random);
    let any = random.byte();
    let end = bytes.len();
    bytes.insert(random.of(&[at, at, end]), random.of(&[0, 1, 7, 0x80, any]));
}

fn leave_out(numbers: &mut Numbers, random: &mut Random) {
    let (bytes, at) = numbers.joined(random);
    bytes.remove(at);
}

/// With a last group of nothing, or several.
fn lengthen(numbers: &mut Numbers, random: &mut Random) {
    let groups = numbers.one(random);
    let more = random.of(&[1, 1, 2, 9]);
    groups.extend(vec![0; more]);
    let last = groups.len() - 1;
    groups[..last].iter_mut().for_each(|group| *group |= 0x80);
}

/// The tenth byte is the last that fits, one above it, or any; an eleventh follows it or does not. The bytes before it are of
/// nothing, of ones, or at random.
fn overflow(numbers: &mut Numbers, random: &mut Random) {
    let any = random.byte();
    let low = random.of(&[0x80, 0xff, any | 0x80]);
    let tenth = random.of(&[0, 1, 1, 2, 3, 0x7f, 0x80, 0x81, 0x82, 0xff, any]);
    let mut groups = vec![low; 9];
    groups.push(tenth);
    if tenth >= 0x80 {
        groups.push(random.of(&[0, 1, 2, 0x80]));
    }
    *numbers.one(random) = groups;
}

/// About the bounds, or one that would be the same if it were cut.
fn replace(numbers: &mut Numbers, random: &mut Random) {
    let more = 1 << random.of(&[8, 16, 32, 63]);
    let groups = numbers.one(random);
    let cut = encode::number(groups).wrapping_add(more);
    let about = random.of(&[0, 1, 3, 4, 5, 7, 8, 31, 32, 33, 255, 256, u64::from(u32::MAX), u64::MAX]);
    *groups = encode::groups(random.of(&[about, cut]));
}

/// One past the last tag, kind, status or count, where it is that one.
fn raise(numbers: &mut Numbers, random: &mut Random) {
    let groups = numbers.one(random);
    *groups = encode::groups(encode::number(groups).wrapping_add(1));
}

/// The first number of an event, or of the header.
fn retag(numbers: &mut Numbers, random: &mut Random) {
    let at = random.of(&numbers.tags);
    let cut = (1 << random.of(&[7, 8, 16, 32, 63])) + 1 + random.below(8) as u64;
    numbers.groups[at] = encode::groups(random.of(&[0, 0, 9, 9, 9, 10, 11, 12, 127, u64::MAX, cut, cut]));
}

/// Mostly up to 300, a few up to the longest and beyond. Half begin with a header that fits and go on in small numbers, so that
/// there are events among them.
fn at_random(random: &mut Random) -> Vec<u8> {
    let (near, far) = (LONGEST + random.below(2), random.below(LONGEST + 4096));
    let count = if random.one_in(30) { random.of(&[near, far]) } else { random.below(301) };
    let mut bytes: Vec<u8> = Vec::new();
    let (is_small, is_high) = (random.one_in(2), random.one_in(8));
    if is_small {
        bytes = encode::header(&draw::config(random));
    }
    while bytes.len() < count {
        let any = random.byte();
        let small = random.of(&[any % 3, 1 + any % 2, any % 9]);
        bytes.push(if is_small && !random.one_in(60) { small } else { any | u8::from(is_high) << 7 });
    }
    bytes.truncate(count);
    bytes
}
