//! Calls on a table as no careful host makes them: on a copy of the image that is spoiled, or with slices that are.
use crate::bytes::{
    self, BATCH_IN_CONTENTS, CONTENTS, Function, IMAGE, KEY_IN_REQUEST, KIND_IN_REQUEST, ORDER, REPLICAS, REQUEST,
    REQUESTS, Request, SET, WORD,
};
use crate::differ;
use crate::image::{self, BALLOT, BARS, IN_SLOT, KEY_COLUMNS, LED, LENGTHS, MARKS, ROOM, SLOT, SOURCE, STATUS};
use crate::random::Random;
use crate::{runs, spoil};
use summerset::plain::Status;
use summerset::refusals::{COLUMNS, KEYS};

/// The length that the copy is handed over with, and bytes that are put in it.
#[derive(Clone, Debug)]
pub struct Spoiling {
    pub length: usize,
    pub changes: Vec<(usize, u8)>,
}

impl Spoiling {
    fn bytes(&self) -> Vec<u8> {
        let mut bytes = (self.length as u32).to_le_bytes().to_vec();
        for (at, byte) in &self.changes {
            bytes.extend((*at as u32).to_le_bytes());
            bytes.push(*byte);
        }
        bytes
    }

    /// With what it puts in this image.
    pub fn words(&self, image: &[u8]) -> String {
        let mut spoiled = image.to_vec();
        self.put_in(&mut spoiled);
        let length = format!("image of {} bytes", self.length);
        [vec![length], differ::image_fields(image, &spoiled)].concat().join("; ")
    }

    pub fn put_in(&self, image: &mut [u8]) {
        self.changes.iter().for_each(|(at, byte)| image[*at] = *byte);
    }

    /// What stays of it where the call is not refused: own, super and the bars.
    pub fn put_what_stays(&self, image: &mut [u8]) {
        self.changes.iter().filter(|(at, _)| *at < KEY_COLUMNS).for_each(|(at, byte)| image[*at] = *byte);
    }
}

/// A call with one thing spoiled, or two, so that the order of the refusals shows. The image is the one before the call.
pub fn spoiled(request: &Request, image: &[u8], random: &mut Random) -> (Request, Spoiling) {
    let mut request = request.clone();
    let mut spoiling = Spoiling { length: IMAGE, changes: vec![] };
    let times = random.of(&[1, 1, 1, 2]);
    match request.function {
        Function::Open => (0..times).for_each(|_| spoil_open(&mut request, &mut spoiling, random)),
        _ if random.one_in(12) => spoiling.changes = harmless(&request, image, random),
        _ => (0..times).for_each(|_| spoil(&mut request, &mut spoiling, image, random)),
    }
    request.slices[1] = spoiling.bytes();
    (request, spoiling)
}

fn spoil_open(request: &mut Request, spoiling: &mut Spoiling, random: &mut Random) {
    match random.below(4) {
        0 => spoiling.length = length(random),
        _ => spoil::spoil_number(&mut request.numbers, random),
    }
}

fn length(random: &mut Random) -> usize {
    random.of(&[0, IMAGE - 1, IMAGE + 1])
}

fn shorter(least: usize, random: &mut Random) -> usize {
    let any = random.below(least);
    random.of(&[0, least - 1, any])
}

fn spoil(request: &mut Request, spoiling: &mut Spoiling, image: &[u8], random: &mut Random) {
    let has_contents = request.function.takes_contents();
    let held: Vec<usize> = (0..ROOM).filter(|index| image::is_held(image, *index)).collect();
    let unheld: Vec<usize> = (0..ROOM).filter(|index| !image::is_held(image, *index)).collect();
    let n = image[0] as usize;
    match random.below(19) {
        0 => spoiling.length = length(random),
        1 => spoil_room(request, random),
        2..=4 if request.list().is_some() => spoil_list(request, random),
        2 if has_contents => request.slices[0].truncate(shorter(CONTENTS, random)),
        3 | 4 if has_contents => spoil_kind(&mut request.slices[0], random),
        5 | 9 if request.list().is_some() && !unheld.is_empty() => {
            spoiling.changes.extend(nobodys_slot(request, &unheld, random))
        }
        5..=8 => spoiling.changes.push(meaningless(random)),
        9..=12 => spoiling.changes.push(beyond_in_head(image, random)),
        13..=15 if !held.is_empty() => spoiling.changes.extend(beyond_in_slot(random.of(&held), n, random)),
        16 if !unheld.is_empty() => spoiling.changes.extend(beyond_in_slot(random.of(&unheld), n, random)),
        _ if !unheld.is_empty() => spoiling.changes.extend(nobodys_slot(request, &unheld, random)),
        _ => {}
    }
}

/// `out` or `ran` short, whichever the call takes.
fn spoil_room(request: &mut Request, random: &mut Random) {
    let [_, _, out, ran] = request.function.lengths();
    if ran > 0 && (out == 0 || random.one_in(2)) {
        request.ran = shorter(ran, random);
    } else {
        request.out = shorter(out, random);
    }
}

/// The order list short; or, of a log event, its status none, alone or with the list or another length short.
fn spoil_list(request: &mut Request, random: &mut Random) {
    let which = if request.function == Function::Logged { random.below(6) } else { 0 };
    match which {
        0..=3 => request.slices[0].truncate(shorter(ORDER, random)),
        4 => spoil_room(request, random),
        _ => {}
    }
    if which > 2 {
        request.numbers[2] = runs::no_log_status(random);
    }
}

/// Past a row's length any bytes that stand for something: often as one that heeds an AcceptReply, or, for an attempt, as
/// one that has run, for a log event as one that a bar rises over.
fn nobodys_slot(request: &Request, unheld: &[usize], random: &mut Random) -> Vec<(usize, u8)> {
    let at = image::slot_at(nobodys_place(request, unheld, random));
    let mut slot = [0; SLOT];
    spoil::fill(&mut slot, random);
    slot[STATUS] %= Status::ALL.len() as u8;
    slot[LED..MARKS + REPLICAS].iter_mut().for_each(|mark| *mark %= 2);
    if let Some(ballot) = request.numbers.get(3).filter(|_| random.one_in(2)) {
        slot[STATUS] = Status::Accepting as u8;
        slot[LED] = 1;
        bytes::put(&mut slot, BALLOT, &ballot.to_le_bytes());
    }
    if request.list().is_some() && random.one_in(2) {
        let committed = if request.function == Function::Logged { Status::Committed } else { Status::Executed };
        slot[STATUS] = random.of(&[committed, Status::Executed]) as u8;
    }
    slot[IN_SLOT + 4..IN_SLOT + WORD].fill(0);
    spoil::litter_batch(&mut slot[IN_SLOT + BATCH_IN_CONTENTS..], 0, random);
    (at..).zip(slot).collect()
}

/// Where the call goes, if there is no slot; else, where slots may run, right behind a row, where dependencies and bars lead
/// to, of a log event often its own row.
fn nobodys_place(request: &Request, unheld: &[usize], random: &mut Random) -> usize {
    let asked = request.index();
    if let Some(index) = asked.filter(|index| unheld.contains(index)) {
        return index;
    }
    if request.list().is_none() {
        return random.of(unheld);
    }
    let behind = first_of_rows(unheld);
    let row_of = |index: usize| image::place(index).0;
    let own = behind.iter().find(|index| asked.is_some_and(|asked| row_of(asked) == row_of(**index)));
    match own {
        Some(index) if request.function == Function::Logged && random.one_in(2) => *index,
        _ => random.of(&behind),
    }
}

fn first_of_rows(unheld: &[usize]) -> Vec<usize> {
    let is_first = |index: &usize| image::place(*index).1 == 0 || !unheld.contains(&(index - 1));
    unheld.iter().copied().filter(is_first).collect()
}

/// Of any request, present or not.
fn spoil_kind(contents: &mut [u8], random: &mut Random) {
    let at = kind_at(BATCH_IN_CONTENTS, random.below(REQUESTS));
    if let Some(kind) = contents.get_mut(at) {
        *kind = above(2, random);
    }
}

fn kind_at(batch: usize, place: usize) -> usize {
    batch + 1 + REQUEST * place + KIND_IN_REQUEST
}

/// The next number, the greatest, or any between.
fn above(most: u8, random: &mut Random) -> u8 {
    let any = most + 1 + (random.word() % u64::from(u8::MAX - most)) as u8;
    random.of(&[most + 1, u8::MAX, any])
}

fn none_or_above(most: u8, random: &mut Random) -> u8 {
    if random.one_in(3) { 0 } else { above(most, random) }
}

/// A byte that stands for nothing, in any slot.
fn meaningless(random: &mut Random) -> (usize, u8) {
    let any = random.below(ROOM);
    let slot = image::slot_at(random.of(&[0, ROOM - 1, any, any, any, any]));
    match random.below(5) {
        0 => (slot + STATUS, above(4, random)),
        1 => (slot + LED, above(1, random)),
        2 => (slot + MARKS + random.below(REPLICAS), above(1, random)),
        3 => (kind_at(slot + IN_SLOT + BATCH_IN_CONTENTS, random.below(REQUESTS)), above(2, random)),
        _ => (slot + IN_SLOT + 4 + random.below(4), above(0, random)),
    }
}

/// The configuration, a length, a bar or a key's columns out of the bounds.
fn beyond_in_head(image: &[u8], random: &mut Random) -> (usize, u8) {
    let [n, sup, columns] = [image[0], image[3], COLUMNS as u8];
    let (row, any) = (random.below(REPLICAS), random.below(KEYS as usize));
    let (length, key) = (image[LENGTHS + row], random.of(&[0, 5, KEYS as usize - 1, any]));
    let most = if row < n as usize { columns } else { 0 };
    match random.below(8) {
        0 => (0, none_or_above(REPLICAS as u8, random)),
        1 => (1, above(n - 1, random)),
        2 => (2, none_or_above(sup, random)),
        3 => (3, above(n, random)),
        4 => (LENGTHS + row, above(most, random)),
        5 => (BARS + row, above(length, random)),
        _ => (KEY_COLUMNS + SET * key + row, above(most, random)),
    }
}

/// A field of a slot out of the bounds, though its bytes stand for something.
fn beyond_in_slot(index: usize, n: usize, random: &mut Random) -> Vec<(usize, u8)> {
    let slot = image::slot_at(index);
    let (row, past) = (random.below(REPLICAS), n + random.below(REPLICAS));
    let (deps, batch) = (slot + IN_SLOT + WORD, slot + IN_SLOT + BATCH_IN_CONTENTS);
    match random.below(6) {
        0 => vec![(slot + SOURCE, above(n as u8, random))],
        1 if past < REPLICAS => vec![(slot + MARKS + past, 1)],
        2 if past < REPLICAS => vec![(deps + past, 1 + random.below(COLUMNS as usize) as u8)],
        3 => vec![(batch, above(REQUESTS as u8, random))],
        4 => {
            let place = random.below(REQUESTS);
            let kind = kind_at(batch, place);
            let key = kind - KIND_IN_REQUEST + KEY_IN_REQUEST;
            vec![(batch, REQUESTS as u8), (kind, random.of(&[1, 2])), (key + 1, above(0, random))]
        }
        _ => vec![(deps + row, above(COLUMNS as u8, random))],
    }
}

/// Within the bounds, and not looked at by a handler: another own number or super quorum, bars anywhere up to the lengths.
/// An attempt looks at the bars, and so does Logged Committed; Logged Accepting looks at the own number.
fn harmless(request: &Request, image: &[u8], random: &mut Random) -> Vec<(usize, u8)> {
    let [n, own, simple, _] = [0, 1, 2, 3].map(|at| image[at] as usize);
    let logged = request.log_status().and_then(Status::logged);
    let own = if logged == Some(Status::Accepting) { own } else { random.below(n) };
    let sup = simple + random.below(n - simple + 1);
    let bar = |row: usize| (BARS + row, random.below(image[LENGTHS + row] as usize + 1) as u8);
    let reads_bars = request.function == Function::Attempt || logged == Some(Status::Committed);
    let bars = if reads_bars { 0..0 } else { 0..REPLICAS };
    bars.map(bar).chain([(1, own as u8), (3, sup as u8)]).collect()
}
