//! The answer to a call that never reaches the Rust, by the table of refusals and the layouts of crates/host.
use crate::bounds::{self, batch_fits, kinds_are_known, set_fits};
use crate::bytes::{
    self, BATCH, BATCH_IN_CONTENTS, Function, IMAGE, ORDER, Parts, REPLICAS, REPLIES, Request, SET, VOTE_BATCHES,
    VOTE_STATUSES, VOTES, WORD,
};
use summerset::plain::{Config, Status};
use summerset::refusals::SEQUENCE;

const SHORT: u64 = 0;
const OUTSIDE: u64 = 1;
const SHORT_LIST: u64 = 8;
const UNKNOWN: u64 = 10;

/// What the call is refused with: 0 for a slice that is too short, else the first refusal in the order of the numbers.
pub fn code(request: &Request) -> Option<u64> {
    if is_short(request) {
        return Some(SHORT);
    }
    if request.function == Function::Union {
        return None;
    }
    let Some(Config { n, .. }) = request.config().filter(|_| is_known(request)) else {
        return Some(OUTSIDE);
    };
    if !replicas_fit(request, n) {
        return Some(2);
    }
    let entries = Entries::of(request);
    if !entries.each(|e| e.set_fits(n)) {
        return Some(4);
    }
    if request.function.is_choice() && !entries.each(Entry::batch_fits) {
        return Some(5);
    }
    (!entries.each(|e| e.seq() <= SEQUENCE)).then_some(6)
}

/// What a call on a table is refused with before it comes to the event, which has its refusals from the driver: 0 for a
/// length, 10 for a status that is not logged, 8 for an order list that is short, then 1 for a byte that stands for nothing,
/// then 1 for the bounds.
pub fn on_table(request: &Request, image: &[u8]) -> Option<u64> {
    if is_short(request) || image.len() != IMAGE {
        return Some(SHORT);
    }
    if request.log_status().is_some_and(|number| Status::logged(number).is_none()) {
        return Some(UNKNOWN);
    }
    if request.list().is_some_and(|list| list.len() < ORDER) {
        return Some(SHORT_LIST);
    }
    let fits = match request.function {
        Function::Open => request.config().is_some(),
        function => {
            let contents = &request.slices[0];
            (!function.takes_contents() || kinds_are_known(&contents[BATCH_IN_CONTENTS..]))
                && bounds::is_known(image)
                && bounds::fits(image)
        }
    };
    (!fits).then_some(OUTSIDE)
}

fn is_short(request: &Request) -> bool {
    let [first, second, out, ran] = request.function.lengths();
    let [one, other] = &request.slices;
    one.len() < first || other.len() < second || request.out < out || request.ran < ran
}

/// Whether every mark, status and kind has a meaning, wherever it stands.
fn is_known(request: &Request) -> bool {
    let [first, second] = &request.slices;
    let known = first[..REPLICAS].iter().chain(&second[..REPLICAS]).all(|mark| *mark <= 1);
    if request.function == Function::Fast {
        return known && request.numbers[4] <= 1;
    }
    let statuses = &second[VOTE_STATUSES..VOTE_STATUSES + REPLICAS];
    known && statuses.iter().all(|s| *s <= 4) && second[VOTE_BATCHES..VOTES.length].chunks(BATCH).all(kinds_are_known)
}

/// Of a choice the row too.
fn replicas_fit(request: &Request, n: usize) -> bool {
    let [first, second] = &request.slices;
    let marks_fit = (n..REPLICAS).all(|r| first[r] == 0 && second[r] == 0);
    marks_fit && (request.function == Function::Fast || request.numbers[4] < n as u64)
}

/// The replies or the votes.
struct Entries<'a> {
    bytes: &'a [u8],
    parts: Parts,
}

struct Entry<'a> {
    of: &'a Entries<'a>,
    replica: usize,
}

impl<'a> Entries<'a> {
    fn of(request: &'a Request) -> Self {
        match request.function.is_choice() {
            true => Entries { bytes: &request.slices[1], parts: VOTES },
            false => Entries { bytes: &request.slices[0], parts: REPLIES },
        }
    }

    /// Of those marked.
    fn each(&'a self, test: impl Fn(&Entry<'a>) -> bool) -> bool {
        bytes::marked(self.bytes).into_iter().all(|replica| test(&Entry { of: self, replica }))
    }
}

impl Entry<'_> {
    fn seq(&self) -> u64 {
        bytes::word(self.of.bytes, self.of.parts.seqs + WORD * self.replica)
    }

    fn set_fits(&self, n: usize) -> bool {
        set_fits(&self.of.bytes[self.of.parts.deps + SET * self.replica..], n)
    }

    fn batch_fits(&self) -> bool {
        batch_fits(&self.of.bytes[VOTE_BATCHES + BATCH * self.replica..])
    }
}
