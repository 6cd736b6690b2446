//! Refusals 1 to 7, and 10 of a log status, by the table of the rules: the Rust has none, so they are tested before it is
//! called.
use crate::plain::{Config, Event, Kind, Place, Request, Status};

const POPULATION: u64 = 7;
pub const COLUMNS: u64 = 32;
const BATCH: usize = 4;
pub const KEYS: u64 = 256;
pub const SEQUENCE: u64 = u32::MAX as u64;

/// The configuration of four numbers, N, own, simple and super, that are within the bounds; else refusal 1.
pub fn config([n, own, simple, sup]: [u64; 4]) -> Option<Config> {
    let fits = (1..=POPULATION).contains(&n) && own < n && 1 <= simple && simple <= sup && sup <= n;
    fits.then_some(Config { n: n as usize, own: own as usize, simple: simple as usize, sup: sup as usize })
}

fn key_fits(request: &Request) -> bool {
    match request.kind {
        Kind::Other => true,
        Kind::Put { key, .. } | Kind::Get { key } => key < KEYS,
    }
}

/// In a row of the population a column, in a row past it nothing.
fn deps_fit(deps: &[u64], n: usize) -> bool {
    deps.iter().take(n).all(|d| *d <= COLUMNS) && deps.iter().skip(n).all(|d| *d == 0)
}

fn whence(event: &Event) -> (Option<u64>, Place) {
    match event {
        Event::Store { peer, at, .. } | Event::AcceptReply { peer, at, .. } | Event::ExpPrepare { peer, at, .. } => {
            (Some(*peer), *at)
        }
        Event::Logged { at, .. } | Event::Attempt { at } | Event::Lead { at } => (None, *at),
    }
}

/// Whether it is of a status that is not logged.
fn is_unknown(event: &Event) -> bool {
    matches!(event, Event::Logged { status, .. } if Status::logged(*status).is_none())
}

/// Refusals 10, then 2 to 7 of an event, which stand before the ballot; `is_held` says whether a slot is in the table.
pub fn refusal(config: &Config, event: &Event, is_held: impl Fn(usize, usize) -> bool) -> Option<u8> {
    if is_unknown(event) {
        return Some(10);
    }
    let n = config.n as u64;
    let (peer, at) = whence(event);
    if peer.is_some_and(|p| p >= n) || at.row >= n {
        return Some(2);
    }
    if at.col >= COLUMNS {
        return Some(3);
    }
    if let Event::Store { seq, deps, batch, .. } = event {
        if !deps_fit(deps, config.n) {
            return Some(4);
        }
        if batch.len() > BATCH || !batch.iter().all(key_fits) {
            return Some(5);
        }
        if *seq > SEQUENCE {
            return Some(6);
        }
    }
    let asks = matches!(event, Event::Logged { .. } | Event::Lead { .. });
    (asks && !is_held(at.row as usize, at.col as usize)).then_some(7)
}
