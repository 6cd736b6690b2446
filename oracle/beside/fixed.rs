//! Traces that stand fixed: the shortest, the longest, those past the bound, and those whose events cost the most.
use crate::encode;
use crate::random::Random;
use crate::run::COMMITTED;
use crate::traces::{self, Trace};
use summerset::plain::{Config, Event, Kind, Place, Request, Store};
use summerset::refusals::COLUMNS;
use summerset::trace::LONGEST;

const FULL: Config = Config { n: 7, own: 0, simple: 1, sup: 7 };

fn place(row: usize, col: u64) -> Place {
    Place { row: row as u64, col }
}

fn store(what: Store, at: Place, deps: Vec<u64>, batch: Vec<Request>) -> Event {
    Event::Store { what, peer: 0, at, ballot: 0, seq: 0, deps, batch }
}

fn one_request() -> Vec<Request> {
    vec![Request { client: 0, id: 0, kind: Kind::Other }]
}

/// Puts of four keys.
fn four_puts() -> Vec<Request> {
    (0..4).map(|key| Request { client: 0, id: 0, kind: Kind::Put { key, value: 0 } }).collect()
}

/// The events over and over, as many as the longest trace holds.
fn filled(mut bytes: Vec<u8>, events: &[Event]) -> Vec<u8> {
    let more: Vec<u8> = events.iter().flat_map(encode::event).collect();
    while bytes.len() + more.len() <= LONGEST {
        bytes.extend(&more);
    }
    bytes
}

/// A full table, all committed, with bars raised in the first rows.
fn full(deps: impl Fn(usize, u64) -> Vec<u64>, raised: usize) -> Vec<u8> {
    let mut bytes = encode::header(&FULL);
    for col in 0..COLUMNS {
        for row in 0..FULL.n {
            let event = store(Store::CommitNotice, place(row, col), deps(row, col), one_request());
            bytes.extend(encode::event(&event));
        }
    }
    let logged = |row: usize| encode::event(&Event::Logged { at: place(row, 0), status: COMMITTED });
    bytes.extend((0..raised).flat_map(logged));
    bytes
}

/// Every row's last slot.
fn every_last(_: usize, _: u64) -> Vec<u64> {
    vec![COLUMNS; FULL.n]
}

/// From a row's first slot to the next row's last: one path through all.
fn chain(row: usize, col: u64) -> Vec<u64> {
    (0..FULL.n).map(|of| if col == 0 && of == row + 1 { COLUMNS } else { 0 }).collect()
}

/// A slot lowered and run again.
fn again(at: Place, deps: Vec<u64>) -> Vec<Event> {
    vec![store(Store::CommitNotice, at, deps, vec![]), Event::Attempt { at: place(0, COLUMNS - 1) }]
}

pub fn all(random: &mut Random) -> Result<Vec<Trace>, String> {
    let (alone, top) = (Config { n: 1, own: 0, simple: 1, sup: 1 }, place(0, COLUMNS - 1));
    let attempt = [Event::Attempt { at: top }];
    let small = filled(encode::header(&alone), &[Event::Attempt { at: place(0, 0) }]);
    let too_long = [&small[..], &[7]].concat();
    let puts = store(Store::PreAccept, top, vec![COLUMNS; FULL.n], four_puts());
    let named = [
        ("fixed: no byte", vec![]),
        ("fixed: a header alone", encode::header(&FULL)),
        ("fixed: one byte too long", too_long),
        ("fixed: twice as long", vec![1; 2 * LONGEST]),
        ("fixed: a run of the handlers", traces::longest_run(random)?),
        ("fixed: attempts on a slot that is not there", small),
        ("fixed: PreAccepts of four puts", filled(encode::header(&FULL), &[puts])),
        ("fixed: attempts that are NotYet, at the end of one path", filled(full(chain, FULL.n - 1), &attempt)),
        ("fixed: a slot lowered and run again, every slot names all rows", {
            filled(full(every_last, FULL.n), &again(top, every_last(0, 0)))
        }),
    ];
    Ok(named.into_iter().map(|(kind, bytes)| Trace { kind, bytes }).collect())
}
