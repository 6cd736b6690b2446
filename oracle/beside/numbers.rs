//! Events as numbers, in a line of a list as in a trace.
use summerset::plain::{Event, Kind, Request};

/// How many requests, and each of them.
pub fn batch(batch: &[Request]) -> Vec<u64> {
    let mut numbers = vec![batch.len() as u64];
    for r in batch {
        numbers.extend([r.client, r.id]);
        match r.kind {
            Kind::Other => numbers.extend([0]),
            Kind::Put { key, value } => numbers.extend([1, key, value]),
            Kind::Get { key } => numbers.extend([2, key]),
        }
    }
    numbers
}

pub fn event(event: &Event) -> Vec<u64> {
    match event {
        Event::Store { what, peer, at, ballot, seq, deps, batch: stored } => {
            let head = [*what as u64 + 1, *peer, at.row, at.col, *ballot, *seq];
            [&head[..], deps, &batch(stored)].concat()
        }
        Event::AcceptReply { peer, at, ballot } => vec![4, *peer, at.row, at.col, *ballot],
        Event::ExpPrepare { peer, at, ballot } => vec![5, *peer, at.row, at.col, *ballot],
        Event::Logged { at, status } => vec![6, at.row, at.col, *status],
        Event::Attempt { at } => vec![7, at.row, at.col],
        Event::Lead { at } => vec![8, at.row, at.col],
    }
}
