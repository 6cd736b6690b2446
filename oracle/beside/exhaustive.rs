//! All cases of a small world.
use crate::bytes::Function;
use crate::cases::Case;
use summerset::plain::{Config, Contents, Deps, Kind, Prepare, Reply, Request, Status, Vote};

/// The greatest population of each.
const FAST: usize = 4;
const CHOICE: usize = 3;

/// Hands each case on; `take` stops it by an error.
pub fn each(mut take: impl FnMut(Case) -> Result<(), String>) -> Result<(), String> {
    each_union(&mut take)?;
    for n in 1..=FAST {
        each_fast(n, &mut take)?;
    }
    for n in 1..=CHOICE {
        each_choice(n, &mut take)?;
    }
    Ok(())
}

/// Every pair of bytes, in one row or another.
fn each_union(take: &mut impl FnMut(Case) -> Result<(), String>) -> Result<(), String> {
    for pair in 0..1 << 16 {
        let side =
            |byte: usize| -> Deps { (0..7).map(|r| if r == pair % 7 { byte.checked_sub(1) } else { None }).collect() };
        take(Case::Union { a: side(pair >> 8), b: side(pair & 255) })?;
    }
    Ok(())
}

fn members(set: usize, n: usize) -> Vec<usize> {
    (0..n).filter(|r| set >> r & 1 == 1).collect()
}

/// The digits of a number to a base, one for each replica.
fn digits(mut number: usize, base: usize, n: usize) -> Vec<usize> {
    let mut digit = || {
        let low = number % base;
        number /= base;
        low
    };
    (0..n).map(|_| digit()).collect()
}

/// One of three, of which each two differ.
fn contents(which: usize, n: usize) -> Contents {
    let mut deps = vec![None; n];
    deps[0] = Some(if which == 1 { 2 } else { 1 });
    let put = Request { client: 1, id: 1, kind: Kind::Put { key: 5, value: 9 } };
    Contents { seq: if which == 2 { 5 } else { 4 }, deps, batch: vec![put; if which == 3 { 2 } else { 1 }] }
}

/// Every quorum pair, own number, mark against the fast path, set of silent ones, and every replica's nothing or one of
/// three answers.
fn each_fast(n: usize, take: &mut impl FnMut(Case) -> Result<(), String>) -> Result<(), String> {
    let says = |(replica, which): (usize, &usize)| {
        let said = contents(*which, n);
        (*which > 0).then_some(Reply { replica, seq: said.seq, deps: said.deps })
    };
    for said in 0..4usize.pow(n as u32) {
        let replies: Vec<Reply> = digits(said, 4, n).iter().enumerate().filter_map(says).collect();
        for rest in 0..1 << (n + 1) {
            for config in configs(n) {
                let (avoided, silent) = (rest & 1 == 1, members(rest >> 1, n));
                take(Case::Fast { config, avoided, replies: replies.clone(), silent })?;
            }
        }
    }
    Ok(())
}

fn configs(n: usize) -> Vec<Config> {
    let mut all = Vec::new();
    for own in 0..n {
        for simple in 1..=n {
            all.extend((simple..=n).map(|sup| Config { n, own, simple, sup }));
        }
    }
    all
}

/// No vote, or one of eight.
const VOTES: [(Status, usize); 8] = [
    (Status::Null, 1),
    (Status::PreAccepting, 1),
    (Status::PreAccepting, 2),
    (Status::PreAccepting, 3),
    (Status::Accepting, 1),
    (Status::Committed, 1),
    (Status::Committed, 2),
    (Status::Executed, 1),
];

/// Every simple quorum, row and set of acks, the default ballot and another, and every replica's vote, by both rules.
fn each_choice(n: usize, take: &mut impl FnMut(Case) -> Result<(), String>) -> Result<(), String> {
    let votes_of = |(replica, which): (usize, &usize)| {
        let (status, said) = *VOTES.get(which.checked_sub(1)?)?;
        Some(Vote { replica, status, contents: contents(said, n) })
    };
    for voted in 0..(VOTES.len() + 1).pow(n as u32) {
        let votes: Vec<Vote> = digits(voted, VOTES.len() + 1, n).iter().enumerate().filter_map(votes_of).collect();
        for rest in 0..(2 * n * n) << n {
            let (acks, rest) = (members(rest & ((1 << n) - 1), n), rest >> n);
            let (row, simple, default) = (rest % n, 1 + rest / n % n, (rest / n / n) as u64);
            let prepare = Prepare { row, highest: 0, default, acks, votes: votes.clone() };
            let config = Config { n, own: row, simple, sup: n };
            for by in [Function::RustChoice, Function::PaperChoice] {
                take(Case::Choice { by, config, prepare: prepare.clone() })?;
            }
        }
    }
    Ok(())
}
