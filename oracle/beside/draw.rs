//! Cases drawn at random, aimed at the limits.
use crate::bytes::Function;
use crate::cases::Case;
use crate::random::Random;
use summerset::plain::{Config, Contents, Deps, Kind, Prepare, Reply, Request, SlotAt, Status, Vote};
use summerset::refusals::SEQUENCE;

/// Of the union or a decision: the handlers are drawn in runs.
pub fn case(function: Function, random: &mut Random) -> Case {
    match function {
        Function::Union => Case::Union { a: set(7, random), b: set(7, random) },
        Function::Fast => fast(random),
        by => choice(by, random),
    }
}

pub fn config(random: &mut Random) -> Config {
    let n = random.of(&[1, 2, 3, 3, 4, 4, 5, 5, 6, 7, 7]);
    config_of(n, random)
}

pub fn config_of(n: usize, random: &mut Random) -> Config {
    let any = 1 + random.below(n);
    let simple = random.of(&[1, n / 2 + 1, n, any]);
    let any = simple + random.below(n - simple + 1);
    Config { n, own: random.below(n), simple, sup: random.of(&[simple, n, any]) }
}

fn word(random: &mut Random) -> u64 {
    let any = random.word();
    random.of(&[0, 1, 1, 2, u64::MAX, any])
}

fn set(rows: usize, random: &mut Random) -> Deps {
    let is_empty = random.one_in(4);
    let mut row = || {
        let any = random.below(32);
        if is_empty { None } else { random.of(&[None, None, Some(0), Some(31), Some(any)]) }
    };
    (0..rows).map(|_| row()).collect()
}

fn request(random: &mut Random) -> Request {
    let any = random.below(256) as u64;
    let key = random.of(&[0, 5, 255, any]);
    let value = word(random);
    let kind = random.of(&[Kind::Other, Kind::Put { key, value }, Kind::Put { key, value }, Kind::Get { key }]);
    Request { client: word(random), id: word(random), kind }
}

fn batch(random: &mut Random) -> Vec<Request> {
    let count = random.of(&[0, 1, 1, 2, 3, 4]);
    (0..count).map(|_| request(random)).collect()
}

/// A population, what was stored in slots of it, and a batch that is to come.
pub fn stores(random: &mut Random) -> (usize, Vec<(SlotAt, Vec<Request>)>, Vec<Request>) {
    let n = 1 + random.below(7);
    let times = random.below(8);
    let mut stored = || {
        let any = random.below(32);
        ((random.below(n), random.of(&[0, 1, 31, any])), batch(random))
    };
    let stores = (0..times).map(|_| stored()).collect();
    (n, stores, batch(random))
}

fn contents(n: usize, random: &mut Random) -> Contents {
    let any = random.word() % SEQUENCE;
    let seq = random.of(&[0, 1, 2, 4, SEQUENCE - 1, SEQUENCE, any]);
    Contents { seq, deps: set(n, random), batch: batch(random) }
}

/// The same but for one thing, so that a comparison that leaves something out is found. A reply has no batch to differ in.
fn near_twin(of: &Contents, has_batch: bool, random: &mut Random) -> Contents {
    let mut twin = of.clone();
    let row = random.below(of.deps.len());
    let place = random.below(of.batch.len().max(1));
    match random.below(if has_batch { 8 } else { 2 }) {
        0 => twin.seq = if of.seq == 0 { 1 } else { of.seq - 1 },
        1 => twin.deps[row] = of.deps[row].map_or(Some(0), |col| col.checked_sub(1)),
        2 if of.batch.len() < 4 => twin.batch.push(request(random)),
        _ if of.batch.is_empty() => twin.deps[row] = of.deps[row].map_or(Some(31), |_| None),
        3 => drop(twin.batch.pop()),
        other => alter(&mut twin.batch[place], other, random),
    }
    twin
}

fn alter(request: &mut Request, what: usize, random: &mut Random) {
    match (what, &mut request.kind) {
        (4, _) => request.client ^= 1 << random.below(64),
        (5, _) => request.id ^= 1 << random.below(64),
        (6, Kind::Put { key, .. } | Kind::Get { key }) => *key ^= 1 << random.below(8),
        (7, Kind::Put { value, .. }) => *value ^= 1 << random.below(64),
        (_, Kind::Get { key }) => request.kind = Kind::Put { key: *key, value: 0 },
        (_, Kind::Put { key, .. }) => request.kind = Kind::Get { key: *key },
        (_, Kind::Other) => request.kind = Kind::Get { key: 0 },
    }
}

/// What each of n replicas says: all equal, all different, crossed as X Y Y X, or any of three.
fn sayings(n: usize, has_batch: bool, random: &mut Random) -> Vec<Contents> {
    let x = contents(n, random);
    let y = near_twin(&x, has_batch, random);
    let z = contents(n, random);
    let how = random.below(5);
    let mut said = |replica: usize| match how {
        0 => x.clone(),
        1 => Contents { seq: replica as u64, ..x.clone() },
        2 => [&x, &y, &y, &x][replica % 4].clone(),
        3 => random.of(&[&x, &x, &y]).clone(),
        _ => random.of(&[&x, &y, &z]).clone(),
    };
    (0..n).map(&mut said).collect()
}

/// Nobody, everybody, one less or exactly as many as asked for, or any.
fn some_of(n: usize, enough: usize, random: &mut Random) -> Vec<usize> {
    let any = random.below(n + 1);
    let mut left = random.of(&[0, n, n, enough - 1, enough, any]);
    let mut chosen = Vec::new();
    for r in 0..n {
        if random.below(n - r) < left {
            chosen.push(r);
            left -= 1;
        }
    }
    chosen
}

fn fast(random: &mut Random) -> Case {
    let config = config(random);
    let enough = random.of(&[config.simple, config.sup]);
    let said = sayings(config.n, false, random);
    let reply = |r: usize| Reply { replica: r, seq: said[r].seq, deps: said[r].deps.clone() };
    let replies = some_of(config.n, enough, random).into_iter().map(reply).collect();
    let silent = some_of(config.n, config.n - config.sup + 1, random);
    Case::Fast { config, avoided: random.one_in(6), replies, silent }
}

/// Mostly PreAccepting votes, or those with one other, or any.
fn statuses(n: usize, random: &mut Random) -> Vec<Status> {
    let mut statuses = vec![Status::PreAccepting; n];
    match random.below(3) {
        0 => {}
        1 => statuses[random.below(n)] = random.of(&Status::ALL),
        _ => statuses.iter_mut().for_each(|s| *s = random.of(&Status::ALL)),
    }
    statuses
}

fn choice(by: Function, random: &mut Random) -> Case {
    let config = config(random);
    let statuses = statuses(config.n, random);
    let said = sayings(config.n, true, random);
    let vote = |r: usize| Vote { replica: r, status: statuses[r], contents: said[r].clone() };
    let votes = some_of(config.n, config.simple, random).into_iter().map(vote).collect();
    let highest = word(random);
    let default = if random.one_in(5) { word(random) } else { highest };
    let acks = some_of(config.n, config.simple, random);
    Case::Choice { by, config, prepare: Prepare { row: random.below(config.n), highest, default, acks, votes } }
}
