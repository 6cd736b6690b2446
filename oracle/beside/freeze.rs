//! A fixed list of the Rust's answers, for crates/vectors.
use crate::bytes::Function;
use crate::random::Random;
use crate::{attempts, draw, list, runs, rust_says};
use summerset::protocols::epaxos::replica;

/// What a part of the list asks: a C function, or the key columns or the handlers, called as Rattle functions.
enum Asked {
    Call(Function),
    Identify,
    Run,
    RunWithAttempts,
}

/// How many cases of each.
const PARTS: [(Asked, usize); 7] = [
    (Asked::Call(Function::Union), 500),
    (Asked::Call(Function::Fast), 1000),
    (Asked::Call(Function::RustChoice), 500),
    (Asked::Call(Function::PaperChoice), 250),
    (Asked::Identify, 500),
    (Asked::Run, 400),
    (Asked::RunWithAttempts, 80),
];

impl Asked {
    fn name(&self) -> &'static str {
        match self {
            Asked::Call(function) => function.name(),
            Asked::Identify => "identify after refreshes",
            Asked::Run | Asked::RunWithAttempts => "handlers in a run",
        }
    }

    fn line(&self, random: &mut Random) -> Result<String, String> {
        match self {
            Asked::Call(function) => {
                let case = draw::case(*function, random);
                Ok(list::call(&case, &rust_says::answer(&case)?))
            }
            Asked::Identify => {
                let (n, stores, batch) = draw::stores(random);
                Ok(list::identify(n, &stores, &batch, &replica::identified(n, &stores, &batch)))
            }
            Asked::Run => list::run(&runs::listed(random)?),
            Asked::RunWithAttempts => list::run(&attempts::listed(random)?),
        }
    }
}

fn cases(parts: &[(Asked, usize)]) -> usize {
    parts.iter().map(|(_, times)| times).sum()
}

/// Writes the list, and what the program has to print of it.
pub fn run(seed: u64, date: &str, list: &str, stdout: &str) -> Result<bool, String> {
    rust_says::keep_panics_quiet();
    let mut random = Random::new(seed);
    let first = format!("The Rust's answers: seed {seed}, {date}\n");
    let (mut lines, mut printed) = (format!("{first}{}\n", list::LEGEND), first);
    for (asked, times) in &PARTS {
        for _ in 0..*times {
            lines += &(asked.line(&mut random)? + "\n");
        }
    }
    for parts in PARTS.chunk_by(|one, next| one.0.name() == next.0.name()) {
        printed += &format!("{} {}\n", parts[0].0.name(), cases(parts));
    }
    printed += &format!("{} cases, 0 differences\n", cases(&PARTS));
    for (path, text) in [(list, lines), (stdout, printed)] {
        std::fs::write(path, text).map_err(|e| format!("cannot write {path}: {e}"))?;
    }
    Ok(true)
}
