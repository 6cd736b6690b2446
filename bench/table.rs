//! What is printed.
use crate::clock::Timed;
use crate::header;

/// What an attempt on a full table is asked to take of the Rust's time, at most.
const BOUND: f64 = 0.5;
/// What a table takes in memory, as the entries by value are handed it: docs/ENTRIES.md.
const BY_VALUE: u64 = 39_568;

pub fn head() {
    println!("| event | Rust ns | C function ns | ratio | by value ns | ratio | stack bytes |");
    println!("|---|---|---|---|---|---|---|");
}

/// A number with commas.
fn spaced(number: u64) -> String {
    match number {
        0..1000 => number.to_string(),
        _ => format!("{},{:03}", spaced(number / 1000), number % 1000),
    }
}

fn ns(time: f64) -> String {
    spaced(time.round() as u64)
}

/// To three figures below 1, where the bound is.
fn ratio(of: f64, to: f64) -> String {
    if of < to { format!("{:.3}", of / to) } else { format!("{:.2}", of / to) }
}

fn row(t: &Timed) {
    let [value, value_ratio] = t.by_value.map_or(["-".into(), "-".into()], |v| [ns(v), ratio(v, t.rust)]);
    let (stack, ours) = (spaced(header::number(t.stack)), ratio(t.ours, t.rust));
    println!("| {} | {} | {} | {ours} | {value} | {value_ratio} | {stack} |", t.name, ns(t.rust), ns(t.ours));
}

pub fn rows(timed: &[Timed]) {
    timed.iter().for_each(row);
}

fn verdict(of: f64, to: f64) -> String {
    format!("{}, at most {BOUND}: {}", ratio(of, to), if of <= BOUND * to { "yes" } else { "no" })
}

/// Whether the bound is met, of each shape.
pub fn verdicts(timed: &[Timed]) {
    println!();
    for t in timed.iter().filter(|t| t.is_bound) {
        let by_value = t.by_value.map_or("not had".into(), |v| verdict(v, t.rust));
        println!("- {}: C function {}; by value {by_value}", t.name, verdict(t.ours, t.rust));
    }
}

pub fn foot(rounds: usize) {
    println!();
    println!(
        "table: image {} bytes; by value {} bytes in memory",
        spaced(header::number("NJ_IMAGE_SIZE")),
        spaced(BY_VALUE)
    );
    println!(
        "time: of one event, 10th percentile of {rounds} rounds, in each of which all sides take a sample in turn"
    );
}
