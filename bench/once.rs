//! One event between two marks, for bench/where to count the instructions from the one to the other.
use crate::c_side::CSide;
use crate::events::{self, Case, Named};
use crate::rust_side::RustSide;
use std::hint::black_box;

// The marks differ, or the compiler would make one function of them.
#[unsafe(no_mangle)]
#[inline(never)]
extern "C" fn bench_begins() {
    black_box(0);
}

#[unsafe(no_mangle)]
#[inline(never)]
extern "C" fn bench_ends() {
    black_box(1);
}

pub fn between_marks(work: impl FnOnce()) {
    bench_begins();
    work();
    bench_ends();
}

pub fn all() -> impl Iterator<Item = Named> {
    events::messages().into_iter().chain(events::attempts())
}

pub fn names() {
    all().for_each(|named| println!("{}", named.name));
}

/// Of this name, with one event only.
fn case(name: &str) -> Option<Case> {
    let mut case = (all().find(|named| named.name == name)?.case)();
    let middle = case.events.len() / 2;
    case.events = vec![case.events.swap_remove(middle)];
    case.copies = 1;
    Some(case)
}

pub fn c(name: &str) -> Option<()> {
    CSide::new(&case(name)?).once();
    Some(())
}

pub fn rust(name: &str) -> Option<()> {
    RustSide::new(&case(name)?).once();
    Some(())
}
