//! A row, once it is tested that all sides do the same.
use crate::by_value::ByValue;
use crate::bytes::{DONE, NOT_YET, OUT};
use crate::c_side::{self, CSide};
use crate::clock::Row;
use crate::events::{Case, Named};
use crate::image;
use crate::rust_side::{self, RustSide};
use crate::tables::CONFIG;

/// What the Rust handed on in the bytes of `out`; of nothing, zeros, as `out` was before.
fn out_of(did: &rust_side::Did) -> Vec<u8> {
    image::out_of(&did.output).unwrap_or_else(|what| panic!("{what}"))
}

/// The Rust says yes where the answer is Done or Already.
fn same_event(name: &str, case: &Case, i: usize, rust: &rust_side::Did, ours: &c_side::Did) {
    let event = &case.events[i];
    assert_eq!(ours.code, case.answer, "{name}: the C function's answer to {event:?}");
    assert_eq!(rust.yes, ours.code != NOT_YET, "{name}: the Rust's answer to {event:?}");
    assert_eq!(ours.out[..OUT], out_of(rust), "{name}: what {event:?} puts out");
    assert_eq!([rust.ran, ours.ran], [case.ran; 2], "{name}: how many slots {event:?} runs");
}

/// The answers, the output and the tables afterwards, each of their bytes.
fn same(name: &str, case: &Case, rust: &mut RustSide, ours: &mut CSide) {
    let ((rusts, table), (all, mut after)) = (rust.did(), ours.did());
    for (i, (rust, ours)) in rusts.iter().zip(&all).enumerate() {
        same_event(name, case, i, rust, ours);
    }
    image::clear_past_counts(&mut [], &mut after);
    let expected = image::of(&CONFIG, &table);
    let differs = (0..after.len()).find(|i| after[*i] != expected[*i]);
    assert_eq!(differs, None, "{name}: the first byte of the image where the tables differ afterwards");
}

pub fn row(named: Named) -> Row {
    let Named { name, stack, is_bound, case } = named;
    let case = case();
    assert!(case.answer >= DONE, "{name}: nothing that is refused is timed");
    let (mut rust, mut ours, by_value) = (RustSide::new(&case), CSide::new(&case), ByValue::new(&case));
    same(&name, &case, &mut rust, &mut ours);
    assert_eq!(by_value.number(1), case.answer, "{name}: the answer by value");
    Row { name, stack, is_bound, rust: Box::new(rust), ours: Box::new(ours), by_value: Some(Box::new(by_value)) }
}
