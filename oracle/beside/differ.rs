//! What differs between the answer of a call on a table that is expected and the one that came, field by field.
use crate::bytes::{self, Answer, BEHIND, IMAGE, ORDER, OUT, REPLICAS, REQUESTS, SET, WORD};
use crate::image::{
    self, BARS, Form, HEAD, KEY_COLUMNS, LENGTHS, Part, RECORD, RECORD_PARTS, RECORDS, ROOM, SLOT_PARTS,
};
use summerset::refusals::KEYS;
use summerset::show;

/// How many fields are named at the most.
const MOST: usize = 12;

struct Differences<'a> {
    expected: &'a [u8],
    got: &'a [u8],
    found: Vec<String>,
}

/// In words, where there are any.
fn value(form: Form, bytes: &[u8]) -> Option<String> {
    match form {
        Form::Number if bytes.len() == WORD => Some(bytes::word(bytes, 0).to_string()),
        Form::Number => Some(bytes[0].to_string()),
        Form::Set => Some(show::set(&bytes::set_at(bytes, 0, SET))),
        Form::Batch => (bytes[0] as usize <= REQUESTS).then(|| show::batch(&bytes::batch_at(bytes, 0))),
        Form::Bytes => None,
    }
}

/// What came, for what is expected: in words, or the first byte where these say no difference.
fn compared(form: Form, got: &[u8], expected: &[u8]) -> String {
    if let (Some(got), Some(expected)) = (value(form, got), value(form, expected)) {
        if got != expected {
            return format!("{got} for {expected}");
        }
    }
    let places: Vec<usize> = (0..got.len()).filter(|i| got[*i] != expected[*i]).collect();
    let first = places[0];
    format!("{} bytes, the first at {first}: {} for {}", places.len(), got[first], expected[first])
}

impl Differences<'_> {
    fn see(&mut self, name: &str, form: Form, at: usize, length: usize) {
        let [got, expected] = [self.got, self.expected].map(|bytes| &bytes[at..at + length]);
        if got != expected {
            self.found.push(format!("{name}: {}", compared(form, got, expected)));
        }
    }

    fn see_parts(&mut self, name: &str, at: usize, parts: &[Part]) {
        for p in parts {
            self.see(&format!("{name}{}", p.name), p.form, at + p.at, p.length);
        }
    }

    fn see_image(&mut self) {
        self.see_parts("", 0, &HEAD);
        for row in 0..REPLICAS {
            self.see(&format!("row {row} length"), Form::Number, LENGTHS + row, 1);
            self.see(&format!("row {row} bar"), Form::Number, BARS + row, 1);
        }
        for key in 0..KEYS as usize {
            self.see(&format!("key {key} columns"), Form::Set, KEY_COLUMNS + SET * key, SET);
        }
        for index in 0..ROOM {
            let (row, col) = image::place(index);
            self.see_parts(&format!("slot {row}.{col} "), image::slot_at(index), &SLOT_PARTS);
        }
        self.see("the bytes behind the image", Form::Bytes, IMAGE, BEHIND);
    }

    fn see_records(&mut self) {
        self.see("records", Form::Number, 0, 1);
        for i in 0..2 {
            self.see_parts(&format!("record {} ", i + 1), RECORDS + RECORD * i, &RECORD_PARTS);
        }
        self.see("the bytes of out behind the records", Form::Bytes, OUT, self.got.len() - OUT);
    }
}

/// Of an image and the bytes watched behind it.
pub fn image_fields(expected: &[u8], got: &[u8]) -> Vec<String> {
    let mut image = Differences { expected, got, found: vec![] };
    image.see_image();
    image.found.truncate(MOST);
    image.found
}

/// Of what may run slots: how many ran, their entries by their numbers, and what is to stay.
fn order_fields(expected: &Answer, got: &Answer) -> Vec<String> {
    let mut ran = Differences { expected: &expected.ran, got: &got.ran, found: vec![] };
    ran.see("slots run", Form::Number, 0, WORD);
    ran.see("the bytes behind the number of slots run", Form::Bytes, WORD, ran.got.len() - WORD);
    let mut order = Differences { expected: &expected.order, got: &got.order, found: ran.found };
    let count = expected.slots_run();
    order.see("entries by their numbers", Form::Bytes, 0, count);
    order.see("later entries", Form::Bytes, count, ORDER - count);
    order.see("the bytes behind 224 entries", Form::Bytes, ORDER, order.got.len() - ORDER);
    order.found
}

/// Of bytes that are to stay.
fn changed(name: &str, expected: &[u8], got: &[u8]) -> Vec<String> {
    let mut bytes = Differences { expected, got, found: vec![] };
    bytes.see(name, Form::Bytes, 0, expected.len());
    bytes.found
}

/// Of `out`, of `ran` and an order list, and of the image. What is refused writes nothing to them; an attempt puts out
/// nothing.
pub fn fields(expected: &Answer, got: &Answer) -> Vec<String> {
    let mut out = Differences { expected: &expected.out, got: &got.out, found: vec![] };
    match expected.is_refused() || expected.out.len() < OUT {
        true => out.found = changed("out", out.expected, out.got),
        false => out.see_records(),
    }
    let order = match expected.is_refused() || expected.order.is_empty() {
        true => [changed("ran", &expected.ran, &got.ran), changed("order", &expected.order, &got.order)].concat(),
        false => order_fields(expected, got),
    };
    [out.found, order, image_fields(&expected.image, &got.image)].concat()
}
