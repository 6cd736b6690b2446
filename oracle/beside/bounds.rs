//! Whether bytes stand for something, and whether what they stand for is within the bounds: of sets and batches, and of a
//! table's image.
use crate::bytes::{self, BATCH, BATCH_IN_CONTENTS, KIND_IN_REQUEST, REPLICAS, REQUEST, REQUESTS, SET, WORD};
use crate::image::{self, BARS, IN_SLOT, KEY_COLUMNS, LED, LENGTHS, MARKS, ROOM, SLOT, SLOTS, SOURCE, STATUS};
use summerset::plain::Config;
use summerset::refusals::{self, COLUMNS, KEYS, SEQUENCE};

/// The kinds of a batch, of all requests that there is room for.
pub fn kinds_are_known(batch: &[u8]) -> bool {
    batch[1..BATCH].chunks(REQUEST).all(|request| request[KIND_IN_REQUEST] <= 2)
}

pub fn set_fits(set: &[u8], n: usize) -> bool {
    set[..n].iter().all(|d| u64::from(*d) <= COLUMNS) && set[n..SET].iter().all(|d| *d == 0)
}

pub fn batch_fits(batch: &[u8]) -> bool {
    let key_fits = |r: &[u8]| r[KIND_IN_REQUEST] == 0 || bytes::key_at(r) < KEYS;
    let count = batch[0] as usize;
    count <= REQUESTS && batch[1..BATCH].chunks(REQUEST).take(count).all(key_fits)
}

/// Whether every byte of an image stands for something, in slots that are not held too.
pub fn is_known(image: &[u8]) -> bool {
    image[SLOTS..].chunks(SLOT).all(slot_is_known)
}

fn slot_is_known(slot: &[u8]) -> bool {
    slot[STATUS] <= 4
        && slot[LED..MARKS + REPLICAS].iter().all(|mark| *mark <= 1)
        && bytes::word(slot, IN_SLOT) <= SEQUENCE
        && kinds_are_known(&slot[IN_SLOT + BATCH_IN_CONTENTS..])
}

/// Whether an image whose bytes all stand for something has a table within the bounds.
pub fn fits(image: &[u8]) -> bool {
    let numbers = [0, 1, 2, 3].map(|at| u64::from(image[at]));
    let Some(Config { n, .. }) = refusals::config(numbers) else {
        return false;
    };
    let slot = |index: usize| &image[image::slot_at(index)..][..SLOT];
    (0..REPLICAS).all(|row| row_fits(image, row, n))
        && image[KEY_COLUMNS..SLOTS].chunks(SET).all(|set| set_fits(set, n))
        && (0..ROOM).filter(|index| image::is_held(image, *index)).all(|index| slot_fits(slot(index), n))
}

fn row_fits(image: &[u8], row: usize, n: usize) -> bool {
    let (length, bar) = (image[LENGTHS + row], image[BARS + row]);
    u64::from(length) <= if row < n { COLUMNS } else { 0 } && bar <= length
}

fn slot_fits(slot: &[u8], n: usize) -> bool {
    slot[SOURCE] as usize <= n
        && slot[MARKS + n..MARKS + REPLICAS].iter().all(|mark| *mark == 0)
        && set_fits(&slot[IN_SLOT + WORD..], n)
        && batch_fits(&slot[IN_SLOT + BATCH_IN_CONTENTS..])
}
