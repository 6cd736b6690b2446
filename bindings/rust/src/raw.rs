//! The C functions, and over each a safe function of the same name that lends it arrays. All that is `unsafe` is here.
//!
//! Why each call is sound: a function takes pointers with their lengths (docs/ENTRIES.md), reads and writes nothing past a
//! length, keeps no pointer, and has no state of its own. Each pointer here is an array's, and the length beside it the
//! array's own. An array that is written to is borrowed mutably, so that no other overlaps it. Every number is allowed: what
//! is out of bounds is refused. The functions touch a large frame page by page, so that a thread with too small a stack ends
//! at its guard page.

#![allow(unsafe_code)]

use crate::bytes::{ContentsBytes, Image, Marks, Order, Out, Ran, Replies, ReplyBytes, SetBytes, Votes};
use crate::decisions::Prepare;
use crate::messages::{Config, Message, Place};

#[rustfmt::skip] // a slice's pointer and length stay on one line
unsafe extern "C" {
    fn nj_union(a: *const u8, a_length: usize, b: *const u8, b_length: usize, out: *mut u8, out_length: usize) -> u64;
    fn nj_fast_decision(
        n: u64, own: u64, simple: u64, sup: u64, avoided: u64,
        replies: *const u8, replies_length: usize, silent: *const u8, silent_length: usize,
        out: *mut u8, out_length: usize,
    ) -> u64;
    fn nj_rust_choice(
        n: u64, own: u64, simple: u64, sup: u64, row: u64, highest: u64, default: u64,
        acks: *const u8, acks_length: usize, votes: *const u8, votes_length: usize,
        out: *mut u8, out_length: usize,
    ) -> u64;
    fn nj_paper_choice(
        n: u64, own: u64, simple: u64, sup: u64, row: u64, highest: u64, default: u64,
        acks: *const u8, acks_length: usize, votes: *const u8, votes_length: usize,
        out: *mut u8, out_length: usize,
    ) -> u64;
    fn nj_open(n: u64, own: u64, simple: u64, sup: u64, image: *mut u8, image_length: usize) -> u64;
    fn nj_pre_accept(
        image: *mut u8, image_length: usize, peer: u64, row: u64, column: u64, ballot: u64,
        contents: *const u8, contents_length: usize, out: *mut u8, out_length: usize,
    ) -> u64;
    fn nj_accept(
        image: *mut u8, image_length: usize, peer: u64, row: u64, column: u64, ballot: u64,
        contents: *const u8, contents_length: usize, out: *mut u8, out_length: usize,
    ) -> u64;
    fn nj_commit_notice(
        image: *mut u8, image_length: usize, peer: u64, row: u64, column: u64, ballot: u64,
        contents: *const u8, contents_length: usize, out: *mut u8, out_length: usize,
    ) -> u64;
    fn nj_accept_reply(
        image: *mut u8, image_length: usize, peer: u64, row: u64, column: u64, ballot: u64,
        out: *mut u8, out_length: usize,
    ) -> u64;
    fn nj_exp_prepare(
        image: *mut u8, image_length: usize, peer: u64, row: u64, column: u64, ballot: u64,
        out: *mut u8, out_length: usize,
    ) -> u64;
    fn nj_lead(
        image: *mut u8, image_length: usize, row: u64, column: u64, out: *mut u8, out_length: usize,
    ) -> u64;
    fn nj_attempt(
        image: *mut u8, image_length: usize, row: u64, column: u64, order: *mut u8, order_length: usize,
        ran: *mut u8, ran_length: usize,
    ) -> u64;
    fn nj_logged(
        image: *mut u8, image_length: usize, row: u64, column: u64, status: u64, order: *mut u8, order_length: usize,
        ran: *mut u8, ran_length: usize, out: *mut u8, out_length: usize,
    ) -> u64;
}

/// A slice as C takes it.
fn lend(bytes: &[u8]) -> (*const u8, usize) {
    (bytes.as_ptr(), bytes.len())
}

fn lend_mut(bytes: &mut [u8]) -> (*mut u8, usize) {
    (bytes.as_mut_ptr(), bytes.len())
}

pub(crate) fn union(a: &SetBytes, b: &SetBytes, out: &mut SetBytes) -> u64 {
    let ((a, a_length), (b, b_length), (out, out_length)) = (lend(a), lend(b), lend_mut(out));
    // SAFETY: as said above, of a, b and out
    unsafe { nj_union(a, a_length, b, b_length, out, out_length) }
}

#[rustfmt::skip]
pub(crate) fn fast_decision(c: Config, avoided: bool, replies: &Replies, silent: &Marks, out: &mut ReplyBytes) -> u64 {
    let ((replies, replies_length), (silent, silent_length)) = (lend(replies), lend(silent));
    let (out, out_length) = lend_mut(out);
    let avoided = u64::from(avoided);
    // SAFETY: as said above, of replies, silent and out
    unsafe {
        nj_fast_decision(
            c.n, c.own, c.simple, c.sup, avoided,
            replies, replies_length, silent, silent_length, out, out_length,
        )
    }
}

#[rustfmt::skip]
pub(crate) fn rust_choice(c: Config, p: Prepare, acks: &Marks, votes: &Votes, out: &mut ContentsBytes) -> u64 {
    let ((acks, acks_length), (votes, votes_length)) = (lend(acks), lend(votes));
    let (out, out_length) = lend_mut(out);
    // SAFETY: as said above, of acks, votes and out
    unsafe {
        nj_rust_choice(
            c.n, c.own, c.simple, c.sup, p.row, p.highest, p.default,
            acks, acks_length, votes, votes_length, out, out_length,
        )
    }
}

#[rustfmt::skip]
pub(crate) fn paper_choice(c: Config, p: Prepare, acks: &Marks, votes: &Votes, out: &mut ContentsBytes) -> u64 {
    let ((acks, acks_length), (votes, votes_length)) = (lend(acks), lend(votes));
    let (out, out_length) = lend_mut(out);
    // SAFETY: as said above, of acks, votes and out
    unsafe {
        nj_paper_choice(
            c.n, c.own, c.simple, c.sup, p.row, p.highest, p.default,
            acks, acks_length, votes, votes_length, out, out_length,
        )
    }
}

pub(crate) fn open(c: Config, image: &mut Image) -> u64 {
    let (image, length) = lend_mut(image);
    // SAFETY: as said above, of image
    unsafe { nj_open(c.n, c.own, c.simple, c.sup, image, length) }
}

pub(crate) fn pre_accept(image: &mut Image, m: Message, contents: &ContentsBytes, out: &mut Out) -> u64 {
    let ((image, length), (contents, contents_length)) = (lend_mut(image), lend(contents));
    let (out, out_length) = lend_mut(out);
    let Place { row, column } = m.place;
    // SAFETY: as said above, of image, contents and out
    unsafe { nj_pre_accept(image, length, m.peer, row, column, m.ballot, contents, contents_length, out, out_length) }
}

pub(crate) fn accept(image: &mut Image, m: Message, contents: &ContentsBytes, out: &mut Out) -> u64 {
    let ((image, length), (contents, contents_length)) = (lend_mut(image), lend(contents));
    let (out, out_length) = lend_mut(out);
    let Place { row, column } = m.place;
    // SAFETY: as said above, of image, contents and out
    unsafe { nj_accept(image, length, m.peer, row, column, m.ballot, contents, contents_length, out, out_length) }
}

pub(crate) fn commit_notice(image: &mut Image, m: Message, contents: &ContentsBytes, out: &mut Out) -> u64 {
    let ((image, length), (contents, contents_length)) = (lend_mut(image), lend(contents));
    let (out, out_length) = lend_mut(out);
    let Place { row, column } = m.place;
    // SAFETY: as said above, of image, contents and out
    unsafe {
        nj_commit_notice(image, length, m.peer, row, column, m.ballot, contents, contents_length, out, out_length)
    }
}

pub(crate) fn accept_reply(image: &mut Image, m: Message, out: &mut Out) -> u64 {
    let ((image, length), (out, out_length)) = (lend_mut(image), lend_mut(out));
    let Place { row, column } = m.place;
    // SAFETY: as said above, of image and out
    unsafe { nj_accept_reply(image, length, m.peer, row, column, m.ballot, out, out_length) }
}

pub(crate) fn exp_prepare(image: &mut Image, m: Message, out: &mut Out) -> u64 {
    let ((image, length), (out, out_length)) = (lend_mut(image), lend_mut(out));
    let Place { row, column } = m.place;
    // SAFETY: as said above, of image and out
    unsafe { nj_exp_prepare(image, length, m.peer, row, column, m.ballot, out, out_length) }
}

pub(crate) fn lead(image: &mut Image, place: Place, out: &mut Out) -> u64 {
    let ((image, length), (out, out_length)) = (lend_mut(image), lend_mut(out));
    // SAFETY: as said above, of image and out
    unsafe { nj_lead(image, length, place.row, place.column, out, out_length) }
}

pub(crate) fn attempt(image: &mut Image, place: Place, order: &mut Order, ran: &mut Ran) -> u64 {
    let ((image, length), (order, order_length), (ran, ran_length)) = (lend_mut(image), lend_mut(order), lend_mut(ran));
    // SAFETY: as said above, of image, order and ran
    unsafe { nj_attempt(image, length, place.row, place.column, order, order_length, ran, ran_length) }
}

pub(crate) fn logged(
    image: &mut Image,
    at: Place,
    status: u64,
    order: &mut Order,
    ran: &mut Ran,
    out: &mut Out,
) -> u64 {
    let ((image, length), (order, order_length)) = (lend_mut(image), lend_mut(order));
    let ((ran, ran_length), (out, out_length)) = (lend_mut(ran), lend_mut(out));
    // SAFETY: as said above, of image, order, ran and out
    unsafe {
        nj_logged(image, length, at.row, at.column, status, order, order_length, ran, ran_length, out, out_length)
    }
}
