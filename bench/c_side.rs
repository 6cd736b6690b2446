//! The C functions, on an image.
use crate::bytes::{Function, IMAGE, ORDER, OUT, Request, WORD, word};
use crate::cases;
use crate::clock::{Side, each, time};
use crate::events::Case;
use crate::image;
use crate::once::between_marks;
use crate::stack::depth;
use crate::tables::CONFIG;
use std::hint::black_box;
use std::time::Duration;

// As include/njimbaros.h declares them.
#[rustfmt::skip] // a slice's pointer and length stay on one line
unsafe extern "C" {
    fn nj_pre_accept(
        image: *mut u8, image_length: u64, peer: u64, row: u64, column: u64, ballot: u64,
        contents: *const u8, contents_length: u64, out: *mut u8, out_length: u64,
    ) -> u64;
    fn nj_accept(
        image: *mut u8, image_length: u64, peer: u64, row: u64, column: u64, ballot: u64,
        contents: *const u8, contents_length: u64, out: *mut u8, out_length: u64,
    ) -> u64;
    fn nj_commit_notice(
        image: *mut u8, image_length: u64, peer: u64, row: u64, column: u64, ballot: u64,
        contents: *const u8, contents_length: u64, out: *mut u8, out_length: u64,
    ) -> u64;
    fn nj_accept_reply(
        image: *mut u8, image_length: u64, peer: u64, row: u64, column: u64, ballot: u64,
        out: *mut u8, out_length: u64,
    ) -> u64;
    fn nj_exp_prepare(
        image: *mut u8, image_length: u64, peer: u64, row: u64, column: u64, ballot: u64,
        out: *mut u8, out_length: u64,
    ) -> u64;
    fn nj_attempt(
        image: *mut u8, image_length: u64, row: u64, column: u64, order: *mut u8, order_length: u64,
        ran: *mut u8, ran_length: u64,
    ) -> u64;
    fn nj_logged(
        image: *mut u8, image_length: u64, row: u64, column: u64, status: u64,
        order: *mut u8, order_length: u64, ran: *mut u8, ran_length: u64, out: *mut u8, out_length: u64,
    ) -> u64;
}

/// What the host lends.
struct Lent {
    image: Vec<u8>,
    order: [u8; ORDER],
    ran: [u8; WORD],
    out: [u8; OUT],
}

pub struct CSide {
    start: Vec<u8>,
    calls: Vec<Request>,
    copies: usize,
    lent: Lent,
}

/// What one event did.
pub struct Did {
    pub code: u64,
    pub out: Vec<u8>,
    pub ran: usize,
}

impl Lent {
    fn store(&mut self, call: &Request) -> u64 {
        let function = match call.function {
            Function::PreAccept => nj_pre_accept,
            Function::Accept => nj_accept,
            _ => nj_commit_notice,
        };
        let ([peer, row, column, ballot], with) = ([0, 1, 2, 3].map(|i| call.numbers[i]), &call.slices[0]);
        let (image, out) = (self.image.as_mut_ptr(), self.out.as_mut_ptr());
        let length = with.len() as u64;
        unsafe { function(image, IMAGE as u64, peer, row, column, ballot, with.as_ptr(), length, out, OUT as u64) }
    }

    fn plain(&mut self, call: &Request) -> u64 {
        let function = if call.function == Function::AcceptReply { nj_accept_reply } else { nj_exp_prepare };
        let [peer, row, column, ballot] = [0, 1, 2, 3].map(|i| call.numbers[i]);
        let (image, out) = (self.image.as_mut_ptr(), self.out.as_mut_ptr());
        unsafe { function(image, IMAGE as u64, peer, row, column, ballot, out, OUT as u64) }
    }

    fn attempt(&mut self, call: &Request) -> u64 {
        let (image, order, ran) = (self.image.as_mut_ptr(), self.order.as_mut_ptr(), self.ran.as_mut_ptr());
        let [row, column] = [0, 1].map(|i| call.numbers[i]);
        unsafe { nj_attempt(image, IMAGE as u64, row, column, order, ORDER as u64, ran, WORD as u64) }
    }

    fn logged(&mut self, call: &Request) -> u64 {
        let (image, order, ran) = (self.image.as_mut_ptr(), self.order.as_mut_ptr(), self.ran.as_mut_ptr());
        let ([row, column, status], out) = ([0, 1, 2].map(|i| call.numbers[i]), self.out.as_mut_ptr());
        let [images, orders, rans, outs] = [IMAGE, ORDER, WORD, OUT].map(|length| length as u64);
        unsafe { nj_logged(image, images, row, column, status, order, orders, ran, rans, out, outs) }
    }

    fn make(&mut self, call: &Request) -> u64 {
        match call.function {
            Function::PreAccept | Function::Accept | Function::CommitNotice => self.store(call),
            Function::AcceptReply | Function::ExpPrepare => self.plain(call),
            Function::Attempt => self.attempt(call),
            Function::Logged => self.logged(call),
            other => panic!("{} is no event", other.name()),
        }
    }
}

impl CSide {
    pub fn new(case: &Case) -> Self {
        let start = image::of(&CONFIG, &case.table);
        let lent = Lent { image: start.clone(), order: [0; ORDER], ran: [0; WORD], out: [0; OUT] };
        CSide { start, calls: case.events.iter().map(cases::handler).collect(), copies: case.copies, lent }
    }

    /// What the events of a sample do, one after the other, and the image after them.
    pub fn did(&mut self) -> (Vec<Did>, Vec<u8>) {
        let lent = &mut self.lent;
        lent.image.copy_from_slice(&self.start);
        let one = |call: &Request| {
            lent.out.fill(0);
            lent.ran.fill(0);
            let code = lent.make(call);
            Did { code, out: lent.out.to_vec(), ran: word(&lent.ran, 0) as usize }
        };
        (self.calls.iter().map(one).collect(), lent.image.clone())
    }

    /// The most stack that a call of a sample takes.
    pub fn depth(&mut self) -> usize {
        let lent = &mut self.lent;
        let one = |call: &Request| {
            depth(&mut || {
                black_box(lent.make(call));
            })
        };
        self.calls.iter().map(one).max().unwrap_or_default()
    }

    /// The first call alone, between the marks.
    pub fn once(&mut self) {
        between_marks(|| {
            black_box(self.lent.make(&self.calls[0]));
        });
    }
}

impl Side for CSide {
    fn sample(&mut self) -> f64 {
        let (lent, calls) = (&mut self.lent, &self.calls);
        let mut all = Duration::ZERO;
        lent.make(&calls[0]);
        for _ in 0..self.copies {
            lent.image.copy_from_slice(&self.start);
            all += time(|| {
                for call in calls {
                    black_box(lent.make(call));
                }
            });
        }
        each(all, self.copies * calls.len())
    }
}
