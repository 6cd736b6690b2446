//! Calls that are not as a careful caller makes them.
use crate::bytes::{
    self, BATCH, BATCH_IN_CONTENTS, CONTENTS, Function, KEY_IN_REQUEST, KIND_IN_REQUEST, ORDER, REPLICAS, REPLIES,
    REQUEST, REQUESTS, Request, SET, VALUE_IN_REQUEST, VOTE_BATCHES, VOTE_STATUSES, VOTES, WORD,
};
use crate::random::Random;

/// Fills what is nobody's: the entries of replicas without a mark, and requests past a batch's count.
pub fn litter(request: &mut Request, random: &mut Random) {
    let (entries, parts) = match request.function {
        Function::Fast => (&mut request.slices[0], REPLIES),
        function if function.is_choice() => (&mut request.slices[1], VOTES),
        _ => return,
    };
    let is_votes = request.function.is_choice();
    for r in 0..REPLICAS {
        let is_marked = entries[r] == 1;
        if !is_marked {
            fill(&mut entries[parts.seqs + WORD * r..][..WORD], random);
            fill(&mut entries[parts.deps + SET * r..][..SET], random);
        }
        if is_votes && !is_marked {
            entries[VOTE_STATUSES + r] = random.byte() % 5;
            entries[VOTE_BATCHES + BATCH * r] = random.byte();
        }
        if is_votes {
            let batch = &mut entries[VOTE_BATCHES + BATCH * r..][..BATCH];
            litter_batch(batch, if is_marked { batch[0] as usize } else { 0 }, random);
        }
    }
}

/// The same of a call of a handler, and slices that are longer than they have to be. A request of kind other has no key
/// and no value, a get no value: what stands there is nobody's too.
pub fn litter_handler(request: &mut Request, random: &mut Random) {
    let [_, _, out, ran] = request.function.lengths();
    for (length, least) in [(&mut request.out, out), (&mut request.ran, ran)] {
        *length += if least > 0 { random.of(&[0, 0, 1, 100]) } else { 0 };
    }
    if request.list().is_some() {
        let longer = random.of(&[0, 0, 1, 50]);
        request.slices[0].resize(ORDER + longer, 0);
    }
    if !request.function.takes_contents() {
        return;
    }
    let batch = &mut request.slices[0][BATCH_IN_CONTENTS..];
    let count = batch[0] as usize;
    for asked in batch[1..].chunks_mut(REQUEST).take(count) {
        match asked[KIND_IN_REQUEST] {
            0 => fill(&mut asked[KEY_IN_REQUEST..], random),
            2 => fill(&mut asked[VALUE_IN_REQUEST..], random),
            _ => {}
        }
    }
    litter_batch(batch, count, random);
    let longer = random.of(&[0, 0, 1, 50]);
    request.slices[0].resize_with(CONTENTS + longer, || random.byte());
}

/// Kinds keep a meaning, since a kind without one is refused wherever it stands.
pub fn litter_batch(batch: &mut [u8], count: usize, random: &mut Random) {
    for i in count..REQUESTS {
        let request = &mut batch[1 + REQUEST * i..][..REQUEST];
        fill(request, random);
        request[KIND_IN_REQUEST] = random.byte() % 3;
    }
}

pub fn fill(bytes: &mut [u8], random: &mut Random) {
    bytes.iter_mut().for_each(|b| *b = random.byte());
}

/// Changes one thing of a whole call that may have to be refused.
pub fn spoil(request: &mut Request, random: &mut Random) {
    let which = random.below(2);
    let slice = &mut request.slices[which];
    let shorter = random.below(slice.len());
    match random.below(10) {
        0 => slice.truncate(random.of(&[shorter, slice.len() - 1])),
        1 => slice.extend([random.byte(); 3]),
        2 => request.out = random.of(&[0, request.out - 1, request.out + 5]),
        3 | 4 if !request.numbers.is_empty() => spoil_number(&mut request.numbers, random),
        5..=8 if request.function != Function::Union => spoil_entry(request, random),
        _ => slice[shorter] = random.of(&[0, 1, 2, 3, 4, 5, 32, 33, 255]),
    }
}

pub fn spoil_number(numbers: &mut [u64], random: &mut Random) {
    let (n, any) = (numbers[0], random.word());
    let at = random.below(numbers.len());
    numbers[at] = random.of(&[0, 1, n.wrapping_add(1), n, 7, 8, 1 << 32 | n, u64::MAX, any]);
}

/// A mark at N or more, a column, sequence, count or key past its limit, of a marked replica where there is one.
fn spoil_entry(request: &mut Request, random: &mut Random) {
    let is_votes = request.function.is_choice();
    let (entries, parts) = if is_votes { (&mut request.slices[1], VOTES) } else { (&mut request.slices[0], REPLIES) };
    let marked = bytes::marked(entries);
    let r = if marked.is_empty() { random.below(REPLICAS) } else { random.of(&marked) };
    let batch = VOTE_BATCHES + BATCH * r;
    match random.below(if is_votes { 6 } else { 3 }) {
        0 => entries[random.below(REPLICAS)] = 1,
        1 => entries[parts.seqs + WORD * r + 4] = 1,
        2 => entries[parts.deps + SET * r + random.below(SET)] = random.of(&[32, 33, 34, 255]),
        3 => entries[batch] = random.of(&[3, 4, 5, 255]),
        4 => entries[batch + 1 + REQUEST * random.below(REQUESTS) + KEY_IN_REQUEST + 1] = 1,
        _ => entries[VOTE_STATUSES + r] = random.of(&[4, 5]),
    }
}
