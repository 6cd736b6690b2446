/* Calls the C functions of crates/host for the comparison: frames of requests on standard input, their answers on
 * standard output.
 *
 * A frame: its length, 4 bytes, then requests one after another. A request: which function, 1 byte (CALLS below);
 * its numbers, 8 bytes each; its slices, each a length of 4 bytes and the bytes; the lengths of out and of ran, the
 * number of slots run, 4 bytes each.
 * An answer: what the function returned, 8 bytes; then out and the bytes behind it, all FILL before the call; of an
 * attempt and a log event, which may run slots, then ran and the bytes behind it, FILL too, and the order list, which
 * held the first slice before the call, and the bytes behind it; of a function that works on a table, then the image
 * after the call and the bytes behind it. All numbers are low byte first, as on every machine that the archive runs on.
 *
 * One image is current: OPEN starts it afresh from FILL, the handlers go on with it. Their second slice is none of the
 * function's: where it has bytes, the call works on a copy, which they say how to spoil, and the current image stays.
 * They are the length that the copy is handed over with, 4 bytes, then changes, each a place, 4 bytes, and a byte.
 *
 * No header is used, so that nothing but the kit is asked for. */

typedef unsigned char byte;
typedef unsigned int half;
typedef unsigned long word;

extern long read(int file, void *bytes, word count);
extern long write(int file, const void *bytes, word count);
extern void _exit(int status) __attribute__((noreturn));
extern void *memcpy(void *to, const void *from, word count);
extern void *memset(void *to, int value, word count);

extern word nj_union(const byte *a, word a_length, const byte *b, word b_length, byte *out, word out_length);
extern word nj_fast_decision(word n, word own, word simple, word sup, word avoided, const byte *replies,
                             word replies_length, const byte *silent, word silent_length, byte *out, word out_length);
extern word nj_rust_choice(word n, word own, word simple, word sup, word row, word highest, word initial,
                           const byte *acks, word acks_length, const byte *votes, word votes_length, byte *out,
                           word out_length);
extern word nj_paper_choice(word n, word own, word simple, word sup, word row, word highest, word initial,
                            const byte *acks, word acks_length, const byte *votes, word votes_length, byte *out,
                            word out_length);
extern word nj_open(word n, word own, word simple, word sup, byte *image, word image_length);
extern word nj_pre_accept(byte *image, word image_length, word peer, word row, word column, word ballot,
                          const byte *contents, word contents_length, byte *out, word out_length);
extern word nj_accept(byte *image, word image_length, word peer, word row, word column, word ballot,
                      const byte *contents, word contents_length, byte *out, word out_length);
extern word nj_commit_notice(byte *image, word image_length, word peer, word row, word column, word ballot,
                             const byte *contents, word contents_length, byte *out, word out_length);
extern word nj_accept_reply(byte *image, word image_length, word peer, word row, word column, word ballot, byte *out,
                            word out_length);
extern word nj_exp_prepare(byte *image, word image_length, word peer, word row, word column, word ballot, byte *out,
                           word out_length);
extern word nj_lead(byte *image, word image_length, word row, word column, byte *out, word out_length);
extern word nj_attempt(byte *image, word image_length, word row, word column, byte *order, word order_length, byte *ran,
                       word ran_length);
extern word nj_logged(byte *image, word image_length, word row, word column, word status, byte *order,
                      word order_length, byte *ran, word ran_length, byte *out, word out_length);

enum {
    UNION = 1, FAST_DECISION, RUST_CHOICE, PAPER_CHOICE,
    OPEN, PRE_ACCEPT, ACCEPT, COMMIT_NOTICE, ACCEPT_REPLY, EXP_PREPARE, LEAD, ATTEMPT, LOGGED, CALLS
};
enum { FILL = 0xA5, BEHIND = 16, IMAGE = 33618, FRAME = 1 << 22, MOST_NUMBERS = 7, MOST_SLICES = 2 };

/* How many numbers each function takes; each takes two slices, out and ran. */
static const half NUMBERS[CALLS] = {0, 0, 5, 7, 7, 4, 4, 4, 4, 4, 4, 2, 2, 3};

struct slice {
    const byte *at;
    word length;
};

struct request {
    half function;
    word numbers[MOST_NUMBERS];
    struct slice slices[MOST_SLICES];
    word out_length;
    word ran_length;
};

/* Where a call writes. What may run slots is lent ran and order. */
struct room {
    byte *out;
    byte *ran;
    byte *order;
};

/* An image as it is handed over: with another length too. */
struct table {
    byte *at;
    word length;
};

static byte frame[FRAME];
static byte answers[FRAME];
static byte current[IMAGE + BEHIND];
static byte spoiled[IMAGE + BEHIND];

/* Where the comparison ends inside a frame, or sends what is no request: a fault of its own. */
static void stop(void) {
    static const char said[] = "answer: a frame that cannot be read\n";
    write(2, said, sizeof said - 1);
    _exit(1);
}

/* Reads all of it; 0 where the input ends before its first byte. */
static int read_whole(byte *to, word count) {
    for (word got = 0; got < count;) {
        long more = read(0, to + got, count - got);
        if (more <= 0) {
            if (got == 0) return 0;
            stop();
        }
        got += (word)more;
    }
    return 1;
}

static void write_whole(const byte *from, word count) {
    while (count > 0) {
        long more = write(1, from, count);
        if (more <= 0) _exit(1);
        from += more;
        count -= (word)more;
    }
}

static const byte *take(const byte **at, const byte *end, word count) {
    const byte *from = *at;
    if ((word)(end - from) < count) stop();
    *at = from + count;
    return from;
}

static word take_half(const byte **at, const byte *end) {
    half value;
    memcpy(&value, take(at, end, sizeof value), sizeof value);
    return value;
}

static struct request take_request(const byte **at, const byte *end) {
    struct request r;
    r.function = *take(at, end, 1);
    if (r.function < UNION || r.function >= CALLS) stop();
    word size = NUMBERS[r.function] * sizeof(word);
    memcpy(r.numbers, take(at, end, size), size);
    for (int i = 0; i < MOST_SLICES; i++) {
        r.slices[i].length = take_half(at, end);
        r.slices[i].at = take(at, end, r.slices[i].length);
    }
    r.out_length = take_half(at, end);
    r.ran_length = take_half(at, end);
    return r;
}

static int may_run_slots(const struct request *r) {
    return r->function == ATTEMPT || r->function == LOGGED;
}

/* The current image, or the copy that the request asks for. */
static struct table table_for(const struct request *r) {
    const byte *at = r->slices[1].at, *end = at + r->slices[1].length;
    struct table t = {current, IMAGE};
    if (at < end) {
        memcpy(spoiled, current, sizeof spoiled);
        t.at = spoiled;
        t.length = take_half(&at, end);
        if (t.length > sizeof spoiled) stop();
    }
    if (r->function == OPEN) memset(t.at, FILL, sizeof current);
    while (at < end) {
        word place = take_half(&at, end);
        if (place >= sizeof spoiled) stop();
        t.at[place] = *take(&at, end, 1);
    }
    return t;
}

static word decide(const struct request *r, byte *out) {
    const word *n = r->numbers;
    const struct slice *a = &r->slices[0], *b = &r->slices[1];
    word length = r->out_length;
    switch (r->function) {
    case UNION:
        return nj_union(a->at, a->length, b->at, b->length, out, length);
    case FAST_DECISION:
        return nj_fast_decision(n[0], n[1], n[2], n[3], n[4], a->at, a->length, b->at, b->length, out, length);
    case RUST_CHOICE:
        return nj_rust_choice(n[0], n[1], n[2], n[3], n[4], n[5], n[6], a->at, a->length, b->at, b->length, out,
                              length);
    default:
        return nj_paper_choice(n[0], n[1], n[2], n[3], n[4], n[5], n[6], a->at, a->length, b->at, b->length, out,
                               length);
    }
}

static word handle(const struct request *r, struct table t, struct room to) {
    const word *n = r->numbers;
    const struct slice *c = &r->slices[0];
    byte *out = to.out;
    word length = r->out_length;
    switch (r->function) {
    case OPEN:
        return nj_open(n[0], n[1], n[2], n[3], t.at, t.length);
    case PRE_ACCEPT:
        return nj_pre_accept(t.at, t.length, n[0], n[1], n[2], n[3], c->at, c->length, out, length);
    case ACCEPT:
        return nj_accept(t.at, t.length, n[0], n[1], n[2], n[3], c->at, c->length, out, length);
    case COMMIT_NOTICE:
        return nj_commit_notice(t.at, t.length, n[0], n[1], n[2], n[3], c->at, c->length, out, length);
    case ACCEPT_REPLY:
        return nj_accept_reply(t.at, t.length, n[0], n[1], n[2], n[3], out, length);
    case EXP_PREPARE:
        return nj_exp_prepare(t.at, t.length, n[0], n[1], n[2], n[3], out, length);
    case LEAD:
        return nj_lead(t.at, t.length, n[0], n[1], out, length);
    case ATTEMPT:
        return nj_attempt(t.at, t.length, n[0], n[1], to.order, c->length, to.ran, r->ran_length);
    default:
        return nj_logged(t.at, t.length, n[0], n[1], n[2], to.order, c->length, to.ran, r->ran_length, out, length);
    }
}

/* The room that an answer takes at most. */
static word room_for(const struct request *r) {
    word room = sizeof(word) + r->out_length + r->ran_length + r->slices[0].length + 3 * BEHIND + sizeof current;
    if (room > FRAME) stop();
    return room;
}

/* What is to be written, FILL before the call; the bytes behind it too. Says where they end. */
static byte *fill(byte *at, word length) {
    memset(at, FILL, length + BEHIND);
    return at + length + BEHIND;
}

/* Answers one request, and says where the next answer goes. */
static byte *answer(const struct request *r, byte *to) {
    const struct slice *list = &r->slices[0];
    struct room room = {to + sizeof(word), 0, 0};
    byte *end = fill(room.out, r->out_length);
    word code;
    if (may_run_slots(r)) {
        room.ran = end;
        room.order = fill(room.ran, r->ran_length);
        end = fill(room.order, list->length);
        memcpy(room.order, list->at, list->length);
    }
    if (r->function < OPEN) {
        code = decide(r, room.out);
    } else {
        struct table t = table_for(r);
        code = handle(r, t, room);
        memcpy(end, t.at, sizeof current);
        end += sizeof current;
    }
    memcpy(to, &code, sizeof code);
    return end;
}

int main(void) {
    byte size[4];
    while (read_whole(size, sizeof size)) {
        const byte *at = size;
        word length = take_half(&at, size + sizeof size);
        if (length > FRAME || (length > 0 && !read_whole(frame, length))) stop();
        byte *to = answers;
        for (at = frame; at < frame + length;) {
            struct request r = take_request(&at, frame + length);
            if ((word)(answers + FRAME - to) < room_for(&r)) {
                write_whole(answers, (word)(to - answers));
                to = answers;
            }
            to = answer(&r, to);
        }
        write_whole(answers, (word)(to - answers));
    }
    return 0;
}
