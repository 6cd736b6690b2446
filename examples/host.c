/* A host in plain C: two replicas of one table are told of the same two commits, each in another order, and run the slots in
 * the same order. Then it shows a call that is refused. The disk and the state machine are arrays here, and what would be
 * sent is printed; else it does what a host has to do.
 *
 * Ends with 0; with 1 where the orders differ or a call answers what it should not, and says which call. */
#include <stdint.h>
#include <stdio.h>
#include <stdlib.h>
#include <string.h>

#include "njimbaros.h"

/* The layouts' sizes are those of their parts. A size below 0 does not compile. */
#define AGREE(name, end, size) typedef char name##_agrees[(end) == (size) ? 1 : -1]
AGREE(slots, NJ_ROWS * NJ_COLUMNS, NJ_SLOTS);
AGREE(order, NJ_SLOTS, NJ_ORDER_SIZE);
AGREE(request, NJ_REQUEST_VALUE + 8, NJ_REQUEST_SIZE);
AGREE(batch, 1 + NJ_BATCH * NJ_REQUEST_SIZE, NJ_BATCH_SIZE);
AGREE(decision, NJ_DECISION_DEPENDENCIES + NJ_SET_SIZE, NJ_DECISION_SIZE);
AGREE(contents, NJ_CONTENTS_REQUEST(NJ_BATCH), NJ_CONTENTS_SIZE);
AGREE(contents_batch, NJ_CONTENTS_BATCH + NJ_BATCH_SIZE, NJ_CONTENTS_SIZE);
AGREE(slot, NJ_SLOT_CONTENTS + NJ_CONTENTS_SIZE, NJ_SLOT_SIZE);
AGREE(lengths, NJ_IMAGE_LENGTHS + NJ_ROWS, NJ_IMAGE_BARS);
AGREE(bars, NJ_IMAGE_BARS + NJ_ROWS, NJ_IMAGE_KEYS);
AGREE(keys, NJ_IMAGE_KEY(NJ_KEYS), NJ_IMAGE_SLOTS);
AGREE(image, NJ_IMAGE_SLOTS + NJ_SLOTS * NJ_SLOT_SIZE, NJ_IMAGE_SIZE);
AGREE(record, NJ_RECORD_CONTENTS + NJ_CONTENTS_SIZE, NJ_RECORD_SIZE);
AGREE(out, NJ_OUT_RECORD(2), NJ_OUT_SIZE);
AGREE(replies, NJ_REPLIES_SET(NJ_ROWS), NJ_REPLIES_SIZE);
AGREE(votes, NJ_VOTES_BATCH(NJ_ROWS), NJ_VOTES_SIZE);

enum { COPIES = 2, DISK_RECORDS = 16 };

/* ---- What comes in ---- */

struct request {
    uint64_t client, id;
    uint8_t kind;
    uint16_t key;
    uint64_t value;
};

/* A CommitNotice as a host has it once it has come over the network. */
struct notice {
    uint64_t peer, row, column, ballot, sequence;
    uint8_t dependencies[NJ_SET_SIZE];
    uint8_t batch;
    struct request requests[NJ_BATCH];
};

/* 0.0, of sequence 2, waits for 1.0 and puts key 5; 1.0, of sequence 1, waits for 0.0 and gets key 5. They cross. */
static const struct notice PUT = {1, 0, 0, 1, 2, {0, NJ_DEPENDENCY(0), 0}, 1, {{1, 1, NJ_KIND_PUT, 5, 9}}};
static const struct notice GET = {1, 1, 0, 1, 1, {NJ_DEPENDENCY(0), 0, 0}, 1, {{2, 1, NJ_KIND_GET, 5, 0}}};

/* ---- What a host keeps ---- */

struct copy {
    uint64_t own;
    uint8_t image[NJ_IMAGE_SIZE];
    uint8_t disk[DISK_RECORDS][NJ_RECORD_SIZE];
    size_t written; /* records on the disk */
    size_t told;    /* of these, how many nj_logged has been told of */
    uint8_t history[NJ_ORDER_SIZE]; /* the slots run, since no slot runs twice */
    size_t ran;
    uint64_t values[NJ_KEYS]; /* the state machine: the value of each key */
};

/* ---- Answers ---- */

static const char *words_of(uint64_t answer) {
    switch (answer) {
    case NJ_SHORT: return "a slice is short, or the image has another length";
    case NJ_REFUSED_OUTSIDE_BOUNDS:
        return "configuration or table outside the bounds, a bar past its row's slots, or a byte that stands for nothing";
    case NJ_REFUSED_NO_REPLICA: return "peer, row, reply, vote, ack or silent replica at N or more";
    case NJ_REFUSED_NO_COLUMN: return "column 32 or more";
    case NJ_REFUSED_BAD_DEPENDENCY: return "a dependency at column 32 or more, or in a row N or more";
    case NJ_REFUSED_BAD_BATCH: return "batch over 4, or the key of a put or get above 255";
    case NJ_REFUSED_OVER_LIMIT: return "a sequence, given or about to be stored, over the limit";
    case NJ_REFUSED_NO_SLOT: return "a log event or Lead for a slot not in the table";
    case NJ_REFUSED_SHORT_ORDER: return "the lent order list has fewer than 224 entries";
    case NJ_REFUSED_UNREADABLE: return "unknown log status";
    case NJ_DONE: return "done";
    case NJ_IGNORED: return "ignored";
    case NJ_NOT_YET: return "not yet";
    case NJ_ALREADY: return "already";
    default: return "a number that no such call answers";
    }
}

static void stop(const struct copy *copy, const char *what) {
    fprintf(stderr, "host: copy %d: %s\n", (int)copy->own, what);
    exit(1);
}

static void expect(const struct copy *copy, const char *call, uint64_t answer, uint64_t wanted) {
    if (answer == wanted) return;
    fprintf(stderr, "host: copy %d: %s answered %lu: %s\n", (int)copy->own, call, (unsigned long)answer, words_of(answer));
    exit(1);
}

/* ---- Bytes ---- */

/* Byte by byte, so that it is the same on every machine and at every address. */
static void put_number(uint8_t *to, uint64_t number, int bytes) {
    for (int i = 0; i < bytes; i++) to[i] = (uint8_t)(number >> (8 * i));
}

static uint64_t number_at(const uint8_t *from, int bytes) {
    uint64_t number = 0;
    for (int i = bytes; i-- > 0;) number = number << 8 | from[i];
    return number;
}

static void put_request(uint8_t *to, const struct request *request) {
    put_number(to + NJ_REQUEST_CLIENT, request->client, 8);
    put_number(to + NJ_REQUEST_ID, request->id, 8);
    to[NJ_REQUEST_KIND] = request->kind;
    put_number(to + NJ_REQUEST_KEY, request->key, 2);
    put_number(to + NJ_REQUEST_VALUE, request->value, 8);
}

/* All of them are laid down: the kinds of those past the batch's count have to stand for something too. */
static void put_contents(uint8_t *to, const struct notice *notice) {
    put_number(to + NJ_CONTENTS_SEQUENCE, notice->sequence, 8);
    memcpy(to + NJ_CONTENTS_DEPENDENCIES, notice->dependencies, NJ_SET_SIZE);
    to[NJ_CONTENTS_BATCH] = notice->batch;
    for (int i = 0; i < NJ_BATCH; i++) put_request(to + NJ_CONTENTS_REQUEST(i), &notice->requests[i]);
}

/* ---- What a call puts out ---- */

static void write_to_disk(struct copy *copy, const uint8_t *record) {
    if (copy->written == DISK_RECORDS) stop(copy, "the disk is full");
    memcpy(copy->disk[copy->written++], record, NJ_RECORD_SIZE);
}

static void send_record(const struct copy *copy, const char *what, const uint8_t *record) {
    printf("copy %d sends %s of %d.%d", (int)copy->own, what, record[NJ_RECORD_ROW], record[NJ_RECORD_COLUMN]);
    if (record[NJ_RECORD_WHAT] == NJ_WHAT_COMMIT_NOTICE) {
        printf(" to all\n");
    } else {
        printf(" to %d\n", record[NJ_RECORD_PEER]);
    }
}

static void take_record(struct copy *copy, const uint8_t *record) {
    switch (record[NJ_RECORD_WHAT]) {
    case NJ_WHAT_LOG: write_to_disk(copy, record); break;
    case NJ_WHAT_COMMIT_NOTICE: send_record(copy, "CommitNotice", record); break;
    case NJ_WHAT_PRE_ACCEPT_REPLY: send_record(copy, "PreAcceptReply", record); break;
    case NJ_WHAT_ACCEPT_REPLY: send_record(copy, "AcceptReply", record); break;
    case NJ_WHAT_EXP_PREPARE_REPLY: send_record(copy, "ExpPrepareReply", record); break;
    /* A leader keeps it with the replies for nj_fast_decision. This host leads nothing. */
    case NJ_WHAT_NOTE_TO_SELF: break;
    default: stop(copy, "a record that says nothing");
    }
}

static void take_out(struct copy *copy, const uint8_t *out) {
    for (int i = 0; i < out[NJ_OUT_COUNT]; i++) take_record(copy, out + NJ_OUT_RECORD(i));
}

/* ---- Slots that run ---- */

static void run_request(struct copy *copy, const uint8_t *request) {
    uint64_t key = number_at(request + NJ_REQUEST_KEY, 2);
    if (request[NJ_REQUEST_KIND] == NJ_KIND_PUT) copy->values[key] = number_at(request + NJ_REQUEST_VALUE, 8);
}

/* Its requests are in the image. */
static void run_slot(struct copy *copy, uint8_t entry) {
    const uint8_t *slot = copy->image + NJ_IMAGE_SLOT(NJ_ENTRY_ROW(entry), NJ_ENTRY_COLUMN(entry));
    const uint8_t *contents = slot + NJ_SLOT_CONTENTS;
    if (copy->ran == NJ_ORDER_SIZE) stop(copy, "a slot ran twice");
    copy->history[copy->ran++] = entry;
    for (int i = 0; i < contents[NJ_CONTENTS_BATCH]; i++) run_request(copy, contents + NJ_CONTENTS_REQUEST(i));
}

/* Says of one record that it is on the disk: only then may a reply go out, or the slot run. */
static void tell_logged(struct copy *copy, const uint8_t *record) {
    uint8_t order[NJ_ORDER_SIZE], ran[NJ_RAN_SIZE], out[NJ_OUT_SIZE];
    uint64_t answer = nj_logged(copy->image, sizeof copy->image, record[NJ_RECORD_ROW], record[NJ_RECORD_COLUMN],
                                record[NJ_RECORD_STATUS], order, sizeof order, ran, sizeof ran, out, sizeof out);
    expect(copy, "nj_logged", answer, NJ_DONE);
    for (uint64_t i = 0; i < number_at(ran, sizeof ran); i++) run_slot(copy, order[i]);
    take_out(copy, out);
}

/* What a log event puts out may be a record for the log again. */
static void tell_all_logged(struct copy *copy) {
    while (copy->told < copy->written) tell_logged(copy, copy->disk[copy->told++]);
}

/* ---- Messages ---- */

static uint64_t call_commit_notice(struct copy *copy, const struct notice *notice, uint8_t out[NJ_OUT_SIZE]) {
    uint8_t contents[NJ_CONTENTS_SIZE];
    put_contents(contents, notice);
    return nj_commit_notice(copy->image, sizeof copy->image, notice->peer, notice->row, notice->column, notice->ballot,
                            contents, sizeof contents, out, NJ_OUT_SIZE);
}

/* Whether the slot is committed or has run. Before a call row and column may be any numbers. */
static int is_committed(const struct copy *copy, uint64_t row, uint64_t column) {
    if (row >= NJ_ROWS || column >= copy->image[NJ_IMAGE_LENGTHS + row]) return 0;
    return copy->image[NJ_IMAGE_SLOT(row, column) + NJ_SLOT_STATUS] >= NJ_STATUS_COMMITTED;
}

static void take_commit_notice(struct copy *copy, const struct notice *notice) {
    uint8_t out[NJ_OUT_SIZE];
    /* One that is sent again would lower a slot that has run, and the slot would run again. */
    if (is_committed(copy, notice->row, notice->column)) return;
    expect(copy, "nj_commit_notice", call_commit_notice(copy, notice, out), NJ_DONE);
    take_out(copy, out);
    tell_all_logged(copy);
}

/* ---- The example ---- */

static void open_copy(struct copy *copy, uint64_t own) {
    memset(copy, 0, sizeof *copy);
    copy->own = own;
    expect(copy, "nj_open", nj_open(3, own, 2, 3, copy->image, sizeof copy->image), NJ_DONE);
}

static void print_order(const struct copy *copy) {
    printf("copy %d:", (int)copy->own);
    for (size_t i = 0; i < copy->ran; i++) {
        printf(" %d.%d", NJ_ENTRY_ROW(copy->history[i]), NJ_ENTRY_COLUMN(copy->history[i]));
    }
    printf("\n");
}

static int are_equal(const struct copy *a, const struct copy *b) {
    return a->ran == b->ran && memcmp(a->history, b->history, a->ran) == 0 &&
           memcmp(a->values, b->values, sizeof a->values) == 0;
}

/* A refusal writes nothing: what the host had, it still has. */
static void show_refusal(struct copy *copy) {
    static uint8_t before[NJ_IMAGE_SIZE];
    uint8_t out[NJ_OUT_SIZE];
    struct notice beyond = PUT;
    beyond.column = NJ_COLUMNS;
    memcpy(before, copy->image, sizeof before);
    uint64_t answer = call_commit_notice(copy, &beyond, out);
    expect(copy, "nj_commit_notice of column 32", answer, NJ_REFUSED_NO_COLUMN);
    if (memcmp(before, copy->image, sizeof before) != 0) stop(copy, "a refused call has altered the image");
    printf("column %d: refused %d (%s), the image is as before\n", NJ_COLUMNS, (int)answer, words_of(answer));
}

int main(void) {
    static struct copy copies[COPIES];
    open_copy(&copies[0], 0);
    open_copy(&copies[1], 2);
    take_commit_notice(&copies[0], &PUT);
    take_commit_notice(&copies[0], &GET);
    take_commit_notice(&copies[1], &GET);
    take_commit_notice(&copies[1], &PUT);
    for (int i = 0; i < COPIES; i++) print_order(&copies[i]);
    if (!are_equal(&copies[0], &copies[1])) {
        printf("the copies differ\n");
        return 1;
    }
    printf("the orders are equal\n");
    show_refusal(&copies[0]);
    return 0;
}
