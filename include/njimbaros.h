/* njimbaros.h: the replica core of EPaxos, for a host in C or C++ on x86-64 (System V calling convention).
 *
 * The 13 functions below are proved to meet their contracts and compiled into one archive, target/staticlib/libhost.a, which
 * bin/archive builds. It needs memcpy and memset, and nothing else:
 *
 *     cc -I include -o host host.c target/staticlib/libhost.a
 *
 * examples/host.c is a host that does what is said here.
 *
 * HOW A HOST USES THEM. The table of a replica is an image of NJ_IMAGE_SIZE bytes. nj_open fills it, each handler reads it
 * and writes it back. Sockets, timers and disks stay with the host:
 *
 *   1. A message comes in: call its handler. With NJ_DONE, `out` holds up to two records; NJ_RECORD_WHAT says what each one
 *      is. A reply goes to one peer, a CommitNotice to all.
 *   2. A record for the log goes to the disk. Once it is there, call nj_logged with the record's row, column and status. That
 *      may put out a reply, and it may run slots.
 *   3. Slots that have run stand in `order`, in the order in which they run. Their requests are in the image, in the slot's
 *      contents: hand them to the state machine in this order.
 *
 * What a host has to see to: the handlers go by the ballot alone, so that a PreAccept, Accept or CommitNotice also alters or
 * lowers a slot that is committed, and one that is lowered may run again. That all replicas run crossing slots in the same
 * order is proved of runs in which this does not happen, so hand over none for a slot whose status in the image is
 * NJ_STATUS_COMMITTED or NJ_STATUS_EXECUTED.
 *
 * One way to lead a batch: take the next free column of your own row; call nj_pre_accept with yourself as the peer, sequence
 * 0 and no dependencies, then nj_lead; send what the log record says to all as a PreAccept. The PreAcceptReplies, and the
 * note to self that nj_logged puts out, are the replies of nj_fast_decision. By what it answers call nj_commit_notice or
 * nj_accept with yourself as the peer, and send the same to all. AcceptReplies go to nj_accept_reply, until that or nj_logged
 * puts out the CommitNotice.
 * One way to recover a slot: ask all by an ExpPrepare with a greater ballot, yourself too, and call nj_lead. Who replies has
 * acked; of the replies those with the highest slot's ballot among them are the votes of nj_rust_choice or nj_paper_choice.
 * By what it answers call nj_commit_notice, nj_accept or nj_pre_accept with the greater ballot, and send the same to all.
 * After a PreAccept that recovers a slot the fast path is avoided.
 * Ballots, quorum sizes and which replicas have fallen silent are the host's to say.
 *
 * NUMBERS AND SLICES. Every number is a uint64_t, and any number may be given: one that is out of bounds is refused, and none
 * is cut. A slice is a pointer and a length in bytes, two parameters. No pointer may be null, also where the length is 0. In
 * bytes, numbers of more than one byte have their low byte first; there is no padding, and no address needs alignment.
 *
 * MEMORY AND THREADS. The functions keep no state, allocate nothing, call nothing of the host's and always return. They write
 * only to image, out, order and ran, and none of these may overlap another slice of the same call. Calls on different images
 * may run at once, on any threads; calls on one image may not. An image has no pointer: it can be copied, written to a disk
 * and read back.
 *
 * WITH AN ANSWER BELOW 100, a refusal or 0, nothing is written: every slice is as it was before the call, byte for byte. */
#ifndef NJIMBAROS_H
#define NJIMBAROS_H

#include <stdint.h>

#ifdef __cplusplus
extern "C" {
#endif

/* ---- Limits ---- */

#define NJ_ROWS 7                       /* replicas, and so rows, at most: N is 1 to 7, rows and replicas are 0 to N - 1 */
#define NJ_COLUMNS 32                   /* columns of a row: 0 to 31 */
#define NJ_SLOTS 224                    /* slots: NJ_ROWS * NJ_COLUMNS */
#define NJ_KEYS 256                     /* keys: 0 to 255 */
#define NJ_BATCH 4                      /* requests in a batch, at most */
#define NJ_HIGHEST_SEQUENCE 4294967295u /* ballot, client, id and value are any 64-bit number */

/* ---- What a function answers ---- */

/* Whether nothing was done and nothing written. */
#define NJ_IS_REFUSED(answer) ((answer) < NJ_DONE)

#define NJ_SHORT 0 /* a slice is short, or the image has another length */

/* The refusals. They are tested in this order: 0, 10, 8, 1 to 7; and last 6 for a sequence that is about to be stored.
 * 9 and 11 are of traces: no C function answers them. */
#define NJ_REFUSED_OUTSIDE_BOUNDS 1 /* configuration or table outside the bounds above, or a bar past its row's slots; and a
                                       byte that stands for nothing: a mark, led or avoided above 1, a status above 4, a kind
                                       above 2 (past the batch's count too), and in an image a sequence over the limit */
#define NJ_REFUSED_NO_REPLICA 2     /* peer, row, reply, vote, ack or silent replica at N or more */
#define NJ_REFUSED_NO_COLUMN 3      /* column 32 or more */
#define NJ_REFUSED_BAD_DEPENDENCY 4 /* a dependency at column 32 or more, or in a row N or more */
#define NJ_REFUSED_BAD_BATCH 5      /* batch over 4, or the key of a put or get above 255 */
#define NJ_REFUSED_OVER_LIMIT 6     /* a sequence, given or about to be stored, over the limit */
#define NJ_REFUSED_NO_SLOT 7        /* a log event or Lead for a slot not in the table */
#define NJ_REFUSED_SHORT_ORDER 8    /* Attempt or any Logged: the lent order list has fewer than 224 entries */
#define NJ_REFUSED_UNREADABLE 10    /* unknown log status */

#define NJ_DONE 100    /* the image is that of the table after the call, out holds what the call puts out */
#define NJ_IGNORED 101 /* so too, but there is no record: a message whose ballot is too low, which may have added null slots,
                          or an AcceptReply that does not count */
#define NJ_NOT_YET 102 /* of an attempt: the slot, or one that it leads to, is not below its row's commit bar */
#define NJ_ALREADY 103 /* of an attempt: the slot has run before */

/* What a decision or choice says to go on with. */
#define NJ_STEP_WAIT 104
#define NJ_STEP_COMMITTED 105
#define NJ_STEP_ACCEPTING 106
#define NJ_STEP_PRE_ACCEPTING 107

/* ---- Statuses, kinds, sets ---- */

/* The status of a slot, a record or a vote. */
#define NJ_STATUS_NULL 0
#define NJ_STATUS_PRE_ACCEPTING 1
#define NJ_STATUS_ACCEPTING 2
#define NJ_STATUS_COMMITTED 3
#define NJ_STATUS_EXECUTED 4

/* What was logged, for nj_logged: the status of the record that was written. */
#define NJ_LOGGED_PRE_ACCEPTING 1
#define NJ_LOGGED_ACCEPTING 2
#define NJ_LOGGED_COMMITTED 3

/* The kind of a request. */
#define NJ_KIND_OTHER 0
#define NJ_KIND_PUT 1
#define NJ_KIND_GET 2

/* A dependency set: a byte for each row, 0 for nothing or c + 1 for the column c. Those of rows N and more are 0. */
#define NJ_SET_SIZE 7
#define NJ_NO_DEPENDENCY 0
#define NJ_DEPENDENCY(column) ((column) + 1)

/* Marks: a byte for each replica, 1 where it is marked, else 0. */
#define NJ_MARKS_SIZE 7

/* ---- Layouts: where each part begins, in bytes ---- */

/* A request, 27 bytes. Of other, key and value are not read, and are written as 0; so is the value of a get. */
#define NJ_REQUEST_CLIENT 0 /* 8 bytes */
#define NJ_REQUEST_ID 8     /* 8 bytes */
#define NJ_REQUEST_KIND 16  /* 1 byte */
#define NJ_REQUEST_KEY 17   /* 2 bytes */
#define NJ_REQUEST_VALUE 19 /* 8 bytes */
#define NJ_REQUEST_SIZE 27

/* Contents, 124 bytes: of a message, a slot, a record, and what a recovery choice writes. */
#define NJ_CONTENTS_SEQUENCE 0     /* 8 bytes */
#define NJ_CONTENTS_DEPENDENCIES 8 /* a dependency set */
#define NJ_CONTENTS_BATCH 15       /* 1 byte: how many requests, 0 to 4 */
#define NJ_CONTENTS_REQUESTS 16    /* 4 requests; those past the count are nobody's, but their kinds are 0 to 2 too */
#define NJ_CONTENTS_REQUEST(i) (NJ_CONTENTS_REQUESTS + NJ_REQUEST_SIZE * (i))
#define NJ_CONTENTS_SIZE 124

/* What the fast decision writes, 15 bytes: the first two parts of contents. */
#define NJ_DECISION_SEQUENCE 0     /* 8 bytes */
#define NJ_DECISION_DEPENDENCIES 8 /* a dependency set */
#define NJ_DECISION_SIZE 15

/* A slot, 142 bytes. */
#define NJ_SLOT_STATUS 0    /* 1 byte */
#define NJ_SLOT_SOURCE 1    /* 1 byte: 0 for none, p + 1 for the peer p, whom a reply goes to */
#define NJ_SLOT_LED 2       /* 1 byte: 1 where this replica leads the slot, else 0 */
#define NJ_SLOT_MARKS 3     /* the leader's accept marks */
#define NJ_SLOT_BALLOT 10   /* 8 bytes */
#define NJ_SLOT_CONTENTS 18 /* contents */
#define NJ_SLOT_SIZE 142

/* The image of a table, 33,618 bytes. What stands past a row's length is nobody's: it has to be bytes that stand for
 * something, as nj_open writes them. */
#define NJ_IMAGE_N 0        /* 1 byte: how many replicas there are */
#define NJ_IMAGE_OWN 1      /* 1 byte: which one is mine */
#define NJ_IMAGE_SIMPLE 2   /* 1 byte: how many make a simple quorum */
#define NJ_IMAGE_SUPER 3    /* 1 byte: how many make a super quorum */
#define NJ_IMAGE_LENGTHS 4  /* 7 bytes: how many slots each row has, 0 to 32; the next free column of the row */
#define NJ_IMAGE_BARS 11    /* 7 bytes: each row's commit bar: the slots of the row below it have been committed */
#define NJ_IMAGE_KEYS 18    /* 256 dependency sets: of each key, the highest column of each row that put it */
#define NJ_IMAGE_SLOTS 1810 /* 224 slots */
#define NJ_IMAGE_KEY(key) (NJ_IMAGE_KEYS + NJ_SET_SIZE * (key))
#define NJ_IMAGE_SLOT(row, column) (NJ_IMAGE_SLOTS + NJ_SLOT_SIZE * NJ_ENTRY(row, column))
#define NJ_IMAGE_SIZE 33618

/* The order list: a byte for each slot run. ran: how many these are, a number of 8 bytes. */
#define NJ_ENTRY(row, column) (NJ_COLUMNS * (row) + (column))
#define NJ_ENTRY_ROW(entry) ((entry) / NJ_COLUMNS)
#define NJ_ENTRY_COLUMN(entry) ((entry) % NJ_COLUMNS)
#define NJ_ORDER_SIZE 224
#define NJ_RAN_SIZE 8

/* A record, 145 bytes: what a call puts out, with the slot's values as they are then. One that is not there is all 0. */
#define NJ_RECORD_WHAT 0      /* 1 byte, NJ_WHAT_.. */
#define NJ_RECORD_PEER 1      /* 1 byte: the peer that a reply goes to, else 0 */
#define NJ_RECORD_ROW 2       /* 1 byte */
#define NJ_RECORD_COLUMN 3    /* 1 byte */
#define NJ_RECORD_STATUS 4    /* 1 byte */
#define NJ_RECORD_ASKED 5     /* 8 bytes: the ballot that an ExpPrepare asked with, else 0 */
#define NJ_RECORD_BALLOT 13   /* 8 bytes: the slot's */
#define NJ_RECORD_CONTENTS 21 /* contents */
#define NJ_RECORD_SIZE 145

#define NJ_WHAT_NOTHING 0
#define NJ_WHAT_LOG 1               /* for the log */
#define NJ_WHAT_COMMIT_NOTICE 2     /* a CommitNotice to all peers */
#define NJ_WHAT_PRE_ACCEPT_REPLY 3  /* to the peer: slot, ballot, sequence, dependencies */
#define NJ_WHAT_ACCEPT_REPLY 4      /* to the peer: slot, ballot */
#define NJ_WHAT_EXP_PREPARE_REPLY 5 /* to the peer: slot, ballot asked with, and the slot's ballot, status, contents */
#define NJ_WHAT_NOTE_TO_SELF 6      /* what a PreAcceptReply of this replica to itself would say */

/* The output, 291 bytes. */
#define NJ_OUT_COUNT 0   /* 1 byte: how many records, 0 to 2 */
#define NJ_OUT_RECORDS 1 /* two records */
#define NJ_OUT_RECORD(i) (NJ_OUT_RECORDS + NJ_RECORD_SIZE * (i))
#define NJ_OUT_SIZE 291

/* The replies to a PreAccept, 112 bytes, by replica. Of one that is not marked nothing else is looked at. */
#define NJ_REPLIES_MARKS 0         /* 7 marks: who replied */
#define NJ_REPLIES_SEQUENCES 7     /* 7 numbers of 8 bytes */
#define NJ_REPLIES_DEPENDENCIES 63 /* 7 dependency sets */
#define NJ_REPLIES_SEQUENCE(replica) (NJ_REPLIES_SEQUENCES + 8 * (replica))
#define NJ_REPLIES_SET(replica) (NJ_REPLIES_DEPENDENCIES + NJ_SET_SIZE * (replica))
#define NJ_REPLIES_SIZE 112

/* The votes that a prepare has gathered, 882 bytes, by replica. Of one that is not marked only the status and the kinds are
 * looked at, which have to stand for something. A batch is 109 bytes: the count, and 4 requests, as in contents. */
#define NJ_VOTES_MARKS 0         /* 7 marks: who voted */
#define NJ_VOTES_STATUSES 7      /* 7 statuses, 1 byte each */
#define NJ_VOTES_SEQUENCES 14    /* 7 numbers of 8 bytes */
#define NJ_VOTES_DEPENDENCIES 70 /* 7 dependency sets */
#define NJ_VOTES_BATCHES 119     /* 7 batches */
#define NJ_VOTES_SEQUENCE(replica) (NJ_VOTES_SEQUENCES + 8 * (replica))
#define NJ_VOTES_SET(replica) (NJ_VOTES_DEPENDENCIES + NJ_SET_SIZE * (replica))
#define NJ_VOTES_BATCH(replica) (NJ_VOTES_BATCHES + NJ_BATCH_SIZE * (replica))
#define NJ_BATCH_SIZE 109
#define NJ_VOTES_SIZE 882

/* ---- Stack ---- */

/* Bytes of stack that are enough for a call, of the archive for x86-64: the frames on the deepest chain of calls, read off
 * the compiled code with the deepest search that a table allows, and 10,000 bytes or more for memcpy and memset, which only
 * nj_union does not call. What the caller holds, and a signal handler on the same stack, come on top. */
#define NJ_STACK_UNION 4096
#define NJ_STACK_FAST_DECISION 20480
#define NJ_STACK_RUST_CHOICE 20480
#define NJ_STACK_PAPER_CHOICE 20480
#define NJ_STACK_OPEN 131072
#define NJ_STACK_PRE_ACCEPT 20480
#define NJ_STACK_ACCEPT 20480
#define NJ_STACK_COMMIT_NOTICE 20480
#define NJ_STACK_ACCEPT_REPLY 20480
#define NJ_STACK_EXP_PREPARE 20480
#define NJ_STACK_LEAD 20480
#define NJ_STACK_ATTEMPT 278528
#define NJ_STACK_LOGGED 356352
#define NJ_STACK_MOST 356352 /* enough for each of them */

/* ---- The table ---- */

/* In all that follows image_length is NJ_IMAGE_SIZE exactly. Other slices may be longer than is said: what is past that is
 * neither read nor written. */

/* Writes an empty table of N replicas, of which own is mine, whatever the image held.
 * n 1 to 7, own below n, 1 <= simple <= super <= n.
 * Answers NJ_SHORT; 1; NJ_DONE. Stack: NJ_STACK_OPEN. */
uint64_t nj_open(uint64_t n, uint64_t own, uint64_t simple, uint64_t super, uint8_t *image, uint64_t image_length);

/* ---- Messages ---- */

/* peer: who sent it. row, column: the slot. ballot: the message's. contents: NJ_CONTENTS_SIZE bytes. out: NJ_OUT_SIZE bytes.
 * A slot that is not there is added first, null, and so are those before it in its row. */

/* A PreAccept. With a ballot not below the slot's: stores ballot and contents, PreAccepting, the dependencies raised by what
 * this table knows of the batch's keys, the sequence to one above theirs at least; source = peer; puts out a record for the
 * log. Sent again it is not nothing: dependencies and sequence are raised again.
 * Answers NJ_SHORT; 1, 2, 3, 4, 5, 6; NJ_DONE, NJ_IGNORED (a lower ballot). Stack: NJ_STACK_PRE_ACCEPT. */
uint64_t nj_pre_accept(uint8_t *image, uint64_t image_length, uint64_t peer, uint64_t row, uint64_t column, uint64_t ballot,
                       const uint8_t *contents, uint64_t contents_length, uint8_t *out, uint64_t out_length);

/* An Accept. With a ballot not below the slot's: stores ballot and contents as given, Accepting; source = peer; puts out a
 * record for the log.
 * Answers NJ_SHORT; 1, 2, 3, 4, 5, 6; NJ_DONE, NJ_IGNORED (a lower ballot). Stack: NJ_STACK_ACCEPT. */
uint64_t nj_accept(uint8_t *image, uint64_t image_length, uint64_t peer, uint64_t row, uint64_t column, uint64_t ballot,
                   const uint8_t *contents, uint64_t contents_length, uint8_t *out, uint64_t out_length);

/* A CommitNotice. With a ballot not below the slot's: stores ballot and contents as given, Committed; the source stays; puts
 * out a record for the log. That slots may run is for nj_logged, once the record is written.
 * Answers NJ_SHORT; 1, 2, 3, 4, 5, 6; NJ_DONE, NJ_IGNORED (a lower ballot). Stack: NJ_STACK_COMMIT_NOTICE. */
uint64_t nj_commit_notice(uint8_t *image, uint64_t image_length, uint64_t peer, uint64_t row, uint64_t column,
                          uint64_t ballot, const uint8_t *contents, uint64_t contents_length, uint8_t *out,
                          uint64_t out_length);

/* An AcceptReply, to the leader of the slot. Marks the peer; with simple marks or more the slot is Committed, and a record
 * for the log and then a CommitNotice are put out. Adds no slot.
 * Answers NJ_SHORT; 1, 2, 3; NJ_DONE, NJ_IGNORED (the slot is absent, not Accepting, of another ballot or not led, or the
 * peer is marked already). Stack: NJ_STACK_ACCEPT_REPLY. */
uint64_t nj_accept_reply(uint8_t *image, uint64_t image_length, uint64_t peer, uint64_t row, uint64_t column,
                         uint64_t ballot, uint8_t *out, uint64_t out_length);

/* An ExpPrepare. With a ballot above the slot's: source = peer; puts out an ExpPrepareReply with the slot's values. The
 * slot's ballot stays.
 * Answers NJ_SHORT; 1, 2, 3; NJ_DONE, NJ_IGNORED (a ballot not above). Stack: NJ_STACK_EXP_PREPARE. */
uint64_t nj_exp_prepare(uint8_t *image, uint64_t image_length, uint64_t peer, uint64_t row, uint64_t column,
                        uint64_t ballot, uint8_t *out, uint64_t out_length);

/* ---- What the host itself says ---- */

/* This replica leads the slot from now on, with no accept marks. Puts out nothing; out, NJ_OUT_SIZE bytes, says so.
 * Answers NJ_SHORT; 1, 2, 3, 7; NJ_DONE. Stack: NJ_STACK_LEAD. */
uint64_t nj_lead(uint8_t *image, uint64_t image_length, uint64_t row, uint64_t column, uint8_t *out, uint64_t out_length);

/* The slot has been logged. status: NJ_LOGGED_.., that of the record that was written. order: NJ_ORDER_SIZE bytes, ran:
 * NJ_RAN_SIZE, out: NJ_OUT_SIZE.
 *   PreAccepting: puts out a note to self where this replica leads the slot, else a PreAcceptReply to the source, if any.
 *   Accepting: where this replica leads the slot, what an AcceptReply of its own does, which may commit it; else puts out an
 *     AcceptReply to the source, if any.
 *   Committed: where the column is the row's commit bar, the bar rises to the first slot that is absent or not committed.
 *     If it rose, the slot below it is attempted and, unless that is not yet, each row's slot below its bar that has not run.
 * With NJ_DONE ran is how many slots have run, in all attempts of this call, and so many entries of order are these slots, in
 * the order in which they run. Later entries stay as they were.
 * Answers NJ_SHORT; 10, 8, 1, 2, 3, 7; NJ_DONE. Stack: NJ_STACK_LOGGED. */
uint64_t nj_logged(uint8_t *image, uint64_t image_length, uint64_t row, uint64_t column, uint64_t status, uint8_t *order,
                   uint64_t order_length, uint8_t *ran, uint64_t ran_length, uint8_t *out, uint64_t out_length);

/* Runs the slot and all that it leads to that has not run, or nothing. order: NJ_ORDER_SIZE bytes, ran: NJ_RAN_SIZE.
 * With NJ_DONE order and ran are as of nj_logged. With NJ_NOT_YET and NJ_ALREADY image and order are as before, ran is 0.
 * nj_logged makes the attempts that the rules ask for: a host needs this one only to ask again.
 * Answers NJ_SHORT; 8, 1, 2, 3; NJ_DONE, NJ_NOT_YET (an absent slot too), NJ_ALREADY. Stack: NJ_STACK_ATTEMPT. */
uint64_t nj_attempt(uint8_t *image, uint64_t image_length, uint64_t row, uint64_t column, uint8_t *order,
                    uint64_t order_length, uint8_t *ran, uint64_t ran_length);

/* ---- Decisions: these take no table, and read and write only what they are handed ---- */

/* The fast decision, on the replies to a PreAccept, this replica's own among them.
 * n, own, simple, super: as of nj_open. avoided: 1 where the fast path is avoided, else 0. replies: NJ_REPLIES_SIZE bytes.
 * silent: NJ_MARKS_SIZE bytes, the replicas that have fallen silent. out: NJ_DECISION_SIZE bytes.
 * Answers NJ_SHORT; 1, 2, 4, 6; NJ_STEP_WAIT; NJ_STEP_COMMITTED, NJ_STEP_ACCEPTING, with which out is written.
 * Stack: NJ_STACK_FAST_DECISION. */
uint64_t nj_fast_decision(uint64_t n, uint64_t own, uint64_t simple, uint64_t super, uint64_t avoided,
                          const uint8_t *replies, uint64_t replies_length, const uint8_t *silent, uint64_t silent_length,
                          uint8_t *out, uint64_t out_length);

/* The recovery choice, by the Rust's counts: simple identical PreAccepting votes are enough to go on with Accepting.
 * n, own, simple, super: as of nj_open. row: the slot's. highest: the highest ballot that was voted at. default_ballot: the
 * row's. acks: NJ_MARKS_SIZE bytes, who replied. votes: NJ_VOTES_SIZE bytes. out: NJ_CONTENTS_SIZE bytes, contents.
 * Answers NJ_SHORT; 1, 2, 4, 5, 6; NJ_STEP_WAIT; NJ_STEP_COMMITTED, NJ_STEP_ACCEPTING, NJ_STEP_PRE_ACCEPTING, with which out
 * is written. Stack: NJ_STACK_RUST_CHOICE. */
uint64_t nj_rust_choice(uint64_t n, uint64_t own, uint64_t simple, uint64_t super, uint64_t row, uint64_t highest,
                        uint64_t default_ballot, const uint8_t *acks, uint64_t acks_length, const uint8_t *votes,
                        uint64_t votes_length, uint8_t *out, uint64_t out_length);

/* The same by the paper's count: N / 2 of them, rounded down, are enough. Stack: NJ_STACK_PAPER_CHOICE. */
uint64_t nj_paper_choice(uint64_t n, uint64_t own, uint64_t simple, uint64_t super, uint64_t row, uint64_t highest,
                         uint64_t default_ballot, const uint8_t *acks, uint64_t acks_length, const uint8_t *votes,
                         uint64_t votes_length, uint8_t *out, uint64_t out_length);

/* The union of two dependency sets: of each row the greater column, or the only one. a, b and out: NJ_SET_SIZE bytes; a and b
 * may be the same.
 * Answers NJ_SHORT; NJ_DONE. Stack: NJ_STACK_UNION. */
uint64_t nj_union(const uint8_t *a, uint64_t a_length, const uint8_t *b, uint64_t b_length, uint8_t *out,
                  uint64_t out_length);

#ifdef __cplusplus
}
#endif

#endif
