/*
 * Welmuzra: a register of scan keys, 0 to 2,147,483,647, whose workers are moved by turns.
 *
 * The library allocates nothing and keeps nothing. The caller lends four tables of 32-bit words to each call:
 *
 *   header    7 words: M, K, W, L, size, count, busy
 *   records   15 words for each of W workers, side by side, in the order of enum welmuzra_record
 *   nodes     3 words for each of N = M + W + K nodes: split key, link (2 * next + mark), standing
 *   buckets   M words
 *
 * Every call takes any words and any numbers and ends with an answer of the table below; it reads and writes nothing
 * outside the tables, and no word past those counted above. A length is a number of words, and may be larger than needed.
 *
 * What a caller owes: no pointer is null, each leads to as many words as its length says (the header: 7), aligned to 4 bytes;
 * the tables of one call do not overlap; and no other thread touches them while the call runs.
 *
 * Each function is proved to answer and to leave in every word exactly what the scope paper's steps say, whatever it is
 * lent. A promise stands with each function.
 */
#ifndef WELMUZRA_H
#define WELMUZRA_H

#include <stddef.h>
#include <stdint.h>

#ifdef __cplusplus
extern "C" {
#endif

#define WELMUZRA_HEADER_WORDS 7
#define WELMUZRA_RECORD_WORDS 15
#define WELMUZRA_NODE_WORDS 3

/* What a call returns. 10 to 17 refuse: no word is changed. 1, 2, 18 and 19 end an operation. */
enum welmuzra_answer {
    WELMUZRA_GOING = 0,         /* going on; started, stepped or prepared */
    WELMUZRA_YES = 1,
    WELMUZRA_NO = 2,
    WELMUZRA_LIMIT = 10,        /* a limit is broken (preparing) */
    WELMUZRA_SHORT = 11,        /* a lent table is too short */
    WELMUZRA_DAMAGED = 12,      /* the words are those of no register */
    WELMUZRA_NO_WORKER = 13,    /* the worker's number is W or more */
    WELMUZRA_KEY_ABOVE = 14,    /* the key is above the limit */
    WELMUZRA_IS_BUSY = 15,      /* start on a busy worker */
    WELMUZRA_IS_IDLE = 16,      /* step on an idle worker */
    WELMUZRA_NO_KIND = 17,      /* the kind isn't one of enum welmuzra_kind */
    WELMUZRA_NO_KEY_NODE = 18,  /* an insert ended: no key node is free */
    WELMUZRA_NO_DUMMY = 19      /* an operation ended: no dummy node is free */
};

/* The kinds of operation. */
enum welmuzra_kind {
    WELMUZRA_INSERT = 1,
    WELMUZRA_FIND = 2,
    WELMUZRA_DELETE = 3
};

/* The words of a header. */
enum welmuzra_header {
    WELMUZRA_BUCKETS,   /* M, a power of two, 2 to 1,024 */
    WELMUZRA_KEYS,      /* K, 1 to 4,096 */
    WELMUZRA_WORKERS,   /* W, 1 to 16 */
    WELMUZRA_LOAD,      /* L, 1 to 8 */
    WELMUZRA_SIZE,      /* the buckets in use, a power of two, 2 to M */
    WELMUZRA_COUNT,     /* counted keys; with the top bit set it is negative */
    WELMUZRA_BUSY       /* the set of busy workers, bit w for worker w */
};

/* The words of a record; a worker is idle where its place is 0, and then all its words are 0. */
enum welmuzra_record {
    WELMUZRA_PLACE,
    WELMUZRA_ERRAND,
    WELMUZRA_KIND,
    WELMUZRA_KEY,
    WELMUZRA_WANTED,
    WELMUZRA_MAKING,
    WELMUZRA_SIZE_READ,
    WELMUZRA_START,
    WELMUZRA_PREV,
    WELMUZRA_CUR,
    WELMUZRA_NEXT,
    WELMUZRA_MARKED,
    WELMUZRA_HELD,
    WELMUZRA_DUMMY,
    WELMUZRA_STEPS
};

/* What a call answers: a number of enum welmuzra_answer, and where an operation ended the steps that it took, else 0. */
struct welmuzra_reply {
    uint32_t answer;
    uint32_t steps;
};

/*
 * Prepares a register of M buckets, K key nodes, W workers and load L.
 * Promise: 10 where a limit is broken, else 11 where a table is too short, and then no word is changed. Else 0: the header is
 * m, k, w, l, 2, 0, 0; the words of W records and of N nodes are 0 but node 1, which is taken; bucket 0 holds 1, the others 0.
 */
struct welmuzra_reply welmuzra_prepare(
    uint32_t header[WELMUZRA_HEADER_WORDS],
    uint32_t *records, size_t records_len,
    uint32_t *nodes, size_t nodes_len,
    uint32_t *buckets, size_t buckets_len,
    uint32_t m, uint32_t k, uint32_t w, uint32_t l);

/*
 * A worker starts an operation on a key. Nodes and buckets are lent as for a step, and are not written; their lengths are looked at.
 * Promise: the first of 12 (header), 11, 13, 17, 14, 12 (record), 15 whose case holds, and then no word is changed. Else 0: the
 * worker's busy bit is set and its record is that of the operation before its first step; no other word is changed.
 */
struct welmuzra_reply welmuzra_start(
    uint32_t header[WELMUZRA_HEADER_WORDS],
    uint32_t *records, size_t records_len,
    uint32_t *nodes, size_t nodes_len,
    uint32_t *buckets, size_t buckets_len,
    uint32_t worker, uint32_t kind, uint32_t key);

/*
 * A worker takes one step: one shared access, with the private work that follows.
 * Promise: the first of 12 (header), 11, 13, 12 (record), 16, 12 (a word read, a missing node) whose case holds, and then no word
 * is changed. Else the words are those that the step at the record's place leaves. 0: the operation goes on. 1, 2, 18, 19: it
 * ended, after reply.steps steps; the nodes that it held are free, its record is idle, and nobody waits for the worker.
 */
struct welmuzra_reply welmuzra_step(
    uint32_t header[WELMUZRA_HEADER_WORDS],
    uint32_t *records, size_t records_len,
    uint32_t *nodes, size_t nodes_len,
    uint32_t *buckets, size_t buckets_len,
    uint32_t worker);

#ifdef __cplusplus
}
#endif

#endif
