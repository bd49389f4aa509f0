/* The scope paper's worked example: with 4 buckets, 4 key nodes, one worker and load 1, key 2 is inserted, found and deleted. */
#include <inttypes.h>
#include <stdio.h>

#include "welmuzra.h"

#define M 4
#define K 4
#define W 1
#define L 1
#define N (M + W + K)

struct tables {
    uint32_t header[WELMUZRA_HEADER_WORDS];
    uint32_t records[W * WELMUZRA_RECORD_WORDS];
    uint32_t nodes[N * WELMUZRA_NODE_WORDS];
    uint32_t buckets[M];
};

#define LENGTH(table) (sizeof(table) / sizeof((table)[0]))

static struct welmuzra_reply start(struct tables *t, uint32_t kind, uint32_t key)
{
    return welmuzra_start(t->header, t->records, LENGTH(t->records), t->nodes, LENGTH(t->nodes), t->buckets,
                          LENGTH(t->buckets), 0, kind, key);
}

static struct welmuzra_reply step(struct tables *t)
{
    return welmuzra_step(t->header, t->records, LENGTH(t->records), t->nodes, LENGTH(t->nodes), t->buckets,
                         LENGTH(t->buckets), 0);
}

/* One operation of worker 0 from its start to its end. */
static int operation(struct tables *t, uint32_t kind, const char *name, uint32_t key)
{
    struct welmuzra_reply reply = start(t, kind, key);
    while (reply.answer == WELMUZRA_GOING)
        reply = step(t);
    if (reply.answer != WELMUZRA_YES && reply.answer != WELMUZRA_NO) {
        printf("refused %" PRIu32 "\n", reply.answer);
        return 1;
    }
    printf("0 %s %" PRIu32 " %s %" PRIu32 "\n", name, key, reply.answer == WELMUZRA_YES ? "yes" : "no", reply.steps);
    return 0;
}

/* The registered keys: the unmarked nodes on the chain from node 1 whose split key is a regular one, so odd. */
static unsigned registered(const struct tables *t)
{
    unsigned keys = 0;
    for (uint32_t node = 1; node != 0; node = t->nodes[(node - 1) * WELMUZRA_NODE_WORDS + 1] / 2) {
        const uint32_t *words = &t->nodes[(node - 1) * WELMUZRA_NODE_WORDS];
        keys += words[0] % 2 == 1 && words[1] % 2 == 0;
    }
    return keys;
}

int main(void)
{
    static struct tables t;
    struct welmuzra_reply reply = welmuzra_prepare(t.header, t.records, LENGTH(t.records), t.nodes, LENGTH(t.nodes),
                                                   t.buckets, LENGTH(t.buckets), M, K, W, L);
    if (reply.answer != WELMUZRA_GOING) {
        printf("refused %" PRIu32 "\n", reply.answer);
        return 1;
    }
    printf("register %d %d %d %d\n", M, K, W, L);
    if (operation(&t, WELMUZRA_INSERT, "insert", 2) || operation(&t, WELMUZRA_FIND, "find", 2)
        || operation(&t, WELMUZRA_DELETE, "delete", 2))
        return 1;
    printf("end %u %" PRId32 " %" PRIu32 "\n", registered(&t), (int32_t)t.header[WELMUZRA_COUNT], t.header[WELMUZRA_SIZE]);
    return 0;
}
