/* SPDX-License-Identifier: MIT OR Apache-2.0
 * Trees that grow. A tree has as many nodes as it was opened with. Where a write finds too few, its map continues in a tree with more.
 *
 * With one thread: maple_copy into another tree, which takes its place.
 *
 * With threads: one writer, and readers that take no lock. The writer copies the tree into one with twice the nodes. It opens a user of the
 * new tree for each reader, and then publishes the number of the newest tree. A reader looks at that number before it reads. Where it has
 * risen the reader leaves the old tree for the new one; the old tree's memory is given back with its last user. What a reader found in the
 * old tree was true until then.
 *     cc grow.c $(pkg-config --cflags --libs maple) -pthread && ./a.out */
#include <errno.h>
#include <inttypes.h>
#include <maple_shared.h>
#include <pthread.h>
#include <stdio.h>
#include <stdlib.h>

enum { READERS = 3, RANGES = 5000, TREES = 12 };

static void stop(const char *what, uint64_t number)
{
    fprintf(stderr, "%s: %" PRIu64 "\n", what, number);
    exit(1);
}

static void must(const char *what, uint32_t status)
{
    if (status) stop(what, status);
}

/* ---- a tree that one thread uses */

static void of_one_thread(void)
{
    struct maple_tree tree = {0, 0};
    struct maple_form form;
    uint64_t rows = 4, old, trees = 1;
    must("open", maple_open(&tree, MAPLE_RANGE, rows));
    for (uint64_t n = 0; n < RANGES; n++) {
        uint32_t status;
        while ((status = maple_store(&tree, 10 * n, 10 * n + 4, maple_value(n), &old)) == ENOMEM) {
            struct maple_tree more = {0, 0};
            must("copy", maple_copy(&tree, &more, rows *= 2));
            maple_close(&tree);
            tree = more;
            trees++;
        }
        must("store", status);
    }
    must("check", maple_check(&tree, &form));
    printf("%" PRIu64 " ranges, in the tree with the number %" PRIu64 "\n", form.ranges, trees);
    maple_close(&tree);
}

/* ---- a tree that threads share */

/* A thread: its users of the trees, of which it uses the last that it knows of. */
struct reader {
    struct maple_user users[TREES];
    pthread_t thread;
    uint64_t reads, moves;
} __attribute__((aligned(128)));

static struct reader readers[READERS];
static struct maple_user writer;
static uint64_t rows = 4, newest, stored;

/* Each range that was stored before a read began is found. */
static void *reads(void *at)
{
    struct reader *me = (struct reader *)at;
    uint64_t mine = 0;
    for (uint64_t seen = 0; seen < RANGES; me->reads++) {
        struct maple_read read;
        seen = __atomic_load_n(&stored, __ATOMIC_ACQUIRE);
        uint64_t last = __atomic_load_n(&newest, __ATOMIC_ACQUIRE);
        for (; mine < last; mine++, me->moves++) must("leave", maple_wait_leave(&me->users[mine]));
        if (seen == 0) continue;
        uint64_t n = 7 * me->reads % seen;
        must("a range that is there", maple_shared_load(&me->users[mine], 10 * n, &read));
        if (maple_to_value(read.entry) != n) stop("another entry", read.entry);
    }
    maple_shared_close(&me->users[mine]);
    return NULL;
}

/* Continues with twice the nodes. */
static void grow(void)
{
    struct maple_user more = {0, 0};
    if (newest + 1 == TREES) stop("no more trees", TREES);
    must("copy", maple_wait_copy(&writer, &more, rows *= 2, READERS + 1, MAPLE_MOST_CALLS));
    for (struct reader *it = readers; it < readers + READERS; it++) must("share", maple_wait_share(&more, &it->users[newest + 1]));
    maple_shared_close(&writer);
    writer = more;
    __atomic_store_n(&newest, newest + 1, __ATOMIC_RELEASE);
}

static void of_threads(void)
{
    struct maple_done done;
    uint64_t all_move = 1;
    must("open", maple_shared_open(&writer, MAPLE_RANGE, rows, READERS + 1, MAPLE_MOST_CALLS));
    for (struct reader *it = readers; it < readers + READERS; it++) must("share", maple_wait_share(&writer, &it->users[0]));
    for (struct reader *it = readers; it < readers + READERS; it++)
        if (pthread_create(&it->thread, NULL, reads, it)) stop("no thread", 0);
    for (uint64_t n = 0; n < RANGES; n++) {
        uint32_t status;
        while ((status = maple_wait_store(&writer, 10 * n, 10 * n + 4, maple_value(n), &done)) == ENOMEM) grow();
        must("store", status);
        __atomic_store_n(&stored, n + 1, __ATOMIC_RELEASE);
    }
    for (struct reader *it = readers; it < readers + READERS; it++) {
        pthread_join(it->thread, NULL);
        all_move &= it->moves == newest;
    }
    printf("%d ranges, and each reader went from tree to tree: %s\n", RANGES, all_move ? "yes" : "no");
    maple_shared_close(&writer);
}

int main(void)
{
    of_one_thread();
    of_threads();
    return 0;
}
