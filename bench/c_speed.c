/* Times the works of mt_bench through the library for C: c_speed WORK N [READERS].
 *
 * It prints `WORK N NANOSECONDS`, the time of one operation on one thread. The works, their draws and seeds are those of mt_bench:
 * r or a before the name is the kind of the tree, and t before that a tree that threads share, of which one user makes each call.
 * `rreaders` and `rconc` (`areaders`, `aconc`) have several threads load from one shared tree, 4,000,000 times each, rconc beside
 * one that erases and stores ranges until all are done; they print `WORK N readers R reads_mops X writes_mops Y`. */
#define _POSIX_C_SOURCE 200809L
#include "maple_shared.h"
#include <errno.h>
#include <inttypes.h>
#include <pthread.h>
#include <stdio.h>
#include <stdlib.h>
#include <string.h>
#include <time.h>

typedef uint64_t u64;

// as many nodes as the trees of mt_bench have
#define ROWS (ranges + 128 < MAPLE_MOST_ROWS ? ranges + 128 : MAPLE_MOST_ROWS)
static u64 ranges, times, *order, *starts;
static volatile u64 sink;

static u64 draw(u64 *state, u64 below)
{
    *state = *state * 6364136223846793005u + 1442695040888963407u;
    return ((*state >> 32) * below) >> 32;
}

static double now(void)
{
    struct timespec t;

    clock_gettime(CLOCK_MONOTONIC, &t);
    return t.tv_sec * 1e9 + t.tv_nsec;
}

static void must(uint32_t status)
{
    if (status) {
        fprintf(stderr, "c_speed: a call answered %" PRIu32 "\n", status);
        exit(1);
    }
}

/* ---- the works, once for a tree of one's own and once for a user of a shared one */

#define ALLOCATED 4096
#define HIGHEST ((UINT64_C(1) << 48) - 1)

#define WORKS(P, HANDLE, CALLS, ANSWERS, READ, START, WINDOW, ENTRY)                                    \
    static void P##store(HANDLE *tree, u64 i, u64 entry)                                                \
    {                                                                                                   \
        ANSWERS;                                                                                        \
        must(CALLS(store)(tree, 16 * i, 16 * i + 9, entry, &answer));                                   \
    }                                                                                                   \
    static void P##store_seq(HANDLE *tree)                                                              \
    {                                                                                                   \
        for (u64 i = 0; i < ranges; i++)                                                                \
            P##store(tree, i, 4096 + 8 * i);                                                            \
    }                                                                                                   \
    static void P##store_rand(HANDLE *tree)                                                             \
    {                                                                                                   \
        for (u64 i = 0; i < ranges; i++)                                                                \
            P##store(tree, order[i], 4096 + 8 * order[i]);                                              \
    }                                                                                                   \
    static void P##overwrite(HANDLE *tree)                                                              \
    {                                                                                                   \
        u64 x = 7;                                                                                      \
        for (u64 n = 0; n < times; n++) {                                                               \
            u64 i = draw(&x, ranges);                                                                   \
            P##store(tree, i, 4096 + 8 * draw(&x, 1 << 20));                                            \
        }                                                                                               \
    }                                                                                                   \
    static u64 P##loads(HANDLE *tree, u64 x, u64 count)                                                 \
    {                                                                                                   \
        u64 sum = 0;                                                                                    \
        WINDOW;                                                                                         \
        for (u64 n = 0; n < count; n++)                                                                 \
            sum += ENTRY(tree, draw(&x, 16 * ranges));                                                  \
        return sum;                                                                                     \
    }                                                                                                   \
    static void P##load(HANDLE *tree) { sink = P##loads(tree, 7, times); }                              \
    static void P##iter(HANDLE *tree)                                                                   \
    {                                                                                                   \
        u64 sum = 0;                                                                                    \
        READ;                                                                                           \
        for (u64 n = 0; n < times;)                                                                     \
            for (struct maple_walk walk = {0, 0}; CALLS(step)(tree, &walk, &read) == 0; n++)            \
                sum += read.entry + read.first;                                                         \
        sink = sum;                                                                                     \
    }                                                                                                   \
    static void P##erase_at(HANDLE *tree, u64 index)                                                    \
    {                                                                                                   \
        struct P##erased was;                                                                           \
        must(CALLS(erase)(tree, index, &was.it));                                                       \
    }                                                                                                   \
    static void P##erase(HANDLE *tree)                                                                  \
    {                                                                                                   \
        for (u64 i = 0; i < ranges; i++)                                                                \
            P##erase_at(tree, 16 * order[i] + 5);                                                       \
    }                                                                                                   \
    static u64 P##alloc_one(HANDLE *tree, u64 size)                                                     \
    {                                                                                                   \
        ANSWERS;                                                                                        \
        must(CALLS(alloc)(tree, size, 0, HIGHEST, ALLOCATED, &answer));                                 \
        return START;                                                                                   \
    }                                                                                                   \
    static void P##alloc(HANDLE *tree)                                                                  \
    {                                                                                                   \
        u64 x = 7;                                                                                      \
        for (u64 i = 0; i < ranges; i++)                                                                \
            starts[i] = P##alloc_one(tree, 1 + draw(&x, 64));                                           \
    }                                                                                                   \
    static void P##ralloc(HANDLE *tree)                                                                 \
    {                                                                                                   \
        u64 x = 7;                                                                                      \
        ANSWERS;                                                                                        \
        for (u64 i = 0; i < ranges; i++) {                                                              \
            must(CALLS(ralloc)(tree, 1 + draw(&x, 64), 0, HIGHEST, ALLOCATED, &answer));                \
            starts[i] = START;                                                                          \
        }                                                                                               \
    }                                                                                                   \
    static void P##holes(HANDLE *tree)                                                                  \
    {                                                                                                   \
        u64 x = 7;                                                                                      \
        for (u64 i = 0; i < ranges; i++)                                                                \
            P##alloc_one(tree, 1 + draw(&x, 6));                                                        \
    }                                                                                                   \
    static void P##churn(HANDLE *tree)                                                                  \
    {                                                                                                   \
        u64 x = 8;                                                                                      \
        for (u64 n = 0; n < times; n++) {                                                               \
            u64 k = draw(&x, ranges);                                                                   \
            P##erase_at(tree, starts[k]);                                                               \
            starts[k] = P##alloc_one(tree, 1 + draw(&x, 64));                                           \
        }                                                                                               \
    }

#define OWN(call) maple_##call
#define SHARED(call) SHARED_##call
#define SHARED_step maple_shared_step
#define SHARED_store maple_wait_store
#define SHARED_erase maple_wait_erase
#define SHARED_alloc maple_wait_alloc
#define SHARED_ralloc maple_wait_ralloc
struct own_erased { struct maple_range it; };
struct shared_erased { struct maple_done it; };
#define SHARED_ENTRY(user, index) maple_shared_entry(user, index, &window)
WORKS(own_, struct maple_tree, OWN, u64 answer, struct maple_range read, answer, , maple_entry)
WORKS(shared_, struct maple_user, SHARED, struct maple_done answer, struct maple_read read, answer.word, struct maple_window window, SHARED_ENTRY)

/* Loads and steps in batches, of a tree of one's own. */
#define BATCH 64
static void own_load_many(struct maple_tree *tree)
{
    u64 x = 7, sum = 0, indexes[BATCH], entries[BATCH];

    for (u64 left = times, n; left; left -= n) {
        n = left < BATCH ? left : BATCH;
        for (u64 k = 0; k < n; k++)
            indexes[k] = draw(&x, 16 * ranges);
        must(maple_load_many(tree, indexes, n, entries, n));
        for (u64 k = 0; k < n; k++)
            sum += entries[k];
    }
    sink = sum;
}

static void own_step_many(struct maple_tree *tree)
{
    struct maple_range found[BATCH];
    u64 sum = 0;
    size_t count;

    for (u64 n = 0; n < times;)
        for (struct maple_walk walk = {0, 0}; maple_step_many(tree, &walk, found, BATCH, &count) == 0; n += count)
            for (size_t k = 0; k < count; k++)
                sum += found[k].entry + found[k].first;
    sink = sum;
}

/* The same of a shared tree. */
static void shared_load_many(struct maple_user *user)
{
    u64 x = 7, sum = 0, indexes[BATCH], entries[BATCH];
    struct maple_window window;

    for (u64 left = times, n; left; left -= n) {
        n = left < BATCH ? left : BATCH;
        for (u64 k = 0; k < n; k++)
            indexes[k] = draw(&x, 16 * ranges);
        must(maple_shared_load_many(user, indexes, n, entries, n, &window));
        for (u64 k = 0; k < n; k++)
            sum += entries[k];
    }
    sink = sum;
}

static void shared_step_many(struct maple_user *user)
{
    struct maple_range found[MAPLE_MOST_STEPS];
    struct maple_window window;
    u64 sum = 0, count;

    for (u64 n = 0; n < times;)
        for (struct maple_walk walk = {0, 0}; maple_shared_step_many(user, &walk, found, MAPLE_MOST_STEPS, &count, &window) == 0; n += count)
            for (u64 k = 0; k < count; k++)
                sum += found[k].entry + found[k].first;
    sink = sum;
}

/* A work: what stands before it, untimed, and whether it is done `times` times or once for each range. */
#define WORK(name, before, for_each) \
    {#name, for_each, own_##before, own_##name, shared_##before, shared_##name}
static void own_nothing(struct maple_tree *tree) { (void)tree; }
static void shared_nothing(struct maple_user *user) { (void)user; }
static const struct work {
    const char *name;
    int for_each;
    void (*own_before)(struct maple_tree *), (*own_work)(struct maple_tree *);
    void (*shared_before)(struct maple_user *), (*shared_work)(struct maple_user *);
} works[] = {
    WORK(load, store_rand, 0), WORK(iter, store_rand, 0), WORK(overwrite, store_rand, 0),
    WORK(load_many, store_rand, 0), WORK(step_many, store_rand, 0),
    WORK(store_seq, nothing, 1), WORK(store_rand, nothing, 1), WORK(erase, store_rand, 1),
    WORK(alloc, nothing, 1), WORK(ralloc, nothing, 1), WORK(holes, store_seq, 1), WORK(churn, alloc, 0),
};

/* The nanoseconds of one round on a new tree. */
static double own_round(const struct work *work, uint32_t kind)
{
    struct maple_tree tree = {0};
    double start, took;

    must(maple_open(&tree, kind, ROWS));
    work->own_before(&tree);
    start = now();
    work->own_work(&tree);
    took = now() - start;
    maple_close(&tree);
    return took;
}

#define MOST_CALLS (UINT64_C(1) << 60)

static double shared_round(const struct work *work, uint32_t kind)
{
    struct maple_user user = {0};
    double start, took;

    must(maple_shared_open(&user, kind, ROWS, 1, MOST_CALLS));
    work->shared_before(&user);
    start = now();
    work->shared_work(&user);
    took = now() - start;
    maple_shared_close(&user);
    return took;
}

static double time_of(const struct work *work, uint32_t kind, int shared)
{
    u64 rounds = work->for_each && ranges < 100000 ? 100000 / ranges : 1;
    double sum = 0;

    for (u64 i = 0; i <= rounds; i++) {
        double took = shared ? shared_round(work, kind) : own_round(work, kind);
        if (i)
            sum += took;
    }
    return sum / rounds / (work->for_each ? ranges : times);
}

/* ---- threads */

#define LOADS 4000000u
#define MOST_READERS 60

static int go, at_work;

/* Each on lines of its own: a call writes its user. */
struct reader {
    struct maple_user user;
    u64 seed, sum;
    pthread_t thread;
} __attribute__((aligned(128)));

static void *read_on(void *arg)
{
    struct reader *reader = arg;

    __atomic_add_fetch(&at_work, 1, __ATOMIC_SEQ_CST);
    while (!__atomic_load_n(&go, __ATOMIC_ACQUIRE))
        ;
    reader->sum = shared_loads(&reader->user, reader->seed, LOADS);
    __atomic_sub_fetch(&at_work, 1, __ATOMIC_SEQ_CST);
    return NULL;
}

/* Erases ranges that are there and stores those that are not, until no reader is at work; how often. */
static u64 write_on(struct maple_user *user)
{
    char *stored = malloc(ranges);
    u64 x = 9, done = 0;

    if (!stored)
        must(ENOMEM);
    memset(stored, 1, ranges);
    while (__atomic_load_n(&at_work, __ATOMIC_RELAXED) > 0) {
        u64 i = draw(&x, ranges);
        if (stored[i])
            shared_erase_at(user, 16 * i + 5);
        else
            shared_store(user, i, 4096 + 8 * i);
        stored[i] = !stored[i];
        done++;
    }
    free(stored);
    return done;
}

static void together(const char *name, uint32_t kind, int readers, int writes)
{
    static struct reader all[MOST_READERS];
    struct maple_user writer = {0};
    u64 done = 0;

    must(maple_shared_open(&writer, kind, MAPLE_MOST_ROWS, readers + 1, MOST_CALLS));
    shared_store_rand(&writer);
    for (int i = 0; i < readers; i++) {
        all[i].seed = 100 + i;
        must(maple_share(&writer, &all[i].user));
        must(pthread_create(&all[i].thread, NULL, read_on, &all[i]));
    }
    while (__atomic_load_n(&at_work, __ATOMIC_SEQ_CST) < readers)
        ;
    double start = now();
    __atomic_store_n(&go, 1, __ATOMIC_SEQ_CST);
    if (writes)
        done = write_on(&writer);
    for (int i = 0; i < readers; i++)
        pthread_join(all[i].thread, NULL);
    double took = now() - start;
    for (int i = 0; i < readers; i++)
        maple_shared_close(&all[i].user);
    maple_shared_close(&writer);
    printf("%s %" PRIu64 " readers %d reads_mops %.2f writes_mops %.3f\n", name, ranges, readers, readers * (LOADS / took) * 1e3, done / took * 1e3);
}

static void shuffle(void)
{
    u64 x = 42;

    for (u64 i = 0; i < ranges; i++)
        order[i] = i;
    for (u64 k = ranges - 1; k >= 1; k--) {
        u64 j = draw(&x, k + 1), v = order[k];
        order[k] = order[j];
        order[j] = v;
    }
}

static int usage(void)
{
    fprintf(stderr, "usage: c_speed [t][ra]{load,load_many,iter,step_many,store_seq,store_rand,overwrite,erase} N, [t]a{alloc,ralloc,holes,churn} N, [ra]{readers,conc} N READERS\n");
    return 2;
}

int main(int argc, char **argv)
{
    const char *name = argc > 1 ? argv[1] : "";
    int shared = name[0] == 't', readers = argc > 3 ? atoi(argv[3]) : 0;
    uint32_t kind = name[shared] == 'a' ? MAPLE_ALLOC : MAPLE_RANGE;

    ranges = argc > 2 ? strtoull(argv[2], NULL, 10) : 0;
    if (ranges < 1 || ranges > 1000000 || readers < 0 || readers > MOST_READERS || !strchr("ra", name[shared]) || !name[0])
        return usage();
    times = ranges > 1000000 ? ranges : 1000000;
    order = malloc(ranges * sizeof *order);
    starts = malloc(ranges * sizeof *starts);
    if (!order || !starts)
        must(ENOMEM);
    shuffle();
    name += shared + 1;
    if (!strcmp(name, "readers") || !strcmp(name, "conc")) {
        together(argv[1], kind, readers, name[0] == 'c');
        return 0;
    }
    for (size_t i = 0; i < sizeof works / sizeof works[0]; i++)
        if (!strcmp(name, works[i].name) && (!shared || works[i].shared_work)) {
            printf("%s %" PRIu64 " %.1f\n", argv[1], ranges, time_of(&works[i], kind, shared));
            return 0;
        }
    return usage();
}
