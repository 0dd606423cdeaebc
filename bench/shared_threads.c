/* Four threads on one shared tree: two that write and now and then read, and two that read, each with a user of its own, over a barrier
 * at the start: shared_threads LOG TRANSCRIPT [SEED]. The tree is of the kind with the number SEED modulo 4.
 * It writes the log and the answers, for mtreplay verify, and has maple_verify judge the same. Then each thread opens further
 * users, more than there are places for, and has them leave; and a walk is left unfinished by a thread that ends, and one goes on
 * slowly, beside calls. It prints how many reads overlapped a call of another thread, and how often users came; or says what was wrong
 * first and exits with 1. */
#define _POSIX_C_SOURCE 200809L
#include "maple_shared.h"
#include "maple_log.h"
#include <errno.h>
#include <inttypes.h>
#include <pthread.h>
#include <sched.h>
#include <stdio.h>
#include <stdlib.h>
#include <string.h>
#include <time.h>

enum { LANES = 4, WRITERS = 2, STEPS = 20000, SPAN = 2000, MORE = 2, COMINGS = 2000 };

/* What a step asks or does, its word in a log, and how many numbers stand behind. */
enum verb { LOAD, FIND, NEXT, PREV, RFIND, SCAN, STORE, PSTORE, INSERT, ERASE, CLEAR, ALLOC, RALLOC, GAP, RGAP };
static const struct { const char *word; int numbers; } verbs[] = {
    {"load", 1}, {"find", 2}, {"next", 2}, {"prev", 2}, {"rfind", 2}, {"scan", 3}, {"store", 3}, {"pstore", 3},
    {"insert", 3}, {"erase", 1}, {"clear", 0}, {"alloc", 4}, {"ralloc", 4}, {"gap", 3}, {"rgap", 3},
};

struct want {
    enum verb verb;
    uint64_t at[4];
};

/* A thread: its user, its steps, what it wrote of them, how many calls it made, and what it met. */
static struct lane {
    struct maple_user user;
    struct want wants[STEPS];
    char *text;
    size_t size;
    uint64_t calls, taken, given_up, overlapped, last, came, busy;
} lanes[LANES];
static pthread_barrier_t start;

static void fail(const char *what, uint64_t status) {
    fprintf(stderr, "%s: %" PRIu64 "\n", what, status);
    exit(1);
}

static void same(const char *what, uint64_t got, uint64_t want) {
    if (got != want) fail(what, got);
}

/* ---- what a thread does */

static uint32_t call_once(struct maple_user *u, const struct want *w, struct maple_done *done) {
    const uint64_t *at = w->at;
    switch (w->verb) {
    case STORE: return maple_try_store(u, at[0], at[1], at[2], done);
    case PSTORE: return maple_try_store_pre(u, at[0], at[1], at[2], done);
    case INSERT: return maple_try_insert(u, at[0], at[1], at[2], done);
    case ERASE: return maple_try_erase(u, at[0], done);
    case CLEAR: return maple_try_clear(u, done);
    case ALLOC: return maple_try_alloc(u, at[0], at[1], at[2], at[3], done);
    case RALLOC: return maple_try_ralloc(u, at[0], at[1], at[2], at[3], done);
    case GAP: return maple_try_gap(u, at[0], at[1], at[2], done);
    default: return maple_try_rgap(u, at[0], at[1], at[2], done);
    }
}

/* A call's reply, as a transcript has it. */
static void tell_call(FILE *out, enum verb verb, uint32_t status, const struct maple_done *done) {
    switch (status) {
    case 0:
        if (verb == ERASE) fprintf(out, "was %" PRIu64 " %" PRIu64 " %" PRIu64 "\n", done->first, done->last, done->entry);
        else if (verb >= ALLOC) fprintf(out, "start %" PRIu64 "\n", done->word);
        else if (done->word) fprintf(out, "over %" PRIu64 "\n", done->word);
        else fputs("ok\n", out);
        break;
    case ENOENT: fputs("none\n", out); break;
    case EEXIST: fputs("exists\n", out); break;
    case EBUSY: fputs("busy\n", out); break;
    case EINVAL: fputs("invalid\n", out); break;
    default: fail("a call", status);
    }
}

static void call(struct lane *lane, const struct want *w, FILE *out, int line) {
    struct maple_done done;
    uint32_t status;
    while ((status = call_once(&lane->user, w, &done)) == EAGAIN) {
        lane->taken++;
        sched_yield();
    }
    lane->calls++;
    lane->last = done.call;
    fprintf(out, "%d %" PRIu64 " ", line, done.call);
    tell_call(out, w->verb, status, &done);
}

static uint32_t read_once(struct maple_user *u, const struct want *w, struct maple_walk *walk, struct maple_read *read) {
    const uint64_t *at = w->at;
    switch (w->verb) {
    case LOAD: return maple_shared_load(u, at[0], read);
    case FIND: return maple_shared_find(u, at[0], at[1], read);
    case NEXT: return maple_shared_next(u, at[0], at[1], read);
    case PREV: return maple_shared_prev(u, at[0], at[1], read);
    case RFIND: return maple_shared_rfind(u, at[0], at[1], read);
    default: return maple_shared_step(u, walk, read);
    }
}

/* A read, or each step of a scan, which is a read by itself. */
static void ask(struct lane *lane, const struct want *w, FILE *out, int line) {
    struct maple_walk walk = {.next = w->at[0]};
    uint64_t count = w->verb == SCAN ? w->at[2] : 1;
    uint32_t status = 0;
    while (count-- > 0 && status == 0) {
        struct maple_read read;
        while ((status = read_once(&lane->user, w, &walk, &read)) == EAGAIN) {
            lane->given_up++;
            sched_yield();
        }
        lane->overlapped += read.hi > read.lo;
        lane->last = read.hi;
        fprintf(out, "%d %" PRIu64 " %" PRIu64 " ", line, read.lo, read.hi);
        if (status == ENOENT) fputs("none\n", out);
        else if (status) fail("a read", status);
        else if (w->verb == LOAD) fprintf(out, "entry %" PRIu64 "\n", read.entry);
        else fprintf(out, "range %" PRIu64 " %" PRIu64 " %" PRIu64 "\n", read.first, read.last, read.entry);
    }
}

/* The steps of a lane stand in the log behind two lines, and behind a line for each lane. */
static void *work(void *p) {
    struct lane *lane = p;
    int line = 3 + (int)(lane - lanes) * (STEPS + 1);
    FILE *out = open_memstream(&lane->text, &lane->size);
    if (!out) fail("memory", 0);
    pthread_barrier_wait(&start);
    for (const struct want *w = lane->wants; w < lane->wants + STEPS; w++) {
        if (w->verb >= STORE) call(lane, w, out, ++line);
        else ask(lane, w, out, ++line);
    }
    fclose(out);
    return NULL;
}

/* Opens a further user, where there is a place and nobody else is at the places, which reads and leaves. */
static void *come_and_go(void *p) {
    struct lane *lane = p;
    pthread_barrier_wait(&start);
    for (int i = 0; i < COMINGS; i++) {
        struct maple_user more = {0};
        struct maple_read read;
        uint32_t status = maple_share(&lane->user, &more);
        if (status == EAGAIN || status == EUSERS) {
            lane->busy++;
            sched_yield();
            continue;
        }
        if (status) fail("a further user", status);
        lane->came++;
        status = maple_shared_find(&more, 0, UINT64_MAX, &read);
        if (status && status != ENOENT) fail("its read", status);
        sched_yield();
        if ((status = maple_wait_leave(&more))) fail("its leave", status);
    }
    return NULL;
}

/* All threads at such work, from one moment on. */
static void together(void *(*all)(void *)) {
    pthread_t threads[LANES];
    for (int i = 0; i < LANES; i++)
        if (pthread_create(threads + i, NULL, all, lanes + i)) fail("a thread", i);
    for (int i = 0; i < LANES; i++)
        if (pthread_join(threads[i], NULL)) fail("its end", i);
}

/* ---- walks beside calls, in a small tree of one writer and one that walks */

enum { WALKED = 20, SLOW_STEPS = 100 };

static struct walker {
    struct maple_user writer, user;
    int gives_back, is_over;
} walker;

/* The writer's ranges stand all the time, and between them it stores and erases: each call replaces a leaf. */
static uint32_t replace_leaf(uint64_t n) {
    struct maple_done done;
    return maple_wait_store_pre(&walker.writer, 10 * (n % WALKED) + 5, 10 * (n % WALKED) + 9, n / WALKED % 2 ? 0 : 8, &done);
}

static void open_small(uint64_t rows) {
    struct maple_done done;
    same("a small tree", maple_shared_open(&walker.writer, MAPLE_RANGE, rows, 2, MAPLE_MOST_CALLS), 0);
    same("who walks", maple_share(&walker.writer, &walker.user), 0);
    for (uint64_t n = 0; n < WALKED; n++) same("a store", maple_wait_store(&walker.writer, 10 * n, 10 * n + 4, 4 * n + 4096, &done), 0);
}

static void close_small(void) {
    maple_shared_close(&walker.user);
    maple_shared_close(&walker.writer);
}

static void *three_steps(void *p) {
    struct maple_walk walk = {0};
    struct maple_read read;
    for (int i = 0; i < 3; i++) same("a step", maple_shared_step(&walker.user, &walk, &read), 0);
    return p;
}

/* A thread steps three times and ends, its walk as it is: then the rows that die are not free, and calls are refused before long. Who
 * has its user behind it gives the leaf back, and none is. */
static void leave_unfinished(void) {
    pthread_t thread;
    uint64_t n = 0;
    open_small(40);
    if (pthread_create(&thread, NULL, three_steps, NULL) || pthread_join(thread, NULL)) fail("a thread that steps", 0);
    while (n < 1000 && replace_leaf(n) == 0) n++;
    if (n == 1000) fail("calls were made beside a walk that is left", n);
    same("a pause", maple_pause(&walker.user), 0);
    for (n = 0; n < 1000; n++) same("a call behind it", replace_leaf(n), 0);
    close_small();
}

/* Steps slowly, and finds each range that stands all the time once in each walk. */
static void *steps_slowly(void *p) {
    const struct timespec shortly = {0, 1000000};
    struct maple_read read;
    for (int steps = 0; steps < SLOW_STEPS;) {
        struct maple_walk walk = {0};
        uint64_t at = 0;
        for (; maple_shared_step(&walker.user, &walk, &read) == 0; steps++) {
            if (read.first % 10 == 0) same("a range that stands", read.first, 10 * at++);
            if (walker.gives_back) same("a pause", maple_pause(&walker.user), 0);
            nanosleep(&shortly, NULL);
        }
        same("all of them", at, WALKED);
    }
    __atomic_store_n(&walker.is_over, 1, __ATOMIC_SEQ_CST);
    return p;
}

/* How many calls in a million were refused beside it. */
static uint64_t refused_beside(int gives_back) {
    pthread_t thread;
    uint64_t n = 0, refused = 0;
    open_small(40);
    walker.gives_back = gives_back;
    walker.is_over = 0;
    if (pthread_create(&thread, NULL, steps_slowly, NULL)) fail("a thread that steps", 0);
    for (; !__atomic_load_n(&walker.is_over, __ATOMIC_SEQ_CST); n++) refused += replace_leaf(n - refused) != 0;
    pthread_join(thread, NULL);
    close_small();
    return refused * 1000000 / (n + 1);
}

static void walk_slowly(void) {
    uint64_t kept = refused_beside(0), given = refused_beside(1);
    printf("of a million calls beside a slow walk %" PRIu64 " are refused, and %" PRIu64 " where it gives its leaf back\n", kept, given);
    if (kept < 100000 || given > kept / 10) fail("refused beside a walk", given);
}

/* ---- the log */

static struct want draw(int lane, int step, int rooms, uint64_t *x) {
    *x = *x * 6364136223846793005u + 1442695040888963407u;
    uint64_t at = (*x >> 33) % SPAN, size = 1 + (*x >> 20) % 30, entry = (*x >> 50) % 4 ? 4096 + 4 * (uint64_t)(lane * STEPS + step) : 0;
    uint64_t below = at > 100 ? at - 100 : 0, some = *x >> 55;
    if (lane < WRITERS && some % 4) {
        static const enum verb more[] = {ALLOC, RALLOC, GAP, RGAP};
        if (rooms && some % 3 == 0) return (struct want){more[some / 4 % 4], {size, below, at, entry}};
        if (step % 5000 == 4999) return (struct want){CLEAR, {0}};
        if (some % 8 == 1) return (struct want){ERASE, {at}};
        return (struct want){some % 8 == 2 ? INSERT : some % 8 == 3 ? PSTORE : STORE, {at, at + size - (some % 128 != 5), entry}};
    }
    switch ((*x >> 40) % 7) {
    case 0: return (struct want){FIND, {at, at + 100}};
    case 1: return (struct want){NEXT, {at, at + 100}};
    case 2: return (struct want){PREV, {at, below}};
    case 3: return (struct want){RFIND, {at, below}};
    case 4: return (struct want){SCAN, {at, UINT64_MAX, size}};
    default: return (struct want){LOAD, {at}};
    }
}

static void make_log(FILE *log, const char *kind, int rooms, uint64_t x) {
    fprintf(log, "mtlog 2\ntree a %s\n", kind);
    for (int lane = 0; lane < LANES; lane++) {
        fprintf(log, "lane %d\n", lane);
        for (int step = 0; step < STEPS; step++) {
            struct want w = lanes[lane].wants[step] = draw(lane, step, rooms, &x);
            fprintf(log, "%s a", verbs[w.verb].word);
            for (int i = 0; i < verbs[w.verb].numbers; i++) fprintf(log, " %" PRIu64, w.at[i]);
            fputc('\n', log);
        }
    }
}

/* ---- before and after */

/* A closed user is refused, an open one is not opened again, and there are no more users than the tree has places for. */
static void open_all(uint32_t kind) {
    struct maple_user *first = &lanes[0].user, none = {0}, more[MORE] = {{0}};
    struct maple_read read;
    same("closed", maple_shared_load(&none, 1, &read), EBADF);
    same("open", maple_shared_open(first, kind, MAPLE_MOST_ROWS, LANES + MORE, 1u << 20), 0);
    for (int lane = 1; lane < LANES; lane++) same("share", maple_share(first, &lanes[lane].user), 0);
    same("one twice", maple_share(first, &lanes[1].user), EALREADY);
    for (int i = 0; i < MORE; i++) same("further ones", maple_share(first, more + i), 0);
    same("one more", maple_share(first, &none), EUSERS);
    for (int i = 0; i < MORE; i++) same("they leave", maple_leave(more + i), 0);
}

/* All have seen one history, of so many calls; and a user may learn what another has seen, and no more. */
static void meet_all(uint64_t made) {
    uint64_t calls = 0;
    for (int lane = 0; lane < LANES; lane++) {
        struct maple_user *user = &lanes[lane].user;
        for (int other = 0; other < LANES; other++) same("learn", maple_learn(user, lanes[other].last), 0);
        same("sync", maple_sync(user, &calls), 0);
        same("calls", calls, made);
        same("learnt what was not", maple_learn(user, calls + 1), EINPROGRESS);
    }
}

/* The ranges of the tree in order, by a walk of one user, and by finds of another. */
static void listing(FILE *out, const char *kind) {
    struct maple_read read, found;
    struct maple_walk walk = {0};
    uint64_t count = 0, at = 0;
    while (maple_shared_step(&lanes[0].user, &walk, &read) == 0) count++;
    fprintf(out, "tree a %s %" PRIu64 "\n", kind, count);
    walk = (struct maple_walk){0};
    while (maple_shared_step(&lanes[0].user, &walk, &read) == 0) {
        same("a find beside the walk", maple_shared_find(&lanes[1].user, at, UINT64_MAX, &found), 0);
        same("its first index", found.first, read.first);
        fprintf(out, "%" PRIu64 " %" PRIu64 " %" PRIu64 "\n", read.first, read.last, read.entry);
        at = read.last + 1;
    }
    same("the walk has ended", walk.ended, 1);
}

/* All but one leave; that one settles with the places that they left, and one comes again, who has the tree when the first has gone. */
static void leave_all(uint64_t made) {
    struct maple_user *first = &lanes[0].user, *last = &lanes[LANES - 1].user;
    struct maple_read read;
    uint64_t calls, places;
    for (int lane = 1; lane < LANES; lane++) same("leave", maple_leave(&lanes[lane].user), 0);
    same("settle", maple_settle(first, &calls, &places), 0);
    same("settled calls", calls, made);
    same("settled places", places, LANES - 1 + MORE);
    same("come again", maple_share(first, last), 0);
    maple_shared_close(first);
    uint32_t status = maple_shared_find(last, 0, UINT64_MAX, &read);
    if (status && status != ENOENT) fail("a find when the first has gone", status);
    same("the last leaves", maple_leave(last), 0);
    same("closed at the end", maple_learn(last, 0), EBADF);
}

/* The transcript is one of a run of the log; with another last digit it is none. */
static void judge(const char *log, size_t length, char *text, size_t size, uint64_t made) {
    const uint8_t *bytes = (const uint8_t *)log, *told = (const uint8_t *)text;
    uint64_t calls, reads;
    same("verify", maple_verify(bytes, length, told, size, MAPLE_MOST_ROWS, &calls, &reads), 0);
    same("verified calls", calls, made);
    text[size - 2] ^= 1;
    same("another digit", maple_verify(bytes, length, told, size, MAPLE_MOST_ROWS, &calls, &reads), EBADMSG);
    text[size - 2] ^= 1;
}

static void put(const char *name, const char *text, size_t size) {
    FILE *file = fopen(name, "w");
    if (!file || fwrite(text, 1, size, file) != size || fclose(file)) fail(name, 0);
}

int main(int argc, char **argv) {
    static const char *const kinds[] = {"range", "alloc", "range32", "alloc32"};
    if (argc < 3) return 2;
    uint64_t seed = argc > 3 ? strtoull(argv[3], NULL, 10) : 7, made = 0, taken = 0, given_up = 0, overlapped = 0, came = 0, busy = 0;
    uint32_t kind = seed % 4;
    char *log_text, *text;
    size_t log_size, size;
    FILE *log = open_memstream(&log_text, &log_size), *out = open_memstream(&text, &size);
    if (!log || !out) fail("memory", 0);
    make_log(log, kinds[kind], kind % 2, seed);
    fclose(log);
    open_all(kind);

    pthread_barrier_init(&start, NULL, LANES);
    together(work);
    for (struct lane *lane = lanes; lane < lanes + LANES; lane++) {
        fwrite(lane->text, 1, lane->size, out);
        free(lane->text);
        made += lane->calls, taken += lane->taken, given_up += lane->given_up, overlapped += lane->overlapped;
    }
    meet_all(made);
    listing(out, kinds[kind]);
    fclose(out);
    together(come_and_go);
    for (struct lane *lane = lanes; lane < lanes + LANES; lane++) came += lane->came, busy += lane->busy;
    leave_all(made);
    leave_unfinished();
    walk_slowly();
    put(argv[1], log_text, log_size);
    put(argv[2], text, size);
    judge(log_text, log_size, text, size, made);
    free(log_text);
    free(text);
    printf("%s: %" PRIu64 " calls, %" PRIu64 " tries found the lock taken; %" PRIu64 " reads overlapped a call, %" PRIu64 " were given up; %" PRIu64 " users came, %" PRIu64 " found no place\n",
        kinds[kind], made, taken, overlapped, given_up, came, busy);
    return 0;
}
