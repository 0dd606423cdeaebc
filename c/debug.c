/* SPDX-License-Identifier: MIT OR Apache-2.0
 *
 * The calls of the headers for a program that is being tested, which links libmaple_debug.a in the place of libmaple.a. Each looks at its
 * handles first, a struct maple_tree or a struct maple_user, says a fault on standard error, and aborts, where
 *   - a handle was copied, and both are used (to go on in the copy alone is no fault);
 *   - a handle is used that was closed by a copy of it;
 *   - two threads are in calls on one handle, or a signal handler calls on one that it interrupted, or one call has a handle twice;
 *   - a handle is none: it was not zeroed, or something wrote over it.
 * A call costs a microsecond more, and the program has 65,535 open handles at the most. It changes no errno. */
#define _POSIX_C_SOURCE 200809L
#include "maple_log.h"
#include "maple_shared.h"
#include <pthread.h>
#include <sched.h>
#include <signal.h>
#include <stdio.h>
#include <stdlib.h>
#include <string.h>
#include <unistd.h>

enum { SLOTS = 1 << 16, MOVES = 4, MOST_CALLS = 1024 };

/* A handle, of either kind. */
struct words {
    void *at;
    uint64_t open;
};

/* What is open: where its handle is, and where that was before. */
struct slot {
    void *at;
    uint64_t number;
    struct words *handle, *before[MOVES];
    unsigned moves;
};

/* A call that runs. */
struct call {
    struct words *handle;
    const void *thread;
};

/* What a call found of a handle. */
struct seen {
    struct words *handle;
    void *at;
    uint64_t number;
};

static struct slot slots[SLOTS];
static struct call calls[MOST_CALLS];
static unsigned running, opened;
static uint64_t numbers;
static int is_locked;
static __thread char this_thread;

/* ---- the lock of all that is static here; no signal comes while a thread has it */

static sigset_t lock(void)
{
    sigset_t all, was;
    sigfillset(&all);
    pthread_sigmask(SIG_BLOCK, &all, &was);
    while (__atomic_exchange_n(&is_locked, 1, __ATOMIC_ACQUIRE)) sched_yield();
    return was;
}

static void unlock(sigset_t was)
{
    __atomic_store_n(&is_locked, 0, __ATOMIC_RELEASE);
    pthread_sigmask(SIG_SETMASK, &was, NULL);
}

static void fault(const char *name, const char *what)
{
    char line[200];
    int length = snprintf(line, sizeof line, "maple_%s: %s\n", name, what);
    if (write(2, line, (size_t)length) < 0) _exit(134);
    abort();
}

/* ---- what is open, in a table by the first word of the handles */

static size_t home(const void *at)
{
    return (size_t)(((uintptr_t)at >> 4) * UINT64_C(0x9e3779b97f4a7c15) >> 48);
}

static struct slot *find(const void *at)
{
    size_t i = home(at);
    for (; slots[i].at; i = (i + 1) % SLOTS) {
        if (slots[i].at == at) return slots + i;
    }
    return slots + i;
}

static void put(const char *name, void *at, struct words *handle)
{
    struct slot *slot = find(at);
    if (!slot->at && ++opened == SLOTS) fault(name, "more handles are open than the debug library can have");
    *slot = (struct slot){at, ++numbers, handle, {NULL}, 0};
}

/* Takes one out, and moves up those that are after it because its slot was taken. */
static void take(struct slot *slot)
{
    size_t hole = (size_t)(slot - slots), i = hole;
    opened--;
    for (;;) {
        slots[hole].at = NULL;
        do {
            i = (i + 1) % SLOTS;
            if (!slots[i].at) return;
        } while ((i - home(slots[i].at)) % SLOTS < (i - hole) % SLOTS);
        slots[hole] = slots[i];
        hole = i;
    }
}

/* A handle that goes on at another place is where it was no more. */
static void follow(const char *name, struct slot *slot, struct words *handle)
{
    if (slot->handle == handle) return;
    for (unsigned i = 0; i < MOVES; i++) {
        if (slot->before[i] == handle) fault(name, "the handle was copied, and both are used");
    }
    slot->before[slot->moves++ % MOVES] = slot->handle;
    slot->handle = handle;
}

/* ---- calls */

static void begin(const char *name, struct words *handle)
{
    for (unsigned i = 0; i < running; i++) {
        if (calls[i].handle != handle) continue;
        fault(name, calls[i].thread == &this_thread ? "the thread is in a call on this handle: a signal handler uses it, or a call has it twice"
                                                    : "another thread is in a call on this handle");
    }
    if (running == MOST_CALLS) fault(name, "more calls run than the debug library can have");
    calls[running++] = (struct call){handle, &this_thread};
}

static void end(const struct words *handle)
{
    unsigned i = 0;
    while (calls[i].handle != handle) i++;
    calls[i] = calls[--running];
}

static struct seen enter(const char *name, void *which)
{
    int kept = errno;
    struct words *handle = (struct words *)which;
    struct seen seen = {handle, NULL, 0};
    sigset_t was = lock();
    begin(name, handle);
    if (handle->at || handle->open) {
        struct slot *slot = find(handle->at);
        if (!handle->at || handle->open != 1) fault(name, "the handle was not zeroed, or something wrote over it");
        if (!slot->at) fault(name, "the handle was closed by a copy of it, or something wrote over it");
        follow(name, slot, handle);
        seen.at = handle->at;
        seen.number = slot->number;
    }
    unlock(was);
    errno = kept;
    return seen;
}

static void leave(const char *name, struct seen seen)
{
    int kept = errno;
    sigset_t was = lock();
    struct words *handle = seen.handle;
    end(handle);
    if (seen.at && handle->at != seen.at) {
        struct slot *slot = find(seen.at);
        if (slot->at && slot->number == seen.number) take(slot);
    }
    if (handle->at && handle->at != seen.at) put(name, handle->at, handle);
    unlock(was);
    errno = kept;
}

#define TESTED(returns, name, one, params, args, result, give)   \
    returns maple_tested_##name params;                          \
    returns(maple_##name) params                                 \
    {                                                            \
        struct seen seen = enter(#name, one);                    \
        result maple_tested_##name args;                         \
        leave(#name, seen);                                      \
        give;                                                    \
    }
#define TREE(name, params, args) TESTED(uint32_t, name, tree, params, args, uint32_t status =, return status)
#define USER(name, params, args) TESTED(uint32_t, name, user, params, args, uint32_t status =, return status)
#define BOTH(name, one, other, params, args)                     \
    uint32_t maple_tested_##name params;                         \
    uint32_t(maple_##name) params                                \
    {                                                            \
        struct seen first = enter(#name, one);                   \
        struct seen second = enter(#name, other);                \
        uint32_t status = maple_tested_##name args;              \
        leave(#name, second);                                    \
        leave(#name, first);                                     \
        return status;                                           \
    }
#define NONE(returns, name, params, args)                        \
    returns maple_tested_##name params;                          \
    returns(maple_##name) params { return maple_tested_##name args; }

#define T struct maple_tree *tree
#define U struct maple_user *user
#define AT uint64_t first, uint64_t last, uint64_t entry
#define IN uint64_t size, uint64_t min, uint64_t max
#define BOUND uint64_t index, uint64_t bound
#define RANGE struct maple_range *range
#define READ struct maple_read *read
#define WINDOW struct maple_window *window
#define WALK struct maple_walk *walk
#define DONE struct maple_done *done
#define SHAPE uint64_t rows, uint32_t users, uint64_t most
#define RANGES const struct maple_range *ranges, size_t count
#define INDEXES const uint64_t *indexes, size_t count
#define BYTES const uint8_t *bytes, size_t length
#define ROOM uint8_t *out, size_t room, size_t *used

TREE(open, (T, uint32_t kind, uint64_t rows), (tree, kind, rows))
BOTH(copy, tree, copy, (T, struct maple_tree *copy, uint64_t rows), (tree, copy, rows))
TREE(open_image, (T, BYTES, uint64_t rows), (tree, bytes, length, rows))
TREE(build, (T, uint32_t kind, uint64_t rows, RANGES, uint64_t *at), (tree, kind, rows, ranges, count, at))
TESTED(void, close, tree, (T), (tree), , return)
TREE(store, (T, AT, uint64_t *old), (tree, first, last, entry, old))
TREE(store_pre, (T, AT, uint64_t *old), (tree, first, last, entry, old))
TREE(store_over, (T, AT, struct maple_range *met, size_t room, uint64_t *number, uint64_t *old), (tree, first, last, entry, met, room, number, old))
TREE(insert, (T, AT), (tree, first, last, entry))
TREE(erase, (T, uint64_t index, RANGE), (tree, index, range))
TREE(alloc, (T, IN, uint64_t entry, uint64_t *start), (tree, size, min, max, entry, start))
TREE(ralloc, (T, IN, uint64_t entry, uint64_t *start), (tree, size, min, max, entry, start))
TREE(store_kept, (T, AT, uint64_t *old), (tree, first, last, entry, old))
TREE(insert_kept, (T, AT), (tree, first, last, entry))
TREE(alloc_kept, (T, IN, uint64_t entry, uint64_t *start), (tree, size, min, max, entry, start))
TREE(ralloc_kept, (T, IN, uint64_t entry, uint64_t *start), (tree, size, min, max, entry, start))
TREE(gap, (T, IN, uint64_t *start), (tree, size, min, max, start))
TREE(rgap, (T, IN, uint64_t *start), (tree, size, min, max, start))
TREE(clear, (T), (tree))
TREE(preallocate, (T), (tree))
TREE(store_prealloc, (T, AT, uint64_t *old), (tree, first, last, entry, old))
TESTED(uint64_t, entry, tree, (T, uint64_t index), (tree, index), uint64_t found =, return found)
TREE(load_many, (T, INDEXES, uint64_t *entries, size_t places), (tree, indexes, count, entries, places))
TREE(load, (T, uint64_t index, RANGE), (tree, index, range))
TREE(find, (T, BOUND, RANGE), (tree, index, bound, range))
TREE(next, (T, BOUND, RANGE), (tree, index, bound, range))
TREE(prev, (T, BOUND, RANGE), (tree, index, bound, range))
TREE(rfind, (T, BOUND, RANGE), (tree, index, bound, range))
TREE(step, (T, WALK, RANGE), (tree, walk, range))
TREE(step_many, (T, WALK, RANGE, size_t places, size_t *count), (tree, walk, range, places, count))
TREE(step_to, (T, WALK, uint64_t max, RANGE), (tree, walk, max, range))
TREE(check, (T, struct maple_form *form), (tree, form))
TREE(stats, (T, struct maple_stats *stats), (tree, stats))
TREE(image, (T, ROOM), (tree, out, room, used))

USER(shared_open, (U, uint32_t kind, SHAPE), (user, kind, rows, users, most))
BOTH(shared_of_tree, tree, user, (T, U, SHAPE), (tree, user, rows, users, most))
USER(shared_open_image, (U, BYTES, SHAPE), (user, bytes, length, rows, users, most))
USER(shared_build, (U, uint32_t kind, RANGES, SHAPE, uint64_t *at), (user, kind, ranges, count, rows, users, most, at))
BOTH(shared_copy, user, copy, (U, struct maple_user *copy, SHAPE), (user, copy, rows, users, most))
BOTH(share, user, other, (U, struct maple_user *other), (user, other))
USER(leave, (U), (user))
TESTED(void, shared_close, user, (U), (user), , return)
USER(place, (U, uint64_t *place), (user, place))
USER(shared_load, (U, uint64_t index, READ), (user, index, read))
TESTED(uint64_t, shared_entry, user, (U, uint64_t index, WINDOW), (user, index, window), uint64_t found =, return found)
USER(shared_load_many, (U, INDEXES, uint64_t *entries, size_t places, WINDOW), (user, indexes, count, entries, places, window))
USER(shared_find, (U, BOUND, READ), (user, index, bound, read))
USER(shared_next, (U, BOUND, READ), (user, index, bound, read))
USER(shared_prev, (U, BOUND, READ), (user, index, bound, read))
USER(shared_rfind, (U, BOUND, READ), (user, index, bound, read))
USER(shared_step, (U, WALK, READ), (user, walk, read))
USER(shared_step_to, (U, WALK, uint64_t max, READ), (user, walk, max, read))
USER(shared_step_many, (U, WALK, RANGE, size_t places, uint64_t *count, WINDOW), (user, walk, range, places, count, window))
USER(pause, (U), (user))
USER(learn, (U, uint64_t number), (user, number))
USER(sync, (U, uint64_t *number), (user, number))
USER(settle, (U, uint64_t *number, uint64_t *places), (user, number, places))
USER(oldest, (U, uint64_t *number), (user, number))
USER(shared_check, (U, struct maple_form *form), (user, form))
USER(shared_stats, (U, struct maple_stats *stats), (user, stats))
USER(shared_image, (U, ROOM), (user, out, room, used))

/* each call that tries, and the one that waits */
#define TRIES(name, params, args) USER(try_##name, params, args) USER(wait_##name, params, args)
TRIES(store, (U, AT, DONE), (user, first, last, entry, done))
TRIES(store_over, (U, AT, struct maple_range *met, size_t room, uint64_t *number, DONE), (user, first, last, entry, met, room, number, done))
TRIES(store_pre, (U, AT, DONE), (user, first, last, entry, done))
TRIES(insert, (U, AT, DONE), (user, first, last, entry, done))
TRIES(erase, (U, uint64_t index, DONE), (user, index, done))
TRIES(alloc, (U, IN, uint64_t entry, DONE), (user, size, min, max, entry, done))
TRIES(ralloc, (U, IN, uint64_t entry, DONE), (user, size, min, max, entry, done))
TRIES(store_kept, (U, AT, DONE), (user, first, last, entry, done))
TRIES(insert_kept, (U, AT, DONE), (user, first, last, entry, done))
TRIES(alloc_kept, (U, IN, uint64_t entry, DONE), (user, size, min, max, entry, done))
TRIES(ralloc_kept, (U, IN, uint64_t entry, DONE), (user, size, min, max, entry, done))
TRIES(gap, (U, IN, DONE), (user, size, min, max, done))
TRIES(rgap, (U, IN, DONE), (user, size, min, max, done))
TRIES(clear, (U, DONE), (user, done))
TRIES(batch, (U, struct maple_call *calls, size_t count), (user, calls, count))

USER(wait_next, (U, BOUND, READ), (user, index, bound, read))
USER(wait_prev, (U, BOUND, READ), (user, index, bound, read))
USER(wait_rfind, (U, BOUND, READ), (user, index, bound, read))
BOTH(wait_share, user, other, (U, struct maple_user *other), (user, other))
BOTH(wait_copy, user, copy, (U, struct maple_user *copy, SHAPE), (user, copy, rows, users, most))
USER(wait_leave, (U), (user))
USER(wait_learn, (U, uint64_t number), (user, number))
USER(wait_sync, (U, uint64_t *number), (user, number))
USER(wait_settle, (U, uint64_t *number, uint64_t *places), (user, number, places))
USER(wait_oldest, (U, uint64_t *number), (user, number))
USER(wait_check, (U, struct maple_form *form), (user, form))
USER(wait_stats, (U, struct maple_stats *stats), (user, stats))
USER(wait_image, (U, ROOM), (user, out, room, used))

/* and those that have no handle */
NONE(uint64_t, rows_for, (uint64_t ranges), (ranges))
NONE(uint32_t, replay, (BYTES, uint64_t rows, ROOM), (bytes, length, rows, out, room, used))
NONE(uint32_t, verify, (BYTES, const uint8_t *text, size_t text_length, uint64_t rows, uint64_t *made, uint64_t *reads),
     (bytes, length, text, text_length, rows, made, reads))
