/* SPDX-License-Identifier: MIT OR Apache-2.0
 *
 * The calls of maple_shared.h that wait: each tries again, and rests between two tries, a little longer each time. It pauses the
 * processor first, some microseconds in all, since who has the lock holds it no longer than a call takes; then it yields to other
 * threads; then it sleeps, from a microsecond up to one millisecond, since who has the lock may be off the processor. */
#define _POSIX_C_SOURCE 199309L
#include "maple_shared.h"
#include <sched.h>
#include <time.h>

enum { PAUSES = 7, YIELDS = PAUSES + 16, SLEEPS = YIELDS + 10 };

static void pause_once(void)
{
#if defined(__x86_64__)
    __builtin_ia32_pause();
#elif defined(__aarch64__)
    __asm__ volatile("yield");
#endif
}

static int is_for_later(uint32_t status)
{
    return status == EAGAIN || status == EINPROGRESS;
}

/* Yes, always. */
static int rest(unsigned *turn)
{
    if (*turn < PAUSES) {
        for (unsigned n = 0; n < 1u << *turn; n++) pause_once();
    } else if (*turn < YIELDS) {
        sched_yield();
    } else {
        struct timespec time = {0, 1000L << (*turn - YIELDS)};
        int kept = errno;
        nanosleep(&time, NULL);
        errno = kept;
    }
    if (*turn < SLEEPS) ++*turn;
    return 1;
}

#define WAITS(name, tries, params, args)                     \
    uint32_t(maple_wait_##name) params                       \
    {                                                        \
        uint32_t status;                                     \
        unsigned turn = 0;                                   \
        do {                                                 \
            status = tries args;                             \
        } while (is_for_later(status) && rest(&turn));       \
        return status;                                       \
    }
#define AT struct maple_user *user, uint64_t first, uint64_t last, uint64_t entry
#define IN struct maple_user *user, uint64_t size, uint64_t min, uint64_t max
#define TO struct maple_user *user, uint64_t index, uint64_t bound, struct maple_read *read
WAITS(store, maple_try_store, (AT, struct maple_done *done), (user, first, last, entry, done))
WAITS(store_over, maple_try_store_over, (AT, struct maple_range *met, size_t room, uint64_t *count, struct maple_done *done),
      (user, first, last, entry, met, room, count, done))
WAITS(store_pre, maple_try_store_pre, (AT, struct maple_done *done), (user, first, last, entry, done))
WAITS(insert, maple_try_insert, (AT, struct maple_done *done), (user, first, last, entry, done))
WAITS(erase, maple_try_erase, (struct maple_user *user, uint64_t index, struct maple_done *done), (user, index, done))
WAITS(alloc, maple_try_alloc, (IN, uint64_t entry, struct maple_done *done), (user, size, min, max, entry, done))
WAITS(ralloc, maple_try_ralloc, (IN, uint64_t entry, struct maple_done *done), (user, size, min, max, entry, done))
WAITS(store_kept, maple_try_store_kept, (AT, struct maple_done *done), (user, first, last, entry, done))
WAITS(insert_kept, maple_try_insert_kept, (AT, struct maple_done *done), (user, first, last, entry, done))
WAITS(alloc_kept, maple_try_alloc_kept, (IN, uint64_t entry, struct maple_done *done), (user, size, min, max, entry, done))
WAITS(ralloc_kept, maple_try_ralloc_kept, (IN, uint64_t entry, struct maple_done *done), (user, size, min, max, entry, done))
WAITS(gap, maple_try_gap, (IN, struct maple_done *done), (user, size, min, max, done))
WAITS(rgap, maple_try_rgap, (IN, struct maple_done *done), (user, size, min, max, done))
WAITS(clear, maple_try_clear, (struct maple_user *user, struct maple_done *done), (user, done))
WAITS(batch, maple_try_batch, (struct maple_user *user, struct maple_call *calls, size_t count), (user, calls, count))
WAITS(next, maple_shared_next, (TO), (user, index, bound, read))
WAITS(prev, maple_shared_prev, (TO), (user, index, bound, read))
WAITS(rfind, maple_shared_rfind, (TO), (user, index, bound, read))
WAITS(share, maple_share, (struct maple_user *user, struct maple_user *other), (user, other))
WAITS(leave, maple_leave, (struct maple_user *user), (user))
WAITS(learn, maple_learn, (struct maple_user *user, uint64_t calls), (user, calls))
WAITS(sync, maple_sync, (struct maple_user *user, uint64_t *calls), (user, calls))
WAITS(settle, maple_settle, (struct maple_user *user, uint64_t *calls, uint64_t *places), (user, calls, places))
WAITS(copy, maple_shared_copy, (struct maple_user *user, struct maple_user *copy, uint64_t rows, uint32_t users, uint64_t calls),
      (user, copy, rows, users, calls))
WAITS(oldest, maple_oldest, (struct maple_user *user, uint64_t *calls), (user, calls))
WAITS(check, maple_shared_check, (struct maple_user *user, struct maple_form *form), (user, form))
WAITS(stats, maple_shared_stats, (struct maple_user *user, struct maple_stats *stats), (user, stats))
WAITS(image, maple_shared_image, (struct maple_user *user, uint8_t *out, size_t room, size_t *used), (user, out, room, used))
