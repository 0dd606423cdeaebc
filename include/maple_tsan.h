/* SPDX-License-Identifier: MIT OR Apache-2.0
 *
 * maple_shared.h includes this where the thread sanitizer is on. The sanitizer sees nothing of the archive. So this reports to it how the
 * calls of a shared tree order what threads write.
 *   - Entries. What is before a store of an entry happens before what is after a read that returns the entry.
 *   - Calls. What is before a call happens before what is after a later call. So it does after a maple_learn, maple_sync or maple_settle
 *     that is done.
 *   - Walks. What a reader does before it gives its walk up happens before what is after a maple_oldest that is done.
 * It knows neither trees nor the numbers of calls. Entries that are the same modulo 251, and the calls of all trees, are one to it. So it
 * assumes some orders that do not hold. Of those that hold it misses one, between a call and a read whose lo is no less than the call's
 * number, where the read returns another entry: a maple_learn of that number reports it. */
#ifndef MAPLE_TSAN_H
#define MAPLE_TSAN_H

void __tsan_acquire(void *at);
void __tsan_release(void *at);

/* The sanitizer's names of orders. The first byte is all calls, the last is all walks that were given up. Each other one is entries. There
 * is one array for the whole program. */
enum { MAPLE_TSAN_WALKS = 252 };
__attribute__((weak)) char maple_tsan_orders[MAPLE_TSAN_WALKS + 1];

static inline void maple_tsan_release(uint64_t entry)
{
    __tsan_release(maple_tsan_orders);
    __tsan_release(maple_tsan_orders + 1 + entry % 251);
}

static inline void maple_tsan_given_up(void)
{
    __tsan_release(maple_tsan_orders + MAPLE_TSAN_WALKS);
}

static inline void maple_tsan_acquire(uint64_t entry)
{
    if (entry) __tsan_acquire(maple_tsan_orders + 1 + entry % 251);
}

#define MAPLE_TSAN_CALL(name, params, args, entry)               \
    static inline uint32_t maple_tsan_##name params              \
    {                                                            \
        maple_tsan_given_up();                                   \
        maple_tsan_release(entry);                               \
        uint32_t status = maple_##name args;                     \
        if (done->call) __tsan_acquire(maple_tsan_orders);       \
        return status;                                           \
    }
#define MAPLE_TSAN_CALLS(name, params, args, entry)              \
    MAPLE_TSAN_CALL(try_##name, params, args, entry)             \
    MAPLE_TSAN_CALL(wait_##name, params, args, entry)
#define MAPLE_TSAN_BATCH(name)                                                                                    \
    static inline uint32_t maple_tsan_##name(struct maple_user *user, struct maple_call *calls, size_t count)     \
    {                                                                                                             \
        maple_tsan_given_up();                                                                                    \
        for (size_t i = 0; i < count; i++) maple_tsan_release(calls[i].entry);                                    \
        uint32_t status = maple_##name(user, calls, count);                                                       \
        if (status == 0) __tsan_acquire(maple_tsan_orders);                                                       \
        return status;                                                                                            \
    }
#define MAPLE_TSAN_READ(name, params, args)                      \
    static inline uint32_t maple_tsan_##name params              \
    {                                                            \
        maple_tsan_given_up();                                   \
        uint32_t status = maple_##name args;                     \
        maple_tsan_acquire(read->entry);                         \
        return status;                                           \
    }
#define MAPLE_TSAN_MANY(result, name, params, args, count, entry)          \
    static inline result maple_tsan_##name params                          \
    {                                                                      \
        maple_tsan_given_up();                                             \
        result status = maple_##name args;                                 \
        for (size_t maple_i = 0; maple_i < (count); maple_i++) maple_tsan_acquire(entry); \
        return status;                                                     \
    }
#define MAPLE_TSAN_SEEN(name, params, args)                      \
    static inline uint32_t maple_tsan_##name params              \
    {                                                            \
        maple_tsan_given_up();                                   \
        uint32_t status = maple_##name args;                     \
        if (status == 0) __tsan_acquire(maple_tsan_orders);      \
        return status;                                           \
    }
#define MAPLE_TSAN_OLDEST(name, params, args)                                   \
    static inline uint32_t maple_tsan_##name params                             \
    {                                                                           \
        maple_tsan_given_up();                                                  \
        uint32_t status = maple_##name args;                                    \
        if (status == 0) __tsan_acquire(maple_tsan_orders);                     \
        if (status == 0) __tsan_acquire(maple_tsan_orders + MAPLE_TSAN_WALKS);  \
        return status;                                                          \
    }
#define MAPLE_TSAN_END(name, params, args)                       \
    static inline uint32_t maple_tsan_##name params              \
    {                                                            \
        maple_tsan_given_up();                                   \
        return maple_##name args;                                \
    }
#define MAPLE_AT struct maple_user *user, uint64_t first, uint64_t last, uint64_t entry
#define MAPLE_IN struct maple_user *user, uint64_t size, uint64_t min, uint64_t max
#define MAPLE_TO struct maple_user *user, uint64_t index, uint64_t bound
MAPLE_TSAN_CALLS(store, (MAPLE_AT, struct maple_done *done), (user, first, last, entry, done), entry)
MAPLE_TSAN_CALLS(store_over, (MAPLE_AT, struct maple_range *met, size_t room, uint64_t *count, struct maple_done *done),
                 (user, first, last, entry, met, room, count, done), entry)
MAPLE_TSAN_CALLS(store_pre, (MAPLE_AT, struct maple_done *done), (user, first, last, entry, done), entry)
MAPLE_TSAN_CALLS(insert, (MAPLE_AT, struct maple_done *done), (user, first, last, entry, done), entry)
MAPLE_TSAN_CALLS(erase, (struct maple_user *user, uint64_t index, struct maple_done *done), (user, index, done), 0)
MAPLE_TSAN_CALLS(alloc, (MAPLE_IN, uint64_t entry, struct maple_done *done), (user, size, min, max, entry, done), entry)
MAPLE_TSAN_CALLS(ralloc, (MAPLE_IN, uint64_t entry, struct maple_done *done), (user, size, min, max, entry, done), entry)
MAPLE_TSAN_CALLS(store_kept, (MAPLE_AT, struct maple_done *done), (user, first, last, entry, done), entry)
MAPLE_TSAN_CALLS(insert_kept, (MAPLE_AT, struct maple_done *done), (user, first, last, entry, done), entry)
MAPLE_TSAN_CALLS(alloc_kept, (MAPLE_IN, uint64_t entry, struct maple_done *done), (user, size, min, max, entry, done), entry)
MAPLE_TSAN_CALLS(ralloc_kept, (MAPLE_IN, uint64_t entry, struct maple_done *done), (user, size, min, max, entry, done), entry)
MAPLE_TSAN_CALLS(gap, (MAPLE_IN, struct maple_done *done), (user, size, min, max, done), 0)
MAPLE_TSAN_CALLS(rgap, (MAPLE_IN, struct maple_done *done), (user, size, min, max, done), 0)
MAPLE_TSAN_CALLS(clear, (struct maple_user *user, struct maple_done *done), (user, done), 0)
MAPLE_TSAN_BATCH(try_batch)
MAPLE_TSAN_BATCH(wait_batch)
MAPLE_TSAN_READ(shared_load, (struct maple_user *user, uint64_t index, struct maple_read *read), (user, index, read))
MAPLE_TSAN_READ(shared_find, (MAPLE_TO, struct maple_read *read), (user, index, bound, read))
MAPLE_TSAN_READ(shared_next, (MAPLE_TO, struct maple_read *read), (user, index, bound, read))
MAPLE_TSAN_READ(shared_prev, (MAPLE_TO, struct maple_read *read), (user, index, bound, read))
MAPLE_TSAN_READ(shared_rfind, (MAPLE_TO, struct maple_read *read), (user, index, bound, read))
MAPLE_TSAN_READ(shared_step, (struct maple_user *user, struct maple_walk *walk, struct maple_read *read), (user, walk, read))
MAPLE_TSAN_READ(shared_step_to, (struct maple_user *user, struct maple_walk *walk, uint64_t max, struct maple_read *read), (user, walk, max, read))
MAPLE_TSAN_MANY(uint64_t, shared_entry, (struct maple_user *user, uint64_t index, struct maple_window *window), (user, index, window), 1, status)
MAPLE_TSAN_MANY(uint32_t, shared_load_many, (struct maple_user *user, const uint64_t *indexes, size_t count, uint64_t *entries, size_t places, struct maple_window *window),
                (user, indexes, count, entries, places, window), status ? 0 : count < places ? count : places, entries[maple_i])
MAPLE_TSAN_MANY(uint32_t, shared_step_many, (struct maple_user *user, struct maple_walk *walk, struct maple_range *ranges, size_t places, uint64_t *count, struct maple_window *window),
                (user, walk, ranges, places, count, window), *count, ranges[maple_i].entry)
MAPLE_TSAN_READ(wait_next, (MAPLE_TO, struct maple_read *read), (user, index, bound, read))
MAPLE_TSAN_READ(wait_prev, (MAPLE_TO, struct maple_read *read), (user, index, bound, read))
MAPLE_TSAN_READ(wait_rfind, (MAPLE_TO, struct maple_read *read), (user, index, bound, read))
MAPLE_TSAN_SEEN(learn, (struct maple_user *user, uint64_t calls), (user, calls))
MAPLE_TSAN_SEEN(wait_learn, (struct maple_user *user, uint64_t calls), (user, calls))
MAPLE_TSAN_SEEN(sync, (struct maple_user *user, uint64_t *calls), (user, calls))
MAPLE_TSAN_SEEN(wait_sync, (struct maple_user *user, uint64_t *calls), (user, calls))
MAPLE_TSAN_SEEN(settle, (struct maple_user *user, uint64_t *calls, uint64_t *places), (user, calls, places))
MAPLE_TSAN_SEEN(wait_settle, (struct maple_user *user, uint64_t *calls, uint64_t *places), (user, calls, places))
MAPLE_TSAN_SEEN(shared_check, (struct maple_user *user, struct maple_form *form), (user, form))
MAPLE_TSAN_SEEN(wait_check, (struct maple_user *user, struct maple_form *form), (user, form))
MAPLE_TSAN_SEEN(shared_stats, (struct maple_user *user, struct maple_stats *stats), (user, stats))
MAPLE_TSAN_SEEN(wait_stats, (struct maple_user *user, struct maple_stats *stats), (user, stats))
MAPLE_TSAN_SEEN(shared_image, (struct maple_user *user, uint8_t *out, size_t room, size_t *used), (user, out, room, used))
MAPLE_TSAN_SEEN(wait_image, (struct maple_user *user, uint8_t *out, size_t room, size_t *used), (user, out, room, used))
MAPLE_TSAN_SEEN(shared_copy, (struct maple_user *user, struct maple_user *copy, uint64_t rows, uint32_t users, uint64_t calls), (user, copy, rows, users, calls))
MAPLE_TSAN_SEEN(wait_copy, (struct maple_user *user, struct maple_user *copy, uint64_t rows, uint32_t users, uint64_t calls), (user, copy, rows, users, calls))
MAPLE_TSAN_OLDEST(oldest, (struct maple_user *user, uint64_t *calls), (user, calls))
MAPLE_TSAN_OLDEST(wait_oldest, (struct maple_user *user, uint64_t *calls), (user, calls))
MAPLE_TSAN_END(pause, (struct maple_user *user), (user))
MAPLE_TSAN_END(leave, (struct maple_user *user), (user))
MAPLE_TSAN_END(wait_leave, (struct maple_user *user), (user))
static inline void maple_tsan_shared_close(struct maple_user *user)
{
    maple_tsan_given_up();
    maple_shared_close(user);
}
#undef MAPLE_TSAN_CALLS
#undef MAPLE_TSAN_CALL
#undef MAPLE_TSAN_BATCH
#undef MAPLE_TSAN_READ
#undef MAPLE_TSAN_MANY
#undef MAPLE_TSAN_SEEN
#undef MAPLE_TSAN_OLDEST
#undef MAPLE_TSAN_END
#undef MAPLE_AT
#undef MAPLE_IN
#undef MAPLE_TO

#define maple_try_store(...) maple_tsan_try_store(__VA_ARGS__)
#define maple_try_store_over(...) maple_tsan_try_store_over(__VA_ARGS__)
#define maple_try_store_pre(...) maple_tsan_try_store_pre(__VA_ARGS__)
#define maple_try_insert(...) maple_tsan_try_insert(__VA_ARGS__)
#define maple_try_erase(...) maple_tsan_try_erase(__VA_ARGS__)
#define maple_try_alloc(...) maple_tsan_try_alloc(__VA_ARGS__)
#define maple_try_ralloc(...) maple_tsan_try_ralloc(__VA_ARGS__)
#define maple_try_store_kept(...) maple_tsan_try_store_kept(__VA_ARGS__)
#define maple_try_insert_kept(...) maple_tsan_try_insert_kept(__VA_ARGS__)
#define maple_try_alloc_kept(...) maple_tsan_try_alloc_kept(__VA_ARGS__)
#define maple_try_ralloc_kept(...) maple_tsan_try_ralloc_kept(__VA_ARGS__)
#define maple_try_gap(...) maple_tsan_try_gap(__VA_ARGS__)
#define maple_try_rgap(...) maple_tsan_try_rgap(__VA_ARGS__)
#define maple_try_clear(...) maple_tsan_try_clear(__VA_ARGS__)
#define maple_try_batch(...) maple_tsan_try_batch(__VA_ARGS__)
#define maple_shared_load(...) maple_tsan_shared_load(__VA_ARGS__)
#define maple_shared_entry(...) maple_tsan_shared_entry(__VA_ARGS__)
#define maple_shared_load_many(...) maple_tsan_shared_load_many(__VA_ARGS__)
#define maple_shared_step_many(...) maple_tsan_shared_step_many(__VA_ARGS__)
#define maple_shared_find(...) maple_tsan_shared_find(__VA_ARGS__)
#define maple_shared_next(...) maple_tsan_shared_next(__VA_ARGS__)
#define maple_shared_prev(...) maple_tsan_shared_prev(__VA_ARGS__)
#define maple_shared_rfind(...) maple_tsan_shared_rfind(__VA_ARGS__)
#define maple_shared_step(...) maple_tsan_shared_step(__VA_ARGS__)
#define maple_shared_step_to(...) maple_tsan_shared_step_to(__VA_ARGS__)
#define maple_learn(...) maple_tsan_learn(__VA_ARGS__)
#define maple_sync(...) maple_tsan_sync(__VA_ARGS__)
#define maple_settle(...) maple_tsan_settle(__VA_ARGS__)
#define maple_wait_store(...) maple_tsan_wait_store(__VA_ARGS__)
#define maple_wait_store_over(...) maple_tsan_wait_store_over(__VA_ARGS__)
#define maple_wait_store_pre(...) maple_tsan_wait_store_pre(__VA_ARGS__)
#define maple_wait_insert(...) maple_tsan_wait_insert(__VA_ARGS__)
#define maple_wait_erase(...) maple_tsan_wait_erase(__VA_ARGS__)
#define maple_wait_alloc(...) maple_tsan_wait_alloc(__VA_ARGS__)
#define maple_wait_ralloc(...) maple_tsan_wait_ralloc(__VA_ARGS__)
#define maple_wait_store_kept(...) maple_tsan_wait_store_kept(__VA_ARGS__)
#define maple_wait_insert_kept(...) maple_tsan_wait_insert_kept(__VA_ARGS__)
#define maple_wait_alloc_kept(...) maple_tsan_wait_alloc_kept(__VA_ARGS__)
#define maple_wait_ralloc_kept(...) maple_tsan_wait_ralloc_kept(__VA_ARGS__)
#define maple_wait_gap(...) maple_tsan_wait_gap(__VA_ARGS__)
#define maple_wait_rgap(...) maple_tsan_wait_rgap(__VA_ARGS__)
#define maple_wait_clear(...) maple_tsan_wait_clear(__VA_ARGS__)
#define maple_wait_batch(...) maple_tsan_wait_batch(__VA_ARGS__)
#define maple_wait_next(...) maple_tsan_wait_next(__VA_ARGS__)
#define maple_wait_prev(...) maple_tsan_wait_prev(__VA_ARGS__)
#define maple_wait_rfind(...) maple_tsan_wait_rfind(__VA_ARGS__)
#define maple_wait_learn(...) maple_tsan_wait_learn(__VA_ARGS__)
#define maple_wait_sync(...) maple_tsan_wait_sync(__VA_ARGS__)
#define maple_wait_settle(...) maple_tsan_wait_settle(__VA_ARGS__)
#define maple_oldest(...) maple_tsan_oldest(__VA_ARGS__)
#define maple_wait_oldest(...) maple_tsan_wait_oldest(__VA_ARGS__)
#define maple_shared_check(...) maple_tsan_shared_check(__VA_ARGS__)
#define maple_wait_check(...) maple_tsan_wait_check(__VA_ARGS__)
#define maple_shared_stats(...) maple_tsan_shared_stats(__VA_ARGS__)
#define maple_wait_stats(...) maple_tsan_wait_stats(__VA_ARGS__)
#define maple_shared_image(...) maple_tsan_shared_image(__VA_ARGS__)
#define maple_wait_image(...) maple_tsan_wait_image(__VA_ARGS__)
#define maple_shared_copy(...) maple_tsan_shared_copy(__VA_ARGS__)
#define maple_wait_copy(...) maple_tsan_wait_copy(__VA_ARGS__)
#define maple_shared_close(...) maple_tsan_shared_close(__VA_ARGS__)
#define maple_pause(...) maple_tsan_pause(__VA_ARGS__)
#define maple_leave(...) maple_tsan_leave(__VA_ARGS__)
#define maple_wait_leave(...) maple_tsan_wait_leave(__VA_ARGS__)

#endif
