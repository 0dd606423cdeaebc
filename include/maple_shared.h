/* SPDX-License-Identifier: MIT OR Apache-2.0
 *
 * Maple trees that threads share, for C and C++ programs: proved and linked as the calls of maple.h are. Its words hold here too.
 *
 * Each thread has a user, its handle on the tree. Calls on different users may run at the same time. A tree has one history of writes
 * (calls), numbered from 1: after the write n the tree has the version n. Each write of each user is in it once. A user has seen a
 * beginning of it, which only grows.
 *   - A write is made under the tree's lock. maple_try_store, .. make it where the lock is free; else they return EAGAIN and change
 *     nothing. maple_wait_store, .. are the same writes, and try again until they are made. Writes are linearizable: each takes effect at
 *     one moment, as the next in the history.
 *   - A read takes no lock and waits for nobody. It returns the answer of one version from lo to hi, which is no older than what its user
 *     had seen before. Reads of two users that know nothing of each other are not ordered.
 *
 * Who owns what. A user owns a share of its tree: maple_shared_open makes a tree and its first user, maple_share another. Whoever opened a
 * user has to call maple_leave until it returns 0, or maple_shared_close. No user owns another: they are closed in any order and in any
 * thread, and with the last one the tree's memory is given back.
 *
 * Memory. maple_shared_open takes that of the whole tree, once for all calls. So do the calls that open a shared tree with a map, which may
 * take some more while they run. maple_share takes that of a user, and maple_leave may take some. maple_shared_image takes some while it
 * runs. No other call takes any.
 *
 * Memory order. Calls and reads load and store words as memory_order_seq_cst of C. So what a thread wrote before a call is visible
 *   - after each later call of the tree;
 *   - after a read that returns what the call stored;
 *   - to whoever has seen the call: by maple_learn or maple_sync, or by a read whose lo is no less than the number of the call.
 * So an entry may be a pointer to what was written before it was stored. What a reader does with it afterwards holds back no call.
 * Call c removed an entry. What it points to may be freed in one of two cases:
 *   - each reader has made a read whose lo is no less than c, and uses nothing that it read before (examples/c/reclaim.c);
 *   - maple_oldest returned c or more, and each reader uses what a step returned only until it gives its walk up (examples/c/oldest.c).
 * The thread sanitizer sees nothing of the archive: where it is on, maple_tsan.h reports these orders to it.
 *
 * Signals. A signal handler may make a read by a user that no interrupted call works on: for example one that its thread keeps for its
 * handlers (examples/c/profiler.c). The read ends within 361 steps at the tree, also where the interrupted thread has the tree's lock, and
 * changes no errno. A batch of reads ends within 91 steps an entry or 198 a place, and 5; one of a walk that has ended within 176. Where a
 * read returns EAGAIN a handler gives up, for no bound on repeats is known. Stack, measured: a read takes less than MAPLE_READ_STACK bytes,
 * any other call of this header or of maple.h less than MAPLE_CALL_STACK.
 * A call on a user on which the interrupted call works returns EDEADLK, and leaves the user as it was. A user that the interrupted call
 * opens is not open yet: a handler leaves it alone.
 *
 * Rules that a program keeps, which the library does not check, in addition to those of maple.h on pointers, forks and malloc:
 *   - A struct maple_user is zeroed before its first call (= {0}). Then only these calls read and write it. It is not changed, and not
 *     copied, unless the copy is used from then on and the original never again.
 *   - One call at a time works on a user. It may go from thread to thread, handed over by a lock, a join or the start of a thread: what
 *     the one did happens before what the other does.
 *   - No call but reads, as above, is made from a signal handler.
 *   - No thread is cancelled, ends or jumps away while it is in a call: it could keep the lock for good.
 *
 * Each call writes its user. So a user has cache lines of its own: it is aligned to 128 bytes (MAPLE_USER_ALIGN). malloc gives less:
 * memory of a user comes from aligned_alloc, or from a variable.
 *
 * Not promised: that a try ever gets the lock, and so how long a maple_wait_store waits; how often a next, prev or rfind gives up before
 * it has an answer; that memory does not run out where a call takes some. The README of crates/mt_c lists what is not proved, above all
 * that an object may be freed by maple_oldest.
 *
 * Every call but maple_shared_entry returns a number of Linux's errno.h, and 0 where it was done. It returns EBADF where the user is closed,
 * which stays closed, and EDEADLK where it interrupted, in a signal handler, a call on the same user.
 * Further results go to its last pointers, which it always writes: zeros where there is no result.
 */
#ifndef MAPLE_SHARED_H
#define MAPLE_SHARED_H

#include "maple.h"
#include <errno.h>

#ifdef __cplusplus
extern "C" {
#endif

/* A user of a shared tree. Zeroed it is closed. The second word is 1 where it is open, and 2 while a call works on it. */
#define MAPLE_USER_ALIGN 128
struct maple_user {
#if defined(__cplusplus)
    alignas(MAPLE_USER_ALIGN) void *at;
#elif defined(__GNUC__)
    __attribute__((aligned(MAPLE_USER_ALIGN))) void *at;
#else
    _Alignas(MAPLE_USER_ALIGN) void *at;
#endif
    uint64_t open;
};

/* A version interval: what a read returned is of one version from lo to hi. */
struct maple_window {
    uint64_t lo, hi;
};

/* A read: at one version from lo to hi the tree had this range. Where it had none, the last three are zeros. */
struct maple_read {
    uint64_t lo, hi, first, last, entry;
};

/* The result of a call. call: its number in the tree's history, which it has also where it was refused. word: the entry that a store met,
 * or the start of an allocation or a gap. first, last, entry: the range that was erased. Where nodes were short (ENOMEM): how many are
 * needed, free, in use (live), and held. Where some are held, by is the place of the user whose read or walk holds them (maple_place), and
 * epoch how many calls had ended when that began. Zeros where there is no result. */
struct maple_done {
    uint64_t call, word, first, last, entry;
    uint64_t need, free, live, held, by, epoch;
};

/* A call that maple_try_batch is to make, and its answer. verb: which call it is. first, last, entry and size are its arguments, as far as
 * it has them: first is the index of an erase, and first and last are min and max of an alloc, a ralloc, a gap and an rgap. status and done
 * are what that call returns. */
struct maple_call {
    uint32_t verb, status;
    uint64_t first, last, entry, size;
    struct maple_done done;
};

enum {
    MAPLE_CALL_STORE = 1,
    MAPLE_CALL_STORE_PRE = 2,
    MAPLE_CALL_INSERT = 3,
    MAPLE_CALL_ERASE = 4,
    MAPLE_CALL_ALLOC = 5,
    MAPLE_CALL_RALLOC = 6,
    MAPLE_CALL_GAP = 7,
    MAPLE_CALL_RGAP = 8,
    MAPLE_CALL_CLEAR = 9
};

/* A shared tree has at most this many users at a time, and this many calls in its life. It has at least 4 nodes. */
#define MAPLE_MOST_USERS 62
#define MAPLE_MOST_CALLS ((UINT64_C(1) << 62) - 1)

/* Bytes of stack. */
#define MAPLE_READ_STACK 2048
#define MAPLE_CALL_STACK 16384

/* ---- users that come and go */

/* Opens an empty tree of a kind, with a number of nodes, of users at a time and of calls, and its first user.
 * 0; EALREADY: the user is open, and stays as it was; EINVAL: no such kind; EDOM: the nodes are not 4 to MAPLE_MOST_ROWS; EUSERS: the users
 * are not 1 to MAPLE_MOST_USERS; EOVERFLOW: the calls are not 1 to MAPLE_MOST_CALLS; ENOMEM. */
uint32_t maple_shared_open(struct maple_user *user, uint32_t kind, uint64_t rows, uint32_t users, uint64_t calls) MAPLE_NONNULL MAPLE_CHECKED;

/* Opens a shared tree with the map and the kind of a tree of one thread. It has no calls yet.
 * 0; EBADF: the tree is closed; EALREADY, EDOM, EUSERS, EOVERFLOW and ENOMEM as of maple_shared_open, and EDOM too where the nodes are
 * fewer than tree has in use. */
uint32_t maple_shared_of_tree(struct maple_tree *tree, struct maple_user *user, uint64_t rows, uint32_t users, uint64_t calls)
    MAPLE_NONNULL MAPLE_CHECKED;

/* Opens a shared tree with the map and the kind of an image (maple_image). It has no calls yet.
 * 0; EBADMSG: the bytes are no image; EALREADY, EDOM, EUSERS, EOVERFLOW and ENOMEM as of maple_shared_open, and EDOM too where the nodes
 * are fewer than the image has. */
uint32_t maple_shared_open_image(struct maple_user *user, const uint8_t *bytes, size_t length, uint64_t rows, uint32_t users, uint64_t calls)
    MAPLE_NONNULL MAPLE_CHECKED;

/* Opens a shared tree of this kind with exactly these ranges, as maple_build. It has no calls yet.
 * 0; EINVAL: no such kind; or the range with the number at, from 0, is invalid for the kind or not above the one before; EALREADY, EDOM,
 * EUSERS, EOVERFLOW and ENOMEM as of maple_shared_open, and EDOM too where the nodes are fewer than the ranges need. Where no range is at
 * fault at is 0. */
uint32_t maple_shared_build(struct maple_user *user, uint32_t kind, const struct maple_range *ranges, size_t count, uint64_t rows,
                            uint32_t users, uint64_t calls, uint64_t *at) MAPLE_NONNULL MAPLE_CHECKED;

/* Opens copy, the first user of a new shared tree with the map and the kind of user's tree. The map is copied under the lock of user's tree,
 * where that is free. user has then seen the whole history, and has given up its walk. The new tree has no calls yet. So a tree continues in
 * more nodes (examples/c/grow.c). It takes the memory of the new tree.
 * 0; EAGAIN: another user has the lock; EBADF: user is closed; EALREADY, EDOM, EUSERS, EOVERFLOW and ENOMEM as of maple_shared_open, and
 * EDOM too where the nodes are fewer than the tree has in use. Where it does not return 0 copy stays as it was. */
uint32_t maple_shared_copy(struct maple_user *user, struct maple_user *copy, uint64_t rows, uint32_t users, uint64_t calls)
    MAPLE_NONNULL MAPLE_CHECKED;

/* Opens another user of the same tree, at a free place. Any user may do this, and stays as it was.
 * 0; EALREADY: the other is open; EUSERS: no place is free; EAGAIN: another user is at the places, try again; EBADF: the user is closed;
 * ENOMEM. Where it does not return 0 the other stays as it was. */
uint32_t maple_share(struct maple_user *user, struct maple_user *other) MAPLE_NONNULL MAPLE_CHECKED;

/* Closes a user, and frees its place for another.
 * 0; EAGAIN: another user is at the places, try again; ENOMEM; EBADF: it is closed already. After EAGAIN or ENOMEM it is still open, and
 * has given up its walk. */
uint32_t maple_leave(struct maple_user *user) MAPLE_NONNULL MAPLE_CHECKED;

/* Closes a user at once; its place is then lost to others. A closed one stays closed. */
void maple_shared_close(struct maple_user *user) MAPLE_NONNULL;

/* Returns the place that the user has, from 1. It is done->by of another user's call that is short of nodes which this user holds.
 * 0; EBADF: the user is closed. */
uint32_t maple_place(struct maple_user *user, uint64_t *place) MAPLE_NONNULL;

/* ---- reads. None takes the lock, or memory. 0; ENOENT: there is no such range; EBADF: the user is closed. */

/* The range that holds index. */
uint32_t maple_shared_load(struct maple_user *user, uint64_t index, struct maple_read *read) MAPLE_NONNULL;

/* Returns the entry that index holds, and 0 where it holds none. It ends within 96 steps at the tree, maple_shared_load within 171. Where
 * the user is closed, or a call works on it, it returns 0, and the window is zeros: as of an empty tree before its first call. */
uint64_t maple_shared_entry(struct maple_user *user, uint64_t index, struct maple_window *window) MAPLE_NONNULL;

/* The entries at count indexes, in their order, 0 where an index holds none: as many as there are both indexes and places. The other places
 * keep what they had. All are of versions in the one window, and none is of an earlier version than the entry before it. With no index or
 * no place it reads the window alone. 0; EBADF: the user is closed, and the window is zeros. Then every place keeps what it had. */
uint32_t maple_shared_load_many(struct maple_user *user, const uint64_t *indexes, size_t count, uint64_t *entries, size_t places,
                                struct maple_window *window) MAPLE_NONNULL;

/* The first range that ends at index or above and begins at max or below. Where index is above max it finds none. */
uint32_t maple_shared_find(struct maple_user *user, uint64_t index, uint64_t max, struct maple_read *read) MAPLE_NONNULL;

/* The first range that begins above index, and at max or below. EAGAIN: the leaf of index was replaced meanwhile, and the read gave up. lo
 * calls had ended before it, and hi, which is more, have begun. Try again. */
uint32_t maple_shared_next(struct maple_user *user, uint64_t index, uint64_t max, struct maple_read *read) MAPLE_NONNULL;

/* The last range that ends below index, and at min or above. EAGAIN as of maple_shared_next. */
uint32_t maple_shared_prev(struct maple_user *user, uint64_t index, uint64_t min, struct maple_read *read) MAPLE_NONNULL;

/* The last range that begins at index or below and ends at min or above. Where index is below min it finds none. EAGAIN as of
 * maple_shared_next. */
uint32_t maple_shared_rfind(struct maple_user *user, uint64_t index, uint64_t min, struct maple_read *read) MAPLE_NONNULL;

/* The next range of a walk; the walk continues after it. A step is a find from where the walk is. Any words are a walk, as in maple.h, and
 * each step is a read with a version interval of its own. ENOENT: there is none, and the walk has ended. EBADF: the user is closed, and the
 * walk is as it was.
 * The user keeps the leaf of its last step until it makes any other call, steps another walk, or the walk ends. Until then nodes that calls
 * replace cannot be reused, and before long the calls of other users return ENOMEM. Measured: when 1.3 calls that replace a leaf were made
 * for each free node, which is after 80,000 in 65,504 nodes, a tenth of a second. So end a walk, or give it up by maple_pause. */
uint32_t maple_shared_step(struct maple_user *user, struct maple_walk *walk, struct maple_read *read) MAPLE_NONNULL;

/* As maple_shared_step, for ranges that begin at max or below, as a find up to max. ENOENT: the walk has ended. The next range begins above
 * max, or there is none, or the walk is above max. Where the walk has ended the user keeps no leaf; a step to a range that reaches max
 * ends it too. */
uint32_t maple_shared_step_to(struct maple_user *user, struct maple_walk *walk, uint64_t max, struct maple_read *read) MAPLE_NONNULL;

/* The next ranges of a walk: as many as there are places, and at most MAPLE_MOST_STEPS; the walk continues after them. The other places
 * keep what they had. All are of versions in the one window, and none is of an earlier version than the range before it. The user keeps
 * the leaf of the last, as after maple_shared_step. From a place that the leaf at hand covers it takes at most 35 steps a range, unless that
 * leaf was found marked.
 * 0: *count were found. Where these are fewer than both numbers, the walk has ended. Where they are as many, it continues after the last, also
 * if there are no more; it has ended only where that one holds the index 2^64 - 1. With no place it finds none, and the walk is as it was.
 * ENOENT: none was found, and the walk has ended. EBADF: the user is closed, and the walk and every place are as they were. */
#define MAPLE_MOST_STEPS 32
uint32_t maple_shared_step_many(struct maple_user *user, struct maple_walk *walk, struct maple_range *ranges, size_t places, uint64_t *count,
                                struct maple_window *window) MAPLE_NONNULL;

/* Gives up the walk of the user, and its leaf: it holds no node any more. The walk may be continued, by a descent from the root.
 * 0; EBADF: the user is closed. */
uint32_t maple_pause(struct maple_user *user) MAPLE_NONNULL;

/* ---- writes (calls), as maple_store, .. of maple.h, with the same results. None takes memory.
 *
 * For all of them:
 * EBADF: the user is closed, and no call was made. EAGAIN: another user has the lock, and no call was made. EOVERFLOW: the tree had all its
 * calls, and no call was made. EINVAL: the call means nothing, as there; it gets a number nevertheless. ENOMEM: too few nodes are free.
 * Nodes that another user's read may still be in do not count as free. It gets a number nevertheless, and done has the counts of nodes:
 * where held is not 0 a reader holds them, and where it is 0 the tree is full.
 * Where a call returns anything but 0, each index holds what it held before. Each call gives up the walk of its user. */

/* As maple_store: done->word is the entry that it met. */
uint32_t maple_try_store(struct maple_user *user, uint64_t first, uint64_t last, uint64_t entry, struct maple_done *done)
    MAPLE_NONNULL MAPLE_CHECKED;

/* As maple_try_store, and returns all ranges that it met, as maple_store_over: met, room and count are as there. They are those of the tree
 * that the call found: no other call comes between. Where the lock was found taken, or the user is closed, count is 0 and met is as it
 * was. */
uint32_t maple_try_store_over(struct maple_user *user, uint64_t first, uint64_t last, uint64_t entry, struct maple_range *met, size_t room,
                              uint64_t *count, struct maple_done *done) MAPLE_NONNULL MAPLE_CHECKED;

/* As maple_store_pre: done->word is the entry that it met. */
uint32_t maple_try_store_pre(struct maple_user *user, uint64_t first, uint64_t last, uint64_t entry, struct maple_done *done)
    MAPLE_NONNULL MAPLE_CHECKED;

/* As maple_insert. EEXIST: a range holds some index there. */
uint32_t maple_try_insert(struct maple_user *user, uint64_t first, uint64_t last, uint64_t entry, struct maple_done *done)
    MAPLE_NONNULL MAPLE_CHECKED;

/* As maple_erase: done->first, last and entry are the range that was removed. ENOENT: no range holds the index. */
uint32_t maple_try_erase(struct maple_user *user, uint64_t index, struct maple_done *done) MAPLE_NONNULL MAPLE_CHECKED;

/* As maple_alloc: done->word is the start. EBUSY: no gap there is large enough. */
uint32_t maple_try_alloc(struct maple_user *user, uint64_t size, uint64_t min, uint64_t max, uint64_t entry, struct maple_done *done)
    MAPLE_NONNULL MAPLE_CHECKED;

/* As maple_ralloc: done->word is the start. EBUSY: no gap there is large enough. */
uint32_t maple_try_ralloc(struct maple_user *user, uint64_t size, uint64_t min, uint64_t max, uint64_t entry, struct maple_done *done)
    MAPLE_NONNULL MAPLE_CHECKED;

/* The four calls that keep the reserve, as maple_store_kept, .. of maple.h: they are made as maple_try_store, .. above, but a call that would
 * break it is not made. It gets no number (done->call is 0), nothing is changed, and it returns ENOMEM; done has no counts of nodes. The
 * ranges are those that the tree has under the lock. A call of a tree that has its reserve is refused for lack of nodes only while readers
 * hold some: then it has a number, and done->held is not 0. After a store by another call that was made, the next of these calls that may
 * add ranges counts the ranges of the whole tree, once. */

/* As maple_try_store, and keeps the reserve. */
uint32_t maple_try_store_kept(struct maple_user *user, uint64_t first, uint64_t last, uint64_t entry, struct maple_done *done)
    MAPLE_NONNULL MAPLE_CHECKED;

/* As maple_try_insert, and keeps the reserve. */
uint32_t maple_try_insert_kept(struct maple_user *user, uint64_t first, uint64_t last, uint64_t entry, struct maple_done *done)
    MAPLE_NONNULL MAPLE_CHECKED;

/* As maple_try_alloc, and keeps the reserve. */
uint32_t maple_try_alloc_kept(struct maple_user *user, uint64_t size, uint64_t min, uint64_t max, uint64_t entry, struct maple_done *done)
    MAPLE_NONNULL MAPLE_CHECKED;

/* As maple_try_ralloc, and keeps the reserve. */
uint32_t maple_try_ralloc_kept(struct maple_user *user, uint64_t size, uint64_t min, uint64_t max, uint64_t entry, struct maple_done *done)
    MAPLE_NONNULL MAPLE_CHECKED;

/* As maple_gap: done->word is the start. EBUSY: no gap there is large enough. It is a call too, with a number. */
uint32_t maple_try_gap(struct maple_user *user, uint64_t size, uint64_t min, uint64_t max, struct maple_done *done)
    MAPLE_NONNULL MAPLE_CHECKED;

/* As maple_rgap: done->word is the start. EBUSY: no gap there is large enough. It is a call too, with a number. */
uint32_t maple_try_rgap(struct maple_user *user, uint64_t size, uint64_t min, uint64_t max, struct maple_done *done)
    MAPLE_NONNULL MAPLE_CHECKED;

/* As maple_clear. */
uint32_t maple_try_clear(struct maple_user *user, struct maple_done *done) MAPLE_NONNULL MAPLE_CHECKED;

/* Makes count calls one after another under one lock. No call of another user comes between: their numbers follow one another. A read takes
 * no lock, and may return the tree as it was between two of them. Each call's status and done are its answer, and its other words stay as
 * they were. Where one is refused, those after it are made all the same. The lock is taken for as long as all of them last, and once for an
 * empty array too.
 * 0: all were made, whatever each returned. EAGAIN: another user has the lock. EINVAL: a verb is none of these. EOVERFLOW: the tree may not
 * have that many calls more. EBADF. Where it does not return 0, no call was made, and the array is as it was. */
uint32_t maple_try_batch(struct maple_user *user, struct maple_call *calls, size_t count) MAPLE_NONNULL MAPLE_CHECKED;

/* ---- what a user has seen. Each gives up the walk of its user. */

/* The user has then seen at least that many calls: its reads are of no older version. It is a read, and takes no lock. What another user
 * has seen is hi of its last read, or call of its last done: hand such a number over, and let this user learn it.
 * 0; EINPROGRESS: it does not see that many yet, as while a call that has begun has not ended. */
uint32_t maple_learn(struct maple_user *user, uint64_t calls) MAPLE_NONNULL MAPLE_CHECKED;

/* The user has then seen the whole history. *calls: its length. Users that get the same number have seen the same history.
 * 0; EAGAIN: another user has the lock. */
uint32_t maple_sync(struct maple_user *user, uint64_t *calls) MAPLE_NONNULL MAPLE_CHECKED;

/* Shows the whole history to this user and to every place that no user has. *calls: its length. *places: how many such places. Where these
 * are all other places that the tree was opened for, each call was made by this user or by a user of one of these places.
 * 0; EAGAIN: another user has the lock, or is at the places. */
uint32_t maple_settle(struct maple_user *user, uint64_t *calls, uint64_t *places) MAPLE_NONNULL MAPLE_CHECKED;

/* The epoch of the oldest walk. *calls: how many calls had ended, at least, when the oldest walk or read began that still keeps its leaf.
 * Where there is none, it is the number of all calls. The user has then seen the whole history.
 * It says when to free what an entry pointed to. Call c removed the entry: free the object once *calls is c or more. For that each reader
 * uses the object only in the walk whose step returned it (maple_shared_step). The walk holds it until maple_pause, the end of the walk or
 * any other call of its user. A load gives its leaf back before it returns, so it holds nothing.
 * Nodes that no reader holds are then free for calls. 0; EAGAIN: another user has the lock. */
uint32_t maple_oldest(struct maple_user *user, uint64_t *calls) MAPLE_NONNULL MAPLE_CHECKED;

/* ---- the whole tree, under its lock: no call is made meanwhile, and the user has then seen the whole history. Each gives up the walk of
 * its user. 0; EAGAIN: another user has the lock; EBADF. */

/* As maple_check: tests each word of the tree, and returns its form. */
uint32_t maple_shared_check(struct maple_user *user, struct maple_form *form) MAPLE_NONNULL MAPLE_CHECKED;

/* As maple_stats: returns how the tree uses its nodes. Held ones are free again once no reader holds them and a call looks for nodes. */
uint32_t maple_shared_stats(struct maple_user *user, struct maple_stats *stats) MAPLE_NONNULL MAPLE_CHECKED;

/* As maple_image: writes the image of the tree to out. ERANGE: out has fewer bytes, and used is how many it must have; ENOMEM. */
uint32_t maple_shared_image(struct maple_user *user, uint8_t *out, size_t room, size_t *used) MAPLE_NONNULL MAPLE_CHECKED;

/* ---- calls that wait. Each is the call of its name that tries, but never returns EAGAIN or EINPROGRESS: it tries again.
 *
 * Between two tries it pauses the processor, then yields it, and at last sleeps, up to a millisecond at a time (c/wait.c). So a thread that
 * waits costs the others little, and may be late by that much when what it waits for is done. The lock is not fair: whoever tries first
 * gets it, there is no queue, and no bound is known on how often a thread finds it taken. None is made from a signal handler. */

/* As maple_try_store, waiting for the lock. */
uint32_t maple_wait_store(struct maple_user *user, uint64_t first, uint64_t last, uint64_t entry, struct maple_done *done)
    MAPLE_NONNULL MAPLE_CHECKED;

/* As maple_try_store_over, waiting for the lock. */
uint32_t maple_wait_store_over(struct maple_user *user, uint64_t first, uint64_t last, uint64_t entry, struct maple_range *met, size_t room,
                               uint64_t *count, struct maple_done *done) MAPLE_NONNULL MAPLE_CHECKED;

/* As maple_try_store_pre, waiting for the lock. */
uint32_t maple_wait_store_pre(struct maple_user *user, uint64_t first, uint64_t last, uint64_t entry, struct maple_done *done)
    MAPLE_NONNULL MAPLE_CHECKED;

/* As maple_try_insert, waiting for the lock. */
uint32_t maple_wait_insert(struct maple_user *user, uint64_t first, uint64_t last, uint64_t entry, struct maple_done *done)
    MAPLE_NONNULL MAPLE_CHECKED;

/* As maple_try_erase, waiting for the lock. */
uint32_t maple_wait_erase(struct maple_user *user, uint64_t index, struct maple_done *done) MAPLE_NONNULL MAPLE_CHECKED;

/* As maple_try_alloc, waiting for the lock. */
uint32_t maple_wait_alloc(struct maple_user *user, uint64_t size, uint64_t min, uint64_t max, uint64_t entry, struct maple_done *done)
    MAPLE_NONNULL MAPLE_CHECKED;

/* As maple_try_ralloc, waiting for the lock. */
uint32_t maple_wait_ralloc(struct maple_user *user, uint64_t size, uint64_t min, uint64_t max, uint64_t entry, struct maple_done *done)
    MAPLE_NONNULL MAPLE_CHECKED;

/* As maple_try_store_kept, waiting for the lock. */
uint32_t maple_wait_store_kept(struct maple_user *user, uint64_t first, uint64_t last, uint64_t entry, struct maple_done *done)
    MAPLE_NONNULL MAPLE_CHECKED;

/* As maple_try_insert_kept, waiting for the lock. */
uint32_t maple_wait_insert_kept(struct maple_user *user, uint64_t first, uint64_t last, uint64_t entry, struct maple_done *done)
    MAPLE_NONNULL MAPLE_CHECKED;

/* As maple_try_alloc_kept, waiting for the lock. */
uint32_t maple_wait_alloc_kept(struct maple_user *user, uint64_t size, uint64_t min, uint64_t max, uint64_t entry, struct maple_done *done)
    MAPLE_NONNULL MAPLE_CHECKED;

/* As maple_try_ralloc_kept, waiting for the lock. */
uint32_t maple_wait_ralloc_kept(struct maple_user *user, uint64_t size, uint64_t min, uint64_t max, uint64_t entry, struct maple_done *done)
    MAPLE_NONNULL MAPLE_CHECKED;

/* As maple_try_gap, waiting for the lock. */
uint32_t maple_wait_gap(struct maple_user *user, uint64_t size, uint64_t min, uint64_t max, struct maple_done *done)
    MAPLE_NONNULL MAPLE_CHECKED;

/* As maple_try_rgap, waiting for the lock. */
uint32_t maple_wait_rgap(struct maple_user *user, uint64_t size, uint64_t min, uint64_t max, struct maple_done *done)
    MAPLE_NONNULL MAPLE_CHECKED;

/* As maple_try_clear, waiting for the lock. */
uint32_t maple_wait_clear(struct maple_user *user, struct maple_done *done) MAPLE_NONNULL MAPLE_CHECKED;

/* As maple_try_batch, waiting for the lock. */
uint32_t maple_wait_batch(struct maple_user *user, struct maple_call *calls, size_t count) MAPLE_NONNULL MAPLE_CHECKED;

/* As maple_shared_next, but it reads again where the leaf was replaced. */
uint32_t maple_wait_next(struct maple_user *user, uint64_t index, uint64_t max, struct maple_read *read) MAPLE_NONNULL;

/* As maple_shared_prev, reading again so. */
uint32_t maple_wait_prev(struct maple_user *user, uint64_t index, uint64_t min, struct maple_read *read) MAPLE_NONNULL;

/* As maple_shared_rfind, reading again so. */
uint32_t maple_wait_rfind(struct maple_user *user, uint64_t index, uint64_t min, struct maple_read *read) MAPLE_NONNULL;

/* As maple_share, but it waits until no other user is at the places. */
uint32_t maple_wait_share(struct maple_user *user, struct maple_user *other) MAPLE_NONNULL MAPLE_CHECKED;

/* As maple_leave, waiting so. */
uint32_t maple_wait_leave(struct maple_user *user) MAPLE_NONNULL MAPLE_CHECKED;

/* As maple_shared_copy, waiting for the lock. */
uint32_t maple_wait_copy(struct maple_user *user, struct maple_user *copy, uint64_t rows, uint32_t users, uint64_t calls)
    MAPLE_NONNULL MAPLE_CHECKED;

/* As maple_learn, but it waits until that many calls have ended: for ever, where that many are never made. */
uint32_t maple_wait_learn(struct maple_user *user, uint64_t calls) MAPLE_NONNULL MAPLE_CHECKED;

/* As maple_sync, waiting for the lock. */
uint32_t maple_wait_sync(struct maple_user *user, uint64_t *calls) MAPLE_NONNULL MAPLE_CHECKED;

/* As maple_settle, waiting for the lock, and for the places. */
uint32_t maple_wait_settle(struct maple_user *user, uint64_t *calls, uint64_t *places) MAPLE_NONNULL MAPLE_CHECKED;

/* As maple_oldest, waiting for the lock. */
uint32_t maple_wait_oldest(struct maple_user *user, uint64_t *calls) MAPLE_NONNULL MAPLE_CHECKED;

/* As maple_shared_check, waiting for the lock. */
uint32_t maple_wait_check(struct maple_user *user, struct maple_form *form) MAPLE_NONNULL MAPLE_CHECKED;

/* As maple_shared_stats, waiting for the lock. */
uint32_t maple_wait_stats(struct maple_user *user, struct maple_stats *stats) MAPLE_NONNULL MAPLE_CHECKED;

/* As maple_shared_image, waiting for the lock. */
uint32_t maple_wait_image(struct maple_user *user, uint8_t *out, size_t room, size_t *used) MAPLE_NONNULL MAPLE_CHECKED;

#if defined(__SANITIZE_THREAD__)
#include "maple_tsan.h"
#elif defined(__has_feature)
#if __has_feature(thread_sanitizer)
#include "maple_tsan.h"
#endif
#endif

#ifdef __cplusplus
}
#endif

#endif
