/* SPDX-License-Identifier: MIT OR Apache-2.0
 *
 * The maple tree for C and C++ programs: a B-tree map from disjoint ranges of indexes to entries, proved from its calls down to malloc.
 * This header has trees that one thread uses at a time. maple_shared.h has trees that threads share: writers take a lock, readers none.
 * maple_log.h plays logs and checks transcripts.
 *
 * Words: a row is a node of the tree. A call is a write, numbered from 1; a query is a read. A node that a write replaced is held until
 * the next write that looks for nodes. A hole is a gap between two ranges.
 *
 * Linking. An installed copy: -lmaple, as `pkg-config --libs maple` prints. A checkout: c/wait.c (the maple_wait_.. of maple_shared.h),
 * crates/mt_c/out/libmt_c.a (made by `rt lib` in crates/mt_c) and the kit's c/liblibc_c.a (malloc, realloc, free), in this order.
 * Nothing else is needed: no thread, no lock, no file.
 *
 * Every call returns a number of Linux's errno.h, and 0 where it was done; only maple_entry and maple_rows_for return their result, and
 * maple_close nothing. Further results go to the last pointers of a call, which it always writes: zeros where there is no result.
 *
 * The contracts of crates/mt_c hold for each call of a program that keeps these rules, which the library does not check:
 *   - A struct maple_tree is zeroed before its first call (= {0}). Then only these calls read and write it. It is not changed, and not
 *     copied, unless the copy is used from then on and the original never again.
 *   - One call at a time works on a tree, also where it only reads. A tree may go from thread to thread, handed over by a lock, a join or
 *     the start of a thread. Trees share nothing, so calls on different trees may run at the same time.
 *   - Pointers are not null, also where the length beside them is 0. They are valid for what their type says, and point to different
 *     objects.
 *   - No call is made from a signal handler, except reads as maple_shared.h allows. None is made in a child that was forked from a
 *     process with threads.
 *   - malloc, realloc and free are of one allocator, and align a block to each power of two up to 16 that divides its size.
 * A closed tree is no fault: each call returns EBADF for it. A call that is to open an open tree returns EALREADY.
 * While a program is tested it may be linked with -lmaple_debug instead of -lmaple. The calls are the same, but test their handles first.
 * They abort where a handle was copied and both are used, was closed by a copy, or was not zeroed. They abort too where it is in calls of
 * two threads, or a signal handler uses it that interrupted a call on it.
 */
#ifndef MAPLE_H
#define MAPLE_H

#if !defined(__linux__)
#error "the calls answer Linux's error numbers"
#endif

#include <stddef.h>
#include <stdint.h>

#if UINTPTR_MAX != UINT64_MAX
#error "the calls take pointers and lengths of 64 bits"
#endif

#define MAPLE_VERSION "0.1.0"

#if defined(__GNUC__)
#define MAPLE_NONNULL __attribute__((nonnull))
#define MAPLE_CHECKED __attribute__((warn_unused_result))
#else
#define MAPLE_NONNULL
#define MAPLE_CHECKED
#endif

#ifdef __cplusplus
extern "C" {
#endif

/* A tree. Zeroed it is closed. Whoever opens it has to call maple_close, which gives its memory back. */
struct maple_tree {
    void *at;
    uint64_t open;
};

/* The indexes from first to last, both included, and the entry that they hold, which is not 0. Three zeros are no range. */
struct maple_range {
    uint64_t first, last, entry;
};

/* A walk: where it continues. Zeroed it is before the first range; with next = index it is before the first that ends at index or above.
 * Any words are a walk, and it owns nothing. */
struct maple_walk {
    uint64_t next, ended;
};

/* How many levels a tree has, how many of its nodes are in use, and how many ranges it has. */
struct maple_form {
    uint64_t height, rows, ranges;
};

/* How many nodes a tree has, and how many of these are free, in use (live), and held. Held nodes were in use until a write replaced them;
 * they are free again when the next write looks for nodes. And how many levels the tree has, and how many writes were made. */
struct maple_stats {
    uint64_t rows, free, live, held, height, calls;
};

/* The kind of a tree. In a range tree each write says where its range goes. An allocation tree finds gaps too (maple_alloc, ..). */
enum {
    MAPLE_RANGE = 0,   /* indexes of 64 bits */
    MAPLE_ALLOC = 1,   /* and gaps are found */
    MAPLE_RANGE32 = 2, /* indexes of 32 bits: the greatest is 2^32 - 1 */
    MAPLE_ALLOC32 = 3
};

/* A tree has at most this many nodes. A node has 256 bytes, or 512 where indexes have 32 bits. */
#define MAPLE_MOST_ROWS 65504

/* The capacity: how many nodes surely hold this many ranges. A tree with that many nodes lacks none for a write (ENOMEM) that finds at most
 * this many ranges in it, where no walk or read of another user holds nodes. UINT64_MAX: no tree has so many nodes. The result is half
 * the ranges and some, for trees at their worst, and so for all kinds. Measured: mostly a node has 4 to 10 ranges, and about twice as
 * many where indexes have 32 bits. */
uint64_t maple_rows_for(uint64_t ranges);

/* The reserve of a tree that can always be emptied. In a full tree an erase may be refused too (ENOMEM), because it may need nodes. A tree
 * has its reserve where maple_rows_for of its ranges is at most its nodes. Then no call of it is refused for lack of nodes, whichever it is.
 * The calls maple_store_kept, maple_insert_kept, maple_alloc_kept and maple_ralloc_kept keep it. So a tree whose ranges came by these calls
 * takes every erase, in any order down to the empty map, every overwrite, and every store of 0 that adds no range. A shared tree has the same
 * calls, maple_try_store_kept, .. and maple_wait_store_kept, .. (maple_shared.h), and takes all these while no walk or read of another user
 * holds nodes. A tree of fewer than 6 nodes never has its reserve.
 * It costs room: such a tree is full at two ranges a node. A tree without this reserve still never refuses a maple_clear or an overwrite of
 * exactly one range for lack of nodes, and maple_copy continues its map in more nodes. */

/* ---- entries: any number but 0 and the reserved ones, which are below 4096 and 2 above a multiple of 4. These functions make neither. */

/* The entry that represents a number below 2^63: it is odd. */
static inline uint64_t maple_value(uint64_t number)
{
    return number << 1 | 1;
}

/* Whether an entry represents a number, and no pointer. */
static inline int maple_is_value(uint64_t entry)
{
    return (int)(entry & 1);
}

/* The number that it represents. */
static inline uint64_t maple_to_value(uint64_t entry)
{
    return entry >> 1;
}

/* The entry that represents a pointer: its address. The pointer is not null and aligned to 4 bytes or more, as malloc's are. */
static inline uint64_t maple_ptr(const void *pointer)
{
    return (uint64_t)(uintptr_t)pointer;
}

/* The pointer that it represents; null for the entry 0. */
static inline void *maple_to_ptr(uint64_t entry)
{
    return (void *)(uintptr_t)entry;
}

/* ---- opening and closing. Each but maple_close takes memory; those that open with a map take some more while they run. */

/* Opens an empty tree with a fixed number of nodes. Their memory is taken here, once for all writes. With 0 nodes no range can be stored.
 * 0; EALREADY: it is open, and stays as it was; EINVAL: no such kind; EDOM: more nodes than MAPLE_MOST_ROWS; ENOMEM. */
uint32_t maple_open(struct maple_tree *tree, uint32_t kind, uint64_t rows) MAPLE_NONNULL MAPLE_CHECKED;

/* Opens copy with the map of tree, in this many nodes: so a tree continues in more nodes, or in fewer.
 * 0; EBADF: tree is closed; EALREADY: copy is open, and stays as it was; EDOM: the nodes are fewer than tree has in use, or more than
 * MAPLE_MOST_ROWS; ENOMEM. */
uint32_t maple_copy(struct maple_tree *tree, struct maple_tree *copy, uint64_t rows) MAPLE_NONNULL MAPLE_CHECKED;

/* Opens a tree with the map and the kind of an image (maple_image), in this many nodes.
 * 0; EALREADY: it is open, and stays as it was; EBADMSG: the bytes are no image; EDOM: the nodes are fewer than the image has, or more
 * than MAPLE_MOST_ROWS; ENOMEM. */
uint32_t maple_open_image(struct maple_tree *tree, const uint8_t *bytes, size_t length, uint64_t rows) MAPLE_NONNULL MAPLE_CHECKED;

/* Bulk load: opens a tree of this kind with exactly these ranges. Its nodes are full, and are written at once, from the left.
 * 0; EALREADY: it is open, and stays as it was; EINVAL: no such kind; or the range with the number at, from 0, is invalid for the kind (as
 * in maple_store, and its entry is not 0) or not above the one before; EDOM: the nodes are fewer than the ranges need, or more than
 * MAPLE_MOST_ROWS; ENOMEM. Where no range is at fault at is 0. */
uint32_t maple_build(struct maple_tree *tree, uint32_t kind, uint64_t rows, const struct maple_range *ranges, size_t count, uint64_t *at)
    MAPLE_NONNULL MAPLE_CHECKED;

/* Closes a tree. A closed one stays closed. */
void maple_close(struct maple_tree *tree) MAPLE_NONNULL;

/* ---- writes (calls). None takes memory.
 *
 * Besides what each says: EBADF: the tree is closed. EINVAL: the call means nothing. ENOMEM: the call needs nodes, and fewer than 3 a
 * level and 1 are free; or it is one that keeps the reserve, and would break it. EOVERFLOW: the tree had 2^62 - 1 calls. Where a call
 * returns anything but 0, each index holds what it held before. */

/* Stores an entry over first .. last; 0 makes a gap there. old: the entry of the first range that it met, and 0 where it met none.
 * EINVAL: first is above last, last above the greatest index, or the entry is reserved. A store of an entry that is not 0 over exactly
 * one range needs no nodes. */
uint32_t maple_store(struct maple_tree *tree, uint64_t first, uint64_t last, uint64_t entry, uint64_t *old) MAPLE_NONNULL MAPLE_CHECKED;

/* As maple_store, and returns all ranges that it met: those that held an index of first .. last before it, in rising order, whole as they
 * were. met begins with them, as far as it has room; the rest of met keeps what it had. count: how many they are; 0 where first is above
 * last. Both are written whatever the call returns, and the ranges were overwritten only where that is 0. So whoever keeps objects in a tree
 * knows which of them to free. A walk from first up to last (maple_step_to) counts them before the store. */
uint32_t maple_store_over(struct maple_tree *tree, uint64_t first, uint64_t last, uint64_t entry, struct maple_range *met, size_t room,
                          uint64_t *count, uint64_t *old) MAPLE_NONNULL MAPLE_CHECKED;

/* As maple_store, but where it is not EINVAL it always requires 3 free nodes a level and 1, even if it turns out to need none. */
uint32_t maple_store_pre(struct maple_tree *tree, uint64_t first, uint64_t last, uint64_t entry, uint64_t *old) MAPLE_NONNULL MAPLE_CHECKED;

/* Stores an entry over first .. last where no range holds an index. EEXIST: one does. EINVAL as in maple_store, and for the entry 0. */
uint32_t maple_insert(struct maple_tree *tree, uint64_t first, uint64_t last, uint64_t entry) MAPLE_NONNULL MAPLE_CHECKED;

/* Removes the whole range that holds index, and needs nodes for it. was: that range. ENOENT: no range holds it. */
uint32_t maple_erase(struct maple_tree *tree, uint64_t index, struct maple_range *was) MAPLE_NONNULL MAPLE_CHECKED;

/* Stores an entry over size indexes at the lowest start at which they lie in one gap between min and max, both included. start: where.
 * EBUSY: no gap there is large enough. EINVAL: the tree is not for allocation; size is 0 or more than min .. max has; min is above max, max
 * above the greatest index; or the entry is 0 or reserved. */
uint32_t maple_alloc(struct maple_tree *tree, uint64_t size, uint64_t min, uint64_t max, uint64_t entry, uint64_t *start)
    MAPLE_NONNULL MAPLE_CHECKED;

/* As maple_alloc, at the highest start. */
uint32_t maple_ralloc(struct maple_tree *tree, uint64_t size, uint64_t min, uint64_t max, uint64_t entry, uint64_t *start)
    MAPLE_NONNULL MAPLE_CHECKED;

/* The four calls that keep the reserve (above). A call that would break it is not made: it gets no number (calls of maple_stats stays),
 * nothing is changed, and it returns ENOMEM. It would break it where it adds ranges, and the tree has fewer nodes than maple_rows_for of
 * those that there are then. Where it adds none, and the tree has no reserve, it may lack nodes: then ENOMEM has a number, as of
 * maple_store. An insert and an allocation count as one range more, whether or not they find their place. A store over ranges looks at
 * them first. After a maple_store, maple_store_over, maple_store_pre or a preallocated store that was made, the next of these calls that
 * may add ranges counts those of the whole tree, once. */

/* As maple_store, and keeps the reserve. */
uint32_t maple_store_kept(struct maple_tree *tree, uint64_t first, uint64_t last, uint64_t entry, uint64_t *old) MAPLE_NONNULL MAPLE_CHECKED;

/* As maple_insert, and keeps the reserve. ENOMEM may come where it would be EEXIST, or EINVAL. */
uint32_t maple_insert_kept(struct maple_tree *tree, uint64_t first, uint64_t last, uint64_t entry) MAPLE_NONNULL MAPLE_CHECKED;

/* As maple_alloc, and keeps the reserve. ENOMEM may come where it would be EBUSY, or EINVAL. */
uint32_t maple_alloc_kept(struct maple_tree *tree, uint64_t size, uint64_t min, uint64_t max, uint64_t entry, uint64_t *start)
    MAPLE_NONNULL MAPLE_CHECKED;

/* As maple_ralloc, and keeps the reserve, as maple_alloc_kept. */
uint32_t maple_ralloc_kept(struct maple_tree *tree, uint64_t size, uint64_t min, uint64_t max, uint64_t entry, uint64_t *start)
    MAPLE_NONNULL MAPLE_CHECKED;

/* Returns the start that maple_alloc would have, and stores nothing. EBUSY and EINVAL as there, but for the entry; no ENOMEM. */
uint32_t maple_gap(struct maple_tree *tree, uint64_t size, uint64_t min, uint64_t max, uint64_t *start) MAPLE_NONNULL MAPLE_CHECKED;

/* Returns the start that maple_ralloc would have, and stores nothing. */
uint32_t maple_rgap(struct maple_tree *tree, uint64_t size, uint64_t min, uint64_t max, uint64_t *start) MAPLE_NONNULL MAPLE_CHECKED;

/* Removes every range. It needs no nodes. */
uint32_t maple_clear(struct maple_tree *tree) MAPLE_NONNULL MAPLE_CHECKED;

/* Makes the tree ready for one store: it is ready where 3 nodes a level and 1 are free. It gets no number.
 * 0; EBADF: the tree is closed; ENOMEM: it is not ready. */
uint32_t maple_preallocate(struct maple_tree *tree) MAPLE_NONNULL MAPLE_CHECKED;

/* maple_store_pre where the tree is ready. ENOMEM: it is not ready, and no store was made. Where it is ready the store has its nodes. */
uint32_t maple_store_prealloc(struct maple_tree *tree, uint64_t first, uint64_t last, uint64_t entry, uint64_t *old)
    MAPLE_NONNULL MAPLE_CHECKED;

/* ---- reads (queries). None takes memory or changes a range. 0; ENOENT: there is no such range; EBADF: the tree is closed. */

/* Returns the entry at index alone; 0: no range holds it, or the tree is closed. */
uint64_t maple_entry(struct maple_tree *tree, uint64_t index) MAPLE_NONNULL;

/* The entries at count indexes, in the first places of entries: what maple_entry returns for each, 0 where there is none. If there are
 * fewer places than indexes, the indexes after them are not read. The other places keep what they had. With no index or no place nothing
 * is read. 0; EBADF: the tree is closed, and no place is written. */
uint32_t maple_load_many(struct maple_tree *tree, const uint64_t *indexes, size_t count, uint64_t *entries, size_t places) MAPLE_NONNULL;

/* The range that holds index. */
uint32_t maple_load(struct maple_tree *tree, uint64_t index, struct maple_range *range) MAPLE_NONNULL;

/* The first range that ends at index or above and begins at max or below. Where index is above max it finds none. */
uint32_t maple_find(struct maple_tree *tree, uint64_t index, uint64_t max, struct maple_range *range) MAPLE_NONNULL;

/* The first range that begins above index, and at max or below. */
uint32_t maple_next(struct maple_tree *tree, uint64_t index, uint64_t max, struct maple_range *range) MAPLE_NONNULL;

/* The last range that ends below index, and at min or above. */
uint32_t maple_prev(struct maple_tree *tree, uint64_t index, uint64_t min, struct maple_range *range) MAPLE_NONNULL;

/* The last range that begins at index or below and ends at min or above. Where index is below min it finds none. */
uint32_t maple_rfind(struct maple_tree *tree, uint64_t index, uint64_t min, struct maple_range *range) MAPLE_NONNULL;

/* The next range of a walk; the walk continues after it. ENOENT: there is none, and the walk has ended. EBADF: the tree is closed, and the
 * walk is as it was. The tree remembers the leaf of the walk that made the last step, so that walk descends from the root at most once a
 * leaf. Writes between two steps do no harm, nor do other walks: the walk then continues from its index, by a descent from the root. */
uint32_t maple_step(struct maple_tree *tree, struct maple_walk *walk, struct maple_range *range) MAPLE_NONNULL;

/* As many steps in one call as there are places. ranges: what each step finds, in the first places; the other places keep what they had.
 * count: how many ranges it found. These are fewer than places only if there are no more, and then the walk has ended. Where they fill all
 * places the walk continues after the last, also if there are no more: it has ended only where that one holds the tree's greatest index.
 * 0; ENOENT: it found none, and the walk has ended. With 0 places it finds none, and the walk continues from where it was, or has ended if
 * that is above the tree's greatest index. EBADF: the tree is closed, no place is written, and the walk is as it was. */
uint32_t maple_step_many(struct maple_tree *tree, struct maple_walk *walk, struct maple_range *ranges, size_t places, size_t *count)
    MAPLE_NONNULL;

/* As maple_step, for ranges that begin at max or below. ENOENT: the walk has ended. The next range begins above max, or there is none, or
 * the walk is above max. */
uint32_t maple_step_to(struct maple_tree *tree, struct maple_walk *walk, uint64_t max, struct maple_range *range) MAPLE_NONNULL;

/* ---- the whole tree */

/* Tests each word of the tree, and returns its form. It takes no memory.
 * 0, for every call keeps them well-formed; EBADF: the tree is closed; EBADMSG: something else wrote over them. */
uint32_t maple_check(struct maple_tree *tree, struct maple_form *form) MAPLE_NONNULL MAPLE_CHECKED;

/* Returns how the tree uses its nodes. It reads no node. 0; EBADF: the tree is closed. */
uint32_t maple_stats(struct maple_tree *tree, struct maple_stats *stats) MAPLE_NONNULL;

/* Writes the image of the tree to out: its kind, and its nodes in use, in the order of a walk from the root.
 * used: how many bytes it has, at most 33538080. It takes memory while it runs, and gives all of it back.
 * 0; EBADF: the tree is closed; ERANGE: out has fewer bytes, and used is how many it must have; ENOMEM. Where it does not return 0 out is
 * as before. */
uint32_t maple_image(struct maple_tree *tree, uint8_t *out, size_t room, size_t *used) MAPLE_NONNULL MAPLE_CHECKED;

#ifdef __cplusplus
}
#endif

#endif
