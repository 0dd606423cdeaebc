/* A sorted array of ranges without any tree: programs compare the calls of the library for C with it. */
#ifndef C_ARRAY_H
#define C_ARRAY_H

#include "maple.h"
#include <errno.h>
#include <inttypes.h>
#include <stdio.h>
#include <stdlib.h>
#include <string.h>

#define SPAN 3000        /* indexes are drawn below */
#define MOST (SPAN + 8)  /* ranges in the array */

static struct maple_range list[MOST];
static size_t count;
static uint64_t answers, state;

static void fail(const char *what, int line) {
    fprintf(stderr, "differs: %s, line %d, after %" PRIu64 " answers\n", what, line, answers);
    exit(1);
}
#define SAME(what, got, want) do { answers++; if ((uint64_t)(got) != (uint64_t)(want)) fail(what, __LINE__); } while (0)

static uint64_t draw(uint64_t below) {
    state = state * 6364136223846793005u + 1442695040888963407u;
    return (state >> 33) % below;
}

/* ---- the array */

static void place(size_t at, struct maple_range r) {
    memmove(list + at + 1, list + at, (count - at) * sizeof *list);
    list[at] = r;
    count++;
}

static void drop(size_t at) {
    memmove(list + at, list + at + 1, (count - at - 1) * sizeof *list);
    count--;
}

/* The first range that ends at index or above. */
static size_t from(uint64_t index) {
    size_t at = 0;
    while (at < count && list[at].last < index) at++;
    return at;
}

static int held(uint64_t first, uint64_t last) {
    size_t at = from(first);
    return at < count && list[at].first <= last;
}

/* Stores, and gives the entry of the first range that it met. */
static uint64_t over(uint64_t first, uint64_t last, uint64_t entry) {
    size_t at = from(first);
    uint64_t met = held(first, last) ? list[at].entry : 0;
    while (at < count && list[at].first <= last) {
        struct maple_range old = list[at];
        drop(at);
        if (old.first < first) place(at++, (struct maple_range){old.first, first - 1, old.entry});
        if (old.last > last) { place(at, (struct maple_range){last + 1, old.last, old.entry}); break; }
    }
    if (entry) place(at, (struct maple_range){first, last, entry});
    return met;
}

static int is_reserved(uint64_t entry) { return entry < 4096 && entry % 4 == 2; }

/* The lowest, or the highest, start of size indexes in one gap of min .. max; 0 where there is none. */
static int room(uint64_t size, uint64_t min, uint64_t max, int high, uint64_t *start) {
    for (uint64_t n = 0; n + size - 1 <= max - min; n++) {
        uint64_t at = high ? max - (size - 1) - n : min + n;
        if (!held(at, at + size - 1)) { *start = at; return 1; }
    }
    return 0;
}

/* What each query has to find; null where it has to find nothing. */
static const struct maple_range *find(uint64_t index, uint64_t max) {
    size_t at = from(index);
    return index <= max && at < count && list[at].first <= max ? list + at : 0;
}

static const struct maple_range *load(uint64_t index) { return find(index, index); }

static const struct maple_range *prev(uint64_t index, uint64_t min) {
    size_t at = from(index);
    return at > 0 && list[at - 1].last >= min ? list + at - 1 : 0;
}

/* The first range that begins above index. */
static size_t above(uint64_t index) {
    size_t at = 0;
    while (at < count && list[at].first <= index) at++;
    return at;
}

static const struct maple_range *next(uint64_t index, uint64_t max) {
    size_t at = above(index);
    return at < count && list[at].first <= max ? list + at : 0;
}

static const struct maple_range *rfind(uint64_t index, uint64_t min) {
    size_t at = above(index);
    return min <= index && at > 0 && list[at - 1].last >= min ? list + at - 1 : 0;
}

/* ---- comparing */

static const struct maple_range none;

static void same_range(const struct maple_range *got, const struct maple_range *want, int line) {
    answers++;
    if (memcmp(got, want, sizeof none)) fail("a range", line);
}

static void same_found(uint32_t status, const struct maple_range *got, const struct maple_range *want, int line) {
    answers++;
    if (status != (want ? 0 : ENOENT)) fail("whether a range is found", line);
    same_range(got, want ? want : &none, line);
}

#endif
