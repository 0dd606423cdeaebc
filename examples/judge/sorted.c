/*
 * A range map that is no part of the maple tree: a sorted array under a mutex. It reads a log on standard input, runs
 * its lanes in threads, and prints a transcript for `mtreplay verify` to judge: docs/JUDGE.md. Of docs/LANGUAGE.md it
 * has trees of kind `range`, `store`, `erase`, `load`, `find`, `lane` and `join`, and refuses every other line.
 *
 *     cc -O2 -std=c11 -pthread -o sorted sorted.c        the map as it should be
 *     cc .. -DBUG=1 ..    a lost update: a call changes a copy, and puts it in the place of what others did meanwhile
 *     cc .. -DBUG=2 ..    a stale read: a lane reads a copy that may be older than its own last call
 *     cc .. -DBUG=3 ..    a reader without the lock: it may meet an array that is being moved
 *
 * It is built and run by run.sh, outside the gate.
 */
#define _GNU_SOURCE
#include <errno.h>
#include <inttypes.h>
#include <pthread.h>
#include <stdatomic.h>
#include <stdbool.h>
#include <stdio.h>
#include <stdlib.h>
#include <string.h>

#ifndef BUG
#define BUG 0
#endif

enum { TREES = 16, LANES = 16, RANGES = 65536, AGE = 8 };
static const size_t NONE = SIZE_MAX;

struct range { uint64_t first, last, entry; };
struct map { size_t count; struct range ranges[RANGES + 3]; };

/* `begun` counts the calls that have taken the lock, `ended` those whose change is whole: both move under the lock. */
struct tree { char name[17]; pthread_mutex_t lock; atomic_size_t begun, ended; struct map map; };

/* What a line asks for, and what came of it: a call's number, or a read's window, and the range that was met. */
struct step {
    enum { STORE, ERASE, LOAD, FIND } word;
    size_t line, lane, next;
    struct tree *tree;
    uint64_t first, last, entry;
    size_t number, lo, hi;
    bool invalid, found;
    struct range met;
};

static struct tree trees[TREES];
static struct step *steps;
static size_t tree_count, step_count, step_room, line_number, first_of[LANES], last_of[LANES];
static pthread_barrier_t barrier;

static void fail(const char *why)
{
    fprintf(stderr, "sorted: line %zu: %s\n", line_number, why);
    exit(1);
}

/* The place of the first range that ends at the index or above. */
static size_t place(const struct map *m, uint64_t index)
{
    size_t low = 0, high = m->count;
    while (low < high) {
        size_t middle = (low + high) / 2;
        if (m->ranges[middle].last < index) low = middle + 1; else high = middle;
    }
    return low;
}

/* A load is a find that is bounded by its index. */
static void answer(const struct map *m, struct step *s)
{
    if (s->first > s->last) return;
    size_t i = place(m, s->first);
    if (i >= m->count) return;
    s->met = m->ranges[i];
    s->found = s->met.first <= s->last;
}

/* Puts count ranges in the place of those from i up to j. */
static void replace(struct map *m, size_t i, size_t j, const struct range *put, size_t count)
{
    if (m->count - (j - i) + count > RANGES) { fputs("sorted: too many ranges\n", stderr); exit(1); }
    memmove(m->ranges + i + count, m->ranges + j, (m->count - j) * sizeof *put);
    memcpy(m->ranges + i, put, count * sizeof *put);
    m->count = m->count - (j - i) + count;
}

static void change(struct map *m, struct step *s)
{
    struct range put[3];
    size_t n = 0;
    s->invalid = s->word == STORE && (s->last < s->first || (s->entry < 4096 && s->entry % 4 == 2));
    if (s->invalid) return;
    size_t i = place(m, s->first), j = place(m, s->last);
    if (j < m->count && m->ranges[j].first <= s->last) j++;
    s->found = i < j;
    if (s->found) s->met = m->ranges[i];
    if (s->word == STORE) {
        if (i < j && m->ranges[i].first < s->first)
            put[n++] = (struct range){ m->ranges[i].first, s->first - 1, m->ranges[i].entry };
        if (s->entry != 0)
            put[n++] = (struct range){ s->first, s->last, s->entry };
        if (i < j && m->ranges[j - 1].last > s->last)
            put[n++] = (struct range){ s->last + 1, m->ranges[j - 1].last, m->ranges[j - 1].entry };
    }
    replace(m, i, j, put, n);
}

#if BUG == 1 || BUG == 2
static struct map copies[LANES];

static void copy(struct map *to, const struct map *from)
{
    to->count = from->count;
    memcpy(to->ranges, from->ranges, from->count * sizeof *from->ranges);
}
#endif

/* A call has its number from when it holds the lock until its change is whole. */
static void call(struct step *s)
{
    struct tree *t = s->tree;
    pthread_mutex_lock(&t->lock);
#if BUG == 1
    copy(&copies[s->lane], &t->map);
    pthread_mutex_unlock(&t->lock);
    change(&copies[s->lane], s);
    pthread_mutex_lock(&t->lock);
#endif
    s->number = atomic_fetch_add(&t->begun, 1) + 1;
#if BUG == 1
    copy(&t->map, &copies[s->lane]);
#else
    change(&t->map, s);
#endif
    atomic_store(&t->ended, s->number);
    pthread_mutex_unlock(&t->lock);
}

/* A read's window: the calls that had ended before it, and those that had begun when it was over. */
static void look(struct step *s)
{
    struct tree *t = s->tree;
#if BUG == 2
    static _Thread_local struct tree *of;
    static _Thread_local size_t age, number;
    if (of != t || ++age == AGE) {
        pthread_mutex_lock(&t->lock);
        copy(&copies[s->lane], &t->map);
        of = t, age = 0, number = t->ended;
        pthread_mutex_unlock(&t->lock);
    }
    answer(&copies[s->lane], s);
    s->lo = s->hi = number;
#else
    s->lo = atomic_load(&t->ended);
    if (BUG != 3) pthread_mutex_lock(&t->lock);
    answer(&t->map, s);
    if (BUG != 3) pthread_mutex_unlock(&t->lock);
    s->hi = atomic_load(&t->begun);
#endif
}

static void *run_lane(void *first)
{
    pthread_barrier_wait(&barrier);
    for (size_t i = *(size_t *)first; i != NONE; i = steps[i].next)
        if (steps[i].word == STORE || steps[i].word == ERASE) call(&steps[i]); else look(&steps[i]);
    return NULL;
}

/* All lanes that have steps begin at once, and the next phase begins when all are done. */
static void run_phase(void)
{
    pthread_t threads[LANES];
    unsigned count = 0;
    for (size_t lane = 0; lane < LANES; lane++) count += first_of[lane] != NONE;
    if (count != 0) pthread_barrier_init(&barrier, NULL, count);
    for (size_t lane = 0; lane < LANES; lane++)
        if (first_of[lane] != NONE && pthread_create(&threads[lane], NULL, run_lane, &first_of[lane]) != 0)
            fail("no thread");
    for (size_t lane = 0; lane < LANES; lane++)
        if (first_of[lane] != NONE) { pthread_join(threads[lane], NULL); first_of[lane] = NONE; }
    if (count != 0) pthread_barrier_destroy(&barrier);
}

static uint64_t number_in(const char *text)
{
    bool hex = strncmp(text, "0x", 2) == 0;
    const char *digits = hex ? text + 2 : text;
    if (strcmp(text, "max") == 0) return UINT64_MAX;
    errno = 0;
    uint64_t number = strtoull(digits, NULL, hex ? 16 : 10);
    if (*digits == 0 || errno != 0 || digits[strspn(digits, hex ? "0123456789abcdefABCDEF" : "0123456789")] != 0)
        fail("bad number");
    return number;
}

static struct tree *tree_named(const char *name)
{
    for (size_t i = 0; i < tree_count; i++) if (strcmp(trees[i].name, name) == 0) return &trees[i];
    fail("unknown tree");
    return NULL;
}

static void declare(const char *name, const char *kind)
{
    if (strcmp(kind, "range") != 0) fail("sorted has trees of kind range alone");
    if (tree_count == TREES || strlen(name) > 16) fail("too many trees, or a name too long");
    strcpy(trees[tree_count].name, name);
    pthread_mutex_init(&trees[tree_count++].lock, NULL);
}

static void add_step(int word, char **field, size_t lane)
{
    if (step_count == step_room) steps = realloc(steps, (step_room = 2 * step_room + 1024) * sizeof *steps);
    if (steps == NULL) fail("no memory");
    uint64_t first = number_in(field[2]), last = word == STORE || word == FIND ? number_in(field[3]) : first;
    steps[step_count] = (struct step){ .word = word, .line = line_number, .lane = lane, .next = NONE, .first = first,
        .last = last, .tree = tree_named(field[1]), .entry = word == STORE ? number_in(field[4]) : 0 };
    if (first_of[lane] == NONE) first_of[lane] = step_count; else steps[last_of[lane]].next = step_count;
    last_of[lane] = step_count++;
}

/* A line after the first; returns the lane of the lines after it. */
static size_t read_line(char *line, size_t lane)
{
    static const struct { const char *word; size_t fields; } words[] =
        { { "store", 5 }, { "erase", 3 }, { "load", 3 }, { "find", 4 }, { "tree", 3 }, { "lane", 2 }, { "join", 1 } };
    char *field[6];
    size_t n = 0, w = 0;
    for (char *f = strtok(line, " "); f != NULL && n < 6; f = strtok(NULL, " ")) field[n++] = f;
    if (n == 0 || line[0] == '#') return lane;
    while (w < 7 && strcmp(field[0], words[w].word) != 0) w++;
    if (w == 7) fail("sorted has no such word");
    if (n != words[w].fields) fail("wrong number of fields");
    if (w <= FIND) add_step((int)w, field, lane);
    if (w == 4) declare(field[1], field[2]);
    if (w == 5 && (lane = number_in(field[1])) >= LANES) fail("bad lane");
    if (w == 6) { run_phase(); lane = 0; }
    return lane;
}

static void print_step(const struct step *s, int version)
{
    struct range r = s->met;
    printf("%zu ", s->line);
    if (s->word == LOAD || s->word == FIND) printf("%zu %zu ", s->lo, s->hi); else printf("%zu ", s->number);
    if (s->invalid) puts("invalid");
    else if (!s->found) puts(s->word == STORE ? "ok" : "none");
    else if (s->word == LOAD) printf("entry %" PRIu64 "\n", r.entry);
    else if (s->word == STORE && version == 1) puts("ok");
    else if (s->word == STORE) printf("over %" PRIu64 "\n", r.entry);
    else if (s->word == ERASE && version == 1) printf("was %" PRIu64 "\n", r.entry);
    else printf("%s %" PRIu64 " %" PRIu64 " %" PRIu64 "\n", s->word == FIND ? "range" : "was",
                r.first, r.last, r.entry);
}

int main(void)
{
    char *line = NULL;
    size_t room = 0, lane = 0;
    int version = 0;
    for (size_t i = 0; i < LANES; i++) first_of[i] = NONE;
    for (ssize_t length; (length = getline(&line, &room, stdin)) > 0;) {
        line_number++;
        if (line[length - 1] != '\n') fail("no newline");
        line[length - 1] = 0;
        if (line_number > 1) lane = read_line(line, lane);
        else version = strcmp(line, "mtlog 1") == 0 ? 1 : strcmp(line, "mtlog 2") == 0 ? 2 : 0;
        if (version == 0) fail("no header");
    }
    if (version == 0) fail("no header");
    run_phase();
    for (size_t i = 0; i < step_count; i++) print_step(&steps[i], version);
    for (struct tree *t = trees; t < trees + tree_count; t++) {
        printf("tree %s range %zu\n", t->name, t->map.count);
        for (struct range *r = t->map.ranges; r < t->map.ranges + t->map.count; r++)
            printf("%" PRIu64 " %" PRIu64 " %" PRIu64 "\n", r->first, r->last, r->entry);
    }
    return fflush(stdout) == 0 && !ferror(stdout) ? 0 : 1;
}
