/* Reads of a shared tree in a signal handler, and the stack that each call takes: shared_signals SAMPLES.
 * One thread makes calls without end; another sends it a signal as soon as the last was handled. The handler makes each kind of read in
 * turn, by a user of its own, and compares the answer with what the thread stores. Of the samples more than
 * 100 have to be in the middle of a call, and errno has to stay. Each time it also reads and stores by the thread's own user. That is
 * EDEADLK if the user is at work, more than 100 times, and otherwise done, and leaves it as it was. Then each call is made on a stack of a
 * known pattern, on trees of two kinds that change meanwhile. It prints the bytes of stack, and says what was wrong first and exits
 * with 1. */
#define _GNU_SOURCE
#include "maple_shared.h"
#include <inttypes.h>
#include <pthread.h>
#include <signal.h>
#include <stdio.h>
#include <stdlib.h>
#include <string.h>
#include <ucontext.h>

enum { PLACES = 100, READS = 10, STACK = 1 << 17, ROUNDS = 4000, PATTERN = 0xa5 };

static struct maple_user writer, handlers;
static volatile sig_atomic_t handled, wrong, in_midst, given_up, at_work;
static uint64_t floor_seen, state = 7;

static void fail(const char *what, uint64_t number)
{
    fprintf(stderr, "%s: %" PRIu64 "\n", what, number);
    exit(1);
}

static uint64_t draw(uint64_t below)
{
    state = state * 6364136223846793005u + 1442695040888963407u;
    return (state >> 33) % below;
}

/* ---- samples. Place p is 10 * p .. 10 * p + 9, and its entry tells p and how often it was stored. */

static uint64_t entry_at(uint64_t place, uint64_t times) { return maple_value(PLACES * times + place); }

/* Whether a read told a range of this place, or none. */
static int is_of(const struct maple_read *read, uint64_t place)
{
    return read->entry == 0 ? !(read->first | read->last)
                            : read->first == 10 * place && read->last == read->first + 9 && maple_to_value(read->entry) % PLACES == place;
}

/* An entry alone, or by a batch of two look-ups, as a read of the range of this place. No call goes on meanwhile, so both entries are one. */
static uint32_t entry_so(int many, uint64_t place, struct maple_read *read)
{
    struct maple_window window = {7, 7};
    uint64_t indexes[2] = {10 * place, 10 * place + 9}, entries[3] = {7, 7, 7};
    if (many) wrong |= maple_shared_load_many(&handlers, indexes, 2, entries, 3, &window) != 0;
    else entries[0] = entries[1] = maple_shared_entry(&handlers, indexes[0], &window);
    wrong |= entries[0] != entries[1] || entries[2] != 7;
    *read = (struct maple_read){window.lo, window.hi, entries[0] ? indexes[0] : 0, entries[0] ? indexes[1] : 0, entries[0]};
    return entries[0] ? 0 : ENOENT;
}

/* A batch of two steps, as a read of the first range that it finds. */
static uint32_t steps_so(struct maple_walk *walk, struct maple_read *read)
{
    struct maple_window window = {7, 7};
    struct maple_range ranges[3] = {{7, 7, 7}, {7, 7, 7}, {7, 7, 7}};
    uint64_t count = 7;
    uint32_t status = maple_shared_step_many(&handlers, walk, ranges, 2, &count, &window);
    wrong |= count < 1 || count > 2 || (count == 2 && ranges[1].first <= ranges[0].last) || ranges[2].first != 7;
    *read = (struct maple_read){window.lo, window.hi, ranges[0].first, ranges[0].last, ranges[0].entry};
    return status;
}

static uint32_t read_so(int which, uint64_t place, struct maple_walk *walk, struct maple_read *read)
{
    uint64_t at = 10 * place + 5;
    switch (which) {
    case 0: return maple_shared_load(&handlers, at, read);
    case 1: return maple_shared_find(&handlers, at, at, read);
    case 2: return maple_shared_next(&handlers, at - 10, at, read);
    case 3: return maple_shared_prev(&handlers, at + 10, at, read);
    case 4: return maple_shared_rfind(&handlers, at + 4, at, read);
    case 5: return maple_shared_step(&handlers, walk, read);
    case 6: case 7: return entry_so(which == 7, place, read);
    case 8: return steps_so(walk, read);
    default: return maple_learn(&handlers, floor_seen);
    }
}

/* By the user that the thread was perhaps in a call with: it is told, and has not changed. */
static void sample_its_own(uint64_t place)
{
    struct maple_user before = writer;
    struct maple_read read = {7, 7, 7, 7, 7};
    struct maple_done made = {7, 7, 7, 7, 7, 7, 7, 7, 7, 7, 7};
    struct maple_user more = {0, 0};
    struct maple_window window = {7, 7};
    uint64_t calls = 7;
    uint32_t status = maple_shared_load(&writer, 10 * place + 5, &read);
    if (status == EDEADLK) {
        at_work = at_work + 1;
        wrong |= (read.lo | read.hi | read.first | read.last | read.entry) != 0;
        wrong |= maple_try_store(&writer, 1, 2, 1, &made) != EDEADLK || (made.call | made.word | made.need) != 0;
        wrong |= maple_sync(&writer, &calls) != EDEADLK || calls != 0;
        wrong |= maple_shared_entry(&writer, 10 * place, &window) != 0 || (window.lo | window.hi) != 0;
        wrong |= maple_share(&writer, &more) != EDEADLK || more.open != 0 || maple_leave(&writer) != EDEADLK;
        wrong |= maple_shared_open(&writer, MAPLE_RANGE, 10, 1, 9) != EDEADLK;
        maple_shared_close(&writer);
        wrong |= memcmp(&before, &writer, sizeof before) != 0;
    } else {
        wrong |= status != (read.entry ? 0 : ENOENT) || !is_of(&read, place);
    }
}

static void sample(int number)
{
    static uint64_t turn;
    uint64_t place = 1 + turn++ * 37 % (PLACES - 2);
    struct maple_walk walk = {10 * place + 9, 0};
    struct maple_read read = {0, 0, 0, 0, 0};
    int before = errno, which = (int)(turn % READS);
    uint32_t status = read_so(which, place, &walk, &read);
    (void)number;
    if (status == EAGAIN && which >= 2 && which <= 4) given_up = given_up + 1;
    else if (which == READS - 1) wrong |= status != 0;
    else if (which == 5 || which == 8) wrong |= status != 0 || (read.first == 10 * place ? !is_of(&read, place) : read.first < 10 * place);
    else wrong |= status != (read.entry ? 0 : ENOENT) || !is_of(&read, place);
    if (which < READS - 1) {
        wrong |= read.lo < floor_seen || read.hi < read.lo;
        floor_seen = read.lo;
        in_midst = in_midst + (read.hi > read.lo);
    }
    sample_its_own(place);
    wrong |= errno != before;
    handled = handled + 1;
}

static void *sends(void *to)
{
    while (!wrong) {
        int before = handled;
        if (pthread_kill(*(pthread_t *)to, SIGUSR1)) fail("no signal", 0);
        while (handled == before && !wrong) sched_yield();
    }
    return NULL;
}

static void samples(int most)
{
    struct sigaction action;
    pthread_t me = pthread_self(), sender;
    struct maple_done done;
    if (maple_shared_open(&writer, MAPLE_RANGE, 2000, 2, MAPLE_MOST_CALLS) || maple_share(&writer, &handlers)) fail("not opened", 0);
    for (uint64_t place = 0; place < PLACES; place++)
        if (maple_try_store(&writer, 10 * place, 10 * place + 9, entry_at(place, 0), &done)) fail("not stored", place);
    memset(&action, 0, sizeof action);
    action.sa_handler = sample;
    if (sigaction(SIGUSR1, &action, NULL) || pthread_create(&sender, NULL, sends, &me)) fail("no sender", 0);
    for (uint64_t n = 1; handled < most && !wrong; n++) {
        uint64_t place = draw(PLACES - 1); /* the last stays, so that each walk finds one */
        uint32_t made = draw(3) ? maple_try_store(&writer, 10 * place, 10 * place + 9, entry_at(place, n), &done)
                                : maple_try_erase(&writer, 10 * place, &done);
        if (made && made != ENOENT && made != ENOMEM) fail("a call", made); /* a step of the handler's holds rows till its next read */
        errno = (int)(n % 100);
    }
    if (wrong) fail("a sample is wrong, of", (uint64_t)handled);
    wrong = 1; /* for the sender, which then ends */
    pthread_join(sender, NULL);
    signal(SIGUSR1, SIG_IGN);
    maple_shared_close(&handlers);
    maple_shared_close(&writer);
    if (in_midst <= 100) fail("too few samples were in the midst of a call", (uint64_t)in_midst);
    if (at_work <= 100) fail("too few samples found the thread's user at work", (uint64_t)at_work);
}

/* ---- stacks */

static ucontext_t here, there;
static unsigned char *stack;
static struct maple_tree tree, other;
static struct maple_user user, more;
static int kind, verb;

struct verb {
    const char *name;
    uint64_t most;
    void (*call)(void);
};

static struct maple_read found;
static struct maple_done done;
static struct maple_range range;
static struct maple_walk walk;
static struct maple_form form;
static uint64_t word, places;
static uint32_t status;
static struct maple_window window;
static struct maple_range ranges[40];
static uint64_t entries[80];
static uint8_t image[1 << 20];
static size_t used;
static struct maple_call calls[9] = {
    {.verb = MAPLE_CALL_STORE, .first = 10, .last = 900, .entry = 4}, {.verb = MAPLE_CALL_STORE_PRE, .first = 20, .last = 29},
    {.verb = MAPLE_CALL_INSERT, .first = 20, .last = 25, .entry = 8}, {.verb = MAPLE_CALL_ERASE, .first = 400},
    {.verb = MAPLE_CALL_ALLOC, .last = 9000, .entry = 4, .size = 7}, {.verb = MAPLE_CALL_RALLOC, .last = 9000, .entry = 4, .size = 7},
    {.verb = MAPLE_CALL_GAP, .last = 9000, .size = 5}, {.verb = MAPLE_CALL_RGAP, .last = 9000, .size = 5}, {.verb = MAPLE_CALL_CLEAR},
};

static uint64_t at(void) { return draw(3000); }

#define DOES(name, ...) static void does_##name(void) { status = maple_##name(__VA_ARGS__); }
#define CLOSES(name, ...) static void does_##name(void) { maple_##name(__VA_ARGS__); }
static void does_nothing(void) {}
DOES(shared_load, &user, at(), &found)
DOES(shared_entry, &user, at(), &window)
DOES(shared_load_many, &user, entries, 40, entries + 40, 40, &window)
DOES(shared_find, &user, at(), UINT64_MAX, &found)
DOES(shared_next, &user, at(), UINT64_MAX, &found)
DOES(shared_prev, &user, at(), 0, &found)
DOES(shared_rfind, &user, at(), 0, &found)
DOES(shared_step, &user, &walk, &found)
DOES(shared_step_many, &user, &walk, ranges, 40, &word, &window)
DOES(learn, &user, 1)
DOES(try_store, &user, at(), 3000 + at(), maple_value(at()), &done)
DOES(try_store_over, &user, at(), 3000 + at(), maple_value(at()), &range, 1, &word, &done)
DOES(try_store_pre, &user, at(), 3000 + at(), maple_value(at()), &done)
DOES(try_insert, &user, at(), at(), maple_value(at()), &done)
DOES(try_erase, &user, at(), &done)
DOES(try_alloc, &user, 1 + at() % 9, 0, 9000, maple_value(at()), &done)
DOES(try_ralloc, &user, 1 + at() % 9, 0, 9000, maple_value(at()), &done)
DOES(try_store_kept, &user, at(), 3000 + at(), maple_value(at()), &done)
DOES(try_insert_kept, &user, at(), at(), maple_value(at()), &done)
DOES(try_alloc_kept, &user, 1 + at() % 9, 0, 9000, maple_value(at()), &done)
DOES(try_ralloc_kept, &user, 1 + at() % 9, 0, 9000, maple_value(at()), &done)
DOES(try_gap, &user, 1 + at() % 9, 0, 9000, &done)
DOES(try_rgap, &user, 1 + at() % 9, 0, 9000, &done)
DOES(try_clear, &user, &done)
DOES(try_batch, &user, calls, 9)
DOES(sync, &user, &word)
DOES(settle, &user, &word, &places)
DOES(share, &user, &more)
DOES(leave, &more)
DOES(load, &tree, at(), &range)
DOES(find, &tree, at(), UINT64_MAX, &range)
DOES(next, &tree, at(), UINT64_MAX, &range)
DOES(prev, &tree, at(), 0, &range)
DOES(rfind, &tree, at(), 0, &range)
DOES(step, &tree, &walk, &range)
DOES(store, &tree, at(), 3000 + at(), maple_value(at()), &word)
DOES(store_pre, &tree, at(), 3000 + at(), maple_value(at()), &word)
DOES(store_over, &tree, at(), 3000 + at(), maple_value(at()), &range, 1, &places, &word)
DOES(insert, &tree, at(), at(), maple_value(at()))
DOES(erase, &tree, at(), &range)
DOES(alloc, &tree, 1 + at() % 9, 0, 9000, maple_value(at()), &word)
DOES(ralloc, &tree, 1 + at() % 9, 0, 9000, maple_value(at()), &word)
DOES(store_kept, &tree, at(), 3000 + at(), maple_value(at()), &word)
DOES(insert_kept, &tree, at(), at(), maple_value(at()))
DOES(alloc_kept, &tree, 1 + at() % 9, 0, 9000, maple_value(at()), &word)
DOES(ralloc_kept, &tree, 1 + at() % 9, 0, 9000, maple_value(at()), &word)
DOES(gap, &tree, 1 + at() % 9, 0, 9000, &word)
DOES(rgap, &tree, 1 + at() % 9, 0, 9000, &word)
DOES(clear, &tree)
DOES(preallocate, &tree)
DOES(store_prealloc, &tree, at(), 3000 + at(), maple_value(at()), &word)
DOES(check, &tree, &form)
DOES(image, &tree, image, sizeof image, &used)
DOES(copy, &tree, &other, 4000)
DOES(open_image, &other, image, used, 4000)
DOES(build, &other, (uint32_t)kind, 4000, &(struct maple_range){1, 2, 4}, 1, &word)
CLOSES(close, &other)

#define READ(name) {#name, MAPLE_READ_STACK, does_##name}
#define CALL(name) {#name, MAPLE_CALL_STACK, does_##name}
static const struct verb verbs[] = {
    {"nothing", MAPLE_READ_STACK, does_nothing},
    READ(shared_load), READ(shared_entry), READ(shared_load_many), READ(shared_find), READ(shared_next), READ(shared_prev),
    READ(shared_rfind), READ(shared_step), READ(shared_step_many), READ(learn),
    CALL(try_store), CALL(try_store_over), CALL(try_store_pre), CALL(try_insert), CALL(try_erase), CALL(try_alloc), CALL(try_ralloc),
    CALL(try_store_kept), CALL(try_insert_kept), CALL(try_alloc_kept), CALL(try_ralloc_kept), CALL(try_gap),
    CALL(try_rgap), CALL(try_clear), CALL(try_batch), CALL(sync), CALL(settle), CALL(share), CALL(leave),
    CALL(load), CALL(find), CALL(next), CALL(prev), CALL(rfind), CALL(step), CALL(store), CALL(store_pre), CALL(store_over), CALL(insert),
    CALL(erase), CALL(alloc), CALL(ralloc), CALL(store_kept), CALL(insert_kept), CALL(alloc_kept), CALL(ralloc_kept), CALL(gap), CALL(rgap),
    CALL(clear), CALL(preallocate), CALL(store_prealloc), CALL(check), CALL(image),
    CALL(copy), CALL(close), CALL(open_image), CALL(close), CALL(build), CALL(close),
};
enum { VERBS = sizeof verbs / sizeof *verbs };

static void on_stack(void)
{
    for (;;) {
        verbs[verb].call();
        if (swapcontext(&there, &here)) fail("no context", 0);
    }
}

/* The bytes of the stack that were written. */
static uint64_t depth(void)
{
    uint64_t low = 0;
    while (low < STACK && stack[low] == PATTERN) low++;
    return STACK - low;
}

/* Changes both trees, so that all cases of a call come. */
static void change(void)
{
    uint64_t first = at(), entry = draw(4) ? maple_value(at()) : 0;
    status = maple_try_store(&user, first, first + draw(9), entry, &done);
    status = maple_store(&tree, first, first + draw(9), entry, &word);
    entries[draw(40)] = first;
    if (draw(200) == 0) walk.next = 0, walk.ended = 0;
}

static uint64_t depth_of(int which)
{
    verb = which;
    memset(stack, PATTERN, STACK);
    if (getcontext(&there)) fail("no context", 0);
    there.uc_stack.ss_sp = stack;
    there.uc_stack.ss_size = STACK;
    there.uc_link = &here;
    makecontext(&there, on_stack, 0);
    for (int i = 0; i < ROUNDS; i++) {
        change();
        if (swapcontext(&here, &there)) fail("no context", 0);
    }
    return depth();
}

static void stacks(void)
{
    uint64_t most[VERBS] = {0};
    stack = malloc(STACK);
    if (!stack) fail("no memory", STACK);
    for (kind = 0; kind < 4; kind += 3) {
        if (maple_open(&tree, (uint32_t)kind, 4000) || maple_shared_open(&user, (uint32_t)kind, 4000, 3, MAPLE_MOST_CALLS)) fail("not opened", 0);
        for (int i = 0; i < 20000; i++) change();
        for (int which = 0; which < VERBS; which++) {
            uint64_t bytes = depth_of(which) - most[0] * (which > 0);
            if (bytes > most[which] || which == 0) most[which] = bytes;
        }
        maple_close(&tree);
        maple_close(&other);
        maple_shared_close(&user);
        maple_shared_close(&more);
    }
    for (int which = 1; which < VERBS; which++) {
        printf("%s %" PRIu64 ", ", verbs[which].name, most[which]);
        if (most[which] >= verbs[which].most) fail("more stack than the header tells", most[which]);
    }
    free(stack);
}

int main(int argc, char **argv)
{
    samples(argc > 1 ? atoi(argv[1]) : 30000);
    stacks();
    printf("bytes of stack\n%d samples, %d in the midst of a call, %d given up, %d found the thread's user at work\n", (int)handled, (int)in_midst,
           (int)given_up, (int)at_work);
    return 0;
}
