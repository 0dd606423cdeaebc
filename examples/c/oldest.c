/* SPDX-License-Identifier: MIT OR Apache-2.0
 * Entries that are pointers, and when to free what they point to, by maple_oldest: readers that publish nothing, and a writer that puts
 * new objects in the place of old ones.
 *
 * A reader uses an object only in the walk whose step returned it, and ends the walk when it is done with it. Until then maple_oldest
 * returns less than the number of the call that removes the object. So who removed one by the call c frees it once maple_oldest returns
 * c or more.
 *     cc oldest.c $(pkg-config --cflags --libs maple) -pthread && ./a.out */
#include <inttypes.h>
#include <maple_shared.h>
#include <pthread.h>
#include <sched.h>
#include <stdio.h>
#include <stdlib.h>

enum { READERS = 3, PLACES = 50, STORES = 20000, MOST_WAITING = 1000 };

struct object {
    uint64_t place, turned;
};

/* A thread and its user of the tree. On cache lines of its own. */
struct reader {
    struct maple_user user;
    pthread_t thread;
} __attribute__((aligned(128)));

/* What was removed by which call, and is not freed yet, in the order of the calls. */
struct waiting {
    uint64_t call;
    struct object *object;
};

static struct reader readers[READERS];
static struct waiting ring[MOST_WAITING];
static uint64_t put, freed;
static int is_over;

static void stop(const char *what, uint64_t number)
{
    fprintf(stderr, "%s: %" PRIu64 "\n", what, number);
    exit(1);
}

static void *reads(void *at)
{
    struct reader *me = (struct reader *)at;
    while (!__atomic_load_n(&is_over, __ATOMIC_SEQ_CST)) {
        for (uint64_t place = 0; place < PLACES; place++) {
            struct maple_walk walk = {10 * place + 5, 0};
            struct maple_read read;
            if (maple_shared_step(&me->user, &walk, &read)) stop("nothing is there", place);
            const struct object *object = (const struct object *)maple_to_ptr(read.entry);
            if (object->place != place || object->turned != ~place) stop("another object", object->place);
            maple_pause(&me->user);
        }
    }
    return NULL;
}

/* Frees what no reader uses any more. */
static void free_old(struct maple_user *user)
{
    uint64_t calls;
    uint32_t status = maple_wait_oldest(user, &calls);
    if (status) stop("not told", status);
    for (; freed < put && ring[freed % MOST_WAITING].call <= calls; freed++) free(ring[freed % MOST_WAITING].object);
}

/* Puts a new object over one place, which one range has: so the entry that the store met is all that it removed. */
static void replace(struct maple_user *user, uint64_t place)
{
    struct maple_done done;
    struct object *object = (struct object *)malloc(sizeof *object);
    if (!object) stop("no memory", place);
    object->place = place;
    object->turned = ~place;
    uint32_t status = maple_wait_store(user, 10 * place, 10 * place + 9, maple_ptr(object), &done);
    if (status) stop("not stored", status);
    if (done.word == 0) return;
    while (put - freed == MOST_WAITING) {
        free_old(user);
        sched_yield();
    }
    ring[put % MOST_WAITING].call = done.call;
    ring[put % MOST_WAITING].object = (struct object *)maple_to_ptr(done.word);
    put++;
}

int main(void)
{
    struct maple_user writer = {0, 0};
    struct maple_walk walk = {0, 0};
    struct maple_read read;
    uint64_t at_the_end = 0;
    uint32_t status = maple_shared_open(&writer, MAPLE_RANGE, 1000, READERS + 1, MAPLE_MOST_CALLS);
    if (status) stop("not opened", status);
    for (uint64_t place = 0; place < PLACES; place++) replace(&writer, place);
    for (struct reader *it = readers; it < readers + READERS; it++) {
        if ((status = maple_share(&writer, &it->user))) stop("not shared", status);
        if (pthread_create(&it->thread, NULL, reads, it)) stop("no thread", 0);
    }
    for (uint64_t n = 0; n < STORES; n++) replace(&writer, 7 * n % PLACES);
    free_old(&writer);
    printf("%d stores, and at most %d old objects wait: %s\n", STORES, MOST_WAITING, put - freed <= MOST_WAITING ? "yes" : "no");
    __atomic_store_n(&is_over, 1, __ATOMIC_SEQ_CST);
    for (struct reader *it = readers; it < readers + READERS; it++) {
        pthread_join(it->thread, NULL);
        maple_shared_close(&it->user);
    }
    free_old(&writer);
    for (; maple_shared_step(&writer, &walk, &read) == 0; at_the_end++) free(maple_to_ptr(read.entry));
    printf("%" PRIu64 " were freed before, and %" PRIu64 " with the tree\n", freed, at_the_end);
    maple_shared_close(&writer);
    return 0;
}
