/* SPDX-License-Identifier: MIT OR Apache-2.0
 * An allocator of numbers: each job draws the lowest free number, or a block of numbers, and is found by it.
 *     cc ids.c $(pkg-config --cflags --libs maple) && ./a.out */
#include <errno.h>
#include <inttypes.h>
#include <maple.h>
#include <stdio.h>
#include <stdlib.h>
#include <string.h>

struct job {
    uint64_t id, numbers;
    const char *name;
};

/* Draws a block of consecutive numbers from 1 to 20 for a job. */
static void draw(struct maple_tree *ids, struct job *job)
{
    uint32_t status = maple_alloc(ids, job->numbers, 1, 20, maple_ptr(job), &job->id);
    if (status == 0) printf("%s has %" PRIu64 " from %" PRIu64 "\n", job->name, job->numbers, job->id);
    else printf("%s has none: %s\n", job->name, status == EBUSY ? "no room" : strerror((int)status));
}

/* Gives back the numbers of the job that has this one. */
static void give_back(struct maple_tree *ids, uint64_t id)
{
    struct maple_range was;
    if (maple_erase(ids, id, &was)) return;
    printf("%s gave back %" PRIu64 " to %" PRIu64 "\n", ((struct job *)maple_to_ptr(was.entry))->name, was.first, was.last);
}

static void tell(struct maple_tree *ids, uint64_t id)
{
    struct maple_range found;
    if (maple_load(ids, id, &found)) printf("%" PRIu64 " is free\n", id);
    else printf("%" PRIu64 " is of %s\n", id, ((struct job *)maple_to_ptr(found.entry))->name);
}

int main(void)
{
    struct maple_tree ids = {0, 0};
    struct job jobs[] = {{0, 1, "ls"}, {0, 8, "make"}, {0, 1, "cat"}, {0, 11, "ninja"}, {0, 10, "bash"}};
    struct job *end = jobs + sizeof jobs / sizeof *jobs;
    if (maple_open(&ids, MAPLE_ALLOC, 100)) return 1;
    for (struct job *job = jobs; job < end; job++) draw(&ids, job);
    tell(&ids, 5);
    tell(&ids, 0);
    give_back(&ids, 5);
    tell(&ids, 5);
    draw(&ids, jobs + 2);
    maple_close(&ids);
    return 0;
}
