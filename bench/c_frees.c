/* Whether the library gives back all memory that it takes, and closes the sections of the users that are closed. It is linked with
 * -Wl,--wrap=malloc,--wrap=realloc,--wrap=free, so that the library's blocks are counted. It says what is wrong first and exits
 * with 1, or prints how many blocks came and went. */
#include "maple_shared.h"
#include <inttypes.h>
#include <stdio.h>
#include <stdlib.h>

static uint64_t taken; /* blocks so far */
static int64_t held;   /* blocks that did not come back yet */

void *__real_malloc(size_t size);
void *__real_realloc(void *at, size_t size);
void __real_free(void *at);
void *__wrap_malloc(size_t size);
void *__wrap_realloc(void *at, size_t size);
void __wrap_free(void *at);

void *__wrap_malloc(size_t size) {
    void *at = __real_malloc(size);
    if (at) taken++, held++;
    return at;
}

void *__wrap_realloc(void *at, size_t size) {
    void *then = __real_realloc(at, size);
    if (!at && then) taken++, held++;
    return then;
}

void __wrap_free(void *at) {
    if (at) held--;
    __real_free(at);
}

#define IS(truth) do { if (!(truth)) { fprintf(stderr, "wrong: line %d: %s\n", __LINE__, #truth); exit(1); } } while (0)

/* Trees of one thread, made in each way that there is. */
static void alone(uint32_t kind) {
    struct maple_tree tree = {0}, copy = {0}, image = {0}, built = {0};
    static uint8_t bytes[1 << 20];
    struct maple_range ranges[50];
    uint64_t word, used, at;
    int64_t before = held;
    IS(maple_open(&tree, kind, 300) == 0 && held > before);
    for (uint64_t i = 0; i < 50; i++) {
        ranges[i] = (struct maple_range){10 * i, 10 * i + 4, 4096 + 4 * i};
        IS(maple_store(&tree, ranges[i].first, ranges[i].last, ranges[i].entry, &word) == 0);
    }
    IS(maple_copy(&tree, &copy, 300) == 0);
    IS(maple_image(&tree, bytes, sizeof bytes, &used) == 0);
    IS(maple_open_image(&image, bytes, used, 300) == 0);
    IS(maple_build(&built, kind, 300, ranges, 50, &at) == 0);
    IS(maple_open(&tree, kind, 300) == EALREADY && maple_copy(&tree, &copy, 300) == EALREADY);
    maple_close(&tree);
    maple_close(&copy);
    maple_close(&image);
    maple_close(&built);
    maple_close(&built);
    IS(held == before);
}

/* Users come, and go in each order; the last one gives the tree back. */
static void together(uint32_t kind, int way) {
    struct maple_user user[3] = {{0}, {0}, {0}};
    struct maple_walk walk = {0};
    struct maple_read read;
    struct maple_done done;
    int64_t before = held;
    IS(maple_shared_open(user, kind, 300, 3, 1000) == 0 && maple_share(user, user + 1) == 0 && maple_share(user, user + 2) == 0);
    IS(maple_try_store(user, 0, 9, 4096, &done) == 0 && maple_shared_step(user + 1, &walk, &read) == 0);
    for (int i = 0; i < 3; i++) {
        struct maple_user *goes = user + (i + way) % 3;
        if ((way + i) % 2) IS(maple_leave(goes) == 0);
        else maple_shared_close(goes);
        IS((held == before) == (i == 2));
    }
}

/* How many of so many calls that replace nodes lack rows, while another user keeps its walk, has left or is closed. */
static int lacks(uint32_t kind, int goes) {
    struct maple_user user = {0}, other = {0};
    struct maple_walk walk = {0};
    struct maple_read read;
    struct maple_done done;
    int64_t before = held;
    int lacked = 0;
    IS(maple_shared_open(&user, kind, 40, 2, 100000) == 0 && maple_share(&user, &other) == 0);
    IS(maple_try_store(&user, 0, 9, 4096, &done) == 0 && maple_shared_step(&other, &walk, &read) == 0);
    if (goes == 1) IS(maple_leave(&other) == 0);
    if (goes == 2) maple_shared_close(&other);
    for (uint64_t i = 0; i < 1000; i++) {
        uint32_t status = maple_try_store(&user, 20 + i % 7, 40 + i % 5, 4096 + 4 * (i % 3), &done);
        IS(status == 0 || status == ENOMEM);
        lacked += status == ENOMEM;
    }
    maple_shared_close(&user);
    maple_shared_close(&other);
    IS(held == before);
    return lacked;
}

int main(void) {
    for (uint32_t kind = 0; kind < 4; kind++) {
        alone(kind);
        for (int way = 0; way < 6; way++) together(kind, way);
        IS(lacks(kind, 0) > 0); /* an open section holds rows: so it would show */
        IS(lacks(kind, 1) == 0 && lacks(kind, 2) == 0);
    }
    printf("%" PRIu64 " blocks taken, all given back\n", taken);
    return 0;
}
