/* SPDX-License-Identifier: MIT OR Apache-2.0
 * An address map: the ranges of this process's memory, as /proc/self/maps lists them, and a look-up of an address.
 * The tree begins with few nodes. Where a store finds too few, it continues in a copy with twice as many.
 *     cc address_map.c $(pkg-config --cflags --libs maple) && ./a.out */
#include <errno.h>
#include <inttypes.h>
#include <maple.h>
#include <stdio.h>
#include <stdlib.h>
#include <string.h>

static void stop(const char *what, uint32_t status)
{
    fprintf(stderr, "%s: %s\n", what, strerror((int)status));
    exit(1);
}

/* Moves the tree into twice as many nodes. */
static void grow(struct maple_tree *tree, uint64_t *rows)
{
    struct maple_tree copy = {0, 0};
    uint32_t status = maple_copy(tree, &copy, *rows *= 2);
    if (status) stop("no copy", status);
    maple_close(tree);
    *tree = copy; /* and copy is not used again */
}

static void store(struct maple_tree *tree, uint64_t *rows, uint64_t first, uint64_t last, uint64_t entry)
{
    uint64_t old;
    uint32_t status;
    while ((status = maple_store(tree, first, last, entry, &old)) == ENOMEM) grow(tree, rows);
    if (status) stop("not stored", status);
}

/* Reads the map. The entry of a range is the name of what is mapped there; where it has no name it is a value. */
static void read_maps(struct maple_tree *tree, uint64_t *rows)
{
    char line[4096], name[4096];
    FILE *maps = fopen("/proc/self/maps", "r");
    if (!maps) stop("/proc/self/maps", ENOENT);
    while (fgets(line, sizeof line, maps)) {
        uint64_t first, end;
        int parts = sscanf(line, "%" SCNx64 "-%" SCNx64 " %*s %*s %*s %*s %4095[^\n]", &first, &end, name);
        const char *base = parts == 3 && strrchr(name, '/') ? strrchr(name, '/') + 1 : name;
        if (parts >= 2) store(tree, rows, first, end - 1, parts == 3 ? maple_ptr(strdup(base)) : maple_value(0));
    }
    fclose(maps);
}

static void tell(struct maple_tree *tree, const char *what, const void *where)
{
    struct maple_range range;
    if (maple_load(tree, (uint64_t)(uintptr_t)where, &range)) printf("%s lies nowhere\n", what);
    else if (maple_is_value(range.entry)) printf("%s lies in memory without a name\n", what);
    else printf("%s lies in %s\n", what, (char *)maple_to_ptr(range.entry));
}

int main(void)
{
    struct maple_tree tree = {0, 0};
    struct maple_walk walk = {0, 0};
    struct maple_range range;
    uint64_t rows = 4, ranges = 0;
    uint32_t status = maple_open(&tree, MAPLE_RANGE, rows);
    if (status) stop("not opened", status);
    read_maps(&tree, &rows);
    tell(&tree, "a variable of main", &rows);
    tell(&tree, "a null pointer", NULL);
    printf("the tree has grown: %s\n", rows > 4 ? "yes" : "no");
    for (; maple_step(&tree, &walk, &range) == 0; ranges++)
        if (!maple_is_value(range.entry)) free(maple_to_ptr(range.entry));
    struct maple_form form;
    if ((status = maple_check(&tree, &form))) stop("the tree is broken", status);
    printf("its walk came to each range: %s\n", ranges == form.ranges ? "yes" : "no");
    maple_close(&tree);
    return 0;
}
