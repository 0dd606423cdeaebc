/* The kernel's own maple tree under a few calls, in the terms of include/maple.h: numbers of errno.h, ranges of three words.
 * bench/kernel_tree.c has them over the headers of a peer (bench/kernel_replies names it). */
#ifndef KERNEL_TREE_H
#define KERNEL_TREE_H

#include <stdint.h>

struct kernel_tree;

struct kernel_range {
    uint64_t first, last, entry;
};

/* A new tree, for allocation or not. It is not in RCU mode, for readers beside a writer: there the deferred free of a subtree
 * follows a wild pointer in user space. */
struct kernel_tree *kernel_open(int alloc);

/* A store by mtree_store_range, or by mas_preallocate and mas_store_prealloc. */
uint32_t kernel_store(struct kernel_tree *tree, uint64_t first, uint64_t last, uint64_t entry);
uint32_t kernel_store_pre(struct kernel_tree *tree, uint64_t first, uint64_t last, uint64_t entry);
uint32_t kernel_insert(struct kernel_tree *tree, uint64_t first, uint64_t last, uint64_t entry);
uint32_t kernel_erase(struct kernel_tree *tree, uint64_t index, uint64_t *entry);
uint32_t kernel_alloc(struct kernel_tree *tree, uint64_t size, uint64_t min, uint64_t max, uint64_t entry, uint64_t *start);
uint32_t kernel_ralloc(struct kernel_tree *tree, uint64_t size, uint64_t min, uint64_t max, uint64_t entry, uint64_t *start);
uint32_t kernel_gap(struct kernel_tree *tree, uint64_t size, uint64_t min, uint64_t max, uint64_t *start);
uint32_t kernel_rgap(struct kernel_tree *tree, uint64_t size, uint64_t min, uint64_t max, uint64_t *start);
void kernel_clear(struct kernel_tree *tree);

/* ENOENT where there is no such range; range is then three zeros. */
uint32_t kernel_load(struct kernel_tree *tree, uint64_t index, struct kernel_range *range);
uint32_t kernel_find(struct kernel_tree *tree, uint64_t index, uint64_t max, struct kernel_range *range);
uint32_t kernel_next(struct kernel_tree *tree, uint64_t index, uint64_t max, struct kernel_range *range);
uint32_t kernel_prev(struct kernel_tree *tree, uint64_t index, uint64_t min, struct kernel_range *range);
uint32_t kernel_rfind(struct kernel_tree *tree, uint64_t index, uint64_t min, struct kernel_range *range);

/* The ranges that mas_for_each visits in a window, at most room of them; returns how many there were. */
uint64_t kernel_visit(struct kernel_tree *tree, uint64_t index, uint64_t max, struct kernel_range *out, uint64_t room);

/* Whether the root is a node, and then the last index of its first slot. */
int kernel_has_node(struct kernel_tree *tree, uint64_t *first_pivot);

#endif
