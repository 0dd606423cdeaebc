/* bench/kernel_tree.h over the kernel's own tree, of which kshim.h makes one text of C with this one. */
#define KSHIM_SINGLE
#include "kshim.h"
#include "kernel_tree.h"

struct kernel_tree {
    struct maple_tree tree;
    unsigned int flags;
};

static int ready;

struct kernel_tree *kernel_open(int alloc)
{
    struct kernel_tree *t = malloc(sizeof(*t));

    if (!t)
        abort();
    if (!ready++)
        maple_tree_init();
    t->flags = alloc ? MT_FLAGS_ALLOC_RANGE : 0;
    mt_init_flags(&t->tree, t->flags);
    return t;
}

void kernel_clear(struct kernel_tree *t)
{
    mtree_destroy(&t->tree);
    rcu_barrier();
    mt_init_flags(&t->tree, t->flags);
}

/* One call is over: what it put off is done. */
static uint32_t over(int err)
{
    rcu_barrier();
    return -err;
}

uint32_t kernel_store(struct kernel_tree *t, uint64_t first, uint64_t last, uint64_t entry)
{
    return over(mtree_store_range(&t->tree, first, last, (void *)entry, GFP_KERNEL));
}

uint32_t kernel_store_pre(struct kernel_tree *t, uint64_t first, uint64_t last, uint64_t entry)
{
    MA_STATE(mas, &t->tree, first, last);
    int err;

    if (first > last)
        return EINVAL;
    mtree_lock(&t->tree);
    err = mas_preallocate(&mas, (void *)entry, GFP_KERNEL);
    if (!err)
        mas_store_prealloc(&mas, (void *)entry);
    mtree_unlock(&t->tree);
    return over(err);
}

uint32_t kernel_insert(struct kernel_tree *t, uint64_t first, uint64_t last, uint64_t entry)
{
    return over(mtree_insert_range(&t->tree, first, last, (void *)entry, GFP_KERNEL));
}

uint32_t kernel_erase(struct kernel_tree *t, uint64_t index, uint64_t *entry)
{
    *entry = (uint64_t)mtree_erase(&t->tree, index);
    return over(*entry ? 0 : -ENOENT);
}

static uint32_t started(int err, unsigned long start, uint64_t *out)
{
    *out = err ? 0 : start;
    return over(err);
}

uint32_t kernel_alloc(struct kernel_tree *t, uint64_t size, uint64_t min, uint64_t max, uint64_t entry, uint64_t *start)
{
    unsigned long at = 0;
    int err = mtree_alloc_range(&t->tree, &at, (void *)entry, size, min, max, GFP_KERNEL);

    return started(err, at, start);
}

uint32_t kernel_ralloc(struct kernel_tree *t, uint64_t size, uint64_t min, uint64_t max, uint64_t entry, uint64_t *start)
{
    unsigned long at = 0;
    int err = mtree_alloc_rrange(&t->tree, &at, (void *)entry, size, min, max, GFP_KERNEL);

    return started(err, at, start);
}

uint32_t kernel_gap(struct kernel_tree *t, uint64_t size, uint64_t min, uint64_t max, uint64_t *start)
{
    MA_STATE(mas, &t->tree, 0, 0);
    int err;

    mtree_lock(&t->tree);
    err = mas_empty_area(&mas, min, max, size);
    mtree_unlock(&t->tree);
    return started(err, mas.index, start);
}

uint32_t kernel_rgap(struct kernel_tree *t, uint64_t size, uint64_t min, uint64_t max, uint64_t *start)
{
    MA_STATE(mas, &t->tree, 0, 0);
    int err;

    mtree_lock(&t->tree);
    err = mas_empty_area_rev(&mas, min, max, size);
    mtree_unlock(&t->tree);
    return started(err, mas.index, start);
}

static uint32_t told(void *entry, const struct ma_state *mas, struct kernel_range *range)
{
    *range = (struct kernel_range){0, 0, 0};
    if (!entry)
        return ENOENT;
    *range = (struct kernel_range){mas->index, mas->last, (uint64_t)entry};
    return 0;
}

uint32_t kernel_load(struct kernel_tree *t, uint64_t index, struct kernel_range *range)
{
    MA_STATE(mas, &t->tree, index, index);
    uint32_t status;

    rcu_read_lock();
    status = told(mas_walk(&mas), &mas, range);
    rcu_read_unlock();
    if ((uint64_t)mtree_load(&t->tree, index) != range->entry)
        return EIO;
    return status;
}

uint32_t kernel_find(struct kernel_tree *t, uint64_t index, uint64_t max, struct kernel_range *range)
{
    MA_STATE(mas, &t->tree, index, index);
    uint32_t status;

    rcu_read_lock();
    status = told(mas_find(&mas, max), &mas, range);
    rcu_read_unlock();
    return status;
}

uint32_t kernel_next(struct kernel_tree *t, uint64_t index, uint64_t max, struct kernel_range *range)
{
    MA_STATE(mas, &t->tree, index, index);
    uint32_t status;

    rcu_read_lock();
    status = told(mas_next(&mas, max), &mas, range);
    rcu_read_unlock();
    return status;
}

uint32_t kernel_prev(struct kernel_tree *t, uint64_t index, uint64_t min, struct kernel_range *range)
{
    MA_STATE(mas, &t->tree, index, index);
    uint32_t status;

    rcu_read_lock();
    status = told(mas_prev(&mas, min), &mas, range);
    rcu_read_unlock();
    return status;
}

uint32_t kernel_rfind(struct kernel_tree *t, uint64_t index, uint64_t min, struct kernel_range *range)
{
    MA_STATE(mas, &t->tree, index, index);
    uint32_t status;

    rcu_read_lock();
    status = told(mas_find_rev(&mas, min), &mas, range);
    rcu_read_unlock();
    return status;
}

uint64_t kernel_visit(struct kernel_tree *t, uint64_t index, uint64_t max, struct kernel_range *out, uint64_t room)
{
    MA_STATE(mas, &t->tree, index, index);
    uint64_t n = 0;
    void *entry;

    rcu_read_lock();
    mas_for_each(&mas, entry, max) {
        if (n == room)
            break;
        out[n++] = (struct kernel_range){mas.index, mas.last, (uint64_t)entry};
    }
    rcu_read_unlock();
    return n;
}

int kernel_has_node(struct kernel_tree *t, uint64_t *first_pivot)
{
    struct maple_enode *root = mt_root_locked(&t->tree);

    if (!xa_is_node(root))
        return 0;
    *first_pivot = ma_pivots(mte_to_node(root), mte_node_type(root))[0];
    return 1;
}
