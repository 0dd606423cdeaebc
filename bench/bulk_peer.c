/*
 * bulk_peer - the kernel's own bulk build, in user space: bulk_peer N prints `bulk N NS`, the nanoseconds of a range, the best
 * of five builds of a tree of N ranges, 16 * i .. 16 * i + 9 with the entry 4096 + 8 * i, in order, by mas_expected_entries
 * and a store of each.
 *
 * Built with a shim that makes the kernel's lib/maple_tree.c part of one unit (kshim.h), which is not in this repository.
 */
#include "kshim.h"

static double now(void)
{
	struct timespec t;

	clock_gettime(CLOCK_MONOTONIC, &t);
	return t.tv_sec * 1e9 + t.tv_nsec;
}

static double build(struct maple_tree *tree, unsigned long n)
{
	MA_STATE(mas, tree, 0, 0);
	double begun = now();
	unsigned long i;

	mtree_lock(tree);
	if (mas_expected_entries(&mas, n))
		exit(1);
	for (i = 0; i < n; i++) {
		mas_set_range(&mas, 16 * i, 16 * i + 9);
		mas_store(&mas, (void *)(4096 + 8 * i));
		if (mas_is_err(&mas))
			exit(1);
	}
	mas_destroy(&mas);
	mtree_unlock(tree);
	return now() - begun;
}

int main(int argc, char **argv)
{
	unsigned long n = argc > 1 ? strtoul(argv[1], NULL, 10) : 400000;
	double best = 1e18;
	int round;

	maple_tree_init();
	for (round = 0; round < 5; round++) {
		struct maple_tree tree;
		double took;

		mt_init_flags(&tree, 0);
		took = build(&tree, n);
		best = took < best ? took : best;
		mtree_destroy(&tree);
	}
	printf("bulk %lu %.1f\n", n, best / n);
	return 0;
}
