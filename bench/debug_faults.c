/* What the debug library finds: debug_faults NAME makes one fault, for which the program is to be aborted; debug_faults makes each in a
 * child and reports how many were found, and that what is no fault is none. */
#define _DEFAULT_SOURCE
#include "maple_shared.h"
#include <pthread.h>
#include <signal.h>
#include <stdio.h>
#include <stdlib.h>
#include <string.h>
#include <sys/wait.h>
#include <unistd.h>

static struct maple_tree tree;
static struct maple_user first, second;
static struct maple_range found;
static struct maple_read told;
static int is_over;

static void opens(void)
{
    uint64_t old;
    struct maple_done done;
    if (maple_open(&tree, MAPLE_RANGE, 100) || maple_store(&tree, 3, 5, 8, &old)) exit(2);
    if (maple_shared_open(&first, MAPLE_RANGE, 100, 4, MAPLE_MOST_CALLS) || maple_share(&first, &second)) exit(2);
    if (maple_try_store(&first, 3, 5, 8, &done)) exit(2);
}

/* ---- faults */

static void copied(void)
{
    struct maple_tree other = tree;
    maple_load(&other, 4, &found);
    maple_load(&tree, 4, &found);
}

static void copied_user(void)
{
    struct maple_user other = second;
    maple_shared_load(&second, 4, &told);
    maple_shared_load(&other, 4, &told);
    maple_shared_load(&second, 4, &told);
}

static void closed(void)
{
    struct maple_tree other = tree;
    maple_close(&tree);
    maple_load(&other, 4, &found);
}

static void closed_user(void)
{
    struct maple_user other = second;
    if (maple_wait_leave(&second)) exit(2);
    maple_shared_load(&other, 4, &told);
}

static void closed_and_opened(void)
{
    struct maple_tree other = tree;
    maple_close(&tree);
    if (maple_open(&tree, MAPLE_RANGE, 100)) exit(2);
    maple_load(&other, 4, &found);
    maple_load(&tree, 4, &found);
}

static void twice(void)
{
    if (maple_copy(&tree, &tree, 100)) exit(2);
}

static void not_zeroed(void)
{
    struct maple_tree other;
    memset(&other, 7, sizeof other);
    if (maple_open(&other, MAPLE_RANGE, 100)) exit(2);
}

static void *reads(void *user)
{
    while (!__atomic_load_n(&is_over, __ATOMIC_RELAXED)) maple_shared_load((struct maple_user *)user, 4, &told);
    return NULL;
}

static void two_threads(void)
{
    pthread_t other;
    struct maple_read mine;
    if (pthread_create(&other, NULL, reads, &second)) exit(2);
    for (int i = 0; i < 10000000; i++) maple_shared_load(&second, 4, &mine);
}

static void handler(int number)
{
    struct maple_read mine;
    (void)number;
    maple_shared_load(&second, 4, &mine);
}

static void interrupted(void)
{
    struct sigaction action;
    struct maple_read mine;
    memset(&action, 0, sizeof action);
    action.sa_handler = handler;
    sigaction(SIGALRM, &action, NULL);
    /* the signal interrupts this thread, and not the other */
    sigset_t alarms, before;
    sigemptyset(&alarms);
    sigaddset(&alarms, SIGALRM);
    pthread_sigmask(SIG_BLOCK, &alarms, &before);
    pthread_t other;
    if (pthread_create(&other, NULL, reads, &first)) exit(2);
    pthread_sigmask(SIG_SETMASK, &before, NULL);
    for (int i = 0; i < 10000000; i++) {
        if (i % 1000 == 0) ualarm(1 + i / 1000 % 50, 0);
        maple_shared_load(&second, 4, &mine);
    }
}

/* ---- what is none */

static void none(void)
{
    struct maple_tree moved = tree, again;
    struct maple_user gone;
    struct maple_walk walk = {0, 0};
    if (maple_load(&moved, 4, &found) || maple_step(&moved, &walk, &found)) exit(2);
    again = moved;
    if (maple_load(&again, 4, &found)) exit(2);
    maple_close(&again);
    maple_close(&again);
    gone = second;
    if (maple_shared_load(&gone, 4, &told) || maple_wait_leave(&gone) || maple_wait_leave(&gone) != EBADF) exit(2);
    memset(&second, 0, sizeof second);
    if (maple_share(&first, &second)) exit(2);
    for (int i = 0; i < 100000; i++) {
        struct maple_tree small = {0, 0};
        if (maple_open(&small, MAPLE_RANGE, 1)) exit(2);
        maple_close(&small);
    }
    maple_shared_close(&first);
    maple_shared_close(&second);
}

static const struct {
    const char *name;
    void (*make)(void);
    const char *says;
} faults[] = {
    {"copied", copied, "was copied"},
    {"copied_user", copied_user, "was copied"},
    {"closed", closed, "was closed"},
    {"closed_user", closed_user, "was closed"},
    {"closed_and_opened", closed_and_opened, "was "},
    {"twice", twice, "in a call on this handle"},
    {"not_zeroed", not_zeroed, "was not zeroed"},
    {"two_threads", two_threads, "another thread"},
    {"interrupted", interrupted, "a signal handler"},
};

/* Whether a child that makes it is aborted, and says so. */
static int is_found(size_t i)
{
    int ends[2], status;
    char said[300];
    ssize_t length;
    pid_t child;
    if (pipe(ends) || (child = fork()) < 0) exit(2);
    if (child == 0) {
        dup2(ends[1], 2);
        opens();
        faults[i].make();
        exit(0);
    }
    close(ends[1]);
    length = read(ends[0], said, sizeof said - 1);
    said[length > 0 ? length : 0] = 0;
    close(ends[0]);
    waitpid(child, &status, 0);
    if (WIFSIGNALED(status) && WTERMSIG(status) == SIGABRT && strstr(said, faults[i].says)) return 1;
    fprintf(stderr, "not found: %s (%x): %s\n", faults[i].name, (unsigned)status, said);
    return 0;
}

int main(void)
{
    size_t i, many = sizeof faults / sizeof faults[0], missed = 0;
    for (i = 0; i < many; i++) missed += !is_found(i);
    opens();
    none();
    printf("%zu of %zu faults are found\n", many - missed, many);
    return missed > 0;
}
