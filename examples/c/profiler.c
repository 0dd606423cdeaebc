/* SPDX-License-Identifier: MIT OR Apache-2.0
 * A sampling profiler: a signal handler looks up in which mapping of the process the interrupted thread was. That thread may be inside a
 * call of the same tree. The handler has its own user of the tree, which nobody else uses. So one thread gets the signal; each further
 * thread would need a user of its own for its handler.
 *     cc profiler.c $(pkg-config --cflags --libs maple) && ./a.out */
#ifndef _GNU_SOURCE
#define _GNU_SOURCE
#endif
#include <inttypes.h>
#include <maple_shared.h>
#include <signal.h>
#include <stdio.h>
#include <stdlib.h>
#include <string.h>
#include <sys/time.h>
#include <ucontext.h>

enum { SAMPLES = 100, MOST_NAMES = 1000 };

static struct maple_user own, handlers; /* main's, and its handler's */
static uint64_t hits[MOST_NAMES];       /* by the number of a mapping */
static volatile sig_atomic_t samples, nowhere, changed;

static void stop(const char *what, uint64_t number)
{
    fprintf(stderr, "%s: %" PRIu64 "\n", what, number);
    exit(1);
}

static uint64_t program_counter(const ucontext_t *at)
{
#if defined(__x86_64__)
    return (uint64_t)at->uc_mcontext.gregs[REG_RIP];
#elif defined(__aarch64__)
    return at->uc_mcontext.pc;
#else
#error "where does this machine keep its program counter?"
#endif
}

/* One read, and one count. */
static void sample(int number, siginfo_t *info, void *at)
{
    int before = errno;
    struct maple_read read;
    (void)number, (void)info;
    if (maple_shared_load(&handlers, program_counter((const ucontext_t *)at), &read) == 0) hits[maple_to_value(read.entry)]++;
    else nowhere = nowhere + 1;
    if (errno != before) changed = 1;
    samples = samples + 1;
}

/* Stores the mappings that there are now, each with its number. */
static uint64_t read_maps(void)
{
    char line[4096];
    uint64_t number = 0, first, end;
    FILE *maps = fopen("/proc/self/maps", "r");
    if (!maps) stop("/proc/self/maps", 0);
    while (fgets(line, sizeof line, maps) && number < MOST_NAMES) {
        struct maple_done done;
        if (sscanf(line, "%" SCNx64 "-%" SCNx64, &first, &end) != 2) continue;
        uint32_t status = maple_wait_store(&own, first, end - 1, maple_value(number++), &done);
        if (status) stop("not stored", status);
    }
    fclose(maps);
    return number;
}

int main(void)
{
    struct sigaction action;
    struct itimerval each = {{0, 1000}, {0, 1000}}, none = {{0, 0}, {0, 0}};
    uint64_t sum = 0, maps = 0;
    if (maple_shared_open(&own, MAPLE_RANGE, 1000, 2, MAPLE_MOST_CALLS) || maple_share(&own, &handlers)) stop("not opened", 0);
    memset(&action, 0, sizeof action);
    action.sa_sigaction = sample;
    action.sa_flags = SA_SIGINFO | SA_RESTART;
    read_maps();
    if (sigaction(SIGPROF, &action, NULL) || setitimer(ITIMER_PROF, &each, NULL)) stop("no timer", 0);
    while (samples < SAMPLES) maps = read_maps();
    setitimer(ITIMER_PROF, &none, NULL);
    for (uint64_t number = 0; number < MOST_NAMES; number++) sum += hits[number];
    printf("%d samples and more, each found: %s\n", SAMPLES, nowhere == 0 && sum == (uint64_t)samples ? "yes" : "no");
    printf("errno was changed: %s\n", changed ? "yes" : "no");
    fprintf(stderr, "%" PRIu64 " mappings, %d samples\n", maps, (int)samples);
    maple_shared_close(&handlers);
    maple_shared_close(&own);
    return 0;
}
