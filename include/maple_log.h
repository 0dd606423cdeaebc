/* SPDX-License-Identifier: MIT OR Apache-2.0
 *
 * Logs of range operations and transcripts of their runs (docs/LANGUAGE.md), for C and C++ programs: proved and linked as the calls of
 * maple.h are. The head of maple.h has the rules that a program keeps. Both calls take memory while they run, and give all of it back. */
#ifndef MAPLE_LOG_H
#define MAPLE_LOG_H

#include "maple.h"

#ifdef __cplusplus
extern "C" {
#endif

/* Plays a log on one thread, on sorted lists, over trees of this many nodes, and writes the transcript to out. used: its length.
 * 0; ERANGE: out has fewer bytes, and used is how many it must have; EDOM: the nodes are not 4 to MAPLE_MOST_ROWS; E2BIG: the log has
 * 2^32 bytes or more; EINVAL: the bytes are no log; ENOMEM. Where it does not return 0 out is as before, and used is 0 but for ERANGE. */
uint32_t maple_replay(const uint8_t *log, size_t length, uint64_t rows, uint8_t *out, size_t room, size_t *used) MAPLE_NONNULL MAPLE_CHECKED;

/* Whether text is a transcript of a run of the log over trees of this many nodes, by one thread or many. The check is sound and complete.
 * calls, reads: how many it reports.
 * 0; EBADMSG: it is of no run; EDOM, E2BIG, EINVAL and ENOMEM as of maple_replay. Where it does not return 0 both counts are 0. */
uint32_t maple_verify(const uint8_t *log, size_t length, const uint8_t *text, size_t text_length, uint64_t rows, uint64_t *calls, uint64_t *reads)
    MAPLE_NONNULL MAPLE_CHECKED;

#ifdef __cplusplus
}
#endif

#endif
