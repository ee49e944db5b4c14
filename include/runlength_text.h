/* A refusal as a line of text, for a log or an operator. */
#ifndef RUNLENGTH_TEXT_H
#define RUNLENGTH_TEXT_H

#include "runlength.h"

#include <inttypes.h>
#include <stdio.h>

#ifdef __cplusplus
extern "C" {
#endif

/* The lengths that disagree in 2. */
static inline const char *rl_what_text(uint64_t what)
{
    switch (what) {
    /* Written by bindings/generate, up to the next mark. */
    case RL_WHAT_RUNS_VALUES:
        return "runs, values";
    case RL_WHAT_OFFSETS_KEYS:
        return "offsets, keys + 1";
    case RL_WHAT_ENDS_VALUES:
        return "ends, values";
    case RL_WHAT_NEW_KEYS_KEYS:
        return "new keys, keys";
    case RL_WHAT_USED_BUFFER:
        return "used count, shorter buffer";
    case RL_WHAT_MASK_RUNS:
        return "mask, runs - 1";
    case RL_WHAT_KEYS_STARTS:
        return "keys, starts";
    case RL_WHAT_STARTS_ENDS:
        return "starts, ends";
    /* Up to here. */
    default:
        return "unknown lengths";
    }
}

/* The refusal's number, name and values. Takes and answers what snprintf does: at most `size` bytes are written, and the answer is
 * the length of the whole text. */
static inline int rl_refusal_text(rl_refusal refusal, char *text, size_t size)
{
    char at[40] = ""; /* the position of a key or a sequence, where the refusal carries it */
    if (refusal.in_key) {
        snprintf(at, sizeof at, ", position %" PRIu64, refusal.position);
    }
    switch (refusal.number) {
    case RL_ANSWERED:
        return snprintf(text, size, "answered");
    /* Written by bindings/generate, up to the next mark. */
    case RL_UNKNOWN_CODE:
        return snprintf(text, size, "1 UnknownCode: code %" PRIu64 "%s", refusal.first, at);
    case RL_LENGTH_MISMATCH:
        return snprintf(text, size, "2 LengthMismatch: %s: left %" PRIu64 ", right %" PRIu64 "%s", rl_what_text(refusal.first),
                        refusal.second, refusal.third, at);
    case RL_INVALID_OFFSETS:
        return snprintf(text, size, "3 InvalidOffsets%s", at);
    case RL_INVALID_ENDS:
        return snprintf(text, size, "4 InvalidEnds: index %" PRIu64 "%s", refusal.first, at);
    case RL_TOO_MANY:
        return snprintf(text, size, "5 TooMany: number %" PRIu64 "%s", refusal.first, at);
    case RL_NEGATIVE_RUN:
        return snprintf(text, size, "6 NegativeRun: index %" PRIu64 ", run %" PRId64 "%s", refusal.first, (int64_t)refusal.second,
                        at);
    case RL_OVERFLOW:
        return snprintf(text, size, "7 Overflow%s", at);
    case RL_DUPLICATE_KEY:
        return snprintf(text, size, "8 DuplicateKey: position %" PRIu64 "%s", refusal.first, at);
    case RL_INVALID_INTERVAL:
        return snprintf(text, size, "9 InvalidInterval: index %" PRIu64 ", start %" PRId64 ", end %" PRId64 "%s", refusal.first,
                        (int64_t)refusal.second, (int64_t)refusal.third, at);
    case RL_UNEQUAL_LENGTH:
        return snprintf(text, size, "10 UnequalLength: left %" PRId64 ", right %" PRId64 "%s", (int64_t)refusal.first,
                        (int64_t)refusal.second, at);
    case RL_LENGTH_TOO_SHORT:
        return snprintf(text, size, "11 LengthTooShort: requested %" PRId64 ", required %" PRId64 "%s", (int64_t)refusal.first,
                        (int64_t)refusal.second, at);
    case RL_SHORT_BUFFER:
        return snprintf(text, size, "12 ShortBuffer: which %" PRIu64 ", needed %" PRIu64 ", given %" PRIu64 "%s", refusal.first,
                        refusal.second, refusal.third, at);
    /* Up to here. */
    default:
        return snprintf(text, size, "%" PRIu64 " is no refusal of this library", refusal.number);
    }
}

#ifdef __cplusplus
}
#endif

#endif
