/* Each refusal once, and of LengthMismatch each pair of lengths: the call that gives it, and its text.
 * The same source is C11 and C++17. */
#include "runlength.h"
#include "runlength_text.h"

#include <stdio.h>

static void show(const char *call, rl_refusal refusal)
{
    char text[160];
    rl_refusal_text(refusal, text, sizeof text);
    printf("%-40s  %s\n", call, text);
}

/* A valid column, a valid batch of two (keys, offsets, flat_ends), and lists that are not valid. */
static const int64_t ends[] = {3, 5, 9}, values[] = {7, 2, 7}, falling_ends[] = {3, 2, 9}, shorter_ends[] = {4};
static const int64_t starts[] = {0, 6}, stops[] = {4, 2};
static const uint32_t keys[] = {31, 44}, same_keys[] = {31, 31};
static const size_t offsets[] = {0, 2, 3}, late_offsets[] = {1, 2, 3}, many_offsets[130] = {0};
static const int64_t flat_ends[] = {3, 5, 4}, bad_flat_ends[] = {3, 5, 0};
static const uint8_t mask[] = {1, 0};

/* Buffers with more room than any of these calls needs. */
static int64_t out_ends[16], out_values[16], scratch_ends[16], scratch_values[16];
static size_t out_offsets[16];
static uint32_t out_keys[16];

#define OUT out_ends, 16, out_values, 16
#define OUT_FLAT out_offsets, 16, OUT
#define OUT_BATCH out_keys, 16, OUT_FLAT
#define SCRATCH scratch_ends, 16, scratch_values, 16
#define BATCH keys, 2, offsets, 3, flat_ends, 3, values, 3

static void show_lengths(void)
{
    rl_fill none = rl_fill_missing();
    show("from_runs: 3 runs, 2 values", rl_from_runs(ends, 3, values, 2, OUT).refusal);
    show("batch_from_parts: 2 keys, 2 offsets", rl_batch_from_parts(keys, 2, offsets, 2, flat_ends, 3, values, 3));
    show("from_ends: 3 ends, 2 values", rl_from_ends(ends, 3, values, 2));
    show("batch_collapse: 1 new key, 2 keys", rl_batch_collapse(BATCH, keys, 1, none, RL_ADD, OUT_BATCH, SCRATCH).refusal);
    show("push_run: 3 runs used, 2 values", rl_push_run(out_ends, 16, out_values, 2, 3, 1, 7).refusal);
    show("merge_plan: 1 mask byte, 3 runs", rl_merge_plan(ends, 3, mask, 1, out_ends, 16, out_offsets, 16).refusal);
    show("batch_getitems: 1 key, 2 starts", rl_batch_getitems(BATCH, keys, 1, starts, 2, starts, 2, OUT_FLAT).refusal);
    show("getitems: 2 starts, 1 end", rl_getitems(ends, 3, values, 3, starts, 2, stops, 1, OUT_FLAT).refusal);
}

int main(void)
{
    static const int64_t negative[] = {4, -1, 2}, too_long[] = {INT64_MAX, 1, 0};
    rl_fill none = rl_fill_missing();

    show("zip_with: code 10", rl_zip_with(ends, 3, values, 3, ends, 3, values, 3, none, none, 10, OUT).refusal);
    show_lengths();
    show("concat: offsets from 1 on", rl_concat(late_offsets, 3, flat_ends, 3, values, 3, OUT).refusal);
    show("sum: ends 3, 2, 9", rl_sum(falling_ends, 3, values, 3).refusal);
    show("concat: the second sequence ends at 0", rl_concat(offsets, 3, bad_flat_ends, 3, values, 3, OUT).refusal);
    show("zip_many: 129 sequences", rl_zip_many(many_offsets, 130, ends, 0, values, 0, none, RL_ADD, OUT).refusal);
    show("from_runs: 4, -1, 2", rl_from_runs(negative, 3, values, 3, OUT).refusal);
    show("from_runs: 2^63 - 1, 1, 0", rl_from_runs(too_long, 3, values, 3, OUT).refusal);
    show("batch_from_parts: key 31 twice", rl_batch_from_parts(same_keys, 2, offsets, 3, flat_ends, 3, values, 3));
    show("getitems: 0 to 4, 6 to 2", rl_getitems(ends, 3, values, 3, starts, 2, stops, 2, OUT_FLAT).refusal);
    show("zip_with: lengths 9 and 4, no fill",
         rl_zip_with(ends, 3, values, 3, shorter_ends, 1, values, 1, none, none, RL_ADD, OUT).refusal);
    show("batch_zip_with: second key in one batch",
         rl_batch_zip_with(BATCH, keys, 1, offsets, 2, flat_ends, 2, values, 2, RL_LEFT, none, none, RL_ADD, OUT_BATCH).refusal);
    rl_repeat(7, 9, OUT);
    show("extend_to: 4, present length 9", rl_extend_to(out_ends, 16, out_values, 16, 1, 4, 7).refusal);
    show("merged: 3 runs, room for 2 values", rl_merged(ends, 3, values, 3, out_ends, 16, out_values, 2).refusal);
    show("merged: room for all", rl_merged(ends, 3, values, 3, OUT).refusal);
    return 0;
}
