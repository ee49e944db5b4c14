/* What runlength_views.h adds to the calls: null pointers where there are no entries, and a warning for an answer that is not looked
 * at, by which this does not compile with UNLOOKED (see the Makefile).
 * The same source is C11 and C++17. */
#include "runlength.h"
#include "runlength_text.h"
#include "runlength_views.h"

#include <stdio.h>

static void show(const char *call, rl_refusal refusal)
{
    char text[160];
    rl_refusal_text(refusal, text, sizeof text);
    printf("%-16s  %s\n", call, text);
}

/* All pointers are null. */
static rl_column no_column;
static rl_flat no_flat;
static rl_batch no_batch;
static rl_column_buffer no_room;
static rl_batch_buffer no_batch_room;

int main(void)
{
    int64_t ends[] = {3, 5}, values[] = {7, 2}, out_ends[2], out_values[2];
    size_t offsets[1];
    rl_fill none = rl_fill_missing();
    rl_column column = {ends, values, 2};
    rl_column_buffer out = {out_ends, out_values, 2};
    rl_batch_buffer batch_room = no_batch_room;
    batch_room.offsets = offsets;
    batch_room.room = rlv_batch_reversed_size(no_batch);

    show("from_runs", rlv_from_runs(NULL, 0, NULL, 0, no_room).refusal);
    show("zip_with", rlv_zip_with(no_column, no_column, none, none, RL_ADD, no_room).refusal);
    show("zip_with", rlv_zip_with(column, no_column, none, rl_fill_value(1), RL_ADD, out).refusal);
    show("zip_with", rlv_zip_with(column, column, none, none, RL_ADD, no_room).refusal);
    show("zip_many", rlv_zip_many(no_flat, none, RL_ADD, no_room).refusal);
    show("merge_mask", rlv_merge_mask(no_column, NULL, 0, RL_KEEP_LAST, no_room).refusal);
    show("group_ids", rlv_group_ids(NULL, 0, NULL, 0).refusal);
    show("batch_from_parts", rlv_batch_from_parts(no_batch));
    show("batch_get", rlv_batch_get(no_batch, 1, no_room).refusal);
    show("batch_reversed", rlv_batch_reversed(no_batch, batch_room).refusal);
    show("batch_reversed", rlv_batch_reversed(no_batch, no_batch_room).refusal);
#ifdef UNLOOKED
    rlv_sum(column);
#endif
    return 0;
}
