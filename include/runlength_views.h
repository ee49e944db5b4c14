/* A column, columns laid flat and a batch as structs, and the calls of runlength.h over them: rlv_NAME makes the call rl_NAME, and
 * rlv_NAME_size answers rl_NAME_size. What a call needs, answers, refuses and costs stands in runlength.h, with three differences:
 * - a pointer may be null where there are no entries, so that a struct of zeros is an empty column, flat list or batch;
 * - an answer has to be looked at: gcc and clang warn where it is not;
 * - a code is an enum. One that is no byte is refused as code 255.
 * These calls cost what the calls below them do. */
#ifndef RUNLENGTH_VIEWS_H
#define RUNLENGTH_VIEWS_H

#include "runlength.h"
#include "runlength_sizes.h"

#ifdef __cplusplus
extern "C" {
#endif

#ifdef __GNUC__
#define RLV_CHECKED __attribute__((warn_unused_result))
#define RLV_RESTRICT __restrict__
#else
#define RLV_CHECKED
#define RLV_RESTRICT
#endif

/* What a call reads. Ends and values have `runs` entries each, keys `count`, and offsets one more. */

typedef struct {
    const int64_t *ends, *values;
    size_t runs;
} rl_column;

typedef struct {
    const size_t *offsets;
    const int64_t *ends, *values;
    size_t count; /* of columns */
    size_t runs;  /* of all columns */
} rl_flat;

typedef struct {
    const uint32_t *keys;
    const size_t *offsets;
    const int64_t *ends, *values;
    size_t count; /* of keys */
    size_t runs;  /* of all keys */
} rl_batch;

/* What a call writes: buffers with room for so many entries. They overlap nothing else that the call is handed. */

typedef struct {
    int64_t *RLV_RESTRICT ends, *RLV_RESTRICT values;
    size_t room; /* of each */
} rl_column_buffer;

typedef struct {
    size_t *RLV_RESTRICT offsets;
    int64_t *RLV_RESTRICT ends, *RLV_RESTRICT values;
    rl_batch_sizes room; /* without keys and scratch */
} rl_flat_buffer;

typedef struct {
    uint32_t *RLV_RESTRICT keys;
    size_t *RLV_RESTRICT offsets;
    int64_t *RLV_RESTRICT ends, *RLV_RESTRICT values;
    rl_batch_sizes room; /* without scratch */
} rl_batch_buffer;

/* What a call has written, to be read: by the counts of its answer. */

static inline rl_column rlv_written_column(rl_column_buffer buffer, size_t runs)
{
    rl_column column;
    column.ends = buffer.ends;
    column.values = buffer.values;
    column.runs = runs;
    return column;
}

static inline rl_flat rlv_written_flat(rl_flat_buffer buffer, size_t count, size_t runs)
{
    rl_flat flat;
    flat.offsets = buffer.offsets;
    flat.ends = buffer.ends;
    flat.values = buffer.values;
    flat.count = count;
    flat.runs = runs;
    return flat;
}

static inline rl_batch rlv_written_batch(rl_batch_buffer buffer, size_t count, size_t runs)
{
    rl_batch batch;
    batch.keys = buffer.keys;
    batch.offsets = buffer.offsets;
    batch.ends = buffer.ends;
    batch.values = buffer.values;
    batch.count = count;
    batch.runs = runs;
    return batch;
}

/* Columns laid flat under a key for each. */
static inline rl_batch rlv_batch(const uint32_t *keys, rl_flat flat)
{
    rl_batch batch;
    batch.keys = keys;
    batch.offsets = flat.offsets;
    batch.ends = flat.ends;
    batch.values = flat.values;
    batch.count = flat.count;
    batch.runs = flat.runs;
    return batch;
}

/* A batch without its keys. */
static inline rl_flat rlv_flat(rl_batch batch)
{
    rl_flat flat;
    flat.offsets = batch.offsets;
    flat.ends = batch.ends;
    flat.values = batch.values;
    flat.count = batch.count;
    flat.runs = batch.runs;
    return flat;
}

/* The column at a position below `count`, of a flat list that the calls accept. */
static inline rl_column rlv_column(rl_flat flat, size_t position)
{
    rl_column column;
    column.ends = flat.ends + flat.offsets[position];
    column.values = flat.values + flat.offsets[position];
    column.runs = flat.offsets[position + 1] - flat.offsets[position];
    return column;
}

/* What the calls share. The entry stands in for a null pointer; as an offset it is the only one of no columns. */

static inline const void *rlv_list(const void *entries)
{
    static const uint64_t entry = 0;
    return entries != NULL ? entries : &entry;
}

static inline void *rlv_buffer(void *entries)
{
    static uint64_t entry;
    return entries != NULL ? entries : &entry;
}

static inline uint8_t rlv_code(unsigned code)
{
    return (uint8_t)(code < 255 ? code : 255);
}

/* The calls, in the order of the library's exports */

/* Written by bindings/generate, up to the next mark. */
static inline size_t rlv_from_runs_size(size_t runs_len)
{
    return rl_from_runs_size(runs_len);
}

RLV_CHECKED
static inline rl_counted rlv_from_runs(const int64_t *runs, size_t runs_len, const int64_t *values, size_t values_len,
                                       rl_column_buffer out)
{
    return rl_from_runs((const int64_t *)rlv_list(runs), runs_len, (const int64_t *)rlv_list(values), values_len,
                        (int64_t *)rlv_buffer(out.ends), out.room, (int64_t *)rlv_buffer(out.values), out.room);
}

RLV_CHECKED
static inline rl_refusal rlv_from_ends(rl_column column)
{
    return rl_from_ends((const int64_t *)rlv_list(column.ends), column.runs, (const int64_t *)rlv_list(column.values), column.runs);
}

static inline size_t rlv_repeat_size(void)
{
    return rl_repeat_size();
}

RLV_CHECKED
static inline rl_counted rlv_repeat(int64_t value, int64_t length, rl_column_buffer out)
{
    return rl_repeat(value, length, (int64_t *)rlv_buffer(out.ends), out.room, (int64_t *)rlv_buffer(out.values), out.room);
}

static inline size_t rlv_push_run_size(size_t used)
{
    return rl_push_run_size(used);
}

RLV_CHECKED
static inline rl_counted rlv_push_run(rl_column_buffer column, size_t used, int64_t run, int64_t value)
{
    return rl_push_run((int64_t *)rlv_buffer(column.ends), column.room, (int64_t *)rlv_buffer(column.values), column.room, used,
                       run, value);
}

static inline size_t rlv_extend_to_size(size_t used)
{
    return rl_extend_to_size(used);
}

RLV_CHECKED
static inline rl_counted rlv_extend_to(rl_column_buffer column, size_t used, int64_t length, int64_t value)
{
    return rl_extend_to((int64_t *)rlv_buffer(column.ends), column.room, (int64_t *)rlv_buffer(column.values), column.room, used,
                        length, value);
}

static inline size_t rlv_from_dense_size(size_t values_len)
{
    return rl_from_dense_size(values_len);
}

RLV_CHECKED
static inline rl_counted rlv_from_dense(const int64_t *values, size_t values_len, rl_column_buffer out)
{
    return rl_from_dense((const int64_t *)rlv_list(values), values_len, (int64_t *)rlv_buffer(out.ends), out.room,
                         (int64_t *)rlv_buffer(out.values), out.room);
}

static inline size_t rlv_to_dense_size(rl_column column)
{
    return rl_to_dense_size((const int64_t *)rlv_list(column.ends), column.runs);
}

RLV_CHECKED
static inline rl_counted rlv_to_dense(rl_column column, int64_t *RLV_RESTRICT out, size_t out_len)
{
    return rl_to_dense((const int64_t *)rlv_list(column.ends), column.runs, (const int64_t *)rlv_list(column.values), column.runs,
                       (int64_t *)rlv_buffer(out), out_len);
}

RLV_CHECKED
static inline rl_equality rlv_equals(rl_column a, rl_column b)
{
    return rl_equals((const int64_t *)rlv_list(a.ends), a.runs, (const int64_t *)rlv_list(a.values), a.runs,
                     (const int64_t *)rlv_list(b.ends), b.runs, (const int64_t *)rlv_list(b.values), b.runs);
}

static inline size_t rlv_plan_size(size_t a_len, size_t b_len)
{
    return rl_plan_size(a_len, b_len);
}

RLV_CHECKED
static inline rl_counted rlv_plan(const int64_t *a, size_t a_len, const int64_t *b, size_t b_len, int64_t *RLV_RESTRICT out_ends,
                                  size_t out_ends_len, size_t *RLV_RESTRICT out_idx_a, size_t out_idx_a_len,
                                  size_t *RLV_RESTRICT out_idx_b, size_t out_idx_b_len)
{
    return rl_plan((const int64_t *)rlv_list(a), a_len, (const int64_t *)rlv_list(b), b_len, (int64_t *)rlv_buffer(out_ends),
                   out_ends_len, (size_t *)rlv_buffer(out_idx_a), out_idx_a_len, (size_t *)rlv_buffer(out_idx_b), out_idx_b_len);
}

static inline size_t rlv_zip_with_size(rl_column a, rl_column b)
{
    return rl_zip_with_size(a.runs, b.runs);
}

RLV_CHECKED
static inline rl_counted rlv_zip_with(rl_column a, rl_column b, rl_fill fill_a, rl_fill fill_b, enum rl_operation code,
                                      rl_column_buffer out)
{
    return rl_zip_with((const int64_t *)rlv_list(a.ends), a.runs, (const int64_t *)rlv_list(a.values), a.runs,
                       (const int64_t *)rlv_list(b.ends), b.runs, (const int64_t *)rlv_list(b.values), b.runs, fill_a, fill_b,
                       rlv_code(code), (int64_t *)rlv_buffer(out.ends), out.room, (int64_t *)rlv_buffer(out.values), out.room);
}

static inline size_t rlv_zip_with_raw_size(rl_column a, rl_column b)
{
    return rl_zip_with_raw_size(a.runs, b.runs);
}

RLV_CHECKED
static inline rl_counted rlv_zip_with_raw(rl_column a, rl_column b, rl_fill fill_a, rl_fill fill_b, enum rl_operation code,
                                          rl_column_buffer out)
{
    return rl_zip_with_raw((const int64_t *)rlv_list(a.ends), a.runs, (const int64_t *)rlv_list(a.values), a.runs,
                           (const int64_t *)rlv_list(b.ends), b.runs, (const int64_t *)rlv_list(b.values), b.runs, fill_a, fill_b,
                           rlv_code(code), (int64_t *)rlv_buffer(out.ends), out.room, (int64_t *)rlv_buffer(out.values), out.room);
}

static inline rl_plan_many_sizes rlv_plan_many_size(rl_flat flat)
{
    return rl_plan_many_size(flat.count + 1, flat.runs);
}

RLV_CHECKED
static inline rl_planned_many rlv_plan_many(rl_flat flat, int64_t *RLV_RESTRICT out_ends, size_t out_ends_len,
                                            size_t *RLV_RESTRICT out_idx, size_t out_idx_len)
{
    return rl_plan_many((const size_t *)rlv_list(flat.offsets), flat.count + 1, (const int64_t *)rlv_list(flat.ends), flat.runs,
                        (const int64_t *)rlv_list(flat.values), flat.runs, (int64_t *)rlv_buffer(out_ends), out_ends_len,
                        (size_t *)rlv_buffer(out_idx), out_idx_len);
}

static inline size_t rlv_zip_many_size(rl_flat flat)
{
    return rl_zip_many_size(flat.runs);
}

RLV_CHECKED
static inline rl_counted rlv_zip_many(rl_flat flat, rl_fill fill, enum rl_operation code, rl_column_buffer out)
{
    return rl_zip_many((const size_t *)rlv_list(flat.offsets), flat.count + 1, (const int64_t *)rlv_list(flat.ends), flat.runs,
                       (const int64_t *)rlv_list(flat.values), flat.runs, fill, rlv_code(code), (int64_t *)rlv_buffer(out.ends),
                       out.room, (int64_t *)rlv_buffer(out.values), out.room);
}

RLV_CHECKED
static inline rl_found rlv_run_index(const int64_t *ends, size_t ends_len, int64_t pos)
{
    return rl_run_index((const int64_t *)rlv_list(ends), ends_len, pos);
}

static inline size_t rlv_slice_size(rl_column column, int64_t start, int64_t end)
{
    return rl_slice_size((const int64_t *)rlv_list(column.ends), column.runs, start, end);
}

RLV_CHECKED
static inline rl_counted rlv_slice(rl_column column, int64_t start, int64_t end, rl_column_buffer out)
{
    return rl_slice((const int64_t *)rlv_list(column.ends), column.runs, (const int64_t *)rlv_list(column.values), column.runs,
                    start, end, (int64_t *)rlv_buffer(out.ends), out.room, (int64_t *)rlv_buffer(out.values), out.room);
}

RLV_CHECKED
static inline rl_viewed rlv_slice_view(rl_column column, int64_t start, int64_t end)
{
    return rl_slice_view((const int64_t *)rlv_list(column.ends), column.runs, (const int64_t *)rlv_list(column.values), column.runs,
                         start, end);
}

RLV_CHECKED
static inline rl_part rlv_slice_view_values(rl_column column, int64_t start, int64_t end)
{
    return rl_slice_view_values((const int64_t *)rlv_list(column.ends), column.runs, (const int64_t *)rlv_list(column.values),
                                column.runs, start, end);
}

static inline rl_batch_sizes rlv_getitems_size(rl_column column, const int64_t *starts, size_t starts_len, const int64_t *stops,
                                               size_t stops_len)
{
    return rl_getitems_size((const int64_t *)rlv_list(column.ends), column.runs, (const int64_t *)rlv_list(starts), starts_len,
                            (const int64_t *)rlv_list(stops), stops_len);
}

RLV_CHECKED
static inline rl_batched rlv_getitems(rl_column column, const int64_t *starts, size_t starts_len, const int64_t *stops,
                                      size_t stops_len, rl_flat_buffer out)
{
    return rl_getitems((const int64_t *)rlv_list(column.ends), column.runs, (const int64_t *)rlv_list(column.values), column.runs,
                       (const int64_t *)rlv_list(starts), starts_len, (const int64_t *)rlv_list(stops), stops_len,
                       (size_t *)rlv_buffer(out.offsets), out.room.offsets, (int64_t *)rlv_buffer(out.ends), out.room.runs,
                       (int64_t *)rlv_buffer(out.values), out.room.runs);
}

static inline size_t rlv_concat_size(rl_flat flat)
{
    return rl_concat_size(flat.runs);
}

RLV_CHECKED
static inline rl_counted rlv_concat(rl_flat flat, rl_column_buffer out)
{
    return rl_concat((const size_t *)rlv_list(flat.offsets), flat.count + 1, (const int64_t *)rlv_list(flat.ends), flat.runs,
                     (const int64_t *)rlv_list(flat.values), flat.runs, (int64_t *)rlv_buffer(out.ends), out.room,
                     (int64_t *)rlv_buffer(out.values), out.room);
}

static inline size_t rlv_shift_size(rl_column column)
{
    return rl_shift_size(column.runs);
}

RLV_CHECKED
static inline rl_counted rlv_shift(rl_column column, int64_t distance, int64_t fill, rl_column_buffer out)
{
    return rl_shift((const int64_t *)rlv_list(column.ends), column.runs, (const int64_t *)rlv_list(column.values), column.runs,
                    distance, fill, (int64_t *)rlv_buffer(out.ends), out.room, (int64_t *)rlv_buffer(out.values), out.room);
}

static inline size_t rlv_reversed_size(rl_column column)
{
    return rl_reversed_size(column.runs);
}

RLV_CHECKED
static inline rl_counted rlv_reversed(rl_column column, rl_column_buffer out)
{
    return rl_reversed((const int64_t *)rlv_list(column.ends), column.runs, (const int64_t *)rlv_list(column.values), column.runs,
                       (int64_t *)rlv_buffer(out.ends), out.room, (int64_t *)rlv_buffer(out.values), out.room);
}

static inline size_t rlv_ranges_where_size(rl_column column)
{
    return rl_ranges_where_size(column.runs);
}

RLV_CHECKED
static inline rl_counted rlv_ranges_where(rl_column column, enum rl_operation code, int64_t number,
                                          int64_t *RLV_RESTRICT out_starts, size_t out_starts_len, int64_t *RLV_RESTRICT out_ends,
                                          size_t out_ends_len)
{
    return rl_ranges_where((const int64_t *)rlv_list(column.ends), column.runs, (const int64_t *)rlv_list(column.values),
                           column.runs, rlv_code(code), number, (int64_t *)rlv_buffer(out_starts), out_starts_len,
                           (int64_t *)rlv_buffer(out_ends), out_ends_len);
}

static inline size_t rlv_merge_size(rl_column column)
{
    return rl_merge_size(column.runs);
}

RLV_CHECKED
static inline rl_counted rlv_merge(rl_column column, rl_column_buffer out)
{
    return rl_merge((const int64_t *)rlv_list(column.ends), column.runs, (const int64_t *)rlv_list(column.values), column.runs,
                    (int64_t *)rlv_buffer(out.ends), out.room, (int64_t *)rlv_buffer(out.values), out.room);
}

static inline size_t rlv_merged_size(rl_column column)
{
    return rl_merged_size(column.runs);
}

RLV_CHECKED
static inline rl_counted rlv_merged(rl_column column, rl_column_buffer out)
{
    return rl_merged((const int64_t *)rlv_list(column.ends), column.runs, (const int64_t *)rlv_list(column.values), column.runs,
                     (int64_t *)rlv_buffer(out.ends), out.room, (int64_t *)rlv_buffer(out.values), out.room);
}

static inline size_t rlv_merge_mask_size(rl_column column)
{
    return rl_merge_mask_size(column.runs);
}

RLV_CHECKED
static inline rl_counted rlv_merge_mask(rl_column column, const uint8_t *mask, size_t mask_len, enum rl_keep keep,
                                        rl_column_buffer out)
{
    return rl_merge_mask((const int64_t *)rlv_list(column.ends), column.runs, (const int64_t *)rlv_list(column.values), column.runs,
                         (const uint8_t *)rlv_list(mask), mask_len, rlv_code(keep), (int64_t *)rlv_buffer(out.ends), out.room,
                         (int64_t *)rlv_buffer(out.values), out.room);
}

static inline size_t rlv_merge_by_size(rl_column column)
{
    return rl_merge_by_size(column.runs);
}

RLV_CHECKED
static inline rl_counted rlv_merge_by(rl_column column, enum rl_operation code, rl_column_buffer out)
{
    return rl_merge_by((const int64_t *)rlv_list(column.ends), column.runs, (const int64_t *)rlv_list(column.values), column.runs,
                       rlv_code(code), (int64_t *)rlv_buffer(out.ends), out.room, (int64_t *)rlv_buffer(out.values), out.room);
}

static inline rl_merge_plan_sizes rlv_merge_plan_size(size_t ends_len)
{
    return rl_merge_plan_size(ends_len);
}

RLV_CHECKED
static inline rl_counted rlv_merge_plan(const int64_t *ends, size_t ends_len, const uint8_t *mask, size_t mask_len,
                                        int64_t *RLV_RESTRICT out_ends, size_t out_ends_len, size_t *RLV_RESTRICT out_offsets,
                                        size_t out_offsets_len)
{
    return rl_merge_plan((const int64_t *)rlv_list(ends), ends_len, (const uint8_t *)rlv_list(mask), mask_len,
                         (int64_t *)rlv_buffer(out_ends), out_ends_len, (size_t *)rlv_buffer(out_offsets), out_offsets_len);
}

static inline size_t rlv_group_ids_size(const size_t *offsets, size_t offsets_len)
{
    return rl_group_ids_size((const size_t *)rlv_list(offsets), offsets_len);
}

RLV_CHECKED
static inline rl_counted rlv_group_ids(const size_t *offsets, size_t offsets_len, size_t *RLV_RESTRICT out_ids, size_t out_ids_len)
{
    return rl_group_ids((const size_t *)rlv_list(offsets), offsets_len, (size_t *)rlv_buffer(out_ids), out_ids_len);
}

RLV_CHECKED
static inline rl_summed rlv_sum(rl_column column)
{
    return rl_sum((const int64_t *)rlv_list(column.ends), column.runs, (const int64_t *)rlv_list(column.values), column.runs);
}

RLV_CHECKED
static inline rl_reduced rlv_reduce(rl_column column, enum rl_reduction code, int64_t ddof)
{
    return rl_reduce((const int64_t *)rlv_list(column.ends), column.runs, (const int64_t *)rlv_list(column.values), column.runs,
                     rlv_code(code), ddof);
}

static inline size_t rlv_slice_reduce_size(size_t starts_len)
{
    return rl_slice_reduce_size(starts_len);
}

RLV_CHECKED
static inline rl_counted rlv_slice_reduce(rl_column column, const int64_t *starts, size_t starts_len, const int64_t *stops,
                                          size_t stops_len, enum rl_reduction code, int64_t ddof, uint8_t *RLV_RESTRICT out_kinds,
                                          size_t out_kinds_len, uint64_t *RLV_RESTRICT out_bits, size_t out_bits_len)
{
    return rl_slice_reduce((const int64_t *)rlv_list(column.ends), column.runs, (const int64_t *)rlv_list(column.values),
                           column.runs, (const int64_t *)rlv_list(starts), starts_len, (const int64_t *)rlv_list(stops), stops_len,
                           rlv_code(code), ddof, (uint8_t *)rlv_buffer(out_kinds), out_kinds_len, (uint64_t *)rlv_buffer(out_bits),
                           out_bits_len);
}

RLV_CHECKED
static inline rl_refusal rlv_batch_from_parts(rl_batch batch)
{
    return rl_batch_from_parts((const uint32_t *)rlv_list(batch.keys), batch.count, (const size_t *)rlv_list(batch.offsets),
                               batch.count + 1, (const int64_t *)rlv_list(batch.ends), batch.runs,
                               (const int64_t *)rlv_list(batch.values), batch.runs);
}

RLV_CHECKED
static inline rl_found rlv_batch_position(const uint32_t *keys, size_t keys_len, uint32_t key)
{
    return rl_batch_position((const uint32_t *)rlv_list(keys), keys_len, key);
}

static inline size_t rlv_batch_get_size(rl_batch batch, uint32_t key)
{
    return rl_batch_get_size((const uint32_t *)rlv_list(batch.keys), batch.count, (const size_t *)rlv_list(batch.offsets),
                             batch.count + 1, key);
}

RLV_CHECKED
static inline rl_got rlv_batch_get(rl_batch batch, uint32_t key, rl_column_buffer out)
{
    return rl_batch_get((const uint32_t *)rlv_list(batch.keys), batch.count, (const size_t *)rlv_list(batch.offsets),
                        batch.count + 1, (const int64_t *)rlv_list(batch.ends), batch.runs, (const int64_t *)rlv_list(batch.values),
                        batch.runs, key, (int64_t *)rlv_buffer(out.ends), out.room, (int64_t *)rlv_buffer(out.values), out.room);
}

static inline rl_batch_sizes rlv_batch_getitems_size(rl_batch batch, const uint32_t *get_keys, size_t get_keys_len,
                                                     const int64_t *starts, size_t starts_len, const int64_t *stops,
                                                     size_t stops_len)
{
    return rl_batch_getitems_size((const uint32_t *)rlv_list(batch.keys), batch.count, (const size_t *)rlv_list(batch.offsets),
                                  batch.count + 1, (const int64_t *)rlv_list(batch.ends), batch.runs,
                                  (const uint32_t *)rlv_list(get_keys), get_keys_len, (const int64_t *)rlv_list(starts), starts_len,
                                  (const int64_t *)rlv_list(stops), stops_len);
}

RLV_CHECKED
static inline rl_batched rlv_batch_getitems(rl_batch batch, const uint32_t *get_keys, size_t get_keys_len, const int64_t *starts,
                                            size_t starts_len, const int64_t *stops, size_t stops_len, rl_flat_buffer out)
{
    return rl_batch_getitems((const uint32_t *)rlv_list(batch.keys), batch.count, (const size_t *)rlv_list(batch.offsets),
                             batch.count + 1, (const int64_t *)rlv_list(batch.ends), batch.runs,
                             (const int64_t *)rlv_list(batch.values), batch.runs, (const uint32_t *)rlv_list(get_keys),
                             get_keys_len, (const int64_t *)rlv_list(starts), starts_len, (const int64_t *)rlv_list(stops),
                             stops_len, (size_t *)rlv_buffer(out.offsets), out.room.offsets, (int64_t *)rlv_buffer(out.ends),
                             out.room.runs, (int64_t *)rlv_buffer(out.values), out.room.runs);
}

static inline size_t rlv_batch_slice_reduce_size(size_t starts_len)
{
    return rl_batch_slice_reduce_size(starts_len);
}

RLV_CHECKED
static inline rl_counted rlv_batch_slice_reduce(rl_batch batch, const uint32_t *get_keys, size_t get_keys_len,
                                                const int64_t *starts, size_t starts_len, const int64_t *stops, size_t stops_len,
                                                enum rl_reduction code, int64_t ddof, uint8_t *RLV_RESTRICT out_kinds,
                                                size_t out_kinds_len, uint64_t *RLV_RESTRICT out_bits, size_t out_bits_len)
{
    return rl_batch_slice_reduce((const uint32_t *)rlv_list(batch.keys), batch.count, (const size_t *)rlv_list(batch.offsets),
                                 batch.count + 1, (const int64_t *)rlv_list(batch.ends), batch.runs,
                                 (const int64_t *)rlv_list(batch.values), batch.runs, (const uint32_t *)rlv_list(get_keys),
                                 get_keys_len, (const int64_t *)rlv_list(starts), starts_len, (const int64_t *)rlv_list(stops),
                                 stops_len, rlv_code(code), ddof, (uint8_t *)rlv_buffer(out_kinds), out_kinds_len,
                                 (uint64_t *)rlv_buffer(out_bits), out_bits_len);
}

static inline rl_batch_sizes rlv_batch_shift_size(rl_batch batch)
{
    return rl_batch_shift_size(batch.count, batch.runs);
}

RLV_CHECKED
static inline rl_batched rlv_batch_shift(rl_batch batch, int64_t distance, int64_t fill, rl_batch_buffer out)
{
    return rl_batch_shift((const uint32_t *)rlv_list(batch.keys), batch.count, (const size_t *)rlv_list(batch.offsets),
                          batch.count + 1, (const int64_t *)rlv_list(batch.ends), batch.runs,
                          (const int64_t *)rlv_list(batch.values), batch.runs, distance, fill, (uint32_t *)rlv_buffer(out.keys),
                          out.room.keys, (size_t *)rlv_buffer(out.offsets), out.room.offsets, (int64_t *)rlv_buffer(out.ends),
                          out.room.runs, (int64_t *)rlv_buffer(out.values), out.room.runs);
}

static inline rl_batch_sizes rlv_batch_reversed_size(rl_batch batch)
{
    return rl_batch_reversed_size(batch.count, batch.runs);
}

RLV_CHECKED
static inline rl_batched rlv_batch_reversed(rl_batch batch, rl_batch_buffer out)
{
    return rl_batch_reversed((const uint32_t *)rlv_list(batch.keys), batch.count, (const size_t *)rlv_list(batch.offsets),
                             batch.count + 1, (const int64_t *)rlv_list(batch.ends), batch.runs,
                             (const int64_t *)rlv_list(batch.values), batch.runs, (uint32_t *)rlv_buffer(out.keys), out.room.keys,
                             (size_t *)rlv_buffer(out.offsets), out.room.offsets, (int64_t *)rlv_buffer(out.ends), out.room.runs,
                             (int64_t *)rlv_buffer(out.values), out.room.runs);
}

static inline rl_batch_sizes rlv_batch_map_rles_slice_size(rl_batch batch)
{
    return rl_batch_map_rles_slice_size(batch.count, batch.runs);
}

RLV_CHECKED
static inline rl_batched rlv_batch_map_rles_slice(rl_batch batch, int64_t start, int64_t end, rl_batch_buffer out)
{
    return rl_batch_map_rles_slice((const uint32_t *)rlv_list(batch.keys), batch.count, (const size_t *)rlv_list(batch.offsets),
                                   batch.count + 1, (const int64_t *)rlv_list(batch.ends), batch.runs,
                                   (const int64_t *)rlv_list(batch.values), batch.runs, start, end,
                                   (uint32_t *)rlv_buffer(out.keys), out.room.keys, (size_t *)rlv_buffer(out.offsets),
                                   out.room.offsets, (int64_t *)rlv_buffer(out.ends), out.room.runs,
                                   (int64_t *)rlv_buffer(out.values), out.room.runs);
}

static inline rl_batch_sizes rlv_batch_collapse_size(rl_batch batch)
{
    return rl_batch_collapse_size(batch.count, batch.runs);
}

RLV_CHECKED
static inline rl_batched rlv_batch_collapse(rl_batch batch, const uint32_t *new_keys, size_t new_keys_len, rl_fill fill,
                                            enum rl_operation code, rl_batch_buffer out, rl_column_buffer scratch)
{
    return rl_batch_collapse((const uint32_t *)rlv_list(batch.keys), batch.count, (const size_t *)rlv_list(batch.offsets),
                             batch.count + 1, (const int64_t *)rlv_list(batch.ends), batch.runs,
                             (const int64_t *)rlv_list(batch.values), batch.runs, (const uint32_t *)rlv_list(new_keys),
                             new_keys_len, fill, rlv_code(code), (uint32_t *)rlv_buffer(out.keys), out.room.keys,
                             (size_t *)rlv_buffer(out.offsets), out.room.offsets, (int64_t *)rlv_buffer(out.ends), out.room.runs,
                             (int64_t *)rlv_buffer(out.values), out.room.runs, (int64_t *)rlv_buffer(scratch.ends), scratch.room,
                             (int64_t *)rlv_buffer(scratch.values), scratch.room);
}

static inline rl_batch_sizes rlv_batch_concat_size(rl_batch a, rl_batch b)
{
    return rl_batch_concat_size(a.count, a.runs, b.count, b.runs);
}

RLV_CHECKED
static inline rl_batched rlv_batch_concat(rl_batch a, rl_batch b, rl_batch_buffer out)
{
    return rl_batch_concat((const uint32_t *)rlv_list(a.keys), a.count, (const size_t *)rlv_list(a.offsets), a.count + 1,
                           (const int64_t *)rlv_list(a.ends), a.runs, (const int64_t *)rlv_list(a.values), a.runs,
                           (const uint32_t *)rlv_list(b.keys), b.count, (const size_t *)rlv_list(b.offsets), b.count + 1,
                           (const int64_t *)rlv_list(b.ends), b.runs, (const int64_t *)rlv_list(b.values), b.runs,
                           (uint32_t *)rlv_buffer(out.keys), out.room.keys, (size_t *)rlv_buffer(out.offsets), out.room.offsets,
                           (int64_t *)rlv_buffer(out.ends), out.room.runs, (int64_t *)rlv_buffer(out.values), out.room.runs);
}

static inline rl_batch_sizes rlv_batch_zip_with_size(rl_batch a, rl_batch b, enum rl_how how)
{
    return rl_batch_zip_with_size((const uint32_t *)rlv_list(a.keys), a.count, (const size_t *)rlv_list(a.offsets), a.count + 1,
                                  (const uint32_t *)rlv_list(b.keys), b.count, (const size_t *)rlv_list(b.offsets), b.count + 1,
                                  rlv_code(how));
}

RLV_CHECKED
static inline rl_batched rlv_batch_zip_with(rl_batch a, rl_batch b, enum rl_how how, rl_fill fill_a, rl_fill fill_b,
                                            enum rl_operation code, rl_batch_buffer out)
{
    return rl_batch_zip_with((const uint32_t *)rlv_list(a.keys), a.count, (const size_t *)rlv_list(a.offsets), a.count + 1,
                             (const int64_t *)rlv_list(a.ends), a.runs, (const int64_t *)rlv_list(a.values), a.runs,
                             (const uint32_t *)rlv_list(b.keys), b.count, (const size_t *)rlv_list(b.offsets), b.count + 1,
                             (const int64_t *)rlv_list(b.ends), b.runs, (const int64_t *)rlv_list(b.values), b.runs, rlv_code(how),
                             fill_a, fill_b, rlv_code(code), (uint32_t *)rlv_buffer(out.keys), out.room.keys,
                             (size_t *)rlv_buffer(out.offsets), out.room.offsets, (int64_t *)rlv_buffer(out.ends), out.room.runs,
                             (int64_t *)rlv_buffer(out.values), out.room.runs);
}

/* Up to here. */

#ifdef __cplusplus
}
#endif

#endif
