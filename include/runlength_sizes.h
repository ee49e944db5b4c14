/* How many entries the buffers of each call of runlength.h need: for every call rl_NAME with buffers, rl_NAME_size.
 *
 * The number is the one that refusal 12 would name as needed: with so many entries the call does not give 12, with one fewer it
 * does. It answers for lists for which the call asks 12 at all; where another refusal comes first it says nothing. No number
 * wraps: one above SIZE_MAX is given as SIZE_MAX, as the library shows it. Like the calls, these functions take any lists and
 * read nothing outside them.
 *
 * Most numbers follow from the lengths of the lists. Those of rl_to_dense, rl_slice, rl_getitems, rl_group_ids, rl_batch_get,
 * rl_batch_getitems and rl_batch_zip_with depend on what the lists hold. A buffer that is longer than needed does no harm: for a
 * slice ends_len entries always do, and for rl_batch_zip_with, where no key is given twice in a batch, a_ends_len + b_ends_len.
 *
 * A function that answers one number answers it for each buffer of the call. */
#ifndef RUNLENGTH_SIZES_H
#define RUNLENGTH_SIZES_H

#include "runlength.h"

#ifdef __cplusplus
extern "C" {
#endif

/* For sequences laid flat. */
typedef struct {
    size_t keys;    /* out_keys; 0 where the call has none */
    size_t offsets; /* out_offsets */
    size_t runs;    /* out_ends and out_values */
    size_t scratch; /* scratch_ends and scratch_values; 0 where the call has none */
} rl_batch_sizes;

typedef struct {
    size_t ends;    /* out_ends */
    size_t indexes; /* out_idx */
} rl_plan_many_sizes;

typedef struct {
    size_t ends;    /* out_ends */
    size_t offsets; /* out_offsets */
} rl_merge_plan_sizes;

/* What the functions below share. */

static inline size_t rl_saturating_add(size_t a, size_t b)
{
    return a > SIZE_MAX - b ? SIZE_MAX : a + b;
}

static inline size_t rl_saturating_mul(size_t a, size_t b)
{
    return b != 0 && a > SIZE_MAX / b ? SIZE_MAX : a * b;
}

static inline rl_batch_sizes rl_sizes_of_batch(size_t keys, size_t runs)
{
    rl_batch_sizes sizes;
    sizes.keys = keys;
    sizes.offsets = rl_saturating_add(keys, 1);
    sizes.runs = runs;
    sizes.scratch = 0;
    return sizes;
}

/* How many ends are below a limit, in a list that rises. */
static inline size_t rl_ends_below(const int64_t *ends, size_t ends_len, int64_t limit)
{
    size_t low = 0;
    while (ends_len > 0) {
        size_t half = ends_len / 2;
        if (ends[low + half] < limit) {
            low += half + 1;
            ends_len -= half + 1;
        } else {
            ends_len = half;
        }
    }
    return low;
}

/* Whether keys never fall: then halving finds the lowest position of one. */
static inline int rl_keys_rise(const uint32_t *keys, size_t keys_len)
{
    for (size_t i = 1; i < keys_len; i++) {
        if (keys[i - 1] > keys[i]) {
            return 0;
        }
    }
    return 1;
}

/* The lowest position of a key among keys that never fall, or keys_len where it is absent. */
static inline size_t rl_position_by_halving(const uint32_t *keys, size_t keys_len, uint32_t key)
{
    size_t low = 0, left = keys_len;
    while (left > 0) {
        size_t half = left / 2;
        if (keys[low + half] < key) {
            low += half + 1;
            left -= half + 1;
        } else {
            left = half;
        }
    }
    return low < keys_len && keys[low] == key ? low : keys_len;
}

/* The lowest position of a key, or keys_len where it is absent. */
static inline size_t rl_position_of(const uint32_t *keys, size_t keys_len, int rise, uint32_t key)
{
    size_t i = 0;
    if (rise) {
        return rl_position_by_halving(keys, keys_len, key);
    }
    while (i < keys_len && keys[i] != key) {
        i++;
    }
    return i;
}

/* How many runs the sequence at a position has; none past the last one. */
static inline size_t rl_runs_at(const size_t *offsets, size_t offsets_len, size_t position)
{
    if (offsets_len < 2 || position > offsets_len - 2 || offsets[position] > offsets[position + 1]) {
        return 0;
    }
    return offsets[position + 1] - offsets[position];
}

/* rle.rs */

static inline size_t rl_from_runs_size(size_t runs_len)
{
    return runs_len;
}

static inline size_t rl_repeat_size(void)
{
    return 1;
}

static inline size_t rl_push_run_size(size_t used)
{
    return rl_saturating_add(used, 1);
}

static inline size_t rl_extend_to_size(size_t used)
{
    return rl_saturating_add(used, 1);
}

static inline size_t rl_from_dense_size(size_t values_len)
{
    return values_len;
}

/* The length, in labels: it may be more than any memory holds. */
static inline size_t rl_to_dense_size(const int64_t *ends, size_t ends_len)
{
    return ends_len > 0 && ends[ends_len - 1] > 0 ? (size_t)ends[ends_len - 1] : 0;
}

/* plan.rs, ops.rs */

static inline size_t rl_plan_size(size_t a_len, size_t b_len)
{
    return rl_saturating_add(a_len, b_len);
}

static inline size_t rl_zip_with_size(size_t a_ends_len, size_t b_ends_len)
{
    return rl_saturating_add(a_ends_len, b_ends_len);
}

static inline size_t rl_zip_with_raw_size(size_t a_ends_len, size_t b_ends_len)
{
    return rl_saturating_add(a_ends_len, b_ends_len);
}

/* many.rs */

static inline rl_plan_many_sizes rl_plan_many_size(size_t offsets_len, size_t ends_len)
{
    rl_plan_many_sizes sizes;
    sizes.ends = ends_len;
    sizes.indexes = rl_saturating_mul(ends_len, offsets_len > 0 ? offsets_len - 1 : 0);
    return sizes;
}

static inline size_t rl_zip_many_size(size_t ends_len)
{
    return ends_len;
}

/* slice.rs */

/* The runs that the slice touches. */
static inline size_t rl_slice_size(const int64_t *ends, size_t ends_len, int64_t start, int64_t end)
{
    int64_t length = ends_len > 0 ? ends[ends_len - 1] : 0;
    int64_t from = start > 0 ? start : 0;
    int64_t to = end < length ? end : length;
    if (from >= to) {
        return 0;
    }
    return rl_ends_below(ends, ends_len, to) - rl_ends_below(ends, ends_len, from + 1) + 1;
}

static inline rl_batch_sizes rl_getitems_size(const int64_t *ends, size_t ends_len, const int64_t *starts, size_t starts_len,
                                              const int64_t *stops, size_t stops_len)
{
    rl_batch_sizes sizes = rl_sizes_of_batch(starts_len, 0);
    sizes.keys = 0;
    for (size_t k = 0; k < starts_len && k < stops_len; k++) {
        sizes.runs = rl_saturating_add(sizes.runs, rl_slice_size(ends, ends_len, starts[k], stops[k]));
    }
    return sizes;
}

/* transform.rs */

static inline size_t rl_concat_size(size_t ends_len)
{
    return ends_len;
}

static inline size_t rl_shift_size(size_t ends_len)
{
    return rl_saturating_add(ends_len, 1);
}

static inline size_t rl_reversed_size(size_t ends_len)
{
    return ends_len;
}

static inline size_t rl_ranges_where_size(size_t ends_len)
{
    return ends_len;
}

/* merge.rs */

static inline size_t rl_merge_size(size_t ends_len)
{
    return ends_len;
}

static inline size_t rl_merged_size(size_t ends_len)
{
    return ends_len;
}

static inline size_t rl_merge_mask_size(size_t ends_len)
{
    return ends_len;
}

static inline size_t rl_merge_by_size(size_t ends_len)
{
    return ends_len;
}

static inline rl_merge_plan_sizes rl_merge_plan_size(size_t ends_len)
{
    rl_merge_plan_sizes sizes;
    sizes.ends = ends_len;
    sizes.offsets = rl_saturating_add(ends_len, 1);
    return sizes;
}

static inline size_t rl_group_ids_size(const size_t *offsets, size_t offsets_len)
{
    return offsets_len > 0 ? offsets[offsets_len - 1] : 0;
}

/* reduce.rs */

static inline size_t rl_slice_reduce_size(size_t starts_len)
{
    return starts_len;
}

/* batch.rs. A key is looked up by halving where the keys never fall, otherwise one after another. */

static inline size_t rl_batch_get_size(const uint32_t *keys, size_t keys_len, const size_t *offsets, size_t offsets_len,
                                       uint32_t key)
{
    return rl_runs_at(offsets, offsets_len, rl_position_of(keys, keys_len, 0, key));
}

static inline rl_batch_sizes rl_batch_getitems_size(const uint32_t *keys, size_t keys_len, const size_t *offsets,
                                                    size_t offsets_len, const int64_t *ends, size_t ends_len,
                                                    const uint32_t *get_keys, size_t get_keys_len, const int64_t *starts,
                                                    size_t starts_len, const int64_t *stops, size_t stops_len)
{
    rl_batch_sizes sizes = rl_sizes_of_batch(starts_len, 0);
    int rise = rl_keys_rise(keys, keys_len);
    sizes.keys = 0;
    for (size_t k = 0; k < get_keys_len && k < starts_len && k < stops_len; k++) {
        size_t position = rl_position_of(keys, keys_len, rise, get_keys[k]);
        size_t runs = rl_runs_at(offsets, offsets_len, position);
        if (runs > 0 && offsets[position + 1] <= ends_len) {
            sizes.runs = rl_saturating_add(sizes.runs, rl_slice_size(ends + offsets[position], runs, starts[k], stops[k]));
        }
    }
    return sizes;
}

static inline size_t rl_batch_slice_reduce_size(size_t starts_len)
{
    return starts_len;
}

static inline rl_batch_sizes rl_batch_shift_size(size_t keys_len, size_t ends_len)
{
    return rl_sizes_of_batch(keys_len, rl_saturating_add(ends_len, keys_len));
}

static inline rl_batch_sizes rl_batch_reversed_size(size_t keys_len, size_t ends_len)
{
    return rl_sizes_of_batch(keys_len, ends_len);
}

static inline rl_batch_sizes rl_batch_map_rles_slice_size(size_t keys_len, size_t ends_len)
{
    return rl_sizes_of_batch(keys_len, ends_len);
}

static inline rl_batch_sizes rl_batch_collapse_size(size_t keys_len, size_t ends_len)
{
    rl_batch_sizes sizes = rl_sizes_of_batch(keys_len, ends_len);
    sizes.scratch = rl_saturating_mul(ends_len, 2);
    return sizes;
}

static inline rl_batch_sizes rl_batch_concat_size(size_t a_keys_len, size_t a_ends_len, size_t b_keys_len, size_t b_ends_len)
{
    return rl_sizes_of_batch(rl_saturating_add(a_keys_len, b_keys_len), rl_saturating_add(a_ends_len, b_ends_len));
}

/* The runs of both sides, summed over the keys of the result. */
static inline rl_batch_sizes rl_batch_zip_with_size(const uint32_t *a_keys, size_t a_keys_len, const size_t *a_offsets,
                                                    size_t a_offsets_len, const uint32_t *b_keys, size_t b_keys_len,
                                                    const size_t *b_offsets, size_t b_offsets_len, uint8_t how)
{
    rl_batch_sizes sizes = rl_sizes_of_batch(rl_saturating_add(a_keys_len, b_keys_len), 0);
    int a_rise = rl_keys_rise(a_keys, a_keys_len);
    int b_rise = rl_keys_rise(b_keys, b_keys_len);
    for (size_t i = 0; i < a_keys_len; i++) {
        size_t j = rl_position_of(b_keys, b_keys_len, b_rise, a_keys[i]);
        if (j < b_keys_len || how == RL_OUTER || how == RL_LEFT) {
            sizes.runs = rl_saturating_add(sizes.runs, rl_runs_at(a_offsets, a_offsets_len, i));
            sizes.runs = rl_saturating_add(sizes.runs, rl_runs_at(b_offsets, b_offsets_len, j));
        }
    }
    if (how == RL_OUTER || how == RL_RIGHT) {
        for (size_t j = 0; j < b_keys_len; j++) {
            if (rl_position_of(a_keys, a_keys_len, a_rise, b_keys[j]) == a_keys_len) {
                sizes.runs = rl_saturating_add(sizes.runs, rl_runs_at(b_offsets, b_offsets_len, j));
            }
        }
    }
    return sizes;
}

#ifdef __cplusplus
}
#endif

#endif
