/* Holds runlength_sizes.h to the library: each call, on random columns and batches, is lent buffers of the size that the helper
 * answers, each of them one entry short in turn. The short one has to be refused with 12 and the helper's number, nothing
 * written; all of them at their size have to be accepted.
 * The same source is C11 and C++17. */
#include "runlength.h"
#include "runlength_sizes.h"
#include "runlength_text.h"

#include <inttypes.h>
#include <stdio.h>
#include <stdlib.h>
#include <string.h>

enum { ROUNDS = 2000, MOST_RUNS = 6, MOST_KEYS = 5, MOST_ENTRIES = MOST_RUNS * MOST_KEYS, MOST_BUFFERS = 6 };

/* Random inputs */

static uint64_t state;

/* A number from 0 up to `limit`, not included (xorshift). */
static size_t random_below(size_t limit)
{
    state ^= state << 13;
    state ^= state >> 7;
    state ^= state << 17;
    return (size_t)(state % limit);
}

/* Sequences laid flat, with keys; a sequence alone is one that has key 0 alone. */
typedef struct {
    uint32_t keys[MOST_KEYS];
    size_t offsets[MOST_KEYS + 1];
    int64_t ends[MOST_ENTRIES];
    int64_t values[MOST_ENTRIES];
    size_t count; /* of keys */
    size_t runs;  /* of all sequences */
} batch;

typedef struct {
    batch a, b;             /* one sequence each */
    batch many_a, many_b;   /* several; a key may stand twice in a batch, and in both */
    uint8_t mask[MOST_RUNS];
    int64_t starts[MOST_KEYS], stops[MOST_KEYS];
    uint32_t some_keys[MOST_KEYS];
    size_t intervals;
    int64_t start, end;
    size_t used;
    uint8_t how, code;
} inputs;

static batch random_batch(size_t count)
{
    batch b;
    memset(&b, 0, sizeof b);
    b.count = count;
    for (size_t k = 0; k < count; k++) {
        size_t runs = random_below(MOST_RUNS + 1);
        int64_t end = 0;
        b.keys[k] = (uint32_t)random_below(2) * 4 + (uint32_t)k + (uint32_t)random_below(3);
        for (size_t r = 0; r < runs; r++) {
            end += 1 + (int64_t)random_below(9);
            b.ends[b.runs] = end;
            b.values[b.runs] = (int64_t)random_below(3);
            b.runs++;
        }
        b.offsets[k + 1] = b.runs;
    }
    return b;
}

static inputs random_inputs(void)
{
    inputs in;
    memset(&in, 0, sizeof in);
    in.a = random_batch(1);
    in.b = random_batch(1);
    in.many_a = random_batch(random_below(MOST_KEYS + 1));
    in.many_b = random_batch(random_below(MOST_KEYS + 1));
    for (size_t i = 0; i < MOST_RUNS; i++) {
        in.mask[i] = (uint8_t)random_below(2);
    }
    in.intervals = random_below(MOST_KEYS + 1);
    for (size_t i = 0; i < MOST_KEYS; i++) {
        in.starts[i] = (int64_t)random_below(20);
        in.stops[i] = in.starts[i] + (int64_t)random_below(30);
        in.some_keys[i] = (uint32_t)random_below(12);
    }
    in.start = (int64_t)random_below(80) - 20;
    in.end = (int64_t)random_below(80) - 20;
    in.used = random_below(MOST_RUNS + 1);
    in.how = (uint8_t)random_below(4);
    in.code = (uint8_t)random_below(10);
    return in;
}

/* The calls. Each fills `need`, in the order of its buffers, and makes the call with the buffers that it is lent. */

typedef struct {
    void *entries[MOST_BUFFERS];
    size_t len[MOST_BUFFERS];
} buffers;

#define LENT(type, i) (type *)out->entries[i], out->len[i]
#define I64(i) LENT(int64_t, i)
#define SIZES(i) LENT(size_t, i)
#define KEYS(i) LENT(uint32_t, i)
#define SEQUENCE(s) (s).ends, (s).runs, (s).values, (s).runs
#define FLAT(f) (f).offsets, (f).count + 1, SEQUENCE(f)
#define BATCH(b) (b).keys, (b).count, FLAT(b)
#define INTERVALS in->starts, in->intervals, in->stops, in->intervals
#define KEYED_INTERVALS in->some_keys, in->intervals, INTERVALS
#define CALL(name) static rl_refusal name(const inputs *in, size_t *need, const buffers *out)

/* The numbers of a batch: keys, offsets, ends, values, scratch. Those of buffers that a call has not are to be 0. */
static void need_batch(size_t *need, rl_batch_sizes sizes)
{
    need[0] = sizes.keys;
    need[1] = sizes.offsets;
    need[2] = need[3] = sizes.runs;
    need[4] = need[5] = sizes.scratch;
}

/* And of sequences laid flat without keys: offsets, ends, values. */
static void need_flat(size_t *need, rl_batch_sizes sizes)
{
    need[0] = sizes.offsets;
    need[1] = need[2] = sizes.runs;
    need[3] = sizes.keys;
    need[4] = sizes.scratch;
}

CALL(from_runs)
{
    need[0] = need[1] = rl_from_runs_size(in->a.runs);
    return rl_from_runs(SEQUENCE(in->a), I64(0), I64(1)).refusal;
}

CALL(repeat)
{
    need[0] = need[1] = rl_repeat_size();
    return rl_repeat(in->start, in->end < 0 ? 0 : in->end, I64(0), I64(1)).refusal;
}

CALL(push_run)
{
    need[0] = need[1] = rl_push_run_size(in->used);
    return rl_push_run(I64(0), I64(1), in->used, in->end < 0 ? 0 : in->end, in->start).refusal;
}

CALL(extend_to)
{
    need[0] = need[1] = rl_extend_to_size(in->used);
    return rl_extend_to(I64(0), I64(1), in->used, (int64_t)in->used + (in->end < 0 ? 0 : in->end), in->start).refusal;
}

CALL(from_dense)
{
    need[0] = need[1] = rl_from_dense_size(in->a.runs);
    return rl_from_dense(in->a.values, in->a.runs, I64(0), I64(1)).refusal;
}

CALL(to_dense)
{
    need[0] = rl_to_dense_size(in->a.ends, in->a.runs);
    return rl_to_dense(SEQUENCE(in->a), I64(0)).refusal;
}

CALL(plan)
{
    need[0] = need[1] = need[2] = rl_plan_size(in->a.runs, in->b.runs);
    return rl_plan(in->a.ends, in->a.runs, in->b.ends, in->b.runs, I64(0), SIZES(1), SIZES(2)).refusal;
}

CALL(zip_with)
{
    rl_fill fill = rl_fill_value(in->start);
    need[0] = need[1] = rl_zip_with_size(in->a.runs, in->b.runs);
    return rl_zip_with(SEQUENCE(in->a), SEQUENCE(in->b), fill, fill, in->code, I64(0), I64(1)).refusal;
}

CALL(zip_with_raw)
{
    rl_fill fill = rl_fill_value(in->start);
    need[0] = need[1] = rl_zip_with_raw_size(in->a.runs, in->b.runs);
    return rl_zip_with_raw(SEQUENCE(in->a), SEQUENCE(in->b), fill, fill, in->code, I64(0), I64(1)).refusal;
}

CALL(plan_many)
{
    rl_plan_many_sizes sizes = rl_plan_many_size(in->many_a.count + 1, in->many_a.runs);
    need[0] = sizes.ends;
    need[1] = sizes.indexes;
    return rl_plan_many(FLAT(in->many_a), I64(0), SIZES(1)).refusal;
}

CALL(zip_many)
{
    need[0] = need[1] = rl_zip_many_size(in->many_a.runs);
    return rl_zip_many(FLAT(in->many_a), rl_fill_value(in->start), in->code, I64(0), I64(1)).refusal;
}

CALL(slice)
{
    need[0] = need[1] = rl_slice_size(in->a.ends, in->a.runs, in->start, in->end);
    return rl_slice(SEQUENCE(in->a), in->start, in->end, I64(0), I64(1)).refusal;
}

CALL(getitems)
{
    need_flat(need, rl_getitems_size(in->a.ends, in->a.runs, INTERVALS));
    return rl_getitems(SEQUENCE(in->a), INTERVALS, SIZES(0), I64(1), I64(2)).refusal;
}

CALL(concat)
{
    need[0] = need[1] = rl_concat_size(in->many_a.runs);
    return rl_concat(FLAT(in->many_a), I64(0), I64(1)).refusal;
}

CALL(shift)
{
    need[0] = need[1] = rl_shift_size(in->a.runs);
    return rl_shift(SEQUENCE(in->a), in->start, in->end, I64(0), I64(1)).refusal;
}

CALL(reversed)
{
    need[0] = need[1] = rl_reversed_size(in->a.runs);
    return rl_reversed(SEQUENCE(in->a), I64(0), I64(1)).refusal;
}

CALL(ranges_where)
{
    need[0] = need[1] = rl_ranges_where_size(in->a.runs);
    return rl_ranges_where(SEQUENCE(in->a), RL_LESS, 2, I64(0), I64(1)).refusal;
}

CALL(merge)
{
    need[0] = need[1] = rl_merge_size(in->a.runs);
    return rl_merge(SEQUENCE(in->a), I64(0), I64(1)).refusal;
}

CALL(merged)
{
    need[0] = need[1] = rl_merged_size(in->a.runs);
    return rl_merged(SEQUENCE(in->a), I64(0), I64(1)).refusal;
}

#define MASK in->mask, in->a.runs > 0 ? in->a.runs - 1 : 0

CALL(merge_mask)
{
    need[0] = need[1] = rl_merge_mask_size(in->a.runs);
    return rl_merge_mask(SEQUENCE(in->a), MASK, RL_KEEP_LAST, I64(0), I64(1)).refusal;
}

CALL(merge_by)
{
    need[0] = need[1] = rl_merge_by_size(in->a.runs);
    return rl_merge_by(SEQUENCE(in->a), RL_EQUAL, I64(0), I64(1)).refusal;
}

CALL(merge_plan)
{
    rl_merge_plan_sizes sizes = rl_merge_plan_size(in->a.runs);
    need[0] = sizes.ends;
    need[1] = sizes.offsets;
    return rl_merge_plan(in->a.ends, in->a.runs, MASK, I64(0), SIZES(1)).refusal;
}

CALL(group_ids)
{
    need[0] = rl_group_ids_size(in->many_a.offsets, in->many_a.count + 1);
    return rl_group_ids(in->many_a.offsets, in->many_a.count + 1, SIZES(0)).refusal;
}

CALL(slice_reduce)
{
    need[0] = need[1] = rl_slice_reduce_size(in->intervals);
    return rl_slice_reduce(SEQUENCE(in->a), INTERVALS, RL_VARIANCE, 1, LENT(uint8_t, 0), LENT(uint64_t, 1)).refusal;
}

CALL(batch_get)
{
    const batch *b = &in->many_a;
    need[0] = need[1] = rl_batch_get_size(b->keys, b->count, b->offsets, b->count + 1, in->some_keys[0]);
    return rl_batch_get(BATCH(*b), in->some_keys[0], I64(0), I64(1)).refusal;
}

CALL(batch_getitems)
{
    const batch *b = &in->many_a;
    need_flat(need, rl_batch_getitems_size(b->keys, b->count, b->offsets, b->count + 1, b->ends, b->runs, KEYED_INTERVALS));
    return rl_batch_getitems(BATCH(*b), KEYED_INTERVALS, SIZES(0), I64(1), I64(2)).refusal;
}

CALL(batch_slice_reduce)
{
    need[0] = need[1] = rl_batch_slice_reduce_size(in->intervals);
    return rl_batch_slice_reduce(BATCH(in->many_a), KEYED_INTERVALS, RL_MEAN, 0, LENT(uint8_t, 0), LENT(uint64_t, 1)).refusal;
}

CALL(batch_shift)
{
    need_batch(need, rl_batch_shift_size(in->many_a.count, in->many_a.runs));
    return rl_batch_shift(BATCH(in->many_a), in->start, in->end, KEYS(0), SIZES(1), I64(2), I64(3)).refusal;
}

CALL(batch_reversed)
{
    need_batch(need, rl_batch_reversed_size(in->many_a.count, in->many_a.runs));
    return rl_batch_reversed(BATCH(in->many_a), KEYS(0), SIZES(1), I64(2), I64(3)).refusal;
}

CALL(batch_map_rles_slice)
{
    need_batch(need, rl_batch_map_rles_slice_size(in->many_a.count, in->many_a.runs));
    return rl_batch_map_rles_slice(BATCH(in->many_a), in->start, in->end, KEYS(0), SIZES(1), I64(2), I64(3)).refusal;
}

CALL(batch_collapse)
{
    need_batch(need, rl_batch_collapse_size(in->many_a.count, in->many_a.runs));
    return rl_batch_collapse(BATCH(in->many_a), in->some_keys, in->many_a.count, rl_fill_value(in->start), in->code, KEYS(0),
                             SIZES(1), I64(2), I64(3), I64(4), I64(5))
        .refusal;
}

CALL(batch_concat)
{
    need_batch(need, rl_batch_concat_size(in->many_a.count, in->many_a.runs, in->many_b.count, in->many_b.runs));
    return rl_batch_concat(BATCH(in->many_a), BATCH(in->many_b), KEYS(0), SIZES(1), I64(2), I64(3)).refusal;
}

CALL(batch_zip_with)
{
    const batch *a = &in->many_a, *b = &in->many_b;
    rl_fill fill = rl_fill_value(in->start);
    need_batch(need, rl_batch_zip_with_size(a->keys, a->count, a->offsets, a->count + 1, b->keys, b->count, b->offsets,
                                            b->count + 1, in->how));
    return rl_batch_zip_with(BATCH(*a), BATCH(*b), in->how, fill, fill, in->code, KEYS(0), SIZES(1), I64(2), I64(3)).refusal;
}

/* Every call with buffers. */
typedef struct {
    const char *name;
    rl_refusal (*call)(const inputs *in, size_t *need, const buffers *out);
    size_t count;
    size_t bytes[MOST_BUFFERS];   /* of an entry */
    size_t refused[MOST_BUFFERS]; /* how often a buffer was one entry short */
} row;

static row rows[] = {
    {"from_runs", from_runs, 2, {8, 8}, {0}},
    {"repeat", repeat, 2, {8, 8}, {0}},
    {"push_run", push_run, 2, {8, 8}, {0}},
    {"extend_to", extend_to, 2, {8, 8}, {0}},
    {"from_dense", from_dense, 2, {8, 8}, {0}},
    {"to_dense", to_dense, 1, {8}, {0}},
    {"plan", plan, 3, {8, 8, 8}, {0}},
    {"zip_with", zip_with, 2, {8, 8}, {0}},
    {"zip_with_raw", zip_with_raw, 2, {8, 8}, {0}},
    {"plan_many", plan_many, 2, {8, 8}, {0}},
    {"zip_many", zip_many, 2, {8, 8}, {0}},
    {"slice", slice, 2, {8, 8}, {0}},
    {"getitems", getitems, 3, {8, 8, 8}, {0}},
    {"concat", concat, 2, {8, 8}, {0}},
    {"shift", shift, 2, {8, 8}, {0}},
    {"reversed", reversed, 2, {8, 8}, {0}},
    {"ranges_where", ranges_where, 2, {8, 8}, {0}},
    {"merge", merge, 2, {8, 8}, {0}},
    {"merged", merged, 2, {8, 8}, {0}},
    {"merge_mask", merge_mask, 2, {8, 8}, {0}},
    {"merge_by", merge_by, 2, {8, 8}, {0}},
    {"merge_plan", merge_plan, 2, {8, 8}, {0}},
    {"group_ids", group_ids, 1, {8}, {0}},
    {"slice_reduce", slice_reduce, 2, {1, 8}, {0}},
    {"batch_get", batch_get, 2, {8, 8}, {0}},
    {"batch_getitems", batch_getitems, 3, {8, 8, 8}, {0}},
    {"batch_slice_reduce", batch_slice_reduce, 2, {1, 8}, {0}},
    {"batch_shift", batch_shift, 4, {4, 8, 8, 8}, {0}},
    {"batch_reversed", batch_reversed, 4, {4, 8, 8, 8}, {0}},
    {"batch_map_rles_slice", batch_map_rles_slice, 4, {4, 8, 8, 8}, {0}},
    {"batch_collapse", batch_collapse, 6, {4, 8, 8, 8, 8, 8}, {0}},
    {"batch_concat", batch_concat, 4, {4, 8, 8, 8}, {0}},
    {"batch_zip_with", batch_zip_with, 4, {4, 8, 8, 8}, {0}},
};

enum { ROWS = sizeof rows / sizeof rows[0] };

/* The test */

static void fail(const row *r, const char *what, size_t which, size_t need, rl_refusal refusal)
{
    char text[160];
    rl_refusal_text(refusal, text, sizeof text);
    fprintf(stderr, "%s: buffer %zu, size %zu: %s: %s\n", r->name, which, need, what, text);
    exit(EXIT_FAILURE);
}

/* Byte j of an entry with index i: numbers that rise from 1, so that what push_run and extend_to are lent is a valid sequence. */
static unsigned char pattern(size_t i, size_t j)
{
    return j == 0 ? (unsigned char)(i + 1) : 0;
}

/* Buffers of exactly so many entries, so that a tool for memory errors sees any write behind them. */
static void lend(const row *r, const size_t *len, buffers *out)
{
    for (size_t w = 0; w < r->count; w++) {
        size_t bytes = len[w] * r->bytes[w];
        unsigned char *entries = (unsigned char *)malloc(bytes > 0 ? bytes : 8);
        if (entries == NULL) {
            fprintf(stderr, "no memory\n");
            exit(EXIT_FAILURE);
        }
        for (size_t n = 0; n < bytes; n++) {
            entries[n] = pattern(n / r->bytes[w], n % r->bytes[w]);
        }
        out->entries[w] = entries;
        out->len[w] = len[w];
    }
}

static int untouched(const row *r, const buffers *out)
{
    for (size_t w = 0; w < r->count; w++) {
        const unsigned char *entries = (const unsigned char *)out->entries[w];
        for (size_t n = 0; n < out->len[w] * r->bytes[w]; n++) {
            if (entries[n] != pattern(n / r->bytes[w], n % r->bytes[w])) {
                return 0;
            }
        }
    }
    return 1;
}

static void release(const row *r, buffers *out)
{
    for (size_t w = 0; w < r->count; w++) {
        free(out->entries[w]);
    }
}

/* Buffer `which` has one entry fewer than it needs. */
static void try_short(row *r, const inputs *in, const size_t *need, size_t which)
{
    buffers out;
    size_t len[MOST_BUFFERS], again[MOST_BUFFERS];
    memcpy(len, need, sizeof len);
    len[which]--;
    lend(r, len, &out);
    rl_refusal refusal = r->call(in, again, &out);
    if (refusal.number != RL_SHORT_BUFFER || refusal.first != which || refusal.second != need[which] ||
        refusal.third != len[which]) {
        fail(r, "one entry short is not refused so", which, need[which], refusal);
    }
    if (!untouched(r, &out)) {
        fail(r, "a refused call has written", which, need[which], refusal);
    }
    release(r, &out);
    r->refused[which]++;
}

/* Every buffer has as many as it needs. */
static void try_exact(row *r, const inputs *in, const size_t *need)
{
    buffers out;
    size_t again[MOST_BUFFERS];
    lend(r, need, &out);
    rl_refusal refusal = r->call(in, again, &out);
    if (refusal.number != RL_ANSWERED) {
        fail(r, "buffers of the size are not accepted", (size_t)refusal.first, need[0], refusal);
    }
    release(r, &out);
}

static void try_call(row *r, const inputs *in)
{
    buffers none;
    size_t need[MOST_BUFFERS] = {0}, nothing[MOST_BUFFERS] = {0};
    lend(r, nothing, &none);
    r->call(in, need, &none); /* for `need` alone */
    release(r, &none);
    for (size_t which = 0; which < MOST_BUFFERS; which++) {
        if (need[which] > 0 && which >= r->count) {
            fprintf(stderr, "%s: size %zu for a buffer that it has not\n", r->name, need[which]);
            exit(EXIT_FAILURE);
        }
        if (need[which] > 0) {
            try_short(r, in, need, which);
        }
    }
    try_exact(r, in, need);
}

/* No library call can be lent so much, so these are held to document 01 alone: "at most 2^64 - 1 is shown". */
static void try_limits(void)
{
    if (rl_plan_size(SIZE_MAX, 1) != SIZE_MAX || rl_shift_size(SIZE_MAX) != SIZE_MAX ||
        rl_plan_many_size(4, SIZE_MAX / 3).indexes != SIZE_MAX / 3 * 3 ||
        rl_plan_many_size(4, SIZE_MAX / 3 + 1).indexes != SIZE_MAX ||
        rl_batch_collapse_size(1, SIZE_MAX / 2 + 1).scratch != SIZE_MAX) {
        fprintf(stderr, "a number above SIZE_MAX is not given as SIZE_MAX\n");
        exit(EXIT_FAILURE);
    }
}

int main(void)
{
    size_t tried = 0;
    state = 88172645463325252u;
    for (size_t round = 0; round < ROUNDS; round++) {
        inputs in = random_inputs();
        for (size_t i = 0; i < ROWS; i++) {
            try_call(&rows[i], &in);
        }
    }
    for (size_t i = 0; i < ROWS; i++) {
        for (size_t w = 0; w < rows[i].count; w++) {
            if (rows[i].refused[w] < ROUNDS / 10) {
                fprintf(stderr, "%s: buffer %zu was one entry short in %zu of %d rounds only\n", rows[i].name, w,
                        rows[i].refused[w], ROUNDS);
                return EXIT_FAILURE;
            }
            tried++;
        }
    }
    try_limits();
    printf("%d calls, %zu buffers: the sizes are those that the library asks for\n", ROWS, tried);
    return 0;
}
