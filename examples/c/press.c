/* A job of 40,000 labels with three columns: built from runs, combined, looked at around a seam, and joined by key.
 * The same source is C11 and C++17; make -C examples/c run builds and runs it. */
#include "runlength.h"
#include "runlength_sizes.h"
#include "runlength_text.h"
#include "runlength_views.h"

#include <inttypes.h>
#include <stdio.h>
#include <stdlib.h>
#include <string.h>

/* Buffers. A view of what a call has written is what owns them afterwards. */

/* Null where none are needed. */
static void *new_entries(size_t entries, size_t size)
{
    void *block = calloc(entries, size);
    if (block == NULL && entries > 0) {
        fprintf(stderr, "no memory for %zu entries\n", entries);
        exit(EXIT_FAILURE);
    }
    return block;
}

static rl_column_buffer new_column(size_t room)
{
    rl_column_buffer buffer;
    buffer.ends = (int64_t *)new_entries(room, sizeof(int64_t));
    buffer.values = (int64_t *)new_entries(room, sizeof(int64_t));
    buffer.room = room;
    return buffer;
}

static rl_flat_buffer new_flat(rl_batch_sizes room)
{
    rl_flat_buffer buffer;
    buffer.offsets = (size_t *)new_entries(room.offsets, sizeof(size_t));
    buffer.ends = (int64_t *)new_entries(room.runs, sizeof(int64_t));
    buffer.values = (int64_t *)new_entries(room.runs, sizeof(int64_t));
    buffer.room = room;
    return buffer;
}

static rl_batch_buffer new_batch(rl_batch_sizes room)
{
    rl_flat_buffer flat = new_flat(room);
    rl_batch_buffer buffer;
    buffer.keys = (uint32_t *)new_entries(room.keys, sizeof(uint32_t));
    buffer.offsets = flat.offsets;
    buffer.ends = flat.ends;
    buffer.values = flat.values;
    buffer.room = room;
    return buffer;
}

static void free_column(rl_column column)
{
    free((void *)column.ends);
    free((void *)column.values);
}

static void free_flat(rl_flat flat)
{
    free((void *)flat.offsets);
    free((void *)flat.ends);
    free((void *)flat.values);
}

static void free_batch(rl_batch batch)
{
    free((void *)batch.keys);
    free_flat(rlv_flat(batch));
}

/* Refusals */

static void print_refusal(FILE *stream, const char *call, rl_refusal refusal)
{
    char text[160];
    rl_refusal_text(refusal, text, sizeof text);
    fprintf(stream, "%s refuses: %s\n", call, text);
}

/* For calls that this program has no other way for. */
static void expect_answer(const char *call, rl_refusal refusal)
{
    if (refusal.number != RL_ANSWERED) {
        print_refusal(stderr, call, refusal);
        exit(EXIT_FAILURE);
    }
}

/* The calls, with buffers as long as they need */

static rl_column from_runs(const int64_t *runs, const int64_t *values, size_t count)
{
    rl_column_buffer out = new_column(rlv_from_runs_size(count));
    rl_counted made = rlv_from_runs(runs, count, values, count, out);
    expect_answer("from_runs", made.refusal);
    return rlv_written_column(out, made.count);
}

/* Hands the refusal on: what is done about columns of unequal length is the caller's decision. */
static rl_refusal zip_with(rl_column a, rl_column b, rl_fill fill_a, rl_fill fill_b, enum rl_operation code, rl_column *result)
{
    rl_column_buffer out = new_column(rlv_zip_with_size(a, b));
    rl_counted zipped = rlv_zip_with(a, b, fill_a, fill_b, code, out);
    *result = rlv_written_column(out, zipped.count);
    return zipped.refusal;
}

static rl_column zip_many(rl_flat f, rl_fill fill, enum rl_operation code)
{
    rl_column_buffer out = new_column(rlv_zip_many_size(f));
    rl_counted zipped = rlv_zip_many(f, fill, code, out);
    expect_answer("zip_many", zipped.refusal);
    return rlv_written_column(out, zipped.count);
}

static rl_column slice(rl_column c, int64_t start, int64_t end)
{
    rl_column_buffer out = new_column(rlv_slice_size(c, start, end));
    rl_counted sliced = rlv_slice(c, start, end, out);
    expect_answer("slice", sliced.refusal);
    return rlv_written_column(out, sliced.count);
}

static int64_t sum(rl_column c)
{
    rl_summed summed = rlv_sum(c);
    expect_answer("sum", summed.refusal);
    return summed.total;
}

static rl_flat lay_flat(const rl_column *columns, size_t count)
{
    size_t runs = 0;
    for (size_t i = 0; i < count; i++) {
        runs += columns[i].runs;
    }
    rl_flat_buffer out = new_flat(rl_sizes_of_batch(count, runs));
    for (size_t i = 0; i < count; i++) {
        size_t first = out.offsets[i];
        memcpy(out.ends + first, columns[i].ends, columns[i].runs * sizeof(int64_t));
        memcpy(out.values + first, columns[i].values, columns[i].runs * sizeof(int64_t));
        out.offsets[i + 1] = first + columns[i].runs;
    }
    return rlv_written_flat(out, count, runs);
}

/* What is printed */

/* Runs, the first of them from label `first` on. */
static void print_runs(int64_t first, rl_column c)
{
    int64_t start = 0;
    for (size_t r = 0; r < c.runs; r++) {
        printf("  %6" PRId64 " to %6" PRId64 "  %" PRId64 "\n", first + start, first + c.ends[r], c.values[r]);
        start = c.ends[r];
    }
}

static void print_column(const char *name, rl_column c)
{
    printf("%s\n", name);
    print_runs(0, c);
}

/* The value of each column in a segment; a column that has ended has its number of runs as index. */
static void print_segment(rl_flat f, const char *const *names, const size_t *index)
{
    for (size_t c = 0; c < f.count; c++) {
        rl_column column = rlv_column(f, c);
        if (index[c] < column.runs) {
            printf(" %s %" PRId64, names[c], column.values[index[c]]);
        } else {
            printf(" no %s", names[c]);
        }
    }
}

/* A column has a seam where its index differs between two segments. */
static void print_seam(rl_flat f, const char *const *names, const size_t *before, const size_t *behind)
{
    printf("; then a seam in");
    for (size_t c = 0; c < f.count; c++) {
        if (before[c] != behind[c]) {
            printf(" %s", names[c]);
        }
    }
}

static void print_plan(rl_flat f, const char *const *names)
{
    rl_plan_many_sizes room = rlv_plan_many_size(f);
    int64_t *ends = (int64_t *)new_entries(room.ends, sizeof(int64_t));
    size_t *indexes = (size_t *)new_entries(room.indexes, sizeof(size_t));
    rl_planned_many plan = rlv_plan_many(f, ends, room.ends, indexes, room.indexes);
    expect_answer("plan_many", plan.refusal);
    printf("combined runs: %zu\n", plan.segments);
    for (size_t t = 0; t < plan.segments; t++) {
        const size_t *index = indexes + t * f.count;
        printf("  up to %6" PRId64 " ", ends[t]);
        print_segment(f, names, index);
        if (t + 1 < plan.segments) {
            print_seam(f, names, index, index + f.count);
        }
        printf("\n");
    }
    free(ends);
    free(indexes);
}

/* Two batches whose keys, customers here, stand in different orders: the join goes by key, never by row. */
static void print_joined(rl_batch a, rl_batch b)
{
    rl_batch_buffer out = new_batch(rlv_batch_zip_with_size(a, b, RL_LEFT));
    rl_batched answer = rlv_batch_zip_with(a, b, RL_LEFT, rl_fill_missing(), rl_fill_value(0), RL_ADD, out);
    expect_answer("batch_zip_with", answer.refusal);
    rl_batch joined = rlv_written_batch(out, answer.keys, answer.runs);
    for (size_t k = 0; k < joined.count; k++) {
        printf("customer %" PRIu32 "\n", joined.keys[k]);
        print_runs(0, rlv_column(rlv_flat(joined), k));
    }
    free_batch(joined);
}

/* The job */

/* How long each run of a column is, and what it shows. Flavour and barcode change at label 31000, the ink set does not. */
static const int64_t flavour_runs[] = {12000, 19000, 9000}, flavours[] = {100, 200, 300};
static const int64_t barcode_runs[] = {20000, 11000, 9000}, barcodes[] = {5001, 5002, 5003};
static const int64_t ink_runs[] = {8000, 25000, 7000}, ink_sets[] = {4, 6, 4};

/* Nanolitres of ink on a label, for the same runs. */
static const int64_t flavour_ink[] = {820, 760, 905}, barcode_ink[] = {40, 40, 40}, ground_ink[] = {150, 175, 150};

static void print_ink(void)
{
    rl_column layers[3] = {
        from_runs(flavour_runs, flavour_ink, 3),
        from_runs(barcode_runs, barcode_ink, 3),
        from_runs(ink_runs, ground_ink, 3),
    };
    rl_flat f = lay_flat(layers, 3);
    rl_column ink = zip_many(f, rl_fill_missing(), RL_ADD);
    rl_column head = slice(ink, 0, 31000);
    print_column("ink for a label, of all layers", ink);
    printf("ink for the job: %" PRId64 ", up to label 31000: %" PRId64 "\n", sum(ink), sum(head));
    free_column(head);
    free_column(ink);
    free_flat(f);
    for (size_t i = 0; i < 3; i++) {
        free_column(layers[i]);
    }
}

/* The customer's list of barcodes ends 500 labels early. The call says so; the labels without one get barcode 0. */
static void print_short_list(rl_column flavour)
{
    static const int64_t runs[] = {20000, 19500};
    rl_column barcode = from_runs(runs, barcodes, 2), both;
    rl_refusal refusal = zip_with(flavour, barcode, rl_fill_missing(), rl_fill_missing(), RL_SECOND, &both);
    if (refusal.number == RL_UNEQUAL_LENGTH) {
        print_refusal(stdout, "zip_with", refusal);
        free_column(both);
        refusal = zip_with(flavour, barcode, rl_fill_missing(), rl_fill_value(0), RL_SECOND, &both);
    }
    expect_answer("zip_with", refusal);
    print_column("barcodes, 0 where there is none", both);
    free_column(both);
    free_column(barcode);
}

static void print_customers(rl_column flavour, rl_column ink_set)
{
    static const uint32_t flavour_keys[] = {7031, 7102, 7044}, ink_keys[] = {7044, 7031};
    rl_column flavour_columns[3], ink_columns[2];
    flavour_columns[0] = slice(flavour, 0, 20000);
    flavour_columns[1] = slice(flavour, 20000, 25000);
    flavour_columns[2] = slice(flavour, 25000, 40000);
    ink_columns[0] = slice(ink_set, 25000, 40000);
    ink_columns[1] = slice(ink_set, 0, 20000);
    rl_flat a = lay_flat(flavour_columns, 3), b = lay_flat(ink_columns, 2);
    print_joined(rlv_batch(flavour_keys, a), rlv_batch(ink_keys, b));
    free_flat(a);
    free_flat(b);
    for (size_t i = 0; i < 3; i++) {
        free_column(flavour_columns[i]);
    }
    for (size_t i = 0; i < 2; i++) {
        free_column(ink_columns[i]);
    }
}

int main(void)
{
    static const char *const names[] = {"flavour", "barcode", "ink set"};
    rl_column job[3], element, seam;
    job[0] = from_runs(flavour_runs, flavours, 3);
    job[1] = from_runs(barcode_runs, barcodes, 3);
    job[2] = from_runs(ink_runs, ink_sets, 3);
    for (size_t i = 0; i < 3; i++) {
        print_column(names[i], job[i]);
    }

    rl_flat f = lay_flat(job, 3);
    print_plan(f, names);
    free_flat(f);

    /* One element for each flavour and ink set: 206 is flavour 200 in ink set 6. Lengths are equal, so no fill is needed. */
    expect_answer("zip_with", zip_with(job[0], job[2], rl_fill_missing(), rl_fill_missing(), RL_ADD, &element));
    print_column("elements", element);

    seam = slice(element, 30500, 31500);
    printf("elements of labels 30500 to 31500\n");
    print_runs(30500, seam);

    print_ink();
    print_short_list(job[0]);
    print_customers(job[0], job[2]);

    free_column(seam);
    free_column(element);
    for (size_t i = 0; i < 3; i++) {
        free_column(job[i]);
    }
    return 0;
}
