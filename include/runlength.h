/* Columns of runs over label positions: the calls of librunlength.a (x86-64, the System V calling convention).
 *
 * A sequence is a list of ends and an equally long list of values. Its ends are valid when the first is above 0 and each is above
 * the one before. Run r covers positions from the end before it (0 for the first) up to its own end, not included; the length is
 * the last end, or 0. It is merged when neighbouring values differ.
 *
 * What every call needs
 * - A list or a buffer is a pointer to its first entry and a number of entries, fewer than 2^60. The pointer is aligned and not
 *   null, even with no entries: where malloc or std::vector::data may give null, pass the address of any entry of that type.
 * - A buffer that a call may write overlaps nothing else that the call is handed, and all its entries may be written. Lists that
 *   are only read may overlap each other. During the call no other thread writes to a list or touches a buffer.
 * - rl_reduce, rl_slice_reduce and rl_batch_slice_reduce: the floating-point environment that a program starts with (rounding to
 *   nearest, subnormal numbers kept, no traps).
 * Nothing else is needed: whatever the lists and the other arguments hold, a call ends, with an answer or a refusal.
 *
 * What every call answers: an answer, or one refusal
 * - With an answer all of the refusal is 0. The first `count` entries of each output buffer are filled (as many as stand beside a
 *   call with other counts), later ones keep what they held.
 * - With a refusal the count is 0 and nothing has been written.
 * A call puts its questions in the order that stands beside it, as "Refuses"; the first "no" is its refusal.
 *
 * What a call costs stands beside it as "Costs": what its time grows with. Question 4 reads all ends at each call, however little
 * is done with them then; so many runs, intervals or keys are better handed to a call that takes them at once (rl_from_runs,
 * rl_getitems, rl_slice_reduce, rl_batch_getitems, rl_batch_slice_reduce) than one by one.
 *
 * How many entries a buffer needs stands beside a call at 12. For every call rl_NAME with buffers, runlength_sizes.h has
 * rl_NAME_size, which answers that number. A call tells it as well: with a buffer that is too short it gives 12, with the number,
 * and has written nothing. runlength_text.h writes a refusal as text. runlength_views.h has the calls over structs for a column and
 * a batch, in which pointers may be null where there are no entries.
 *
 * Threads: the library keeps nothing between calls, allocates nothing and has no variables of its own, so calls may run at once on
 * any threads, under the rules for buffers above. Of other libraries it needs memcpy and memset alone.
 *
 * Stack: a call takes at most 64 KiB, whatever its arguments. One on columns takes less than 16 KiB, but for the many-way ones
 * (rl_plan_many, rl_zip_many).
 *
 * The sections below have the names of the Rust's files. */
#ifndef RUNLENGTH_H
#define RUNLENGTH_H

#include <stddef.h>
#include <stdint.h>

#if SIZE_MAX != UINT64_MAX
#error "librunlength.a is for x86-64 with a size_t of 64 bits"
#endif

#ifdef __cplusplus
extern "C" {
#endif

/* The refusals, and their values. A value marked * is an int64_t, given as its two's complement bits; the others are unsigned. */
enum rl_number {                /* first        second       third   */
    RL_ANSWERED = 0,            /*                                   */
    RL_UNKNOWN_CODE = 1,        /* code                              */
    RL_LENGTH_MISMATCH = 2,     /* what         left         right   */
    RL_INVALID_OFFSETS = 3,     /*                                   */
    RL_INVALID_ENDS = 4,        /* index                             */
    RL_TOO_MANY = 5,            /* number                            */
    RL_NEGATIVE_RUN = 6,        /* index        run *                */
    RL_OVERFLOW = 7,            /*                                   */
    RL_DUPLICATE_KEY = 8,       /* position                          */
    RL_INVALID_INTERVAL = 9,    /* index        start *      end *   */
    RL_UNEQUAL_LENGTH = 10,     /* left *       right *              */
    RL_LENGTH_TOO_SHORT = 11,   /* requested *  required *           */
    RL_SHORT_BUFFER = 12        /* which        needed       given   */
};

/* What, in 2: the lengths that disagree, left and right. */
enum rl_what {
    RL_WHAT_RUNS_VALUES = 1,   /* runs, values */
    RL_WHAT_OFFSETS_KEYS = 2,  /* offsets, keys + 1 */
    RL_WHAT_ENDS_VALUES = 3,   /* ends, values */
    RL_WHAT_NEW_KEYS_KEYS = 4, /* new keys, keys */
    RL_WHAT_USED_BUFFER = 5,   /* used count, shorter buffer: refused only where the count is larger */
    RL_WHAT_MASK_RUNS = 6,     /* mask, runs - 1 (0 for no runs) */
    RL_WHAT_KEYS_STARTS = 7,   /* keys, starts */
    RL_WHAT_STARTS_ENDS = 8    /* starts, ends */
};

/* Index, in 4, is the lowest one of an end that is not above the one before (of the first: not above 0), counted within its
 * sequence; of two sequences or batches it is not said which one it is in. Which, in 12, counts the buffers that the call may
 * write, from 0 in argument order. 4 carries the position of the key or the sequence in calls on a batch or on sequences laid
 * flat, 10 that of the key in the result in calls on batches; no other refusal carries a position. */
typedef struct {
    uint64_t number;               /* an rl_number; 0 with an answer */
    uint64_t first, second, third; /* 0 where the refusal has fewer values */
    uint64_t in_key;               /* 1 where the refusal carries the position of a key or a sequence, else 0 */
    uint64_t position;             /* that position, or 0 */
} rl_refusal;

typedef struct {
    rl_refusal refusal;
    size_t count;
} rl_counted;

typedef struct {
    rl_refusal refusal;
    uint64_t equal; /* 1 or 0; 0 with a refusal */
} rl_equality;

/* The counts of rl_plan_many. */
typedef struct {
    rl_refusal refusal;
    size_t segments; /* the entries of out_ends; 0 with a refusal */
    size_t indexes;  /* the entries of out_idx; 0 with a refusal */
} rl_planned_many;

/* What rl_run_index and rl_batch_position find. */
typedef struct {
    rl_refusal refusal;
    uint64_t found; /* 1 or 0; 0 with a refusal */
    size_t index;   /* 0 where nothing is found */
} rl_found;

/* What rl_batch_get finds. A key that is there may have no runs. */
typedef struct {
    rl_refusal refusal;
    uint64_t found; /* 1 or 0; 0 with a refusal */
    size_t count;   /* the entries of each output; 0 where nothing is found and with a refusal */
} rl_got;

/* A view of a slice; all 0 for the view of nothing and with a refusal. */
typedef struct {
    rl_refusal refusal;
    size_t first;   /* the first run */
    int64_t start;  /* where the view starts, among the positions of the sequence */
    int64_t length; /* how many positions it has */
} rl_viewed;

/* A part of a list: its first entry, and how many it has; both 0 for an empty part. */
typedef struct {
    size_t first;
    size_t count;
} rl_part;

/* The counts of sequences laid flat. */
typedef struct {
    rl_refusal refusal;
    size_t keys; /* the sequences, one fewer than the entries of out_offsets, and the entries of out_keys; 0 with a refusal */
    size_t runs; /* the entries of out_ends and of out_values; 0 with a refusal */
} rl_batched;

typedef struct {
    rl_refusal refusal;
    int64_t total; /* 0 with a refusal */
} rl_summed;

/* What a reduction comes to. */
enum rl_kind { RL_NOTHING = 0, RL_WHOLE = 1, RL_FRACTION = 2 };

/* What its kind does not have is 0, and all is 0 with a refusal. */
typedef struct {
    rl_refusal refusal;
    uint64_t kind;   /* an rl_kind */
    int64_t whole;   /* of RL_WHOLE: the sum */
    double mean;     /* of RL_FRACTION: the mean, of a variance the one that it was taken around */
    double variance; /* of RL_FRACTION: the variance, or the mean once more */
} rl_reduced;

/* The value that stands where a column has ended. */
typedef struct {
    uint64_t given; /* 0: no fill, whatever the value is; any other number: the value */
    int64_t value;
} rl_fill;

static inline rl_fill rl_fill_value(int64_t value)
{
    rl_fill fill;
    fill.given = 1;
    fill.value = value;
    return fill;
}

static inline rl_fill rl_fill_missing(void)
{
    rl_fill fill;
    fill.given = 0;
    fill.value = 0;
    return fill;
}

/* rle.rs */

/* A sequence without its buffers: the number of their entries in use. */
typedef struct {
    size_t runs;
} rl_rle;

/* The most sequences that a many-way call takes. */
#define RL_MAX_COLUMNS 128

/* The empty sequence: 0 runs, with any buffers.
 * Costs: nothing. */
rl_rle rl_empty(void);

/* The sequence of the runs above 0 with their values; neighbours are not merged. The count is the number of its runs.
 * Refuses: 2 (what 1); run by run 6, then 7 where the sum leaves int64_t; 12: each output needs runs_len entries.
 * Costs: one pass over all runs together. */
rl_counted rl_from_runs(const int64_t *runs, size_t runs_len, const int64_t *values, size_t values_len, int64_t *out_ends,
                        size_t out_ends_len, int64_t *out_values, size_t out_values_len);

/* Whether ends and values are a sequence: the number is 0 where they are. Writes nothing.
 * Refuses: 2 (what 3); 4.
 * Costs: one pass over the ends. */
rl_refusal rl_from_ends(const int64_t *ends, size_t ends_len, const int64_t *values, size_t values_len);

/* The sequence of `length` positions that show `value`: one run, or none for length 0. The count is the number of its runs.
 * Refuses: 6 (index 0, and the length) where the length is negative; 12: each output needs 1 entry, also for length 0.
 * Costs: the same for every length. */
rl_counted rl_repeat(int64_t value, int64_t length, int64_t *out_ends, size_t out_ends_len, int64_t *out_values,
                     size_t out_values_len);

/* Appends a run to the sequence in the first `used` entries; neighbours are not merged. A run of 0 changes nothing, any other
 * writes entry `used` of both buffers. The count is the new number of runs.
 * Refuses: 2 (what 5) where `used` is above the shorter buffer's length; 4 of the ends in use; 6 (index `used`); 7 where the new
 * length leaves int64_t; 12: each buffer needs used + 1 entries, also for a run of 0.
 * Costs: reads all ends in use at each call, so that n runs pushed one by one take n * n / 2 steps. rl_from_runs makes a sequence
 * of many runs in one pass. */
rl_counted rl_push_run(int64_t *ends, size_t ends_len, int64_t *values, size_t values_len, size_t used, int64_t run, int64_t value);

/* Extends the sequence in the first `used` entries to `length` positions, the new ones showing `value`. The present length changes
 * nothing. Otherwise the last run's end becomes `length` if that run holds `value`; if not, entry `used` of both buffers is
 * written. The count is the new number of runs.
 * Refuses: 2 (what 5) where `used` is above the shorter buffer's length; 4 of the ends in use; 11 where `length` is below the
 * present length; 12: each buffer needs used + 1 entries, also where no run is added.
 * Costs: reads all ends in use at each call, as rl_push_run. */
rl_counted rl_extend_to(int64_t *ends, size_t ends_len, int64_t *values, size_t values_len, size_t used, int64_t length,
                        int64_t value);

/* The merged sequence that shows `values`, one for each position. The count is the number of its runs.
 * Refuses: 12: each output needs values_len entries.
 * Costs: one pass over the values. */
rl_counted rl_from_dense(const int64_t *values, size_t values_len, int64_t *out_ends, size_t out_ends_len, int64_t *out_values,
                         size_t out_values_len);

/* What the sequence shows, one value for each position. The count is its length.
 * Refuses: 2 (what 3); 4; 12: the output needs as many entries as the length.
 * Costs: one pass over the sequence, and as many entries written as it is long. */
rl_counted rl_to_dense(const int64_t *ends, size_t ends_len, const int64_t *values, size_t values_len, int64_t *out,
                       size_t out_len);

/* Whether two sequences have the same length and show the same value at each position, however their runs are split. Writes
 * nothing.
 * Refuses: 2 (what 3) of a, then of b; 4 of a, then of b.
 * Costs: one pass over both sequences, and one more over their ends. */
rl_equality rl_equals(const int64_t *a_ends, size_t a_ends_len, const int64_t *a_values, size_t a_values_len, const int64_t *b_ends,
                      size_t b_ends_len, const int64_t *b_values, size_t b_values_len);

/* plan.rs */

/* The segments of two lists of ends. A segment ends at the smaller of the two current ends; each side whose end that is steps on.
 * The outputs are the ends and the indexes of both sides' runs; a side that has ended keeps its number of runs as index. The
 * count is the number of segments.
 * Refuses: 4 of a, then of b; 12: each output needs a_len + b_len entries.
 * Costs: one pass over both lists, and one more for 4. */
rl_counted rl_plan(const int64_t *a, size_t a_len, const int64_t *b, size_t b_len, int64_t *out_ends, size_t out_ends_len,
                   size_t *out_idx_a, size_t out_idx_a_len, size_t *out_idx_b, size_t out_idx_b_len);

/* ops.rs */

/* The operation codes. The first value is x, the second y. */
enum rl_operation {
    RL_ADD = 0,      /* x + y, modulo 2^64, read as signed */
    RL_SUBTRACT = 1, /* x - y, modulo 2^64, read as signed */
    RL_MULTIPLY = 2, /* x * y, modulo 2^64, read as signed */
    RL_SMALLER = 3,  /* the smaller of x and y */
    RL_LARGER = 4,   /* the larger of x and y */
    RL_FIRST = 5,    /* x */
    RL_SECOND = 6,   /* y */
    RL_EQUAL = 7,    /* 1 where x is y, else 0 */
    RL_LESS = 8,     /* 1 where x is below y, else 0 */
    RL_MIDPOINT = 9  /* the exact sum of x and y, halved toward zero */
};

/* The merged sequence that shows, at each position up to the longer length, the operation of a's value and b's. The fill of a side
 * stands where that side has ended; sides of equal length need none. The count is the number of its runs.
 * Refuses: 1 where the code is above 9; 2 (what 3) of a, then of b; 4 of a, then of b; 10 (the lengths of a and b) where the
 * shorter side has no fill; 12: each output needs a_ends_len + b_ends_len entries.
 * Costs: one pass over both sequences, and one more over their ends. */
rl_counted rl_zip_with(const int64_t *a_ends, size_t a_ends_len, const int64_t *a_values, size_t a_values_len,
                       const int64_t *b_ends, size_t b_ends_len, const int64_t *b_values, size_t b_values_len, rl_fill fill_a,
                       rl_fill fill_b, uint8_t code, int64_t *out_ends, size_t out_ends_len, int64_t *out_values,
                       size_t out_values_len);

/* As rl_zip_with, with a run for each segment of rl_plan; neighbours are not merged. The count is the number of segments.
 * Refuses: as rl_zip_with.
 * Costs: as rl_zip_with. */
rl_counted rl_zip_with_raw(const int64_t *a_ends, size_t a_ends_len, const int64_t *a_values, size_t a_values_len,
                           const int64_t *b_ends, size_t b_ends_len, const int64_t *b_values, size_t b_values_len, rl_fill fill_a,
                           rl_fill fill_b, uint8_t code, int64_t *out_ends, size_t out_ends_len, int64_t *out_values,
                           size_t out_values_len);

/* many.rs. These calls take k = offsets_len - 1 sequences: sequence c has the entries of ends and values from offsets[c] up to
 * offsets[c + 1], not included. */

/* The segments of all sequences. A segment ends at the least of the current ends; each sequence whose end that is steps on.
 * Segment t has entry t of out_ends and, for each c, entry t * k + c of out_idx: the index of sequence c's run; a sequence that has
 * ended keeps its number of runs as index. Of the values only their number matters.
 * Refuses: 2 (what 3); 3 where there are no offsets, or they do not start at 0, fall, or do not finish at ends_len; 4 of the
 * first sequence whose ends are not valid, with its position; 5 where k is above RL_MAX_COLUMNS; 12: out_ends needs ends_len
 * entries, out_idx ends_len * k (at most 2^64 - 1 is shown).
 * Costs: one pass over the ends, and for each segment a look at each of the k sequences. */
rl_planned_many rl_plan_many(const size_t *offsets, size_t offsets_len, const int64_t *ends, size_t ends_len, const int64_t *values,
                             size_t values_len, int64_t *out_ends, size_t out_ends_len, size_t *out_idx, size_t out_idx_len);

/* The merged sequence that shows, at each position up to the greatest length, the operation from the first value on:
 * op(op(v0, v1), v2). The fill stands where a sequence has ended. One sequence shows its own values, none gives no runs. The count
 * is the number of runs.
 * Refuses: 1 where the code is above 9; 2 (what 3), 3, 4 and 5 as rl_plan_many; 10 (the least and the greatest length) where they
 * differ and there is no fill; 12: each output needs ends_len entries.
 * Costs: as rl_plan_many. */
rl_counted rl_zip_many(const size_t *offsets, size_t offsets_len, const int64_t *ends, size_t ends_len, const int64_t *values,
                       size_t values_len, rl_fill fill, uint8_t code, int64_t *out_ends, size_t out_ends_len, int64_t *out_values,
                       size_t out_values_len);

/* slice.rs. A slice has the positions of a sequence from `start` up to `end`, not included, after `start` has been raised to 0 and
 * `end` lowered to the length; it has none where `start` is not below `end` then. Its runs are those that it touches: their ends
 * less `start`, the last one's at `end` less `start`, and their values. Neighbours are not merged. */

/* The index of the run that covers a position. Nothing is found exactly where the position is below 0 or not below the length.
 * Writes nothing.
 * Refuses: 4.
 * Costs: reads all ends at each call, then searches by halving. rl_getitems does many slices at once. */
rl_found rl_run_index(const int64_t *ends, size_t ends_len, int64_t pos);

/* A slice. The count is the number of its runs.
 * Refuses: 2 (what 3); 4; 12: each output needs as many entries as the slice has runs.
 * Costs: reads all ends at each call, then searches by halving and copies the runs of the slice. rl_getitems does many at once. */
rl_counted rl_slice(const int64_t *ends, size_t ends_len, const int64_t *values, size_t values_len, int64_t start, int64_t end,
                    int64_t *out_ends, size_t out_ends_len, int64_t *out_values, size_t out_values_len);

/* A view of a slice: the first run that it touches, its start and its length. Writes nothing.
 * Refuses: 2 (what 3); 4.
 * Costs: reads all ends at each call, then searches by halving. */
rl_viewed rl_slice_view(const int64_t *ends, size_t ends_len, const int64_t *values, size_t values_len, int64_t start, int64_t end);

/* The part of `values` that a view has: one for each run that it touches, none where rl_slice_view refuses. Writes nothing, and
 * refuses nothing.
 * Costs: as rl_slice_view. */
rl_part rl_slice_view_values(const int64_t *ends, size_t ends_len, const int64_t *values, size_t values_len, int64_t start,
                             int64_t end);

/* The slices of one sequence from starts[k] up to stops[k], laid flat: slice k has the entries of out_ends and out_values from
 * out_offsets[k] up to out_offsets[k + 1], not included.
 * Refuses: 2 (what 3, then 8); 4; 9: the lowest index of an interval that is not 0 <= start <= end; 12: out_offsets needs
 * starts_len + 1 entries, out_ends and out_values as many as all slices have runs (at most 2^64 - 1 is shown).
 * Costs: one pass over the ends for all intervals together; for each interval a search by halving, and the runs of its slice. */
rl_batched rl_getitems(const int64_t *ends, size_t ends_len, const int64_t *values, size_t values_len, const int64_t *starts,
                       size_t starts_len, const int64_t *stops, size_t stops_len, size_t *out_offsets, size_t out_offsets_len,
                       int64_t *out_ends, size_t out_ends_len, int64_t *out_values, size_t out_values_len);

/* transform.rs */

/* The merged sequence that shows what any number of sequences show, one after the other. They are laid flat as for rl_plan_many.
 * The count is the number of its runs.
 * Refuses: 2 (what 3), 3 and 4 as rl_plan_many; 7 where the sum of their lengths leaves int64_t; 12: each output needs ends_len
 * entries.
 * Costs: one pass over the sequences, and one more over their ends. */
rl_counted rl_concat(const size_t *offsets, size_t offsets_len, const int64_t *ends, size_t ends_len, const int64_t *values,
                     size_t values_len, int64_t *out_ends, size_t out_ends_len, int64_t *out_values, size_t out_values_len);

/* The merged sequence of the same length that shows each value `distance` positions higher, or lower where that is negative; `fill`
 * stands where no value has come to. The count is the number of its runs.
 * Refuses: 2 (what 3); 4; 12: each output needs ends_len + 1 entries.
 * Costs: one pass over the sequence, and one more over its ends. */
rl_counted rl_shift(const int64_t *ends, size_t ends_len, const int64_t *values, size_t values_len, int64_t distance, int64_t fill,
                    int64_t *out_ends, size_t out_ends_len, int64_t *out_values, size_t out_values_len);

/* The sequence from its last position to its first; neighbours are not merged. The count is the number of its runs.
 * Refuses: 2 (what 3); 4; 12: each output needs ends_len entries.
 * Costs: one pass over the sequence, and one more over its ends. */
rl_counted rl_reversed(const int64_t *ends, size_t ends_len, const int64_t *values, size_t values_len, int64_t *out_ends,
                       size_t out_ends_len, int64_t *out_values, size_t out_values_len);

/* The ranges of positions whose value is equal to `number` (RL_EQUAL) or less than it (RL_LESS): where each starts and where it
 * ends, not included. Ranges that touch are one. The count is the number of ranges.
 * Refuses: 1 where the code is not 7 or 8; 2 (what 3); 4; 12: each output needs ends_len entries.
 * Costs: one pass over the sequence, and one more over its ends. */
rl_counted rl_ranges_where(const int64_t *ends, size_t ends_len, const int64_t *values, size_t values_len, uint8_t code,
                           int64_t number, int64_t *out_starts, size_t out_starts_len, int64_t *out_ends, size_t out_ends_len);

/* merge.rs. Runs are put into groups, each of neighbours, and a result has a run for each group, with the end of the group's last
 * run. The sequence that is handed in stays as it is. */

/* The merged sequence that shows the same: neighbours of equal value are one group. The count is the number of groups. Both calls
 * are the same.
 * Refuses: 2 (what 3); 4; 12: each output needs ends_len entries.
 * Costs: one pass over the sequence, and one more over its ends. */
rl_counted rl_merge(const int64_t *ends, size_t ends_len, const int64_t *values, size_t values_len, int64_t *out_ends,
                    size_t out_ends_len, int64_t *out_values, size_t out_values_len);
rl_counted rl_merged(const int64_t *ends, size_t ends_len, const int64_t *values, size_t values_len, int64_t *out_ends,
                     size_t out_ends_len, int64_t *out_values, size_t out_values_len);

/* The value that a group of runs keeps. */
enum rl_keep { RL_KEEP_FIRST = 0, RL_KEEP_LAST = 1 };

/* Run r + 1 is in the group of run r where mask[r] is 1. A group has the value of its first run (RL_KEEP_FIRST) or of its last
 * (RL_KEEP_LAST); equal neighbours are not merged. The count is the number of groups.
 * Refuses: 1 where keep is not 0 or 1, then of the first mask byte that is not; 2 (what 3, then 6); 4; 12: each output needs
 * ends_len entries.
 * Costs: one pass over the sequence and the mask, and one more over the ends and the mask. */
rl_counted rl_merge_mask(const int64_t *ends, size_t ends_len, const int64_t *values, size_t values_len, const uint8_t *mask,
                         size_t mask_len, uint8_t keep, int64_t *out_ends, size_t out_ends_len, int64_t *out_values,
                         size_t out_values_len);

/* Run r + 1 is in the group of run r where values[r] is equal to values[r + 1] (RL_EQUAL) or less than it (RL_LESS), both as they
 * were handed in. A group has the value of its first run. The count is the number of groups.
 * Refuses: 1 where the code is not 7 or 8; 2 (what 3); 4; 12: each output needs ends_len entries.
 * Costs: one pass over the sequence, and one more over its ends. */
rl_counted rl_merge_by(const int64_t *ends, size_t ends_len, const int64_t *values, size_t values_len, uint8_t code,
                       int64_t *out_ends, size_t out_ends_len, int64_t *out_values, size_t out_values_len);

/* The groups of rl_merge_mask: the end of each, and offsets, group g having the runs from out_offsets[g] up to out_offsets[g + 1],
 * not included. The count is the number of groups; out_offsets is filled with one entry more.
 * Refuses: 1 of the first mask byte that is not 0 or 1; 2 (what 6); 4; 12: out_ends needs ends_len entries, out_offsets
 * ends_len + 1.
 * Costs: one pass over the ends and the mask, and one more for the questions. */
rl_counted rl_merge_plan(const int64_t *ends, size_t ends_len, const uint8_t *mask, size_t mask_len, int64_t *out_ends,
                         size_t out_ends_len, size_t *out_offsets, size_t out_offsets_len);

/* The group of each run, of groups with these offsets. The count is the number of runs, which is the last offset.
 * Refuses: 3 where there are no offsets, or they do not start at 0 or fall; 12: the output needs as many entries as the last
 * offset says.
 * Costs: one pass over the offsets, and as many entries written as there are runs. */
rl_counted rl_group_ids(const size_t *offsets, size_t offsets_len, size_t *out_ids, size_t out_ids_len);

/* reduce.rs. A position counts as often as it is there: a value as many times as its run is long. */

/* The sum over all positions, modulo 2^64, read as signed; 0 at length 0. Writes nothing.
 * Refuses: 2 (what 3); 4.
 * Costs: one pass over the sequence. */
rl_summed rl_sum(const int64_t *ends, size_t ends_len, const int64_t *values, size_t values_len);

/* The reduction codes. In a mean and a variance each int64_t is first converted to the nearest double, ties to even, and each
 * operation is rounded once (IEEE 754), run after run from +0. No answer is a NaN or an infinity. ddof is read for RL_VARIANCE
 * alone. */
enum rl_reduction {
    RL_SUM = 0,     /* RL_WHOLE: as rl_sum */
    RL_MEAN = 1,    /* RL_FRACTION: the sum of run * value, divided by the length; RL_NOTHING at length 0 */
    RL_VARIANCE = 2 /* RL_FRACTION: with d = value - mean the sum of d * d * run, divided by length - ddof; RL_NOTHING unless the
                     * length is above 0 and length - ddof, taken exactly, is from 1 to 2^63 - 1 */
};

/* A reduction of the whole sequence. Writes nothing.
 * Refuses: 1 where the code is not 0, 1 or 2; 2 (what 3); 4.
 * Costs: one pass over the sequence, for a variance two. */
rl_reduced rl_reduce(const int64_t *ends, size_t ends_len, const int64_t *values, size_t values_len, uint8_t code, int64_t ddof);

/* The reductions of the slices from starts[k] up to stops[k], each as rl_reduce would answer for the slice: its rl_kind, and 64
 * bits, which are 0 for RL_NOTHING, the int64_t of RL_WHOLE, or the double of RL_FRACTION, of a variance without its mean. The
 * count is the number of intervals.
 * Refuses: 1 as rl_reduce; 2 (what 3, then 8); 4; 9: the lowest index of an interval that is not 0 <= start <= end; 12: each
 * output needs starts_len entries.
 * Costs: one pass over the ends for all intervals together; for each interval a search by halving, and the runs of its slice, for a
 * variance twice. */
rl_counted rl_slice_reduce(const int64_t *ends, size_t ends_len, const int64_t *values, size_t values_len, const int64_t *starts,
                           size_t starts_len, const int64_t *stops, size_t stops_len, uint8_t code, int64_t ddof,
                           uint8_t *out_kinds, size_t out_kinds_len, uint64_t *out_bits, size_t out_bits_len);

/* batch.rs. A batch is a list of keys and a sequence for each: key k has the entries of ends and values from offsets[k] up to
 * offsets[k + 1], not included. Only rl_batch_from_parts refuses a key that is given twice; where a call looks a key up, it takes
 * the lowest position.
 *
 * "The batch" below stands for these questions, asked of all keys: 2 (what 2, then 3); 3 where the offsets do not start at 0, fall,
 * or do not finish at ends_len; 4 of the first key whose ends are not valid, with its position. Of two batches each of these, and
 * each what, is asked of a and then of b. As a cost it is a pass over the offsets and the ends.
 *
 * Many keys are looked up by halving, where each key is above the one before it, or by an index that the call makes for itself, of
 * 4,096 wanted keys at a time: a pass over all keys for each. Where there are fewer than 256 keys or 64 wanted ones and the keys do
 * not rise so, they are looked for one after another.
 *
 * A batch that is answered has as many entries in out_keys as it has keys, one more in out_offsets, the first of which is 0, and as
 * many in out_ends and in out_values as it has runs. */

/* Whether four lists are a batch of different keys: the number is 0 where they are. Writes nothing.
 * Refuses: the batch; 8: the lowest position of a key that stands before as well.
 * Costs: the batch; one pass over the keys, and where one is not above the one before it a pass for each 6,144 of them, over those
 * that follow. */
rl_refusal rl_batch_from_parts(const uint32_t *keys, size_t keys_len, const size_t *offsets, size_t offsets_len,
                               const int64_t *ends, size_t ends_len, const int64_t *values, size_t values_len);

/* The lowest position of a key. Writes nothing, and refuses nothing.
 * Costs: reads the keys up to the one that is found. */
rl_found rl_batch_position(const uint32_t *keys, size_t keys_len, uint32_t key);

/* The sequence of a key, as it stands; nothing is found where the key is absent. The count is the number of its runs.
 * Refuses: the batch; 12: each output needs as many entries as the sequence has runs, none for an absent key.
 * Costs: the batch at each call; the keys up to the one that is found, and the runs of its sequence. rl_batch_getitems does many at
 * once. */
rl_got rl_batch_get(const uint32_t *keys, size_t keys_len, const size_t *offsets, size_t offsets_len, const int64_t *ends,
                    size_t ends_len, const int64_t *values, size_t values_len, uint32_t key, int64_t *out_ends, size_t out_ends_len,
                    int64_t *out_values, size_t out_values_len);

/* The slices from starts[k] up to stops[k] of the sequence of get_keys[k], of an absent key those of no runs; laid flat as by
 * rl_getitems.
 * Refuses: the batch; 2 (what 8); 9: the lowest index of an interval that is not 0 <= start <= end; 2 (what 7); 12: out_offsets
 * needs starts_len + 1 entries, out_ends and out_values as many as all slices have runs (at most 2^64 - 1 is shown).
 * Costs: the batch, for all intervals together; a look-up of each key in get_keys; for each interval as rl_getitems. */
rl_batched rl_batch_getitems(const uint32_t *keys, size_t keys_len, const size_t *offsets, size_t offsets_len, const int64_t *ends,
                             size_t ends_len, const int64_t *values, size_t values_len, const uint32_t *get_keys,
                             size_t get_keys_len, const int64_t *starts, size_t starts_len, const int64_t *stops, size_t stops_len,
                             size_t *out_offsets, size_t out_offsets_len, int64_t *out_ends, size_t out_ends_len,
                             int64_t *out_values, size_t out_values_len);

/* The reductions of the slices of rl_batch_getitems, by code and ddof, each as rl_slice_reduce gives it. The count is the number of
 * intervals.
 * Refuses: 1 as rl_reduce; the batch, what 7 and then 8 being asked after its what 3; 9 as rl_batch_getitems; 12: each output
 * needs starts_len entries.
 * Costs: the batch, for all intervals together; a look-up of each key in get_keys; for each interval as rl_slice_reduce. */
rl_counted rl_batch_slice_reduce(const uint32_t *keys, size_t keys_len, const size_t *offsets, size_t offsets_len,
                                 const int64_t *ends, size_t ends_len, const int64_t *values, size_t values_len,
                                 const uint32_t *get_keys, size_t get_keys_len, const int64_t *starts, size_t starts_len,
                                 const int64_t *stops, size_t stops_len, uint8_t code, int64_t ddof, uint8_t *out_kinds,
                                 size_t out_kinds_len, uint64_t *out_bits, size_t out_bits_len);

/* The same keys, each with what rl_shift makes of its sequence.
 * Refuses: the batch; 12: out_keys needs keys_len entries, out_offsets keys_len + 1, out_ends and out_values ends_len +
 * keys_len.
 * Costs: the batch, and one more pass over it. */
rl_batched rl_batch_shift(const uint32_t *keys, size_t keys_len, const size_t *offsets, size_t offsets_len, const int64_t *ends,
                          size_t ends_len, const int64_t *values, size_t values_len, int64_t distance, int64_t fill,
                          uint32_t *out_keys, size_t out_keys_len, size_t *out_offsets, size_t out_offsets_len, int64_t *out_ends,
                          size_t out_ends_len, int64_t *out_values, size_t out_values_len);

/* The same keys, each with what rl_reversed makes of its sequence.
 * Refuses: the batch; 12: out_keys needs keys_len entries, out_offsets keys_len + 1, out_ends and out_values ends_len.
 * Costs: the batch, and one more pass over it. */
rl_batched rl_batch_reversed(const uint32_t *keys, size_t keys_len, const size_t *offsets, size_t offsets_len, const int64_t *ends,
                             size_t ends_len, const int64_t *values, size_t values_len, uint32_t *out_keys, size_t out_keys_len,
                             size_t *out_offsets, size_t out_offsets_len, int64_t *out_ends, size_t out_ends_len,
                             int64_t *out_values, size_t out_values_len);

/* The same keys, each with what rl_slice makes of its sequence; a key whose slice shows nothing is kept, with no runs.
 * Refuses: the batch; 12: out_keys needs keys_len entries, out_offsets keys_len + 1, out_ends and out_values ends_len, however
 * few runs the slices have.
 * Costs: the batch, and one more pass over it. */
rl_batched rl_batch_map_rles_slice(const uint32_t *keys, size_t keys_len, const size_t *offsets, size_t offsets_len,
                                   const int64_t *ends, size_t ends_len, const int64_t *values, size_t values_len, int64_t start,
                                   int64_t end, uint32_t *out_keys, size_t out_keys_len, size_t *out_offsets,
                                   size_t out_offsets_len, int64_t *out_ends, size_t out_ends_len, int64_t *out_values,
                                   size_t out_values_len);

/* The sequences gathered under new keys, one for each key; these may repeat, and the keys themselves are not looked at. A new key
 * stands where it first appears. Its sequence starts as that of its first key, merged, and takes each further one in order by
 * rl_zip_with, the fill serving both sides.
 * With an answer the first 2 * ends_len entries of each scratch buffer may hold anything; later ones keep what they held.
 * Refuses: 1 where the code is above 9; the batch, what 4 being asked after its what 3; 10 (the length so far, and that of the
 * sequence to be taken) where they differ and there is no fill, of the first such new key, with its position in the result; 12:
 * out_keys needs keys_len entries, out_offsets keys_len + 1, out_ends and out_values ends_len, scratch_ends and scratch_values
 * 2 * ends_len.
 * Costs: the batch; for each key the runs of its new key so far and its own. New keys that never fall, or of which none is given
 * twice, take one pass, others a pass for every few thousand of them. */
rl_batched rl_batch_collapse(const uint32_t *keys, size_t keys_len, const size_t *offsets, size_t offsets_len, const int64_t *ends,
                             size_t ends_len, const int64_t *values, size_t values_len, const uint32_t *new_keys,
                             size_t new_keys_len, rl_fill fill, uint8_t code, uint32_t *out_keys, size_t out_keys_len,
                             size_t *out_offsets, size_t out_offsets_len, int64_t *out_ends, size_t out_ends_len,
                             int64_t *out_values, size_t out_values_len, int64_t *scratch_ends, size_t scratch_ends_len,
                             int64_t *scratch_values, size_t scratch_values_len);

/* The keys of a, then those of b that are not among them, each once, with the merged sequence that shows what a's sequence of the
 * key shows, and after it what b's does; a batch without the key shows nothing.
 * Refuses: the batches; 7 where the length of a result leaves int64_t; 12: out_keys needs a_keys_len + b_keys_len entries,
 * out_offsets one more, out_ends and out_values a_ends_len + b_ends_len.
 * Costs: the batches, and one more pass over them; look-ups of the keys of each in the other. */
rl_batched rl_batch_concat(const uint32_t *a_keys, size_t a_keys_len, const size_t *a_offsets, size_t a_offsets_len,
                           const int64_t *a_ends, size_t a_ends_len, const int64_t *a_values, size_t a_values_len,
                           const uint32_t *b_keys, size_t b_keys_len, const size_t *b_offsets, size_t b_offsets_len,
                           const int64_t *b_ends, size_t b_ends_len, const int64_t *b_values, size_t b_values_len,
                           uint32_t *out_keys, size_t out_keys_len, size_t *out_offsets, size_t out_offsets_len, int64_t *out_ends,
                           size_t out_ends_len, int64_t *out_values, size_t out_values_len);

/* The keys of the result, in their order; one that is given twice stands there twice. */
enum rl_how {
    RL_OUTER = 0, /* the keys of a, then those of b that a has not */
    RL_INNER = 1, /* the keys of a that b has as well */
    RL_LEFT = 2,  /* the keys of a */
    RL_RIGHT = 3  /* the keys of a that b has as well, then those of b that a has not */
};

/* Joins two batches, by `how` (an rl_how) and the operation code. A key of a has what rl_zip_with makes of its sequence and of the
 * one that b has at the lowest position of the key, a key of b that a has not what it makes of no runs and its sequence; a batch
 * without the key has no runs.
 * Refuses: 1 where `how` is above 3, then where the code is above 9; the batches; 10 as rl_zip_with, of the first such key, with
 * its position in the result; 12: out_keys needs a_keys_len + b_keys_len entries, out_offsets one more, both for every `how`;
 * out_ends and out_values need as many as the sequences of both sides have runs, summed over the keys of the result (at most
 * 2^64 - 1 is shown).
 * Costs: the batches; two more passes over the sequences of the result's keys; look-ups of the keys of each in the other. */
rl_batched rl_batch_zip_with(const uint32_t *a_keys, size_t a_keys_len, const size_t *a_offsets, size_t a_offsets_len,
                             const int64_t *a_ends, size_t a_ends_len, const int64_t *a_values, size_t a_values_len,
                             const uint32_t *b_keys, size_t b_keys_len, const size_t *b_offsets, size_t b_offsets_len,
                             const int64_t *b_ends, size_t b_ends_len, const int64_t *b_values, size_t b_values_len, uint8_t how,
                             rl_fill fill_a, rl_fill fill_b, uint8_t code, uint32_t *out_keys, size_t out_keys_len,
                             size_t *out_offsets, size_t out_offsets_len, int64_t *out_ends, size_t out_ends_len,
                             int64_t *out_values, size_t out_values_len);

#ifdef __cplusplus
}
#endif

#endif
