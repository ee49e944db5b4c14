//! Written by bindings/generate from the exports and compare/roles.

use super::*;

calls! {
    1 empty(;) -> 1, [];
    2 from_runs(runs: Runs, values: Values; out_ends: Room, out_values: Room) -> 1, [2, 6, 7, 12];
    3 from_ends(ends: Ends, values: Values;) -> 1, [2, 4];
    4 repeat(value: Value, length: Length; out_ends: Room, out_values: Room) -> 1, [6, 12];
    5 push_run(
        &mut ends: Ends, &mut values: Values, used: Used, run: Run, value: Value;
    ) -> 1, [2, 4, 6, 7, 12];
    6 extend_to(
        &mut ends: Ends, &mut values: Values, used: Used, length: Length, value: Value;
    ) -> 1, [2, 4, 11, 12];
    7 from_dense(values: Dense; out_ends: Room, out_values: Room) -> 1, [12];
    8 to_dense(ends: Ends, values: Values; out: Room) -> 1, [2, 4, 12];
    9 equals(a_ends: EndsA, a_values: ValuesA, b_ends: EndsB, b_values: ValuesB;) -> 1, [2, 4];
    10 plan(
        a: EndsA, b: EndsB; out_ends: Room, out_idx_a: IndexRoom, out_idx_b: IndexRoom
    ) -> 1, [4, 12];
    11 zip_with(
        a_ends: EndsA, a_values: ValuesA, b_ends: EndsB, b_values: ValuesB, fill_a: Fill,
        fill_b: Fill, code: Code; out_ends: Room, out_values: Room
    ) -> 1, [1, 2, 4, 10, 12];
    12 zip_with_raw(
        a_ends: EndsA, a_values: ValuesA, b_ends: EndsB, b_values: ValuesB, fill_a: Fill,
        fill_b: Fill, code: Code; out_ends: Room, out_values: Room
    ) -> 1, [1, 2, 4, 10, 12];
    13 plan_many(
        offsets: Offsets, ends: FlatEnds, values: FlatValues; out_ends: Room, out_idx: IndexRoom
    ) -> 2, [2, 3, 4, 5, 12];
    14 zip_many(
        offsets: Offsets, ends: FlatEnds, values: FlatValues, fill: Fill,
        code: Code; out_ends: Room, out_values: Room
    ) -> 1, [1, 2, 3, 4, 5, 10, 12];
    15 run_index(ends: Ends, pos: Position;) -> 2, [4];
    16 slice(
        ends: EndsA, values: ValuesA, start: Position, end: Position; out_ends: Room,
        out_values: Room
    ) -> 1, [2, 4, 12];
    17 slice_view(ends: EndsA, values: ValuesA, start: Position, end: Position;) -> 3, [2, 4];
    18 slice_view_values(ends: EndsA, values: ValuesA, start: Position, end: Position;) -> 2, [];
    19 getitems(
        ends: EndsA, values: ValuesA, starts: Starts, stops: Stops; out_offsets: IndexRoom,
        out_ends: Room, out_values: Room
    ) -> 2, [2, 4, 9, 12];
    20 concat(
        offsets: Offsets, ends: FlatEnds, values: FlatValues; out_ends: Room, out_values: Room
    ) -> 1, [2, 3, 4, 7, 12];
    21 shift(
        ends: EndsA, values: ValuesA, distance: Distance, fill: Value; out_ends: Room,
        out_values: Room
    ) -> 1, [2, 4, 12];
    22 reversed(ends: EndsA, values: ValuesA; out_ends: Room, out_values: Room) -> 1, [2, 4, 12];
    23 ranges_where(
        ends: EndsA, values: ValuesA, code: Comparison, number: Value; out_starts: Room,
        out_ends: Room
    ) -> 1, [1, 2, 4, 12];
    24 merge(ends: EndsA, values: ValuesA; out_ends: Room, out_values: Room) -> 1, [2, 4, 12];
    25 merged(ends: EndsA, values: ValuesA; out_ends: Room, out_values: Room) -> 1, [2, 4, 12];
    26 merge_mask(
        ends: EndsA, values: ValuesA, mask: Mask, keep: Keep; out_ends: Room, out_values: Room
    ) -> 1, [1, 2, 4, 12];
    27 merge_by(
        ends: EndsA, values: ValuesA, code: Comparison; out_ends: Room, out_values: Room
    ) -> 1, [1, 2, 4, 12];
    28 merge_plan(
        ends: Ends, mask: Mask; out_ends: Room, out_offsets: IndexRoom
    ) -> 1, [1, 2, 4, 12];
    29 group_ids(offsets: GroupOffsets; out_ids: IndexRoom) -> 1, [3, 12];
    30 sum(ends: EndsA, values: ValuesA;) -> 1, [2, 4];
    31 reduce(ends: EndsA, values: ValuesA, code: Reduction, ddof: Ddof;) -> 4, [1, 2, 4];
    32 slice_reduce(
        ends: EndsA, values: ValuesA, starts: Starts, stops: Stops, code: Reduction,
        ddof: Ddof; out_kinds: KindRoom, out_bits: BitRoom
    ) -> 1, [1, 2, 4, 9, 12];
    33 batch_from_parts(
        keys: Keys, offsets: Offsets, ends: FlatEnds, values: FlatValues;
    ) -> 1, [2, 3, 4, 8];
    34 batch_position(keys: Keys, key: Key;) -> 2, [];
    35 batch_get(
        keys: Keys, offsets: Offsets, ends: FlatEnds, values: FlatValues, key: Key; out_ends: Room,
        out_values: Room
    ) -> 2, [2, 3, 4, 12];
    36 batch_getitems(
        keys: Keys, offsets: Offsets, ends: FlatEnds, values: FlatValues, get_keys: GetKeys,
        starts: Starts, stops: Stops; out_offsets: IndexRoom, out_ends: Room, out_values: Room
    ) -> 2, [2, 3, 4, 9, 12];
    37 batch_slice_reduce(
        keys: Keys, offsets: Offsets, ends: FlatEnds, values: FlatValues, get_keys: GetKeys,
        starts: Starts, stops: Stops, code: Reduction, ddof: Ddof; out_kinds: KindRoom,
        out_bits: BitRoom
    ) -> 1, [1, 2, 3, 4, 9, 12];
    38 batch_shift(
        keys: Keys, offsets: Offsets, ends: FlatEnds, values: FlatValues, distance: Distance,
        fill: Value; out_keys: KeyRoom, out_offsets: IndexRoom, out_ends: Room, out_values: Room
    ) -> 2, [2, 3, 4, 12];
    39 batch_reversed(
        keys: Keys, offsets: Offsets, ends: FlatEnds, values: FlatValues; out_keys: KeyRoom,
        out_offsets: IndexRoom, out_ends: Room, out_values: Room
    ) -> 2, [2, 3, 4, 12];
    40 batch_map_rles_slice(
        keys: Keys, offsets: Offsets, ends: FlatEnds, values: FlatValues, start: Position,
        end: Position; out_keys: KeyRoom, out_offsets: IndexRoom, out_ends: Room, out_values: Room
    ) -> 2, [2, 3, 4, 12];
    41 batch_collapse(
        keys: Keys, offsets: Offsets, ends: FlatEnds, values: FlatValues, new_keys: NewKeys,
        fill: Fill, code: Code; out_keys: KeyRoom, out_offsets: IndexRoom, out_ends: Room,
        out_values: Room, scratch_ends: Scratch, scratch_values: Scratch
    ) -> 2, [1, 2, 3, 4, 10, 12];
    42 batch_concat(
        a_keys: Keys, a_offsets: Offsets, a_ends: FlatEnds, a_values: FlatValues, b_keys: KeysB,
        b_offsets: OffsetsB, b_ends: FlatEndsB, b_values: FlatValuesB; out_keys: KeyRoom,
        out_offsets: IndexRoom, out_ends: Room, out_values: Room
    ) -> 2, [2, 3, 4, 7, 12];
    43 batch_zip_with(
        a_keys: Keys, a_offsets: Offsets, a_ends: FlatEnds, a_values: FlatValues, b_keys: KeysB,
        b_offsets: OffsetsB, b_ends: FlatEndsB, b_values: FlatValuesB, how: How, fill_a: Fill,
        fill_b: Fill, code: Code; out_keys: KeyRoom, out_offsets: IndexRoom, out_ends: Room,
        out_values: Room
    ) -> 2, [1, 2, 3, 4, 10, 12];
}
