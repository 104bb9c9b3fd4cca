//! What the two archives export, as `include/silmezga.h` and `include/totals.h` declare it.
use crate::{totals::Total, TypeSummary, Width, MOST_ENTRIES};

/// The answer of examining, adorning, reshaping, widening, narrowing, of reading and printing a tree, and of building an index: a count of rows, types,
/// lines, entries or bytes.
#[repr(C)]
pub struct Counted {
    pub number: usize,
    pub place: usize,
    pub count: usize,
}

#[repr(C)]
pub struct LookedUp {
    pub number: usize,
    pub place: usize,
    pub start: usize,
    pub length: usize,
}

#[repr(C)]
pub struct Judged {
    pub number: usize,
    pub place: usize,
    pub verdict: usize,
    pub first: usize,
    pub second: usize,
    pub none_apart: usize,
    pub least_children: [usize; MOST_ENTRIES],
    pub greatest_children: [usize; MOST_ENTRIES],
    pub least_parents: [usize; MOST_ENTRIES],
    pub greatest_parents: [usize; MOST_ENTRIES],
}

#[repr(C)]
pub struct Summarised {
    pub number: usize,
    pub place: usize,
    pub lines: [usize; MOST_ENTRIES],
    pub rows: [usize; MOST_ENTRIES],
    pub copies: [usize; MOST_ENTRIES],
    pub different: [usize; MOST_ENTRIES],
}

#[repr(C)]
pub struct BothConverted {
    pub number: usize,
    pub place: usize,
    pub rows: usize,
    pub entries: usize,
}

#[repr(C)]
pub struct TapeSums {
    pub number: usize,
    pub place: usize,
    pub shown: i64,
    pub unshown: i64,
}

#[repr(C)]
pub struct TakenIn {
    pub number: usize,
    pub place: usize,
    pub total: Total,
}

extern "C" {
    pub fn silmezga_examine(width: Width, table: *const u8, table_len: usize) -> Counted;
    pub fn silmezga_look_up(width: Width, table: *const u8, table_len: usize, row: usize) -> LookedUp;
    pub fn silmezga_adorn(width: Width, table: *const u8, table_len: usize, summaries: *mut TypeSummary, lent: usize) -> Counted;
    pub fn silmezga_judge(width: Width, table: *const u8, table_len: usize, shape: *const u8, shape_len: usize) -> Judged;
    pub fn silmezga_reshape(
        width: Width,
        table: *const u8,
        table_len: usize,
        shape: *const u8,
        shape_len: usize,
        new: *mut u8,
        new_len: usize,
        sources: *mut u32,
        source_places: usize,
    ) -> Counted;
    pub fn silmezga_summarise(width: Width, table: *const u8, table_len: usize, shape: *const u8, shape_len: usize) -> Summarised;
    pub fn silmezga_widen_table(table: *const u8, table_len: usize, new: *mut u8, new_len: usize) -> Counted;
    pub fn silmezga_narrow_table(table: *const u8, table_len: usize, new: *mut u8, new_len: usize) -> Counted;
    pub fn silmezga_widen_shape(shape: *const u8, shape_len: usize, new: *mut u8, new_len: usize) -> Counted;
    pub fn silmezga_narrow_shape(shape: *const u8, shape_len: usize, new: *mut u8, new_len: usize) -> Counted;
    pub fn silmezga_convert_labels(
        width: Width,
        table: *const u8,
        table_len: usize,
        shape: *const u8,
        shape_len: usize,
        pairs: *const u16,
        numbers: usize,
        new_table: *mut u8,
        new_table_len: usize,
        new_shape: *mut u8,
        new_shape_len: usize,
    ) -> BothConverted;
    pub fn silmezga_read_tree(
        width: Width,
        table: *const u8,
        table_len: usize,
        text: *const u8,
        text_len: usize,
        shape: *mut u8,
        shape_len: usize,
    ) -> Counted;
    pub fn silmezga_print_tree(width: Width, shape: *const u8, shape_len: usize, text: *mut u8, text_len: usize) -> Counted;
    pub fn silmezga_build_index(
        width: Width,
        table: *const u8,
        table_len: usize,
        last: *mut u16,
        last_places: usize,
        next: *mut u16,
        next_places: usize,
    ) -> Counted;
    pub fn silmezga_judge_with_index(
        width: Width,
        table: *const u8,
        table_len: usize,
        shape: *const u8,
        shape_len: usize,
        last: *const u16,
        last_places: usize,
        next: *const u16,
        next_places: usize,
    ) -> Judged;
    pub fn silmezga_reshape_with_index(
        width: Width,
        table: *const u8,
        table_len: usize,
        shape: *const u8,
        shape_len: usize,
        last: *const u16,
        last_places: usize,
        next: *const u16,
        next_places: usize,
        new: *mut u8,
        new_len: usize,
        sources: *mut u32,
        source_places: usize,
    ) -> Counted;
    pub fn silmezga_summarise_with_index(
        width: Width,
        table: *const u8,
        table_len: usize,
        shape: *const u8,
        shape_len: usize,
        last: *const u16,
        last_places: usize,
        next: *const u16,
        next_places: usize,
    ) -> Summarised;
    pub fn totals_sum_tape(
        width: Width,
        table: *const u8,
        table_len: usize,
        shape: *const u8,
        shape_len: usize,
        entry: usize,
    ) -> TapeSums;
    pub fn totals_take_in(
        total: Total,
        width: Width,
        table: *const u8,
        table_len: usize,
        shape: *const u8,
        shape_len: usize,
        entry: usize,
    ) -> TakenIn;
}
