//! The two calls of the library of totals, over a static library of its own, safe: the values of an entry's source rows added up, tape by tape, over a month
//! of tapes.
//!
//! What is added, the limits, and when each refusal is given stand in `include/totals.h`. What the calls answer is proved of the archive's functions; this
//! file, which passes slices to them, is not covered by a proof.
use crate::{accepted, archive, Refusal, Width};

/// The greatest value that is added, either way.
pub const MOST_VALUE: i64 = 1_000_000_000_000;
/// The greatest sum of one tape, either way.
pub const MOST_TAPE_SUM: i64 = 1_024_000_000_000_000;
/// The most tapes of a total.
pub const MOST_TAPES: usize = 1_000;

/// What one tape adds: the sum over the entry's rows that its lines show, each once, and the sum over its rows that they do not show.
#[derive(Clone, Copy, Debug, PartialEq, Eq)]
pub struct Sums {
    pub shown: i64,
    pub unshown: i64,
}

/// Both sums over the tapes taken in, and how many these are. Before the first tape it is the default, zeros.
#[repr(C)]
#[derive(Clone, Copy, Debug, Default, PartialEq, Eq)]
pub struct Total {
    pub shown: i64,
    pub unshown: i64,
    pub tapes: usize,
}

// Safety: as for the calls of the first library.

/// Adds up one tape: refusals 1 to 8 as `summarise` gives them; 16 where the shape has no such entry; 17 with the first row of the entry's type, shown or not,
/// whose value is below -10^12 or above 10^12; or both sums.
pub fn sum_tape(width: Width, table: &[u8], shape: &[u8], entry: usize) -> Result<Sums, Refusal> {
    let a = unsafe { archive::totals_sum_tape(width, table.as_ptr(), table.len(), shape.as_ptr(), shape.len(), entry) };
    accepted(a.number, a.place, Sums { shown: a.shown, unshown: a.unshown })
}

/// Takes a tape into a total: the refusals of `sum_tape`; 18 where the total has 1,000 tapes or more, or a sum beyond 1.024 x 10^15 a tape, either way; or the
/// total with both sums of the tape added, and one tape more. Where the tape is refused, the total stays the one that was handed in.
pub fn take_in(total: Total, width: Width, table: &[u8], shape: &[u8], entry: usize) -> Result<Total, Refusal> {
    let a = unsafe { archive::totals_take_in(total, width, table.as_ptr(), table.len(), shape.as_ptr(), shape.len(), entry) };
    accepted(a.number, a.place, a.total)
}
