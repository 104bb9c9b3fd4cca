//! The six calls of Silmezga over its static library, those that widen and narrow files, the one that converts labels, the two for trees as a line of
//! text and the four for an index beside a table, safe: slices in, an answer or a refusal out. `totals` has the two calls of the library above it.
//!
//! The layouts of tables and shapes, the limits, and when each refusal is given stand in `include/silmezga.h`. What the calls answer
//! is proved of the archive's functions; this file, which passes slices to them, is not covered by a proof.

mod archive;
pub mod totals;

/// The width of a table and of the shape that goes with it, and of the new table. A file does not say which it has: the caller does.
#[repr(u32)]
#[derive(Clone, Copy, Debug, PartialEq, Eq)]
pub enum Width {
    /// Narrow: six levels.
    Six = 6,
    /// Wide: eight levels.
    Eight = 8,
}

impl Width {
    /// The most levels of rows and entries, and the most labels of a type.
    pub const fn levels(self) -> usize {
        self as usize
    }

    /// Bytes of a row of a table, and of a line of a new table: 24 or 28.
    pub const fn row_bytes(self) -> usize {
        12 + 2 * self.levels()
    }

    /// Bytes of an entry of a shape: 16 or 20.
    pub const fn entry_bytes(self) -> usize {
        4 + 2 * self.levels()
    }

    /// The longest table that is accepted, in bytes: 24,576 or 28,672.
    pub const fn most_table_bytes(self) -> usize {
        MOST_ROWS * self.row_bytes()
    }

    /// The longest shape that is accepted, in bytes: 256 or 320.
    pub const fn most_shape_bytes(self) -> usize {
        MOST_ENTRIES * self.entry_bytes()
    }
}

/// The greatest label.
pub const MOST_LABEL: u16 = 99;
/// The greatest label of files stored before version 3, which `convert_labels` alone takes.
pub const MOST_OLD_LABEL: u16 = 999;
/// The most rows of a table.
pub const MOST_ROWS: usize = 1_024;
/// The most types of a table: so many summaries are always enough.
pub const MOST_TYPES: usize = 64;
/// The most entries of a shape.
pub const MOST_ENTRIES: usize = 16;
/// The most lines of a new table.
pub const MOST_LINES: usize = 4_096;
/// The most bytes of a tree as a line of text: so many are always enough for printing.
pub const MOST_TEXT_BYTES: usize = 1_536;
/// In an index, for a row that no row of its type follows.
pub const NO_NEXT: u16 = 65_535;

/// Why a call was refused: the number, 1 to 29, and the place that the refusal names, 0 where it names none.
#[derive(Clone, Copy, Debug, PartialEq, Eq)]
pub struct Refusal {
    pub number: usize,
    pub place: usize,
}

/// The summary of a type of a table.
#[repr(C)]
#[derive(Clone, Copy, Debug, Default, PartialEq, Eq)]
pub struct TypeSummary {
    /// The parent type, 64 for none.
    pub parent: usize,
    /// The last label of the type.
    pub label: usize,
    pub level: usize,
    /// The number of rows of this type.
    pub rows: usize,
    /// The least number of children of this type under a row of the parent type; the number of rows where there is no parent type.
    pub least: usize,
    /// The greatest number of them; the number of rows where there is no parent type.
    pub greatest: usize,
}

/// Does the move keep the links between records?
#[derive(Clone, Copy, Debug, PartialEq, Eq)]
pub enum Verdict {
    /// Verdict 0: none is missing, none made up.
    Kept,
    /// Verdict 1: this row of the entry's type has no partner.
    Missing { entry: usize, row: usize },
    /// Verdict 2: the types of the two entries do not meet at exactly the least level on their path.
    Apart { first: usize, second: usize },
    /// Verdict 3: they do, but for no edge of that least level are all edges between it and the fork full.
    Unsure { first: usize, second: usize },
}

/// For each of 16 entries the numbers of its edge, which joins it to its parent entry. The children of a row of the parent entry's type are the rows
/// of the entry's type closest to it, the parents of a row of the entry's type the rows of the parent entry's type closest to it. Least and
/// greatest are over all rows of the type, also those that have none. Zeros for entry 0, past the last entry, and where the two types do not meet.
#[derive(Clone, Copy, Debug, PartialEq, Eq)]
pub struct Edges {
    pub least_children: [usize; MOST_ENTRIES],
    pub greatest_children: [usize; MOST_ENTRIES],
    pub least_parents: [usize; MOST_ENTRIES],
    pub greatest_parents: [usize; MOST_ENTRIES],
}

/// What judging says of a table and a shape.
#[derive(Clone, Copy, Debug, PartialEq, Eq)]
pub struct Judgement {
    pub verdict: Verdict,
    /// The second answer: would no pair of entries earn a 2? Where this is so, a reshape makes nothing up, whatever the verdict: any two
    /// lines of different entries that hang under, or are, one line of their fork entry have closest source rows. It holds one way only:
    /// where it is not so, nothing need be made up.
    pub none_apart: bool,
    /// The numbers of all edges, whatever the verdict.
    pub edges: Edges,
}

/// For each of 16 entries its lines, the source rows of its type, copies, and the different source rows that appear in its lines. Copies
/// are lines less different; rows less different are those that no line of the entry shows.
#[derive(Clone, Copy, Debug, PartialEq, Eq)]
pub struct Summary {
    pub lines: [usize; MOST_ENTRIES],
    pub rows: [usize; MOST_ENTRIES],
    pub copies: [usize; MOST_ENTRIES],
    pub different: [usize; MOST_ENTRIES],
}

/// How many rows and entries had their labels converted: all of the table and of the shape.
#[derive(Clone, Copy, Debug, PartialEq, Eq)]
pub struct Converted {
    pub rows: usize,
    pub entries: usize,
}

// Safety, for every call below: a slice's pointer and length are those of memory that is there and that the borrow checker keeps; a slice
// that is written to overlaps no other; and the archive's functions ask nothing more of what they are passed.

fn accepted<T>(number: usize, place: usize, answer: T) -> Result<T, Refusal> {
    if number == 0 {
        Ok(answer)
    } else {
        Err(Refusal { number, place })
    }
}

fn judgement(a: archive::Judged) -> Result<Judgement, Refusal> {
    let (first, second) = (a.first, a.second);
    let verdict = match a.verdict {
        0 => Verdict::Kept,
        1 => Verdict::Missing { entry: first, row: second },
        2 => Verdict::Apart { first, second },
        _ => Verdict::Unsure { first, second },
    };
    let edges = Edges {
        least_children: a.least_children,
        greatest_children: a.greatest_children,
        least_parents: a.least_parents,
        greatest_parents: a.greatest_parents,
    };
    accepted(a.number, a.place, Judgement { verdict, none_apart: a.none_apart == 1, edges })
}

fn summary(a: archive::Summarised) -> Result<Summary, Refusal> {
    accepted(a.number, a.place, Summary { lines: a.lines, rows: a.rows, copies: a.copies, different: a.different })
}

/// Examines a table: refusals 1 to 3, or the number of rows.
pub fn examine(width: Width, table: &[u8]) -> Result<usize, Refusal> {
    let a = unsafe { archive::silmezga_examine(width, table.as_ptr(), table.len()) };
    accepted(a.number, a.place, a.count)
}

/// Looks up a row: refusals 1 to 3 and 11, or the row's own bytes of the table, 24 or 28.
pub fn look_up(width: Width, table: &[u8], row: usize) -> Result<&[u8], Refusal> {
    let a = unsafe { archive::silmezga_look_up(width, table.as_ptr(), table.len(), row) };
    accepted(a.number, a.place, &table[a.start..a.start + a.length])
}

/// Adorns a table: refusals 1 to 4 and 10, or the number of types, whose summaries then stand at the front of those lent; those past the
/// last type stay as they were.
pub fn adorn(width: Width, table: &[u8], summaries: &mut [TypeSummary]) -> Result<usize, Refusal> {
    let a = unsafe { archive::silmezga_adorn(width, table.as_ptr(), table.len(), summaries.as_mut_ptr(), summaries.len()) };
    accepted(a.number, a.place, a.count)
}

/// Judges a table and a shape: refusals 1 to 7, or the verdict, the second answer, and four numbers of each edge.
pub fn judge(width: Width, table: &[u8], shape: &[u8]) -> Result<Judgement, Refusal> {
    judgement(unsafe { archive::silmezga_judge(width, table.as_ptr(), table.len(), shape.as_ptr(), shape.len()) })
}

/// Reshapes a table: refusals 1 to 8, or the number of lines, which then stand at the front of `new`, and entry x 65,536 + source row of
/// each at the front of `sources`. What lies past the last line stays as it was. Where judging says `none_apart`, nothing is made up,
/// whatever the verdict. Where the verdict is 1, the row that it names stands in no line of the entry that it names. A new table of at most
/// 1,024 lines is a sound source of the same width: it can be reshaped again with no test in between.
pub fn reshape(width: Width, table: &[u8], shape: &[u8], new: &mut [u8], sources: &mut [u32]) -> Result<usize, Refusal> {
    let a = unsafe {
        archive::silmezga_reshape(
            width,
            table.as_ptr(),
            table.len(),
            shape.as_ptr(),
            shape.len(),
            new.as_mut_ptr(),
            new.len(),
            sources.as_mut_ptr(),
            sources.len(),
        )
    };
    accepted(a.number, a.place, a.count)
}

/// Summarises a reshape with room for 4,096 lines: refusals 1 to 8, or four figures of each entry.
pub fn summarise(width: Width, table: &[u8], shape: &[u8]) -> Result<Summary, Refusal> {
    summary(unsafe { archive::silmezga_summarise(width, table.as_ptr(), table.len(), shape.as_ptr(), shape.len()) })
}

/// Widens a narrow table: refusals 1 to 3 of the narrow width and 29, or the number of rows, which then stand at the front of `new`, 28
/// bytes each. What lies past them stays as it was, here and in the three calls below.
pub fn widen_table(table: &[u8], new: &mut [u8]) -> Result<usize, Refusal> {
    let a = unsafe { archive::silmezga_widen_table(table.as_ptr(), table.len(), new.as_mut_ptr(), new.len()) };
    accepted(a.number, a.place, a.count)
}

/// Narrows a wide table: refusals 1 to 3 of the wide width, 24 with the first row whose level is over 6, and 29, or the number of rows,
/// which then stand at the front of `new`, 24 bytes each. Narrowing what was widened gives back the same bytes.
pub fn narrow_table(table: &[u8], new: &mut [u8]) -> Result<usize, Refusal> {
    let a = unsafe { archive::silmezga_narrow_table(table.as_ptr(), table.len(), new.as_mut_ptr(), new.len()) };
    accepted(a.number, a.place, a.count)
}

/// Widens a narrow shape: refusals 5 and 6 of the narrow width and 29, or the number of entries, which then stand at the front of `new`,
/// 20 bytes each.
pub fn widen_shape(shape: &[u8], new: &mut [u8]) -> Result<usize, Refusal> {
    let a = unsafe { archive::silmezga_widen_shape(shape.as_ptr(), shape.len(), new.as_mut_ptr(), new.len()) };
    accepted(a.number, a.place, a.count)
}

/// Narrows a wide shape: refusals 5 and 6 of the wide width, 24 with the first entry whose level or type length is over 6, and 29, or the
/// number of entries, which then stand at the front of `new`, 16 bytes each.
pub fn narrow_shape(shape: &[u8], new: &mut [u8]) -> Result<usize, Refusal> {
    let a = unsafe { archive::silmezga_narrow_shape(shape.as_ptr(), shape.len(), new.as_mut_ptr(), new.len()) };
    accepted(a.number, a.place, a.count)
}

/// Converts the labels of a table and its shape, stored with labels to 999, by a list of pairs, old label, new label, and so on: refusals 1 to 3,
/// 5 and 6 with labels to 999, 25 with the first pair to break a rule, 26 with the first row, else the first entry, that has a label above 99 which
/// is not in the list, and 29 where fewer bytes are lent than the table or the shape has. Else both files stand at the front of what was lent, each
/// as long as it was, and what lies past them stays as it was. Types stay equal or different, closest rows stay closest, and verdict, second
/// answer, numbers of edges, summary, source list and lines are those of the old files, the lines with their labels converted.
pub fn convert_labels(
    width: Width,
    table: &[u8],
    shape: &[u8],
    pairs: &[u16],
    new_table: &mut [u8],
    new_shape: &mut [u8],
) -> Result<Converted, Refusal> {
    let a = unsafe {
        archive::silmezga_convert_labels(
            width,
            table.as_ptr(),
            table.len(),
            shape.as_ptr(),
            shape.len(),
            pairs.as_ptr(),
            pairs.len(),
            new_table.as_mut_ptr(),
            new_table.len(),
            new_shape.as_mut_ptr(),
            new_shape.len(),
        )
    };
    accepted(a.number, a.place, Converted { rows: a.rows, entries: a.entries })
}

/// Reads a wanted tree that is typed as a line of text, as `asset [ lease [ lessee ] ]`, over a table: refusals 1 to 4; 12 with the first byte of the
/// first token that no wanted tree has there, or the text's length where it ends early, or 1,536 where it has more bytes; 5 for more than 16
/// entries; 6 with the first entry whose level is too deep; 13 with the first entry whose name matches no type of the table, or several; and 29; or the
/// number of entries, whose records then stand at the front of `shape`, 16 or 20 bytes each. What lies past them stays as it was.
pub fn read_tree(width: Width, table: &[u8], text: &[u8], shape: &mut [u8]) -> Result<usize, Refusal> {
    let a = unsafe {
        archive::silmezga_read_tree(
            width,
            table.as_ptr(),
            table.len(),
            text.as_ptr(),
            text.len(),
            shape.as_mut_ptr(),
            shape.len(),
        )
    };
    accepted(a.number, a.place, a.count)
}

/// Prints a shape as a line of text, with whole dotted paths, each with a leading dot, and single spaces: refusals 5, 6 and 29, or the number of bytes,
/// which then stand at the front of `text`; what lies past them stays as it was. A line has at most 1,360 bytes. Read over any table that is not
/// refused with 1 to 4 and that has all types of the shape, it gives back the same shape.
pub fn print_tree(width: Width, shape: &[u8], text: &mut [u8]) -> Result<usize, Refusal> {
    let a = unsafe { archive::silmezga_print_tree(width, shape.as_ptr(), shape.len(), text.as_mut_ptr(), text.len()) };
    accepted(a.number, a.place, a.count)
}

/// Builds the index of a table, two lists with one place a row: in `last` the row's last descendant, itself where it has none, and in `next` the next row
/// of the same type, `NO_NEXT` where there is none. Refusals 1 to 3, and 14 where either list has fewer places than the table has rows; or the number of
/// rows, and so many places at the front of each list are written. What lies past them stays as it was. More than 64 types are not refused here.
pub fn build_index(width: Width, table: &[u8], last: &mut [u16], next: &mut [u16]) -> Result<usize, Refusal> {
    let a = unsafe {
        archive::silmezga_build_index(
            width,
            table.as_ptr(),
            table.len(),
            last.as_mut_ptr(),
            last.len(),
            next.as_mut_ptr(),
            next.len(),
        )
    };
    accepted(a.number, a.place, a.count)
}

/// Judges a table and a shape, with an index of the table: refusals 1 to 4; 14 where either list has fewer places than the table has rows; 15 where the
/// lists are not the table's, with the first row at which either is wrong; 5 to 7; or what `judge` answers. Places past the rows are not read, here and
/// in the two calls below.
pub fn judge_with_index(width: Width, table: &[u8], shape: &[u8], last: &[u16], next: &[u16]) -> Result<Judgement, Refusal> {
    judgement(unsafe {
        archive::silmezga_judge_with_index(
            width,
            table.as_ptr(),
            table.len(),
            shape.as_ptr(),
            shape.len(),
            last.as_ptr(),
            last.len(),
            next.as_ptr(),
            next.len(),
        )
    })
}

/// Reshapes a table, with an index of it: refusals 1 to 4, 14 and 15 as in `judge_with_index`, then 5 to 8; or what `reshape` answers, with the same
/// lines and source rows at the front of what is lent. What lies past the last line stays as it was.
pub fn reshape_with_index(
    width: Width,
    table: &[u8],
    shape: &[u8],
    last: &[u16],
    next: &[u16],
    new: &mut [u8],
    sources: &mut [u32],
) -> Result<usize, Refusal> {
    let a = unsafe {
        archive::silmezga_reshape_with_index(
            width,
            table.as_ptr(),
            table.len(),
            shape.as_ptr(),
            shape.len(),
            last.as_ptr(),
            last.len(),
            next.as_ptr(),
            next.len(),
            new.as_mut_ptr(),
            new.len(),
            sources.as_mut_ptr(),
            sources.len(),
        )
    };
    accepted(a.number, a.place, a.count)
}

/// Summarises a reshape with room for 4,096 lines, with an index of the table: refusals 1 to 4, 14 and 15 as in `judge_with_index`, then 5 to 8; or what
/// `summarise` answers.
pub fn summarise_with_index(width: Width, table: &[u8], shape: &[u8], last: &[u16], next: &[u16]) -> Result<Summary, Refusal> {
    summary(unsafe {
        archive::silmezga_summarise_with_index(
            width,
            table.as_ptr(),
            table.len(),
            shape.as_ptr(),
            shape.len(),
            last.as_ptr(),
            last.len(),
            next.as_ptr(),
            next.len(),
        )
    })
}
