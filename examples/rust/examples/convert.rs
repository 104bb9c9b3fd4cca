//! Shows how the labels of stored files are converted: a small table and its shape, stored when labels went to 999.
//!
//! By hand, in examples/rust: SILMEZGA_LIB=$PWD/../../target/staticlib cargo run --example convert
use silmezga::{Edges, Refusal, Width};

/// A portfolio with label 1, and beneath it two machines with label 400 (which is 144 + 256), the first over a meter with label 6.
#[rustfmt::skip]
const TABLE: [u8; 96] = [
    // level, zero, label, Dewey number,                   value
    1, 0, 1, 0,     1, 0, 0, 0, 0, 0, 0, 0, 0, 0, 0, 0,    0, 0, 0, 0, 0, 0, 0, 0,
    2, 0, 144, 1,   1, 0, 1, 0, 0, 0, 0, 0, 0, 0, 0, 0,    100, 0, 0, 0, 0, 0, 0, 0,
    3, 0, 6, 0,     1, 0, 1, 0, 1, 0, 0, 0, 0, 0, 0, 0,    200, 0, 0, 0, 0, 0, 0, 0,
    2, 0, 144, 1,   1, 0, 2, 0, 0, 0, 0, 0, 0, 0, 0, 0,    44, 1, 0, 0, 0, 0, 0, 0,
];

/// The machines over the meters.
#[rustfmt::skip]
const SHAPE: [u8; 32] = [
    // level, length, zeros, type
    1, 2, 0, 0,     1, 0, 144, 1, 0, 0, 0, 0, 0, 0, 0, 0,
    2, 3, 0, 0,     1, 0, 144, 1, 6, 0, 0, 0, 0, 0, 0, 0,
];

/// An answer in words, or the refusal.
fn told(answer: Result<String, Refusal>) -> String {
    answer.unwrap_or_else(|no| format!("refused {} at {}", no.number, no.place))
}

fn examined(table: &[u8]) -> String {
    told(silmezga::examine(Width::Six, table).map(|rows| format!("{} rows", rows)))
}

fn converted(pairs: &[u16], table: &mut [u8], shape: &mut [u8]) -> String {
    let answer = silmezga::convert_labels(Width::Six, &TABLE, &SHAPE, pairs, table, shape);
    told(answer.map(|both| format!("{} rows, {} entries", both.rows, both.entries)))
}

fn judged(table: &[u8], shape: &[u8]) -> String {
    told(silmezga::judge(Width::Six, table, shape).map(|judgement| {
        let verdict = match judgement.verdict {
            silmezga::Verdict::Kept => "verdict 0".to_string(),
            other => format!("{:?}", other),
        };
        let Edges { least_children, greatest_children, least_parents, greatest_parents } = judgement.edges;
        let (children, parents) = ((least_children[1], greatest_children[1]), (least_parents[1], greatest_parents[1]));
        format!("{}, edge 1: children {}..{} parents {}..{}", verdict, children.0, children.1, parents.0, parents.1)
    }))
}

fn main() {
    let (mut table, mut shape) = ([0; TABLE.len()], [0; SHAPE.len()]);
    println!("examine the old table: {}", examined(&TABLE));
    println!("convert with no pair: {}", converted(&[], &mut table, &mut shape));
    println!("convert 400 to 6: {}", converted(&[400, 6], &mut table, &mut shape));
    println!("convert 400 to 21: {}", converted(&[400, 21], &mut table, &mut shape));
    let labels: Vec<String> = table.chunks(Width::Six.row_bytes()).map(|row| u16::from_le_bytes([row[2], row[3]]).to_string()).collect();
    println!("labels of the new table: {}", labels.join(" "));
    println!("examine the new table: {}", examined(&table));
    println!("judge the new files: {}", judged(&table, &shape));
}
