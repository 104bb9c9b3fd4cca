//! Shows what the calls make of wanted trees that are typed as a line of text: tree FOLDER TEXT...
//!
//! Each text is read over the folder's table, source8.tab where it opens, else source.tab. What is read is judged, printed as a line, and read again
//! from that line.
//!
//! By hand, in examples/rust: SILMEZGA_LIB=$PWD/../../target/staticlib cargo run --example tree -- ../../samples/p4 'lease [ lessee asset ]'
use silmezga::{Judgement, Refusal, Verdict, Width};
use std::{env, fs, path::Path, process};

/// An answer in words, or the refusal.
fn told(answer: Result<String, Refusal>) -> String {
    answer.unwrap_or_else(|no| format!("refused {} at {}", no.number, no.place))
}

/// The shape that a text asks for.
fn read(width: Width, table: &[u8], text: &[u8]) -> Result<Vec<u8>, Refusal> {
    let mut shape = vec![0; width.most_shape_bytes()];
    let entries = silmezga::read_tree(width, table, text, &mut shape)?;
    shape.truncate(entries * width.entry_bytes());
    Ok(shape)
}

/// The shape as a line.
fn printed(width: Width, shape: &[u8]) -> Result<String, Refusal> {
    let mut line = vec![0; silmezga::MOST_TEXT_BYTES];
    let bytes = silmezga::print_tree(width, shape, &mut line)?;
    Ok(String::from_utf8_lossy(&line[..bytes]).into_owned())
}

/// The verdict, and on lines of their own the numbers of each edge.
fn judged(width: Width, table: &[u8], shape: &[u8]) -> Result<String, Refusal> {
    let Judgement { verdict, edges, .. } = silmezga::judge(width, table, shape)?;
    let verdict = match verdict {
        Verdict::Kept => 0,
        Verdict::Missing { .. } => 1,
        Verdict::Apart { .. } => 2,
        Verdict::Unsure { .. } => 3,
    };
    let line = |e: usize| {
        format!(
            "\n  edge {}: children {}..{} parents {}..{}",
            e, edges.least_children[e], edges.greatest_children[e], edges.least_parents[e], edges.greatest_parents[e]
        )
    };
    Ok(format!("verdict {}", verdict) + &(1..shape.len() / width.entry_bytes()).map(line).collect::<String>())
}

fn show_tree(width: Width, table: &[u8], text: &str) {
    println!("typed: {}", text);
    let shape = read(width, table, text.as_bytes());
    println!("  read: {}", told(shape.as_ref().map(|shape| format!("{} entries", shape.len() / width.entry_bytes())).map_err(|no| *no)));
    let Ok(shape) = shape else { return };
    println!("  judge: {}", told(judged(width, table, &shape)));
    let line = printed(width, &shape);
    println!("  print: {}", told(line.clone()));
    let Ok(line) = line else { return };
    let again = read(width, table, line.as_bytes()).map(|again| if again == shape { "the same shape" } else { "another shape" }.to_string());
    println!("  read again: {}", told(again));
}

fn read_table(folder: &Path) -> (Width, Vec<u8>) {
    match fs::read(folder.join("source8.tab")) {
        Ok(table) => (Width::Eight, table),
        Err(_) => match fs::read(folder.join("source.tab")) {
            Ok(table) => (Width::Six, table),
            Err(_) => {
                eprintln!("{}: no table", folder.display());
                process::exit(2)
            }
        },
    }
}

fn main() {
    let words: Vec<String> = env::args().skip(1).collect();
    if words.len() < 2 {
        eprintln!("usage: tree FOLDER TEXT...");
        process::exit(2)
    }
    let (width, table) = read_table(Path::new(&words[0]));
    for text in &words[1..] {
        show_tree(width, &table, text);
    }
}
