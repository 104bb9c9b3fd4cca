//! Shows an index beside a table: index FOLDER TEXT...
//!
//! The index of the folder's table, source8.tab where it opens, else source.tab, is built once. With it the table is judged and reshaped to each tree that
//! is typed as a text, and what comes out is held to what the calls without an index give. At the end stand indexes that are refused.
//!
//! By hand, in examples/rust: SILMEZGA_LIB=$PWD/../../target/staticlib cargo run --example index -- ../../samples/p4 'lease [ lessee asset ]'
use silmezga::{Refusal, Verdict, Width};
use std::{env, fs, path::Path, process};

struct File {
    width: Width,
    table: Vec<u8>,
}

/// An index: of each row its last descendant, and the next row of its type.
struct Index {
    last: Vec<u16>,
    next: Vec<u16>,
}

/// An answer in words, or the refusal.
fn told(answer: Result<String, Refusal>) -> String {
    answer.unwrap_or_else(|no| format!("refused {} at {}", no.number, no.place))
}

fn build(read: &File) -> Result<Index, Refusal> {
    let (mut last, mut next) = (vec![0; silmezga::MOST_ROWS], vec![0; silmezga::MOST_ROWS]);
    let rows = silmezga::build_index(read.width, &read.table, &mut last, &mut next)?;
    last.truncate(rows);
    next.truncate(rows);
    Ok(Index { last, next })
}

fn show_index(index: &Index) {
    println!("build the index: {} rows", index.last.len());
    for (row, (last, next)) in index.last.iter().zip(&index.next).enumerate() {
        let next = match *next {
            silmezga::NO_NEXT => "no next row of its type".to_string(),
            next => format!("next row of its type {}", next),
        };
        println!("  row {}: last descendant {}, {}", row, last, next);
    }
}

/// The shape that a text asks for.
fn shape_of(read: &File, text: &[u8]) -> Result<Vec<u8>, Refusal> {
    let mut shape = vec![0; read.width.most_shape_bytes()];
    let entries = silmezga::read_tree(read.width, &read.table, text, &mut shape)?;
    shape.truncate(entries * read.width.entry_bytes());
    Ok(shape)
}

fn judged(read: &File, index: &Index, shape: &[u8]) -> Result<String, Refusal> {
    let verdict = match silmezga::judge_with_index(read.width, &read.table, shape, &index.last, &index.next)?.verdict {
        Verdict::Kept => 0,
        Verdict::Missing { .. } => 1,
        Verdict::Apart { .. } => 2,
        Verdict::Unsure { .. } => 3,
    };
    Ok(format!("verdict {}", verdict))
}

/// The source row of each line, and on a line of its own whether all is as without the index, what is lent past the last line too.
fn reshaped(read: &File, index: &Index, shape: &[u8]) -> Result<String, Refusal> {
    let room = || (vec![0; silmezga::MOST_LINES * read.width.row_bytes()], vec![0; silmezga::MOST_LINES]);
    let ((mut new, mut sources), (mut new_without, mut sources_without)) = (room(), room());
    let lines = silmezga::reshape_with_index(read.width, &read.table, shape, &index.last, &index.next, &mut new, &mut sources)?;
    let without = silmezga::reshape(read.width, &read.table, shape, &mut new_without, &mut sources_without);
    let same = (Ok(lines), &new, &sources) == (without, &new_without, &sources_without);
    let rows: String = sources[..lines].iter().map(|source| format!(" {}", source % 65_536)).collect();
    Ok(format!("{} lines, of rows{}\n  without it: {}", lines, rows, if same { "the same" } else { "something else" }))
}

/// The lines of each entry.
fn summarised(read: &File, index: &Index, shape: &[u8]) -> Result<String, Refusal> {
    let summary = silmezga::summarise_with_index(read.width, &read.table, shape, &index.last, &index.next)?;
    let entries = shape.len() / read.width.entry_bytes();
    Ok("lines".to_string() + &summary.lines[..entries].iter().map(|lines| format!(" {}", lines)).collect::<String>())
}

fn show_tree(read: &File, index: &Index, text: &str) {
    println!("typed: {}", text);
    match shape_of(read, text.as_bytes()) {
        Ok(shape) => {
            println!("  judge with the index: {}", told(judged(read, index, &shape)));
            println!("  reshape with the index: {}", told(reshaped(read, index, &shape)));
            println!("  summarise with the index: {}", told(summarised(read, index, &shape)));
        }
        Err(no) => println!("  read: {}", told(Err(no))),
    }
}

/// Judges an empty shape, which is refused with 5 where the index passes: an index is tested before the shape is read.
fn show_tested(which: &str, read: &File, last: &[u16], next: &[u16]) {
    let answer = silmezga::judge_with_index(read.width, &read.table, &[], last, next);
    println!("{}: {}", which, told(answer.map(|_| "accepted".to_string())));
}

/// An index that is too short, and one that is wrong at one row and then at an earlier one too; a table of no rows has none of these.
fn show_wrong(read: &File, mut index: Index) {
    let rows = index.last.len();
    if rows == 0 {
        return;
    }
    show_tested("an empty shape with the index", read, &index.last, &index.next);
    show_tested("with a place less", read, &index.last[..rows - 1], &index.next[..rows - 1]);
    index.next[rows - 1] = 0;
    show_tested("with a wrong next row", read, &index.last, &index.next);
    index.last[rows / 2] += 1;
    show_tested("with a wrong last descendant too", read, &index.last, &index.next);
}

fn read_table(folder: &Path) -> File {
    match fs::read(folder.join("source8.tab")) {
        Ok(table) => File { width: Width::Eight, table },
        Err(_) => match fs::read(folder.join("source.tab")) {
            Ok(table) => File { width: Width::Six, table },
            Err(_) => {
                eprintln!("{}: no table", folder.display());
                process::exit(2)
            }
        },
    }
}

fn main() {
    let words: Vec<String> = env::args().skip(1).collect();
    if words.len() < 2 {
        eprintln!("usage: index FOLDER TEXT...");
        process::exit(2)
    }
    let read = read_table(Path::new(&words[0]));
    match build(&read) {
        Ok(index) => {
            show_index(&index);
            for text in &words[1..] {
                show_tree(&read, &index, text);
            }
            show_wrong(&read, index);
        }
        Err(no) => println!("build the index: {}", told(Err(no))),
    }
}
