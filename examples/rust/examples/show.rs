//! Shows what the calls say of a table and a shape: show FOLDER
//!
//! The wide files source8.tab and shape8.tab in the folder where source8.tab opens, else the narrow ones, source.tab and shape.tab.
//!
//! By hand, in examples/rust: SILMEZGA_LIB=$PWD/../../target/staticlib cargo run --example show -- ../../samples/p4
use silmezga::{Edges, Judgement, Refusal, TypeSummary, Verdict, Width};
use std::{env, fs, path::Path, process};

/// A table and a shape of one width.
struct Files {
    width: Width,
    table: Vec<u8>,
    shape: Vec<u8>,
}

fn word(bytes: &[u8]) -> u16 {
    u16::from_le_bytes([bytes[0], bytes[1]])
}

/// A row: its Dewey number, its label and its value, which is its last eight bytes.
fn row_text(row: &[u8]) -> String {
    let level = usize::from(row[0]);
    let number: Vec<String> = (0..level).map(|k| word(&row[4 + 2 * k..]).to_string()).collect();
    let value = i64::from_le_bytes(row[row.len() - 8..].try_into().unwrap());
    format!("{} label {} value {}", number.join("."), word(&row[2..]), value)
}

fn refused(call: &str, no: Refusal) -> String {
    format!("{}: refused {} at {}\n", call, no.number, no.place)
}

fn examined(read: &Files) -> Result<String, Refusal> {
    Ok(format!("examine: {} rows\n", silmezga::examine(read.width, &read.table)?))
}

fn looked_up(read: &Files, row: usize) -> Result<String, Refusal> {
    let part = silmezga::look_up(read.width, &read.table, row)?;
    let start = part.as_ptr() as usize - read.table.as_ptr() as usize;
    Ok(format!("look up row {}: bytes {} to {}, {}\n", row, start, start + part.len() - 1, row_text(part)))
}

fn adorned(read: &Files, lent: usize) -> Result<String, Refusal> {
    let mut summaries = vec![TypeSummary::default(); lent];
    let types = silmezga::adorn(read.width, &read.table, &mut summaries)?;
    let mut text = format!("adorn: {} types\n", types);
    for (k, s) in summaries[..types].iter().enumerate() {
        text += &format!(
            "  type {}: parent {} label {} level {} rows {} children {}..{}\n",
            k, s.parent, s.label, s.level, s.rows, s.least, s.greatest
        );
    }
    Ok(text)
}

/// What the second answer adds to verdicts 1 and 3. Verdict 0 says as much already, and verdict 2 names two entries that are apart.
fn none_apart(judgement: Judgement) -> &'static str {
    match judgement.verdict {
        Verdict::Kept | Verdict::Apart { .. } => "",
        _ if judgement.none_apart => "  no two entries are apart: nothing is made up\n",
        _ => "  two entries are apart: something may be made up\n",
    }
}

/// The numbers of each edge: of children under a row of the parent entry's type, of parents of a row of the entry's own. Entry 0 has none.
fn edges(edges: &Edges, entries: usize) -> String {
    let line = |e: usize| {
        format!(
            "  edge {}: children {}..{} parents {}..{}\n",
            e, edges.least_children[e], edges.greatest_children[e], edges.least_parents[e], edges.greatest_parents[e]
        )
    };
    (1..entries).map(line).collect()
}

fn judged(read: &Files) -> Result<String, Refusal> {
    let judgement = silmezga::judge(read.width, &read.table, &read.shape)?;
    let verdict = match judgement.verdict {
        Verdict::Kept => "judge: verdict 0, the links are kept\n".to_string(),
        Verdict::Missing { entry, row } => format!("judge: verdict 1, row {} has no partner for entry {}\n", row, entry),
        Verdict::Apart { first, second } => format!("judge: verdict 2, entries {} and {}\n", first, second),
        Verdict::Unsure { first, second } => format!("judge: verdict 3, entries {} and {}\n", first, second),
    };
    Ok(verdict + none_apart(judgement) + &edges(&judgement.edges, read.shape.len() / read.width.entry_bytes()))
}

fn reshaped(read: &Files) -> Result<String, Refusal> {
    let mut new = vec![0; silmezga::MOST_LINES * read.width.row_bytes()];
    let mut sources = vec![0; silmezga::MOST_LINES];
    let lines = silmezga::reshape(read.width, &read.table, &read.shape, &mut new, &mut sources)?;
    let mut text = format!("reshape: {} lines\n", lines);
    for (line, source) in new.chunks(read.width.row_bytes()).zip(sources).take(lines) {
        text += &format!("  {}, entry {} of row {}\n", row_text(line), source / 65_536, source % 65_536);
    }
    Ok(text)
}

fn summarised(read: &Files) -> Result<String, Refusal> {
    let s = silmezga::summarise(read.width, &read.table, &read.shape)?;
    let mut text = "summarise:\n".to_string();
    for e in 0..read.shape.len() / read.width.entry_bytes() {
        text += &format!(
            "  entry {}: lines {} rows {} copies {} different {}\n",
            e, s.lines[e], s.rows[e], s.copies[e], s.different[e]
        );
    }
    Ok(text)
}

/// What was refused, in words, or the bytes that a call that widens or narrows leaves: `record` bytes for each row or entry.
fn moved(
    what: &str,
    call: fn(&[u8], &mut [u8]) -> Result<usize, Refusal>,
    bytes: &[u8],
    room: usize,
    record: usize,
) -> Result<Vec<u8>, String> {
    let mut new = vec![0; room];
    let count = call(bytes, &mut new).map_err(|no| refused(what, no))?;
    new.truncate(count * record);
    Ok(new)
}

/// Both files, where neither is refused, else the refusals.
fn both(width: Width, table: Result<Vec<u8>, String>, shape: Result<Vec<u8>, String>) -> Result<Files, String> {
    match (table, shape) {
        (Ok(table), Ok(shape)) => Ok(Files { width, table, shape }),
        (table, shape) => Err(table.err().unwrap_or_default() + &shape.err().unwrap_or_default()),
    }
}

fn narrow(read: &Files) -> Result<Files, String> {
    let to = Width::Six;
    let table = moved("narrow the table", silmezga::narrow_table, &read.table, to.most_table_bytes(), to.row_bytes());
    let shape = moved("narrow the shape", silmezga::narrow_shape, &read.shape, to.most_shape_bytes(), to.entry_bytes());
    both(to, table, shape)
}

fn widen(read: &Files) -> Result<Files, String> {
    let to = Width::Eight;
    let table = moved("widen the table", silmezga::widen_table, &read.table, to.most_table_bytes(), to.row_bytes());
    let shape = moved("widen the shape", silmezga::widen_shape, &read.shape, to.most_shape_bytes(), to.entry_bytes());
    both(to, table, shape)
}

/// What judging says of files that were widened or narrowed.
fn judged_as(call: &str, made: &Files) -> String {
    let verdict = judged(made).unwrap_or_else(|no| refused("judge", no));
    format!("{}: a table of {} bytes, a shape of {}\n{}", call, made.table.len(), made.shape.len(), verdict)
}

/// Narrow files widened: the same verdict; and the same bytes when they are narrowed again.
fn widened(read: &Files) -> Result<String, String> {
    let wide = widen(read)?;
    let text = judged_as("widen", &wide);
    let back = match narrow(&wide) {
        Ok(back) if (&back.table, &back.shape) == (&read.table, &read.shape) => "narrow: the same bytes again\n".to_string(),
        Ok(_) => "narrow: other bytes\n".to_string(),
        Err(no) => no,
    };
    Ok(text + &back)
}

/// Wide files narrowed, where no level and no length of a type is over 6.
fn narrowed(read: &Files) -> Result<String, String> {
    Ok(judged_as("narrow", &narrow(read)?))
}

fn read_files(folder: &Path) -> Files {
    let read = |name: &str| {
        fs::read(folder.join(name)).unwrap_or_else(|e| {
            eprintln!("{}: {}", folder.join(name).display(), e);
            process::exit(2)
        })
    };
    match fs::read(folder.join("source8.tab")) {
        Ok(table) => Files { width: Width::Eight, table, shape: read("shape8.tab") },
        Err(_) => Files { width: Width::Six, table: read("source.tab"), shape: read("shape.tab") },
    }
}

fn main() {
    let words: Vec<String> = env::args().collect();
    let [_, folder] = words.as_slice() else {
        eprintln!("usage: show FOLDER");
        process::exit(2)
    };
    let read = read_files(Path::new(folder));
    let parts = [
        ("examine", examined(&read)),
        ("look up", looked_up(&read, 3)),
        ("look up", looked_up(&read, 9)),
        ("adorn", adorned(&read, silmezga::MOST_TYPES)),
        ("adorn", adorned(&read, 3)),
        ("judge", judged(&read)),
        ("reshape", reshaped(&read)),
        ("summarise", summarised(&read)),
    ];
    for (call, part) in parts {
        print!("{}", part.unwrap_or_else(|no| refused(call, no)));
    }
    let other = if read.width == Width::Eight { narrowed(&read) } else { widened(&read) };
    print!("{}", other.unwrap_or_else(|no| no));
}
