//! Shows how tapes are added up: totals ENTRY FOLDER...
//!
//! Takes in the tapes of the folders one after the other, the wide files source8.tab and shape8.tab where source8.tab opens, else source.tab and
//! shape.tab, and prints what each adds, or that it is refused, and the total last. Then takes the last tape in once more, with a total that has its
//! thousand tapes.
//!
//! By hand, in examples/rust: SILMEZGA_LIB=$PWD/../../target/staticlib cargo run --example totals -- 3 ../../samples/credits
use silmezga::{totals, Refusal, Width};
use std::{env, fs, io, path::Path, process};

struct Tape {
    width: Width,
    table: Vec<u8>,
    shape: Vec<u8>,
}

fn read(folder: &Path) -> io::Result<Tape> {
    let (width, mark) = if folder.join("source8.tab").exists() { (Width::Eight, "8") } else { (Width::Six, "") };
    let table = fs::read(folder.join(format!("source{}.tab", mark)))?;
    let shape = fs::read(folder.join(format!("shape{}.tab", mark)))?;
    Ok(Tape { width, table, shape })
}

fn refused(no: Refusal) -> String {
    format!("refused {} at {}", no.number, no.place)
}

fn main() {
    let words: Vec<String> = env::args().skip(1).collect();
    let entry = words.first().and_then(|word| word.parse().ok());
    let (Some(entry), true) = (entry, words.len() > 1) else {
        eprintln!("usage: totals ENTRY FOLDER...");
        process::exit(2)
    };
    println!("entry {}", entry);
    let mut total = totals::Total::default();
    let take_in = |total, tape: &Tape| totals::take_in(total, tape.width, &tape.table, &tape.shape, entry);
    let mut last = None;
    for folder in &words[1..] {
        let tape = read(Path::new(folder)).unwrap_or_else(|_| {
            eprintln!("{}: no table, or no shape", folder);
            process::exit(2)
        });
        let sums = totals::sum_tape(tape.width, &tape.table, &tape.shape, entry);
        println!("{}: {}", folder, sums.map_or_else(refused, |sums| format!("shown {}, not shown {}", sums.shown, sums.unshown)));
        total = take_in(total, &tape).unwrap_or(total);
        last = Some(tape);
    }
    println!("total: shown {}, not shown {}, tapes {}", total.shown, total.unshown, total.tapes);
    let full = totals::Total { tapes: totals::MOST_TAPES, ..totals::Total::default() };
    if let Some(Err(no)) = last.map(|tape| take_in(full, &tape)) {
        println!("one tape more than a thousand: {}, and the total has {}", refused(no), full.tapes);
    }
}
