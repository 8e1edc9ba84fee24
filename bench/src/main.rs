//! The proved code against plain Rust doing the same work: times, in one process, as ratios of medians, and executed instructions,
//! counted under an emulator. `bench/run` builds and runs it. It fails if the two sides give different answers, never because of a cost.
//!
//! usage: bench (full | small | none) [COUNTER...]
//!                                    (what is timed; the command that counts instructions, if they are to be counted)
//!        bench work PATH SIDE COUNT  (one side of a hot path, to be counted)
//!        bench curve                 (the plain program: events from standard input, the curve to standard output)

mod calls;
mod engines;
#[path = "../../include/rockgingham.rs"]
mod interface;
mod measure;
mod plain;
mod program;
mod proved;

use measure::{Counter, Size};
use std::path::Path;

fn main() {
    let words: Vec<String> = std::env::args().skip(1).collect();
    let word = |at: usize| words.get(at).map_or("", String::as_str);
    match word(0) {
        "curve" => program::plain_curve(),
        "work" => {
            let number = |at: usize| word(at).parse::<usize>().expect("a number");
            calls::hot_paths()[number(1)].work(word(2), number(3));
        }
        "full" => table(Some(measure::FULL), &words[1..]),
        "small" => table(Some(measure::SMALL), &words[1..]),
        "none" => table(None, &words[1..]),
        _ => {
            eprintln!("usage: bench (full | small | none) [COUNTER...]");
            std::process::exit(2);
        }
    }
}

fn table(size: Option<Size>, counter: &[String]) {
    let counter = (!counter.is_empty()).then(|| Counter(counter.to_vec()));
    let curve = Path::new(env!("CARGO_MANIFEST_DIR")).join("../target/bin/curve");
    let mut rows: Vec<measure::Row> = calls::hot_paths()
        .iter()
        .enumerate()
        .map(|(number, path)| path.row(number, size, counter.as_ref()))
        .collect();
    let program = program::REFERENCES.row(size, counter.as_ref(), &curve);
    let speed = program.nanoseconds.map(|cost| 1e3 / cost.proved);
    rows.push(program);
    rows.push(program::SPANS.row(size, counter.as_ref(), &curve));
    measure::print(&rows);
    if let Some(speed) = speed {
        println!("the program: {speed:.1} million events in a second");
    }
    println!("state: 8 bytes for each sample, 12 for each bucket (source document 003: 40 and 12)");
}
