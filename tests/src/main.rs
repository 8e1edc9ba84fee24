//! Tests from outside: the program `curve` and the static library of the crate `driver` against a naive model of document 01, an exact
//! LRU simulator and published MurmurHash3 code. `tests/run` builds and runs them.
//!
//! usage: outside [SEED]

mod calls;
mod cases;
mod driver;
mod events;
mod feeding;
#[path = "../../include/rockgingham.rs"]
mod interface;
mod lru;
mod model;
mod orders;
mod program;
mod published;
mod random;
mod runs;
mod spans;
mod states;
mod tally;
mod traces;
mod trackers;

use model::{Model, Wrong, ALL_WRONG};
use tally::Tally;

/// How much is tried. Each test prints its size.
struct Sizes {
    damaged_calls: u64,
    fed_traces: u64,
    refused_spans: u64,
    ordered_states: u64,
    ordered_inputs: u64,
    random_inputs: u64,
    long_input: usize,
}

const NATIVE: Sizes = Sizes {
    damaged_calls: 1_000_000,
    fed_traces: 50_000,
    refused_spans: 20_000,
    ordered_states: 5000,
    ordered_inputs: 100,
    random_inputs: 1500,
    long_input: 20_000_000,
};

/// Under an emulator everything takes many times as long.
const EMULATED: Sizes = Sizes {
    damaged_calls: 250_000,
    fed_traces: 10_000,
    refused_spans: 4_000,
    ordered_states: 1000,
    ordered_inputs: 30,
    random_inputs: 500,
    long_input: 5_000_000,
};

fn library(sizes: &Sizes, seed: u64) -> Result<(), String> {
    let model = Model::right();
    let version = cases::version()?;
    println!("version: {version}, in the library and where it is declared");
    let mut tally = Tally::default();
    calls::damaged(&model, seed, sizes.damaged_calls, &mut tally)?;
    println!("damaged records and tables: {} calls agree", tally.calls);
    tally.require(calls::WANTED, 1)?;
    let mut tally = Tally::default();
    feeding::traces(&model, seed, sizes.fed_traces, &mut tally)?;
    println!(
        "feeding: {} traces at once, in pieces, as far as taken, and event by event agree",
        tally.calls
    );
    tally.require(feeding::WANTED, 1)?;
    let mut tally = Tally::default();
    let lowerings = runs::clean(&model, seed, false, &mut tally)?;
    println!(
        "clean runs: {} calls agree, with {lowerings} lowerings",
        tally.calls
    );
    if lowerings < 1000 {
        return Err("the clean runs lowered the threshold too seldom".to_string());
    }
    Ok(())
}

/// I/O that spans blocks.
fn spans(sizes: &Sizes, seed: u64) -> Result<(), String> {
    let model = Model::right();
    let mut tally = Tally::default();
    let tried = spans::lengths(&model, true, &mut tally)?;
    println!("spans: {tried} lengths and places, from none to 2^20 + 1 blocks, up to the last byte and past it, agree");
    let mut tally = Tally::default();
    spans::refused(&model, seed, sizes.refused_spans, &mut tally)?;
    println!(
        "spans: {} calls that are refused in the middle agree, also in pieces",
        tally.calls
    );
    tally.require(spans::WANTED, 1)?;
    let cases = cases::spans()?;
    println!("spans: {cases} cases by hand agree");
    Ok(())
}

/// The order of refusals, pair by pair.
fn orders(sizes: &Sizes, seed: u64) -> Result<(), String> {
    let model = Model::right();
    let mut tally = Tally::default();
    orders::library(&model, seed, sizes.ordered_states, &mut tally)?;
    println!(
        "refusal orders: {} pairs of {} calls, {} states agree",
        orders::pairs(orders::WANTED),
        orders::WANTED.len(),
        tally.calls
    );
    tally.require(orders::WANTED, sizes.ordered_states)?;
    let mut tally = Tally::default();
    orders::program(&model, seed, sizes.ordered_inputs, &mut tally)?;
    println!(
        "refusal orders: {} pairs of the program, {} inputs agree",
        orders::pairs(orders::WANTED_OF_PROGRAM),
        tally.calls
    );
    tally.require(orders::WANTED_OF_PROGRAM, sizes.ordered_inputs)?;
    let swapped = orders::swapped(seed, 20)?;
    println!("refusal orders: {swapped} pairs the other way round are noticed, each as that pair");
    Ok(())
}

fn program(sizes: &Sizes, seed: u64) -> Result<(), String> {
    let model = Model::right();
    let mut tally = Tally::default();
    traces::random_inputs(&model, seed, sizes.random_inputs, &mut tally)?;
    println!("program: {} random inputs agree", tally.calls);
    tally.require(traces::WANTED, 1)?;
    let length = sizes.long_input;
    traces::pipes(&model, seed, length)?;
    println!("program: {length} bytes, small pieces, cut events and empty input agree");
    let points = traces::full_rate(seed, 150)?;
    println!("program: {points} points of full-rate curves agree with an LRU simulator");
    let hashes = traces::published_hash(seed, 400)?;
    println!("program: {hashes} hashes agree with published MurmurHash3 code");
    let hashes = cases::published_hash(seed, 20_000)?;
    println!("library: {hashes} hashes agree with published MurmurHash3 code");
    program::failed_read()?;
    println!("program: a read that fails is no end of the input");
    program::interrupted()?;
    println!("program: interrupted reads and short writes change nothing");
    program::failed_write()?;
    println!("program: a write that fails is said");
    let cases = cases::bench()?;
    println!("bench table: {cases} cases agree");
    Ok(())
}

/// Runs the tests that use the model, at smaller sizes, and returns those that notice that it differs.
fn noticed_by(model: &Model, seed: u64) -> Vec<&'static str> {
    let mut tally = Tally::default();
    let tests = [
        (
            "damaged calls",
            calls::damaged(model, seed, 60_000, &mut tally),
        ),
        ("feeding", feeding::traces(model, seed, 3_000, &mut tally)),
        (
            "spans",
            spans::lengths(model, false, &mut tally)
                .and_then(|_| spans::refused(model, seed, 500, &mut tally)),
        ),
        (
            "clean runs",
            runs::clean(model, seed, true, &mut tally).map(|_| ()),
        ),
        (
            "random inputs",
            traces::random_inputs(model, seed, 300, &mut tally),
        ),
        (
            "refusal orders",
            orders::library(model, seed, 100, &mut tally)
                .and_then(|()| orders::program(model, seed, 3, &mut tally)),
        ),
    ];
    let noticing = tests.iter().filter(|(_, result)| result.is_err());
    noticing.map(|(name, _)| *name).collect()
}

/// Every wrong model must be noticed, and the right one must pass.
fn wrong_models(seed: u64) -> Result<(), String> {
    let against_right = noticed_by(&Model::right(), seed);
    if !against_right.is_empty() {
        return Err(format!("the right model is refused by {against_right:?}"));
    }
    let mut unnoticed: Vec<Wrong> = Vec::new();
    for wrong in ALL_WRONG {
        let noticing = noticed_by(&Model::with(wrong), seed);
        if noticing.is_empty() {
            unnoticed.push(wrong);
        }
        println!("  {wrong:?}: noticed by {}", noticing.join(", "));
    }
    let noticed = ALL_WRONG.len() - unnoticed.len();
    println!("wrong models: {noticed} of {} noticed", ALL_WRONG.len());
    if unnoticed.is_empty() {
        Ok(())
    } else {
        Err(format!("unnoticed: {unnoticed:?}"))
    }
}

fn all(seed: u64) -> Result<(), String> {
    let emulator = program::emulator();
    let sizes = match &emulator {
        None => NATIVE,
        Some(emulator) => {
            println!("under {emulator}, with smaller sizes");
            EMULATED
        }
    };
    library(&sizes, seed)?;
    spans(&sizes, seed)?;
    orders(&sizes, seed)?;
    program(&sizes, seed)?;
    wrong_models(seed)
}

fn main() {
    let given = std::env::args().nth(1);
    let seed = match given.as_deref().map(str::parse) {
        None => 20_260_401,
        Some(Ok(seed)) => seed,
        Some(Err(_)) => {
            eprintln!("usage: outside [SEED]");
            std::process::exit(2);
        }
    };
    println!("seed {seed}");
    if let Err(error) = all(seed) {
        println!("FAILED: {error}");
        std::process::exit(1);
    }
}
