//! The curve program, compared with the model, the LRU simulator and the published hash.

use crate::events::{some_length, some_short_event, span_at_the_end};
use crate::lru;
use crate::model::*;
use crate::program::{printed, printed_in_pieces};
use crate::published;
use crate::random::Random;
use crate::tally::Tally;

fn differ(printed: &str, expected: &str) -> String {
    let first = printed
        .lines()
        .zip(expected.lines())
        .enumerate()
        .find(|(_, (a, b))| a != b);
    match first {
        Some((line, (a, b))) => format!("line {}: printed '{a}', expected '{b}'", line + 1),
        None => format!(
            "printed {} lines, expected {}",
            printed.lines().count(),
            expected.lines().count()
        ),
    }
}

pub fn same(printed: &str, expected: &str) -> Result<(), String> {
    if printed == expected {
        Ok(())
    } else {
        Err(differ(printed, expected))
    }
}

fn some_setup(random: &mut Random) -> Event {
    let limit = match random.below(60) {
        0 => 0,
        1 => random.between(1020, 1028) as u32,
        2 => random.between(8190, 8195) as u32,
        _ => random.between(1, 20) as u32,
    };
    let start = match random.below(40) {
        0 => 0,
        1 => random.between(P - 1, P + 1) as u32,
        2 => random.any() as u32,
        3..=16 => random.between(1, 40) as u32,
        _ => P as u32,
    };
    let width = match random.below(6) {
        0 => random.any() as u32,
        1 => 1 << 20,
        _ => random.below(4) as u32,
    };
    let buckets = match random.below(60) {
        0 => random.between(1023, 1026) as u32,
        1 => random.between(9_999, 10_002) as u32,
        2 => 0,
        _ => random.between(1, 12) as u32,
    };
    let kind = if random.one_in(60) {
        2
    } else {
        random.below(2)
    };
    Event::Setup(limit, start, width, buckets, kind as u8)
}

fn end_span(random: &mut Random) -> Event {
    let length = some_length(random);
    span_at_the_end(random, length)
}

/// An input that is often whole, sometimes cut, and sometimes followed by a random byte.
fn some_input(random: &mut Random) -> Vec<u8> {
    let mut bytes = Vec::new();
    for _ in 0..random.below(60) {
        let event = match random.below(60) {
            0 => Event::Restart,
            1 => some_setup(random),
            2 if random.one_in(4) => some_short_event(random),
            3 if random.one_in(4) => end_span(random),
            3..=12 => Event::Span(random.below(40) << 11, random.below(3) as u32 * 5000),
            13..=14 => Event::Span(random.below(40) << 11, 65_536),
            15..=35 => Event::Location(random.below(20) + P * random.below(3)),
            _ => Event::Location(random.below(20)),
        };
        if bytes.is_empty() {
            bytes = some_setup(random).bytes();
        }
        bytes.extend(event.bytes());
    }
    match random.below(8) {
        0 => bytes.truncate(random.below(bytes.len() as u64 + 1) as usize),
        1 => bytes.push(random.any() as u8),
        _ => {}
    }
    bytes
}

/// What the program must have printed, each at least once.
pub const WANTED: &[(&str, &[&str])] = &[(
    "program",
    &[
        "curve",
        "empty",
        "refused 1",
        "refused 2",
        "refused 7",
        "refused 8",
        "refused 10",
    ],
)];

fn sort_of(printed: &str) -> &str {
    match printed.split_once(" at ") {
        Some((refused, _)) => refused,
        None if printed.ends_with("\nempty\n") => "empty",
        None => "curve",
    }
}

/// Random inputs: for each, the program must print what the model prints.
pub fn random_inputs(model: &Model, seed: u64, runs: u64, tally: &mut Tally) -> Result<(), String> {
    for case in 0..runs {
        let mut random = Random::new(seed ^ (case << 24));
        let input = some_input(&mut random);
        let expected = model.program(&input);
        tally.count("program", sort_of(&expected));
        same(&printed(&input)?, &expected)
            .map_err(|error| format!("seed {seed} case {case}: {error}"))?;
    }
    Ok(())
}

/// A long input: references of both kinds with repeats, and a fresh start now and then.
fn long_input(random: &mut Random, length: usize) -> Vec<u8> {
    let mut bytes = Event::Setup(0, P as u32, 2000, 1000, 1).bytes();
    let mut since = 0;
    while bytes.len() < length {
        since += 1;
        let location = match random.below(3) {
            0 => random.below(2_000),
            1 => random.below(60_000),
            _ => random.below(3_000_000),
        };
        let event = match random.below(10) {
            0 | 1 => Event::Span(location << 12 | random.below(4096), 512),
            2 => Event::Span(location << 12, random.below(2) as u32 * 8192),
            3 => Event::Span(location << 12 | random.below(4096), 65_536),
            _ => Event::Location(location),
        };
        bytes.extend(event.bytes());
        if since == 400_000 {
            bytes.extend(Event::Restart.bytes());
            since = 0;
        }
    }
    bytes
}

/// A long input in one piece; irregular pieces; ends near the edges of buffers; events cut and refused; no input at all.
pub fn pipes(model: &Model, seed: u64, length: usize) -> Result<(), String> {
    let mut random = Random::new(seed);
    let long = long_input(&mut random, length);
    same(&printed(&long)?, &model.program(&long))
        .map_err(|error| format!("seed {seed}, {} bytes: {error}", long.len()))?;
    pieces(model, &mut random).map_err(|error| format!("seed {seed} {error}"))?;
    edges(model, &mut random).map_err(|error| format!("seed {seed} {error}"))?;
    cut_events(model)?;
    let empty = "curve refs 0 sampled 0 threshold 1677721 live 0\nempty\n";
    same(&printed(&[])?, empty).map_err(|error| format!("empty input: {error}"))?;
    same(&model.program(&[]), empty).map_err(|error| format!("model, empty input: {error}"))
}

/// Inputs in irregular pieces, small and large, whole and cut inside an event.
fn pieces(model: &Model, random: &mut Random) -> Result<(), String> {
    for case in 0..8 {
        let (length, longest) = if case < 6 {
            (6_000, 23)
        } else {
            (900_000, 9_000)
        };
        let mut input = long_input(random, length + 40 * case);
        if case % 2 == 1 {
            let cut = random.between(1, 8) as usize;
            input.truncate(input.len() - cut);
        }
        let lengths: Vec<usize> = (0..37)
            .map(|_| random.between(1, longest) as usize)
            .collect();
        let text = printed_in_pieces(&input, &lengths)?;
        same(&text, &model.program(&input)).map_err(|error| format!("pieces {case}: {error}"))?;
    }
    Ok(())
}

/// Inputs that end near the edges of a program's buffers, followed by a refused event, an incomplete one, or nothing.
fn edges(model: &Model, random: &mut Random) -> Result<(), String> {
    let refused = Event::Setup(8193, 0, 0, 0, 0).bytes();
    let overrun = Event::Span(u64::MAX - 65_534, 65_536).bytes();
    let tails: [&[u8]; 6] = [
        &[],
        &[0],
        &refused,
        &refused[..17],
        &overrun,
        &overrun[..12],
    ];
    for edge in [4_096, 8_192, 65_536, 1 << 20] {
        for (case, tail) in tails.iter().cycle().take(18).enumerate() {
            let mut input = long_input(random, edge - 40 + 5 * case);
            input.extend_from_slice(tail);
            same(&printed(&input)?, &model.program(&input))
                .map_err(|error| format!("edge {edge} case {case}: {error}"))?;
        }
    }
    Ok(())
}

/// A setup event and a span past the last byte, cut after every number of bytes.
fn cut_events(model: &Model) -> Result<(), String> {
    let events = [Event::Setup(3, 5, 7, 9, 1), Event::Span(u64::MAX, u32::MAX)];
    for event in events.map(Event::bytes) {
        for cut in 1..event.len() {
            let input = [Event::Location(9).bytes(), event[..cut].to_vec()].concat();
            let expected = "refused 7 at 9\n";
            same(&printed_in_pieces(&input, &[1])?, expected)
                .map_err(|error| format!("cut after {cut} bytes: {error}"))?;
            same(&model.program(&input), expected).map_err(|error| format!("model: {error}"))?;
        }
    }
    Ok(())
}

/// A trace of at most this many different blocks, with runs, loops and random references.
fn some_trace(random: &mut Random, blocks: u64) -> Vec<Event> {
    let base = random.any();
    let mut trace = Vec::new();
    for _ in 0..random.between(1, 40) {
        let from = random.below(blocks);
        let length = random.between(1, 60).min(blocks - from);
        for turn in 0..random.between(1, 4) {
            for at in 0..length {
                let block = match turn {
                    2 => random.below(blocks),
                    _ => from + at,
                };
                let location = base.wrapping_add(block.wrapping_mul(0x1_0000_0001));
                trace.push(Event::Location(location));
            }
        }
    }
    trace
}

/// The same of I/Os: each from a byte to another one, of this many blocks that follow each other, the last one often that of the last
/// byte of all. Some blocks are referred to as locations.
fn some_spans(random: &mut Random, blocks: u64) -> Vec<Event> {
    let first = match random.below(3) {
        0 => (1 << 52) - blocks,
        _ => random.below(1 << 40),
    };
    let mut trace = Vec::new();
    for _ in 0..random.between(1, 400) {
        let block = random.below(blocks);
        let (from, left) = (block * 4096 + random.below(4096), blocks - block);
        let most = left * 4096 - from % 4096;
        let length = match random.below(3) {
            0 => 65_536,
            1 => random.below(4 * 4096),
            _ => random.below(40 * 4096),
        };
        trace.push(match random.below(6) {
            0 => Event::Location(first + block),
            _ => Event::Span(first * 4096 + from, length.min(most) as u32),
        });
    }
    trace
}

/// The blocks that the simulated caches are referred to.
fn blocks_of(trace: &[Event]) -> Vec<u64> {
    let blocks = trace.iter().map(|event| match event {
        Event::Location(location) => vec![*location],
        Event::Span(offset, length) => lru::blocks(*offset, *length),
        other => unreachable!("{other:?} is no reference"),
    });
    blocks.collect::<Vec<_>>().concat()
}

/// Full-rate curves that the program prints, point by point against exact LRU caches. Every other trace is one of I/Os.
pub fn full_rate(seed: u64, traces: u64) -> Result<u64, String> {
    let mut points = 0;
    for case in 0..traces {
        let mut random = Random::new(seed ^ (case << 28));
        let limit = random.between(1, 1024);
        let trace = match case % 2 {
            0 => some_trace(&mut random, limit),
            _ => some_spans(&mut random, limit),
        };
        let width = random.between(1, 40) as u32;
        let buckets = random.between(1, 30) as u32;
        let kind = random.below(2) as u8;
        let mut input = Event::Setup(limit as u32, P as u32, width, buckets, kind).bytes();
        for event in &trace {
            input.extend(event.bytes());
        }
        let expected = simulated(&blocks_of(&trace), width.into(), buckets.into());
        let text = printed(&input)?;
        let curve = text.split_once('\n').map_or("", |(_, points)| points);
        same(curve, &expected).map_err(|error| {
            format!("seed {seed} trace {case} (S {limit} W {width} B {buckets}): {error}")
        })?;
        points += u64::from(buckets) + 1;
    }
    Ok(points)
}

/// The points that the program must print at full rate, from an LRU cache of each size.
fn simulated(trace: &[u64], width: u64, buckets: u64) -> String {
    if trace.is_empty() {
        return "empty\n".to_string();
    }
    let mut text = String::new();
    let total = 256 * trace.len() as u64;
    for number in 0..=buckets {
        let size = number * width;
        let misses = 256 * lru::misses(trace, size as usize);
        text.push_str(&format!("{size} {misses} {total}\n"));
    }
    text + "end\n"
}

/// The program prints the published hash of L as the threshold: kind 4 with S 1, T0 P, hash kind 1, then references to L and to 0.
/// Every third L is referred to by an I/O of its last byte.
pub fn published_hash(seed: u64, locations: u64) -> Result<u64, String> {
    let mut random = Random::new(seed);
    let mut tried = 0;
    for case in 0..locations {
        let mut location = published::location(&mut random, case);
        let event = if case % 3 == 2 {
            location %= 1 << 52;
            Event::Span(location << 12 | 4095, 1)
        } else {
            Event::Location(location)
        };
        let hash = published::checked(location)?;
        if hash == 0 {
            continue;
        }
        let mut input = Event::Setup(1, P as u32, 0, 1, 1).bytes();
        input.extend(event.bytes());
        input.extend(Event::Location(0).bytes());
        let first = format!("curve refs 2 sampled 2 threshold {hash} live 1");
        let text = printed(&input)?;
        same(text.lines().next().unwrap_or(""), &first)
            .map_err(|error| format!("seed {seed}, location {location:x}: {error}"))?;
        tried += 1;
    }
    Ok(tried)
}
