//! Calls of the static library, compared with the model: damaged records, tables of wrong lengths and random contents, and any bytes.

use crate::driver::{self, lent_bytes, number_of, Driver, Lent};
use crate::events::{first_event, some_event, some_span, some_trace};
use crate::interface::CFed;
use crate::model::*;
use crate::random::Random;
use crate::tally::Tally;
use crate::trackers::*;
use std::fmt::Debug;

/// The answers that each function must have given, each at least once, and the numbers of words that records were lent with.
pub const WANTED: &[(&str, &[&str])] = &[
    ("hash", &["kind 0", "kind 1", "kind 2"]),
    ("setup", &["accepted", "Settings", "Words", "Tables"]),
    ("restart", &["accepted", "Words", "TornRecord", "Tables"]),
    (
        "refer",
        &[
            "Skipped",
            "Again",
            "First",
            "Words",
            "TornRecord",
            "Tables",
            "Full",
            "TornBucket",
        ],
    ),
    (
        "refer_span",
        &[
            "accepted",
            "length 0",
            "Overrun",
            "Words",
            "TornRecord",
            "Tables",
            "Full",
            "TornBucket",
            "Full inside",
            "TornBucket inside",
        ],
    ),
    ("point", POINT),
    ("plot", POINT),
    (
        "apply",
        &[
            "kind 1",
            "kind 2",
            "length 0",
            "kind 3",
            "kind 4",
            "Words",
            "empty",
            "Kind",
            "Short",
            "Overrun",
            "Settings",
            "TornRecord",
            "Tables",
            "Full",
            "TornBucket",
            "Full inside",
            "TornBucket inside",
        ],
    ),
    (
        "feed",
        &[
            "empty",
            "whole",
            "incomplete at once",
            "incomplete later",
            "Words",
            "Words, empty",
            "Kind at once",
            "Kind later",
            "Overrun at once",
            "Overrun later",
            "Settings at once",
            "Settings later",
            "TornRecord at once",
            "TornRecord later",
            "Tables at once",
            "Tables later",
            "Full at once",
            "Full later",
            "TornBucket at once",
            "TornBucket later",
            "Full inside at once",
            "Full inside later",
            "TornBucket inside at once",
            "TornBucket inside later",
        ],
    ),
    (
        "read",
        &[
            "kind 1", "kind 2", "kind 3", "kind 4", "empty", "Short", "Kind", "Overrun",
        ],
    ),
    (
        "write",
        &["kind 1", "kind 2", "kind 3", "kind 4", "Overrun", "Tables"],
    ),
    (
        "words lent",
        &[
            "0", "1", "2", "3", "4", "5", "6", "7", "8", "9", "10", "11", "12", "13", "14", "15",
            "16", "17", "18",
        ],
    ),
];

const POINT: &[&str] = &[
    "accepted",
    "Words",
    "TornRecord",
    "Tables",
    "Stale",
    "Point",
    "TornBucket",
    "TornSum",
    "Empty",
];

fn name<T>(answer: &Result<T, Refusal>) -> String {
    match answer {
        Ok(_) => "accepted".to_string(),
        Err(refusal) => format!("{refusal:?}"),
    }
}

/// The name of a refusal, with a word if references were accepted before it.
fn refused_name<T>(answer: &Result<T, Refusal>, inside: bool) -> String {
    let word = if inside { " inside" } else { "" };
    format!("{}{word}", name(answer))
}

/// Whether a call returned what it must, in every field.
pub fn same<T: PartialEq + Debug>(got: T, expected: T) -> Result<(), String> {
    if got == expected {
        Ok(())
    } else {
        Err(format!("gave {got:?}, the model {expected:?}"))
    }
}

/// Whether bytes that were lent are these.
pub fn same_bytes(got: &Lent<u8>, expected: &[u8]) -> Result<(), String> {
    if got.holds(expected) {
        Ok(())
    } else {
        Err(format!("left {:?}, the model {expected:?}", got.inside()))
    }
}

pub fn check_setup(
    model: &Model,
    tracker: &mut Tracker,
    driver: &mut Driver,
    given: Settings,
    tally: &mut Tally,
) -> Result<(), String> {
    let expected = model.setup(given, tracker);
    let refusal = driver.setup(given);
    tally.count("setup", &name(&expected));
    same(refusal, number_of(&expected))?;
    driver.compare(tracker)
}

pub fn check_restart(
    model: &Model,
    tracker: &mut Tracker,
    driver: &mut Driver,
    tally: &mut Tally,
) -> Result<(), String> {
    let expected = model.restart(tracker);
    let refusal = driver.restart();
    tally.count("restart", &name(&expected));
    same(refusal, number_of(&expected))?;
    driver.compare(tracker)
}

pub fn check_refer(
    model: &Model,
    tracker: &mut Tracker,
    driver: &mut Driver,
    location: u64,
    tally: &mut Tally,
) -> Result<(), String> {
    let expected = model.refer(tracker, location);
    let given = driver.refer(location);
    let answer = match expected {
        Ok(Reply::Skipped) => "Skipped".to_string(),
        Ok(Reply::Again(_)) => "Again".to_string(),
        Ok(Reply::First) => "First".to_string(),
        Err(_) => name(&expected),
    };
    tally.count("refer", &answer);
    same(given, driver::answered(&expected))?;
    driver.compare(tracker)
}

pub fn check_refer_span(
    model: &Model,
    tracker: &mut Tracker,
    driver: &mut Driver,
    (offset, length): (u64, u32),
    tally: &mut Tally,
) -> Result<(), String> {
    let before = tracker.record.references;
    let expected = model.refer_span(tracker, offset, length);
    let given = driver.refer_span(offset, length);
    let answer = match expected {
        Ok(()) if length == 0 => "length 0".to_string(),
        Ok(()) => name(&expected),
        Err(_) => refused_name(&expected, tracker.record.references != before),
    };
    tally.count("refer_span", &answer);
    let case = |error: String| format!("{error}; {length} bytes at {offset}");
    same(given, number_of(&expected)).map_err(case)?;
    driver.compare(tracker).map_err(case)
}

pub fn check_point(
    model: &Model,
    tracker: &mut Tracker,
    driver: &mut Driver,
    believed: Shape,
    number: u64,
    tally: &mut Tally,
) -> Result<(), String> {
    let expected = model.point(tracker, believed, number);
    let given = driver.point(believed, number);
    tally.count("point", &name(&expected));
    same(given, driver::pointed(&expected))?;
    driver.compare(tracker)
}

/// Doubles are compared by their bits too.
pub fn check_plot(
    model: &Model,
    tracker: &mut Tracker,
    driver: &mut Driver,
    believed: Shape,
    number: u64,
    tally: &mut Tally,
) -> Result<(), String> {
    let expected = model.plot(tracker, believed, number);
    let given = driver.plot(believed, number);
    tally.count("plot", &name(&expected));
    let wanted = driver::plotted(&expected);
    same(given, wanted)?;
    same(given.size.to_bits(), wanted.size.to_bits())?;
    same(given.ratio.to_bits(), wanted.ratio.to_bits())?;
    driver.compare(tracker)
}

/// Applies the first event of the bytes, which must not change.
pub fn check_apply(
    model: &Model,
    tracker: &mut Tracker,
    driver: &mut Driver,
    bytes: &[u8],
    tally: &mut Tally,
) -> Result<(), String> {
    let before = tracker.record.references;
    let expected = model.apply_first(tracker, bytes);
    let lent = lent_bytes(bytes);
    let given = driver.apply(&lent);
    let answer = match expected {
        Ok(_) if bytes[0] == 2 && bytes[9..13] == [0; 4] => "length 0".to_string(),
        Ok(_) => format!("kind {}", bytes[0]),
        Err(Refusal::Short) if bytes.is_empty() => "empty".to_string(),
        Err(_) => refused_name(&expected, tracker.record.references != before),
    };
    tally.count("apply", &answer);
    let case = |error: String| format!("{error}; bytes {bytes:?}");
    same(given, driver::applied(&expected)).map_err(case)?;
    same_bytes(&lent, bytes)?;
    driver.compare(tracker).map_err(case)
}

/// Feeds the bytes, which must not change, and returns what the library gave.
pub fn check_feed(
    model: &Model,
    tracker: &mut Tracker,
    driver: &mut Driver,
    bytes: &[u8],
    tally: &mut Tally,
) -> Result<CFed, String> {
    let expected = model.feed(tracker, bytes);
    let lent = lent_bytes(bytes);
    let given = driver.feed(&lent);
    tally.count("feed", &feed_name(&expected, bytes));
    let case = |error: String| format!("{error}; bytes {bytes:?}");
    same(given, driver::fed(&expected)).map_err(case)?;
    same_bytes(&lent, bytes)?;
    driver.compare(tracker).map_err(case)?;
    Ok(given)
}

/// How feeding ended, and whether at once or after some events.
fn feed_name(fed: &Fed, bytes: &[u8]) -> String {
    let ending = match fed.ending {
        Ok(false) if bytes.is_empty() => return "empty".to_string(),
        Ok(false) => return "whole".to_string(),
        Err(Refusal::Words) if bytes.is_empty() => return "Words, empty".to_string(),
        Err(Refusal::Words) => return "Words".to_string(),
        Ok(true) => "incomplete".to_string(),
        Err(_) => refused_name(&fed.ending, fed.inside),
    };
    let place = if fed.taken == 0 { "at once" } else { "later" };
    format!("{ending} {place}")
}

/// One call on a tracker of its own.
fn one_call(model: &Model, random: &mut Random, tally: &mut Tally) -> Result<(), String> {
    let mut tracker = damaged_tracker(random);
    let mut driver = Driver::holding(&tracker);
    let record = tracker.record;
    tally.note("words lent", &driver.record.inside().len().to_string());
    match random.below(14) {
        0 => {
            let given = given_settings(random);
            check_setup(model, &mut tracker, &mut driver, given, tally)
        }
        1 => check_restart(model, &mut tracker, &mut driver, tally),
        2 => {
            let (shape, number) = (some_shape(random, record), some_number(random, record));
            check_point(model, &mut tracker, &mut driver, shape, number, tally)
        }
        3 => {
            let (shape, number) = (some_shape(random, record), some_number(random, record));
            check_plot(model, &mut tracker, &mut driver, shape, number, tally)
        }
        4 => check_read(model, random, tally),
        5 => check_write(model, random, tally),
        6 => check_hash(model, random, tally),
        7 => {
            let bytes = first_event(random, &tracker);
            check_apply(model, &mut tracker, &mut driver, &bytes, tally)
        }
        8 | 9 => {
            let bytes = some_trace(random, &tracker, 5);
            check_feed(model, &mut tracker, &mut driver, &bytes, tally).map(|_| ())
        }
        10 | 11 => {
            let span = some_span(random, &tracker);
            check_refer_span(model, &mut tracker, &mut driver, span, tally)
        }
        _ => {
            let location = some_reference(random, &tracker);
            check_refer(model, &mut tracker, &mut driver, location, tally)
        }
    }
}

fn check_hash(model: &Model, random: &mut Random, tally: &mut Tally) -> Result<(), String> {
    let (kind, location) = (random.below(3), random.any());
    tally.count("hash", &format!("kind {kind}"));
    same(driver::hash(kind, location), model.hash(kind, location))
        .map_err(|error| format!("{error}; kind {kind} of {location}"))
}

fn kind_of(event: Event) -> String {
    format!("kind {}", event.bytes()[0])
}

fn check_read(model: &Model, random: &mut Random, tally: &mut Tally) -> Result<(), String> {
    let mut bytes = some_event(random).bytes();
    match random.below(4) {
        0 => bytes.truncate(random.below(bytes.len() as u64 + 1) as usize),
        1 => bytes[0] = random.any() as u8,
        _ => bytes.extend(some_event(random).bytes()),
    }
    let lent = lent_bytes(&bytes);
    let expected = model.read(&bytes);
    let given = driver::read(&lent);
    let answer = match expected {
        Ok((event, _)) => kind_of(event),
        Err(_) if bytes.is_empty() => "empty".to_string(),
        Err(_) => name(&expected),
    };
    tally.count("read", &answer);
    same(given, driver::got(&expected)).map_err(|error| format!("{error}; bytes {bytes:?}"))?;
    same_bytes(&lent, &bytes)
}

fn check_write(model: &Model, random: &mut Random, tally: &mut Tally) -> Result<(), String> {
    let event = some_event(random);
    let length = random.below(24) as usize;
    let mut buffer: Vec<u8> = (0..length).map(|_| random.any() as u8).collect();
    let mut lent = lent_bytes(&buffer);
    let expected = model.write(event, &mut buffer);
    let given = driver::write(event, &mut lent);
    let answer = expected.map_or_else(|_| name(&expected), |_| kind_of(event));
    tally.count("write", &answer);
    let case = |error: String| format!("{error}; {event:?} into {length} bytes");
    same(given, driver::written(&expected)).map_err(case)?;
    same_bytes(&lent, &buffer).map_err(case)
}

/// Calls, each on a tracker of its own.
pub fn damaged(model: &Model, seed: u64, calls: u64, tally: &mut Tally) -> Result<(), String> {
    for case in 0..calls {
        let mut random = Random::new(seed ^ (case << 20));
        one_call(model, &mut random, tally)
            .map_err(|error| format!("seed {seed} case {case}: {error}"))?;
    }
    Ok(())
}
