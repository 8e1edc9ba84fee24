//! I/O that spans blocks, handed over from C in each of the three ways: of the usual lengths and the longest, up to the last byte and past
//! it, and refused in the middle. Every word and entry is compared with the model's, and what is left with what single references leave.

use crate::calls::{check_apply, check_feed, check_refer_span, same};
use crate::driver::{lent_bytes, Driver};
use crate::events::span_to;
use crate::feeding::REFERENCES;
use crate::lru;
use crate::model::*;
use crate::random::Random;
use crate::states::{recorded_in, some_state, State};
use crate::tally::Tally;

/// Where an I/O is refused, and by which call, each at least once.
pub const WANTED: &[(&str, &[&str])] = &[
    ("refer_span", INSIDE),
    ("apply", INSIDE),
    (
        "feed",
        &["Full inside at once", "TornBucket inside at once"],
    ),
    ("accepted before 4", &["1", "2", "5", "16"]),
    ("accepted before 3", &["1", "2", "3"]),
    ("largest count", &["too large at first", "never too large"]),
];

const INSIDE: &[&str] = &["Full inside", "TornBucket inside"];

type Span = (u64, u32);

fn event(span: Span) -> Vec<u8> {
    Event::Span(span.0, span.1).bytes()
}

/// Hands the I/O over in each way, to a tracker that is like `before` each time. Returns what it leaves.
fn each_way(
    model: &Model,
    before: &Tracker,
    span: Span,
    tally: &mut Tally,
) -> Result<Tracker, String> {
    let bytes = event(span);
    let mut after = before.clone();
    let mut driver = Driver::holding(before);
    check_refer_span(model, &mut after, &mut driver, span, tally)?;
    let mut applied = before.clone();
    let mut driver = Driver::holding(before);
    check_apply(model, &mut applied, &mut driver, &bytes, tally)?;
    let mut fed = before.clone();
    let mut driver = Driver::holding(before);
    check_feed(model, &mut fed, &mut driver, &bytes, tally)?;
    if applied == after && fed == after {
        Ok(after)
    } else {
        Err("the model's three ways differ".to_string())
    }
}

// ---- lengths

/// Offset, length, and how many blocks hold a byte of it, counted by hand.
const COUNTED: &[(u64, u32, u64)] = &[
    (0, 0, 0),
    (4096, 0, 0),
    (u64::MAX, 0, 0),
    (0, 1, 1),
    (4095, 1, 1),
    (4096, 1, 1),
    (u64::MAX, 1, 1),
    (0, 4095, 1),
    (1, 4095, 1),
    (2, 4095, 2),
    (4095, 4095, 2),
    (4096, 4095, 1),
    (0, 4096, 1),
    (1, 4096, 2),
    (4095, 4096, 2),
    (8192, 4096, 1),
    (u64::MAX - 4095, 4096, 1),
    (u64::MAX - 4096, 4096, 2),
    (0, 4097, 2),
    (1, 4097, 2),
    (4095, 4097, 2),
    (4095, 4098, 3),
    (4096, 4097, 2),
    (u64::MAX - 4096, 4097, 2),
    (0, 65_536, 16),
    (1, 65_536, 17),
    (4095, 65_536, 17),
    (7 * 65_536, 65_536, 16),
    (u64::MAX - 65_535, 65_536, 16),
];

/// The longest I/O.
const LONGEST: &[(u64, u32, u64)] = &[
    (0, u32::MAX, 1 << 20),
    (1, u32::MAX, 1 << 20),
    (2, u32::MAX, (1 << 20) + 1),
    (4095, u32::MAX, (1 << 20) + 1),
    (3 * 4096, u32::MAX, 1 << 20),
    (u64::MAX - (u32::MAX as u64 - 1), u32::MAX, 1 << 20),
];

/// Each of these is past the last byte, most by one.
const PAST: &[Span] = &[
    (u64::MAX, 2),
    (u64::MAX, u32::MAX),
    (u64::MAX - 4094, 4096),
    (u64::MAX - 4095, 4097),
    (u64::MAX - 65_534, 65_536),
    (u64::MAX - (u32::MAX as u64 - 2), u32::MAX),
];

/// A tracker that was just set up, and samples only the locations with a hash below the start.
fn fresh(start: u64) -> Tracker {
    let mut tracker = Tracker::blank(32, 10, 10);
    let given = Settings {
        limit: 32,
        start,
        width: 5,
        buckets: 8,
        kind: 0,
    };
    let setup = Model::right().setup(given, &mut tracker);
    setup.expect("the settings are in range");
    tracker
}

/// An I/O of so many blocks: the references must be as many, and the latest blocks must stand in the list, the last one first.
fn counted(
    model: &Model,
    start: u64,
    (offset, length, blocks): (u64, u32, u64),
    tally: &mut Tally,
) -> Result<(), String> {
    let after = each_way(model, &fresh(start), (offset, length), tally)?;
    same(after.record.references, blocks)?;
    if start == P && blocks > 0 {
        let first = offset / 4096;
        let list: Vec<u64> = (first..first + blocks).rev().collect();
        same(&after.locations[..after.record.live as usize], &list[..])?;
    }
    Ok(())
}

/// Returns how many I/Os were tried. The longest are sampled seldom.
pub fn lengths(model: &Model, longest: bool, tally: &mut Tally) -> Result<usize, String> {
    let case = |(offset, length): Span| {
        move |error: String| format!("{length} bytes at {offset}: {error}")
    };
    for io in COUNTED {
        counted(model, P, *io, tally).map_err(case((io.0, io.1)))?;
    }
    let longest = if longest { LONGEST } else { &[] };
    for io in longest {
        counted(model, 16, *io, tally).map_err(case((io.0, io.1)))?;
    }
    for span in PAST {
        let before = fresh(P);
        let after = each_way(model, &before, *span, tally).map_err(case(*span))?;
        same(after, before).map_err(case(*span))?;
    }
    Ok(COUNTED.len() + longest.len() + PAST.len())
}

// ---- refusals in the middle

/// A tracker with an I/O that it accepts, and the blocks of that.
struct Accepted {
    tracker: Tracker,
    span: Span,
    blocks: Vec<u64>,
}

fn accepted(random: &mut Random) -> Accepted {
    let State {
        mut tracker,
        location,
        ..
    } = some_state(random);
    let record = &mut tracker.record;
    record.references = record.references.min(MOST_REFERENCES - 40);
    record.sampled = record.sampled.min(record.references);
    let most = 256 * record.references / tracker.counts.len() as u64;
    for count in &mut tracker.counts {
        *count = (*count).min(most);
    }
    let span = match span_to(random, location % (1 << 50)) {
        Event::Span(offset, length) => (offset, length),
        other => unreachable!("{other:?} is no span"),
    };
    Accepted {
        blocks: lru::blocks(span.0, span.1),
        tracker,
        span,
    }
}

/// The buckets that the references of an I/O are recorded in, one after the other.
fn buckets(io: &Accepted) -> Result<Vec<Option<usize>>, String> {
    let mut state = some_state(&mut Random::new(0));
    state.tracker = io.tracker.clone();
    let mut buckets = Vec::new();
    for block in &io.blocks {
        state.location = *block;
        buckets.push(recorded_in(&state));
        let answer = Model::right().refer(&mut state.tracker, *block);
        answer.map_err(|refusal| format!("{refusal:?} where no refusal holds"))?;
    }
    Ok(buckets)
}

/// Checks that an I/O is refused by this number after so many references, and leaves what those alone leave.
fn refused_after(
    model: &Model,
    before: &Tracker,
    io: &Accepted,
    (number, made): (u64, usize),
    tally: &mut Tally,
) -> Result<(), String> {
    let after = each_way(model, before, io.span, tally)?;
    let mut driver = Driver::holding(before);
    for block in &io.blocks[..made] {
        same(driver.refer(*block).refusal, 0)?;
    }
    same(driver.refer(io.blocks[made]).refusal, number)?;
    driver.compare(&after)?;
    let references = before.record.references + made as u64;
    same(driver.word(REFERENCES), references)?;
    tally.note(&format!("accepted before {number}"), &made.to_string());
    cut_anywhere(before, &after, io.span, number)
}

/// Feeds the I/O after another event, in two pieces, cut at each place.
fn cut_anywhere(before: &Tracker, after: &Tracker, span: Span, number: u64) -> Result<(), String> {
    let nothing = Event::Span(4096, 0).bytes();
    let bytes = [nothing.clone(), event(span)].concat();
    for cut in 0..bytes.len() {
        let mut driver = Driver::holding(before);
        let first = driver.feed(&lent_bytes(&bytes[..cut]));
        same(first.refusal, 0)?;
        let rest = &bytes[first.taken as usize..];
        let second = driver.feed(&lent_bytes(rest));
        same(second.refusal, number)?;
        same(first.taken + second.taken, nothing.len() as u64)?;
        driver.compare(after)?;
    }
    Ok(())
}

/// Full in the middle: so many references are left.
fn full_inside(model: &Model, random: &mut Random, tally: &mut Tally) -> Result<(), String> {
    let io = accepted(random);
    let made = random.below(io.blocks.len() as u64) as usize;
    let mut before = io.tracker.clone();
    before.record.references = MOST_REFERENCES - made as u64;
    refused_after(model, &before, &io, (4, made), tally)
}

/// Torn in the middle: a bucket is torn that no reference before is recorded in.
fn torn_inside(model: &Model, random: &mut Random, tally: &mut Tally) -> Result<(), String> {
    let io = accepted(random);
    let buckets = buckets(&io)?;
    let unused =
        |made: &usize| buckets[*made].is_some() && !buckets[..*made].contains(&buckets[*made]);
    let possible: Vec<usize> = (0..buckets.len()).filter(unused).collect();
    if possible.is_empty() {
        return Ok(());
    }
    let made = random.pick(&possible);
    let bucket = buckets[made].expect("it is sampled");
    let mut before = io.tracker.clone();
    let most = 256 * (before.record.references + made as u64);
    match random.below(4) {
        0 => before.thresholds[bucket] = 0,
        1 => before.thresholds[bucket] = P as u32 + 1,
        2 => before.counts[bucket] = most + 1,
        _ => return largest_count(model, &before, &io, (bucket, most), tally),
    }
    refused_after(model, &before, &io, (3, made), tally)
}

/// The largest count that fits when the bucket is recorded in, which it may not yet do when the I/O begins.
fn largest_count(
    model: &Model,
    before: &Tracker,
    io: &Accepted,
    (bucket, most): (usize, u64),
    tally: &mut Tally,
) -> Result<(), String> {
    let mut before = before.clone();
    before.counts[bucket] = most;
    let after = each_way(model, &before, io.span, tally)?;
    let references = before.record.references + io.blocks.len() as u64;
    same(after.record.references, references)?;
    let met = match most > 256 * before.record.references {
        true => "too large at first",
        false => "never too large",
    };
    tally.note("largest count", met);
    Ok(())
}

/// I/Os that are refused in the middle, each on a tracker of its own.
pub fn refused(model: &Model, seed: u64, cases: u64, tally: &mut Tally) -> Result<(), String> {
    for case in 0..cases {
        let mut random = Random::new(seed ^ (case << 26));
        full_inside(model, &mut random, tally)
            .and_then(|()| torn_inside(model, &mut random, tally))
            .map_err(|error| format!("seed {seed} I/O {case}: {error}"))?;
    }
    Ok(())
}
