//! Traces fed to the library. Whatever a trace holds, feeding it at once, in pieces, only as far as it was taken, or event by event must
//! tell the same and leave the same.

use crate::calls::{check_feed, same};
use crate::driver::{self, lent_bytes, Driver};
use crate::events::some_trace;
use crate::interface::CFed;
use crate::lru;
use crate::model::*;
use crate::random::Random;
use crate::tally::Tally;
use crate::trackers::{damaged_tracker, some_tracker, torn_tracker};

/// How feeding must have ended, each at least once.
pub const WANTED: &[(&str, &[&str])] = &[(
    "feed",
    &[
        "empty",
        "whole",
        "incomplete at once",
        "incomplete later",
        "Words",
        "Words, empty",
        "Kind later",
        "Overrun later",
        "Settings later",
        "TornRecord later",
        "Tables later",
        "Full later",
        "TornBucket later",
        "Full inside at once",
        "Full inside later",
        "TornBucket inside at once",
        "TornBucket inside later",
    ],
)];

/// The word of a record that holds its references.
pub const REFERENCES: usize = 7;

/// A tracker, a trace, and what feeding it at once told and left.
struct Trace {
    before: Tracker,
    bytes: Vec<u8>,
    fed: CFed,
    after: Tracker,
}

impl Trace {
    /// Feeds in another way, which must tell and leave the same.
    fn also(
        &self,
        way: &str,
        feed: impl FnOnce(&mut Driver, &[u8]) -> Result<CFed, String>,
    ) -> Result<(), String> {
        let mut driver = Driver::holding(&self.before);
        feed(&mut driver, &self.bytes)
            .and_then(|fed| same(fed, self.fed))
            .and_then(|()| driver.compare(&self.after))
            .map_err(|error| format!("{way}: {error}; bytes {:?}", self.bytes))
    }
}

/// Feeds piece after piece. An incomplete event is fed again, with the bytes that follow it.
fn in_pieces(driver: &mut Driver, bytes: &[u8], random: &mut Random) -> Result<CFed, String> {
    let (mut taken, mut end) = (0, 0);
    loop {
        end = bytes.len().min(end + random.below(24) as usize);
        let fed = driver.feed(&lent_bytes(&bytes[taken..end]));
        taken += fed.taken as usize;
        if fed.refusal != 0 || end == bytes.len() {
            return Ok(CFed {
                taken: taken as u64,
                ..fed
            });
        }
        same(fed.incomplete, u64::from(taken < end))?;
    }
}

/// Feeds only the bytes that were taken, of which all must be taken again, then makes the references of a refused span one by one,
/// until there are as many as the whole trace left. Tells how the whole trace ended.
fn as_taken(
    driver: &mut Driver,
    bytes: &[u8],
    whole: CFed,
    references: u64,
) -> Result<CFed, String> {
    let (taken, rest) = bytes.split_at(whole.taken as usize);
    let fed = driver.feed(&lent_bytes(taken));
    same((fed.refusal, fed.incomplete), (0, 0))?;
    let made = references.checked_sub(driver.word(REFERENCES));
    let made = made.ok_or("more references than the whole trace left")?;
    let first = driver::read(&lent_bytes(rest)).offset / 4096;
    for block in first..first + made {
        same(driver.refer(block).refusal, 0)?;
    }
    Ok(CFed {
        taken: fed.taken,
        ..whole
    })
}

/// Applies one event after the other: `next` applies the first of some bytes, and returns its refusal and how many bytes it has.
fn one_by_one(bytes: &[u8], mut next: impl FnMut(&[u8]) -> (u64, u64)) -> Result<CFed, String> {
    let mut fed = CFed::default();
    while fed.taken < bytes.len() as u64 {
        match next(&bytes[fed.taken as usize..]) {
            (0, 0) => return Err("an event of no bytes".to_string()),
            (0, length) => fed.taken += length,
            (7, _) => {
                fed.incomplete = 1;
                break;
            }
            (refusal, _) => {
                fed.refusal = refusal;
                break;
            }
        }
    }
    Ok(fed)
}

fn by_apply(driver: &mut Driver, bytes: &[u8]) -> Result<CFed, String> {
    one_by_one(bytes, |rest| {
        let applied = driver.apply(&lent_bytes(rest));
        (applied.refusal, applied.taken)
    })
}

type Span = fn(&mut Driver, offset: u64, length: u32) -> u64;

/// Reads each event, and makes the call that the header says it stands for, or `span` for a span.
fn by_calls(driver: &mut Driver, bytes: &[u8], span: Span) -> Result<CFed, String> {
    one_by_one(bytes, |rest| {
        let event = driver::read(&lent_bytes(rest));
        let refusal = match event.kind {
            _ if event.refusal != 0 => event.refusal,
            1 => driver.refer(event.location).refusal,
            2 => span(driver, event.offset, event.length as u32),
            3 => driver.restart(),
            _ => driver.setup_with(event.settings),
        };
        (refusal, event.taken)
    })
}

/// A reference to each block of an I/O, until one is refused.
fn each_block(driver: &mut Driver, offset: u64, length: u32) -> u64 {
    let refusals = lru::blocks(offset, length).into_iter();
    let mut refusals = refusals.map(|block| driver.refer(block).refusal);
    refusals.find(|refusal| *refusal != 0).unwrap_or(0)
}

/// Feeds a trace at once, then in the other ways to the same tracker. Event by event, too few words would be judged otherwise.
fn one_trace(model: &Model, random: &mut Random, tally: &mut Tally) -> Result<(), String> {
    let before = match random.below(3) {
        0 => some_tracker(random),
        1 => torn_tracker(random),
        _ => damaged_tracker(random),
    };
    let bytes = some_trace(random, &before, 30);
    let mut after = before.clone();
    let mut driver = Driver::holding(&before);
    let fed = check_feed(model, &mut after, &mut driver, &bytes, tally)?;
    let trace = Trace {
        before,
        bytes,
        fed,
        after,
    };
    trace.also("in pieces", |driver, bytes| {
        in_pieces(driver, bytes, random)
    })?;
    if trace.before.words == WORDS {
        let references = trace.after.record.references;
        trace.also("as far as taken", |driver, bytes| {
            as_taken(driver, bytes, fed, references)
        })?;
        trace.also("by apply", by_apply)?;
        trace.also("by calls", |driver, bytes| {
            by_calls(driver, bytes, Driver::refer_span)
        })?;
        trace.also("by references", |driver, bytes| {
            by_calls(driver, bytes, each_block)
        })?;
    }
    Ok(())
}

/// Traces, each fed to a tracker of its own, clean or damaged.
pub fn traces(model: &Model, seed: u64, traces: u64, tally: &mut Tally) -> Result<(), String> {
    for case in 0..traces {
        let mut random = Random::new(seed ^ (case << 22));
        one_trace(model, &mut random, tally)
            .map_err(|error| format!("seed {seed} trace {case}: {error}"))?;
    }
    Ok(())
}
