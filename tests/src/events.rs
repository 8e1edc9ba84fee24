//! Random events, and bytes that hold them.

use crate::model::{Event, Tracker, P};
use crate::random::Random;
use crate::trackers::some_reference;

/// Any event. To apply it may take long: a span can have a million blocks.
pub fn some_event(random: &mut Random) -> Event {
    match random.below(5) {
        0 => Event::Location(random.any()),
        1 => Event::Span(random.any(), random.any() as u32),
        2 => {
            let length = random.any() as u32;
            span_at_the_end(random, length)
        }
        3 => Event::Restart,
        _ => {
            let mut word = || random.any() as u32;
            Event::Setup(word(), word(), word(), word(), word() as u8)
        }
    }
}

pub fn unknown_kind(random: &mut Random) -> u8 {
    match random.below(4) {
        0 => 0,
        1 => 5,
        _ => random.between(5, 255) as u8,
    }
}

/// The length of an I/O: a usual one, one near the edge of a block, or any other of at most 33 blocks.
pub fn some_length(random: &mut Random) -> u32 {
    match random.below(4) {
        0 => random.pick(&[1, 512, 4095, 4096, 4097, 8192, 65_536]),
        1 => random.between(1, 1 << 17) as u32,
        _ => random.between(1, 20_000) as u32,
    }
}

/// A span of at least one byte, from the block that is this location, if there is one.
pub fn span_to(random: &mut Random, location: u64) -> Event {
    let within = match random.below(3) {
        0 => 0,
        1 => 4095,
        _ => random.below(4096),
    };
    Event::Span(location.wrapping_mul(4096) + within, some_length(random))
}

/// A span that ends at 2^64 - 1, up to two bytes before it, or up to two past it. If its length is 0, it begins there.
pub fn span_at_the_end(random: &mut Random, length: u32) -> Event {
    let first = (1 << 64) - u128::from(length) + u128::from(random.below(5)) - 2;
    Event::Span(first.min(u128::from(u64::MAX)) as u64, length)
}

/// A setup for which the tracker's tables are often long enough.
fn fitting_setup(random: &mut Random, tracker: &Tracker) -> Event {
    let counts = tracker.counts.len().min(tracker.thresholds.len());
    let mut up_to = |most: usize| random.between(1, most.max(1) as u64) as u32;
    let limit = up_to(tracker.locations.len());
    let buckets = up_to(counts.saturating_sub(2));
    let start = random.pick(&[1, 16, 1000, P as u32, P as u32]);
    let width = random.between(0, 3) as u32;
    Event::Setup(limit, start, width, buckets, random.below(2) as u8)
}

/// A span that makes no reference, or may be refused 10.
fn edge_span(random: &mut Random) -> Event {
    match random.below(4) {
        0 => span_at_the_end(random, 0),
        1 => {
            let length = some_length(random);
            span_at_the_end(random, length)
        }
        _ => Event::Span(random.any(), 0),
    }
}

/// Offset and length of an I/O, often to a location of the tracker.
pub fn some_span(random: &mut Random, tracker: &Tracker) -> (u64, u32) {
    let event = match random.below(4) {
        0 => edge_span(random),
        _ => {
            let location = some_reference(random, tracker);
            span_to(random, location)
        }
    };
    match event {
        Event::Span(offset, length) => (offset, length),
        other => unreachable!("{other:?} is no span"),
    }
}

/// Any event, with fewer blocks if it is a span.
pub fn some_short_event(random: &mut Random) -> Event {
    match some_event(random) {
        Event::Span(offset, length) => Event::Span(offset, length % (1 << 17)),
        other => other,
    }
}

/// An event that the tracker often accepts.
fn likely_event(random: &mut Random, tracker: &Tracker) -> Event {
    let location = some_reference(random, tracker);
    match random.below(24) {
        0 => Event::Restart,
        1 => fitting_setup(random, tracker),
        2 => some_short_event(random),
        3..=5 => edge_span(random),
        6..=11 => span_to(random, location),
        _ => Event::Location(location),
    }
}

/// Bytes whose first event the tracker often accepts.
pub fn first_event(random: &mut Random, tracker: &Tracker) -> Vec<u8> {
    let mut bytes = likely_event(random, tracker).bytes();
    match random.below(6) {
        0 => bytes.truncate(random.below(bytes.len() as u64 + 1) as usize),
        1 => bytes[0] = unknown_kind(random),
        2 | 3 => bytes.extend(some_event(random).bytes()),
        _ => {}
    }
    bytes
}

/// Up to so many events that the tracker often accepts, sometimes cut, and sometimes with an unknown kind behind them.
pub fn some_trace(random: &mut Random, tracker: &Tracker, most: u64) -> Vec<u8> {
    let mut bytes = Vec::new();
    for _ in 0..random.between(0, most) {
        bytes.extend(likely_event(random, tracker).bytes());
    }
    match random.below(6) {
        0 | 1 => bytes.truncate(random.below(bytes.len() as u64 + 1) as usize),
        2 => {
            bytes.push(unknown_kind(random));
            bytes.extend(some_event(random).bytes());
        }
        _ => {}
    }
    bytes
}
