//! Random trackers: clean ones, damaged ones, and what a call on them may be given.

use crate::model::*;
use crate::random::Random;

pub fn some_settings(random: &mut Random) -> Settings {
    let large = random.one_in(50);
    let start = match random.below(4) {
        0 => random.between(1, 16),
        1 => random.between(1, P),
        _ => P,
    };
    let width = match random.below(4) {
        0 => random.between(1, MOST_REFERENCES),
        1 => random.between(1, 1 << 20),
        _ => random.between(1, 3),
    };
    Settings {
        limit: random.between(1, if large { 8192 } else { 6 }),
        start,
        width,
        buckets: random.between(1, if large { 10_000 } else { 6 }),
        kind: random.below(2),
    }
}

fn some_record(random: &mut Random) -> Record {
    let settings = some_settings(random);
    let references = match random.below(6) {
        0 => random.between(MOST_REFERENCES - 1, MOST_REFERENCES),
        1 => random.between(MOST_REFERENCES - 20, MOST_REFERENCES),
        2 => random.between(0, MOST_REFERENCES),
        _ => random.between(0, 40),
    };
    let threshold = match random.below(4) {
        0 => random.between(0, settings.start),
        1 => random.between(0, settings.start.min(16)),
        _ => settings.start,
    };
    Record {
        settings,
        threshold,
        live: random.between(0, settings.limit),
        references,
        sampled: random.between(0, references),
    }
}

/// A location whose hash of kind 0 is often small, so that repeats and samples occur.
fn some_location(random: &mut Random) -> u64 {
    match random.below(6) {
        0 => random.any(),
        1 => random.below(12) + P * random.below(4),
        _ => random.below(12),
    }
}

/// A record with tables that fit it, and random contents that are not torn.
pub fn some_tracker(random: &mut Random) -> Tracker {
    let record = some_record(random);
    let needed = record.settings.buckets + 2;
    let locations = (0..record.settings.limit + random.below(4))
        .map(|_| some_location(random))
        .collect();
    let mut left = 256 * record.references;
    let counts = (0..needed + random.below(3))
        .map(|_| {
            let count = if random.one_in(2) {
                random.between(0, left / 2)
            } else {
                0
            };
            left -= count;
            count
        })
        .collect();
    let lowest = record.threshold.max(1);
    let thresholds = (0..needed + random.below(3))
        .map(|_| match random.below(3) {
            0 => lowest as u32,
            1 => random.between(lowest, P) as u32,
            _ => record.settings.start.max(lowest) as u32,
        })
        .collect();
    Tracker {
        record,
        words: WORDS,
        beyond: some_beyond(random),
        locations,
        counts,
        thresholds,
    }
}

/// Words beyond those of a record, often none.
pub fn some_beyond(random: &mut Random) -> Vec<u64> {
    let number = match random.below(4) {
        0 | 1 => 0,
        2 => random.between(1, 3),
        _ => random.between(1, 9),
    };
    (0..number).map(|_| random.any()).collect()
}

/// Lends fewer words than a record has, often one fewer.
pub fn cut_words(random: &mut Random, tracker: &mut Tracker) {
    tracker.beyond.clear();
    tracker.words = match random.below(3) {
        0 => WORDS - 1,
        _ => random.below(WORDS as u64) as usize,
    };
}

/// A number near some limit.
fn edge(random: &mut Random, record: Record) -> u64 {
    let settings = record.settings;
    let near = [
        0,
        8192,
        P,
        10_000,
        MOST_REFERENCES,
        u64::MAX,
        1 << 63,
        1 << 32,
        256,
        settings.limit,
        settings.start,
        settings.buckets,
        settings.width,
        record.threshold,
        record.references,
        record.references.wrapping_mul(256),
    ];
    let at = random.pick(&near);
    match random.below(4) {
        0 => at.wrapping_add(1),
        1 => at.wrapping_sub(1),
        2 => random.any(),
        _ => at,
    }
}

pub fn damage_word(random: &mut Random, record: &mut Record) {
    let number = edge(random, *record);
    match random.below(9) {
        0 => record.settings.limit = number,
        1 => record.settings.start = number,
        2 => record.settings.width = number,
        3 => record.settings.buckets = number,
        4 => record.settings.kind = number,
        5 => record.threshold = number,
        6 => record.live = number,
        7 => record.references = number,
        _ => record.sampled = number,
    }
}

fn damage_length(random: &mut Random, tracker: &mut Tracker) {
    let settings = tracker.record.settings;
    let shorter = |needed: u64, random: &mut Random| match random.below(4) {
        0 => 0,
        1 => random.below(needed.clamp(1, 20_000)) as usize,
        2 => needed.min(20_000) as usize,
        _ => needed.saturating_sub(1).min(20_000) as usize,
    };
    let needed = settings.buckets.saturating_add(2);
    match random.below(3) {
        0 => tracker.locations.truncate(shorter(settings.limit, random)),
        1 => tracker.counts.truncate(shorter(needed, random)),
        _ => tracker.thresholds.truncate(shorter(needed, random)),
    }
}

fn damage_bucket(random: &mut Random, tracker: &mut Tracker) {
    let number = edge(random, tracker.record);
    let most = tracker.record.references.wrapping_mul(256);
    let first = tracker.record.settings.buckets.saturating_add(1);
    match random.below(6) {
        5 if first < tracker.thresholds.len() as u64 => tracker.thresholds[first as usize] = 0,
        0 if !tracker.counts.is_empty() => {
            let at = random.below(tracker.counts.len() as u64) as usize;
            tracker.counts[at] = number;
        }
        4 => {
            let above = most.wrapping_add(random.below(258));
            tracker.counts.fill(above);
        }
        1 if tracker.counts.len() > 1 => {
            let at = random.below(tracker.counts.len() as u64 - 1) as usize;
            tracker.counts[at] = most;
            tracker.counts[at + 1] = random.below(3);
        }
        2 if !tracker.thresholds.is_empty() => {
            let at = random.below(tracker.thresholds.len() as u64) as usize;
            tracker.thresholds[at] = number as u32;
        }
        _ if !tracker.thresholds.is_empty() => {
            let at = random.below(tracker.thresholds.len() as u64) as usize;
            tracker.thresholds[at] = 0;
        }
        _ => {}
    }
}

/// A tracker with a bucket that is often torn, and nothing else wrong.
pub fn torn_tracker(random: &mut Random) -> Tracker {
    let mut tracker = some_tracker(random);
    damage_bucket(random, &mut tracker);
    tracker
}

pub fn damaged_tracker(random: &mut Random) -> Tracker {
    let mut tracker = some_tracker(random);
    if random.one_in(12) {
        cut_words(random, &mut tracker);
    }
    for _ in 0..random.below(4).saturating_sub(1) {
        match random.below(3) {
            0 => damage_word(random, &mut tracker.record),
            1 => damage_length(random, &mut tracker),
            _ => damage_bucket(random, &mut tracker),
        }
    }
    tracker
}

pub fn given_settings(random: &mut Random) -> Settings {
    let mut record = some_record(random);
    if random.one_in(2) {
        damage_word(random, &mut record);
    }
    with_zeros(random, record.settings)
}

/// The settings, sometimes with zeros for defaults.
pub fn with_zeros(random: &mut Random, mut given: Settings) -> Settings {
    let zero = |random: &mut Random, number: &mut u64| {
        if random.one_in(8) {
            *number = 0;
        }
    };
    zero(random, &mut given.limit);
    zero(random, &mut given.start);
    zero(random, &mut given.width);
    zero(random, &mut given.buckets);
    given
}

pub fn some_shape(random: &mut Random, record: Record) -> Shape {
    let mut shape = Shape {
        buckets: record.settings.buckets,
        width: record.settings.width,
    };
    match random.below(8) {
        0 => shape.buckets = edge(random, record),
        1 => shape.width = edge(random, record),
        _ => {}
    }
    shape
}

pub fn some_number(random: &mut Random, record: Record) -> u64 {
    let buckets = record.settings.buckets;
    match random.below(5) {
        0 => edge(random, record),
        1 => buckets,
        2 => buckets.wrapping_add(1),
        _ => random.below(buckets.clamp(1, 1 << 20)),
    }
}

/// A location of the table, or another.
pub fn some_reference(random: &mut Random, tracker: &Tracker) -> u64 {
    let entries = tracker.locations.len() as u64;
    if entries > 0 && random.one_in(2) {
        tracker.locations[random.below(entries) as usize]
    } else {
        some_location(random)
    }
}
