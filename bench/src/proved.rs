//! The proved code, as C calls it.

use crate::interface::*;
use crate::plain::{Answer, Record, Settings, Tables};

/// A record as its words, in the header's order.
pub fn words(k: &Record) -> [u64; RECORD_WORDS] {
    let s = k.settings;
    [
        s.limit,
        s.start,
        s.width,
        s.buckets,
        s.hash_kind,
        k.threshold,
        k.live,
        k.references,
        k.sampled,
    ]
}

pub fn setup(given: Settings, t: &mut Tables) -> Result<[u64; RECORD_WORDS], u64> {
    let mut record = [0; RECORD_WORDS];
    let settings = CSettings {
        limit: given.limit,
        start: given.start,
        width: given.width,
        buckets: given.buckets,
        hash_kind: given.hash_kind,
    };
    // SAFETY: each pointer is passed with its own length, and no two of them overlap.
    let refusal = unsafe {
        rockgingham_setup(
            record.as_mut_ptr(),
            record.len(),
            settings,
            t.locations.as_ptr(),
            t.locations.len(),
            t.counts.as_mut_ptr(),
            t.counts.len(),
            t.thresholds.as_mut_ptr(),
            t.thresholds.len(),
        )
    };
    if refusal == 0 {
        Ok(record)
    } else {
        Err(refusal)
    }
}

#[inline(always)]
pub fn refer(
    record: &mut [u64; RECORD_WORDS],
    location: u64,
    t: &mut Tables,
) -> Result<Answer, u64> {
    // SAFETY: each pointer is passed with its own length, and no two of them overlap.
    let answer = unsafe {
        rockgingham_refer(
            record.as_mut_ptr(),
            record.len(),
            location,
            t.locations.as_mut_ptr(),
            t.locations.len(),
            t.counts.as_mut_ptr(),
            t.counts.len(),
            t.thresholds.as_mut_ptr(),
            t.thresholds.len(),
        )
    };
    match (answer.refusal, answer.reply) {
        (0, 0) => Ok(Answer::Skipped),
        (0, 1) => Ok(Answer::Again(answer.distance)),
        (0, _) => Ok(Answer::First),
        (number, _) => Err(number),
    }
}

#[inline(always)]
pub fn refer_span(
    record: &mut [u64; RECORD_WORDS],
    offset: u64,
    length: u32,
    t: &mut Tables,
) -> Result<(), u64> {
    // SAFETY: each pointer is passed with its own length, and no two of them overlap.
    let refusal = unsafe {
        rockgingham_refer_span(
            record.as_mut_ptr(),
            record.len(),
            offset,
            length,
            t.locations.as_mut_ptr(),
            t.locations.len(),
            t.counts.as_mut_ptr(),
            t.counts.len(),
            t.thresholds.as_mut_ptr(),
            t.thresholds.len(),
        )
    };
    match refusal {
        0 => Ok(()),
        number => Err(number),
    }
}

#[inline(always)]
pub fn point(
    record: &[u64; RECORD_WORDS],
    believed: (u64, u64),
    number: u64,
    t: &Tables,
) -> CPoint {
    let shape = CShape {
        buckets: believed.0,
        width: believed.1,
    };
    // SAFETY: each pointer is passed with its own length, and no two of them overlap.
    unsafe {
        rockgingham_point(
            record.as_ptr(),
            record.len(),
            shape,
            number,
            t.counts.as_ptr(),
            t.counts.len(),
            t.thresholds.as_ptr(),
            t.thresholds.len(),
        )
    }
}

#[inline(always)]
pub fn feed(record: &mut [u64; RECORD_WORDS], bytes: &[u8], t: &mut Tables) -> CFed {
    // SAFETY: each pointer is passed with its own length, and no two of them overlap.
    unsafe {
        rockgingham_feed(
            record.as_mut_ptr(),
            record.len(),
            bytes.as_ptr(),
            bytes.len(),
            t.locations.as_mut_ptr(),
            t.locations.len(),
            t.counts.as_mut_ptr(),
            t.counts.len(),
            t.thresholds.as_mut_ptr(),
            t.thresholds.len(),
        )
    }
}
