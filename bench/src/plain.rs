//! Plain Rust doing the same work as the proved code: the same tests on the record, the same tables, the same answers.
//! Written for speed, as the author of a driver would write it. A point is given in the struct in which C gets it.

use crate::interface::CPoint;

pub const FULL_RATE: u64 = 1 << 24;

#[derive(Clone, Copy)]
pub struct Settings {
    pub limit: u64,
    pub start: u64,
    pub width: u64,
    pub buckets: u64,
    pub hash_kind: u64,
}

#[derive(Clone, Copy)]
pub struct Record {
    pub settings: Settings,
    pub threshold: u64,
    pub live: u64,
    pub references: u64,
    pub sampled: u64,
}

pub struct Tables {
    pub locations: Vec<u64>,
    pub counts: Vec<u64>,
    pub thresholds: Vec<u32>,
}

#[derive(Clone, Copy, PartialEq, Eq, Debug)]
pub enum Answer {
    Skipped,
    Again(u64),
    First,
}

#[derive(Clone, Copy, PartialEq, Eq, Debug)]
pub enum Event {
    Location(u64),
    Span(u64, u32),
    Restart,
    Setup([u32; 4], u8),
}

/// The hash of a location.
#[inline]
fn hash(kind: u64, location: u64) -> u64 {
    if kind == 0 {
        return location % FULL_RATE;
    }
    let mut x = location;
    x ^= x >> 33;
    x = x.wrapping_mul(0xff51_afd7_ed55_8ccd);
    x ^= x >> 33;
    x = x.wrapping_mul(0xc4ce_b9fe_1a85_ec53);
    x ^= x >> 33;
    x % FULL_RATE
}

/// The hash, called like the library's.
pub extern "C" fn hash_of(kind: u64, location: u64) -> u64 {
    hash(kind, location)
}

fn out_of_range(s: &Settings) -> bool {
    s.limit == 0
        || s.limit > 8192
        || s.start == 0
        || s.start > FULL_RATE
        || s.width == 0
        || s.width > 0xffff_ffff
        || s.buckets == 0
        || s.buckets > 10_000
        || s.hash_kind > 1
}

fn torn(k: &Record) -> bool {
    out_of_range(&k.settings)
        || k.live > k.settings.limit
        || k.threshold > k.settings.start
        || k.sampled > k.references
        || k.references > 0xffff_ffff
}

fn torn_bucket(references: u64, threshold: u64, count: u64, own: u64) -> bool {
    own == 0 || own < threshold || own > FULL_RATE || count > 256 * references
}

/// A setup; zeros stand for defaults.
pub fn setup(given: Settings, t: &mut Tables) -> Result<Record, u64> {
    let or = |x: u64, default: u64| if x == 0 { default } else { x };
    let s = Settings {
        limit: or(given.limit, 1024),
        start: or(given.start, 1_677_721),
        width: or(given.width, 1),
        buckets: or(given.buckets, 256),
        hash_kind: given.hash_kind,
    };
    if out_of_range(&s) {
        return Err(1);
    }
    if t.locations.len() < s.limit as usize || buckets_short(&s, &t.counts, &t.thresholds) {
        return Err(2);
    }
    Ok(begin(s, t))
}

fn buckets_short(s: &Settings, counts: &[u64], thresholds: &[u32]) -> bool {
    let needed = s.buckets as usize + 2;
    counts.len() < needed || thresholds.len() < needed
}

fn begin(s: Settings, t: &mut Tables) -> Record {
    let needed = s.buckets as usize + 2;
    t.counts[..needed].fill(0);
    t.thresholds[..needed].fill(s.start as u32);
    Record {
        settings: s,
        threshold: s.start,
        live: 0,
        references: 0,
        sampled: 0,
    }
}

fn restart(k: &Record, t: &mut Tables) -> Result<Record, u64> {
    if torn(k) {
        return Err(3);
    }
    if t.locations.len() < k.settings.limit as usize
        || buckets_short(&k.settings, &t.counts, &t.thresholds)
    {
        return Err(2);
    }
    Ok(begin(k.settings, t))
}

fn record_in(k: &Record, bucket: usize, counts: &mut [u64], thresholds: &mut [u32]) -> bool {
    let count = counts[bucket];
    let own = u64::from(thresholds[bucket]);
    if torn_bucket(k.references, k.threshold, count, own) {
        return false;
    }
    counts[bucket] = count * k.threshold / own + 256;
    thresholds[bucket] = k.threshold as u32;
    true
}

/// One reference.
#[inline(never)]
pub fn refer(
    k: &mut Record,
    location: u64,
    locations: &mut [u64],
    counts: &mut [u64],
    thresholds: &mut [u32],
) -> Result<Answer, u64> {
    if torn(k) {
        return Err(3);
    }
    let s = k.settings;
    if locations.len() < s.limit as usize || buckets_short(&s, counts, thresholds) {
        return Err(2);
    }
    if k.references == 0xffff_ffff {
        return Err(4);
    }
    let own = hash(s.hash_kind, location);
    if own >= k.threshold {
        k.references += 1;
        return Ok(Answer::Skipped);
    }
    let live = k.live as usize;
    if let Some(place) = locations[..live].iter().position(|&x| x == location) {
        let bucket = (place as u64 * FULL_RATE / k.threshold / s.width).min(s.buckets);
        if !record_in(k, bucket as usize, counts, thresholds) {
            return Err(3);
        }
        locations.copy_within(..place, 1);
        locations[0] = location;
        k.references += 1;
        k.sampled += 1;
        return Ok(Answer::Again(place as u64));
    }
    if !record_in(k, s.buckets as usize + 1, counts, thresholds) {
        return Err(3);
    }
    if k.live < s.limit {
        locations.copy_within(..live, 1);
        locations[0] = location;
        k.live += 1;
    } else {
        lower(k, own, location, locations);
    }
    k.references += 1;
    k.sampled += 1;
    Ok(Answer::First)
}

fn lower(k: &mut Record, own: u64, location: u64, locations: &mut [u64]) {
    let live = k.live as usize;
    let kind = k.settings.hash_kind;
    let largest = locations[..live]
        .iter()
        .map(|&x| hash(kind, x))
        .fold(own, u64::max);
    let fallen = k.threshold.min(largest);
    let mut number = 0;
    for i in 0..live {
        let x = locations[i];
        if hash(kind, x) < fallen {
            locations[number] = x;
            number += 1;
        }
    }
    if own < fallen {
        locations.copy_within(..number, 1);
        locations[0] = location;
        number += 1;
    }
    k.threshold = fallen;
    k.live = number as u64;
}

/// A point of the curve.
#[inline(never)]
pub fn point(
    k: &Record,
    believed: (u64, u64),
    number: u64,
    counts: &[u64],
    thresholds: &[u32],
) -> CPoint {
    if torn(k) {
        return refused(3);
    }
    let s = &k.settings;
    if buckets_short(s, counts, thresholds) {
        return refused(2);
    }
    if believed != (s.buckets, s.width) {
        return refused(5);
    }
    if number > s.buckets {
        return refused(6);
    }
    let needed = s.buckets as usize + 2;
    let (mut raw, mut total, mut hits) = (0, 0, 0);
    for (i, (&count, &own)) in counts[..needed]
        .iter()
        .zip(&thresholds[..needed])
        .enumerate()
    {
        let own = u64::from(own);
        if torn_bucket(k.references, k.threshold, count, own) {
            return refused(3);
        }
        raw += count;
        if raw > 256 * k.references {
            return refused(3);
        }
        if i as u64 == number {
            hits = total;
        }
        total += count * k.threshold / own;
    }
    if total == 0 {
        return refused(9);
    }
    CPoint {
        refusal: 0,
        size: number * s.width,
        hits,
        misses: total - hits,
        total,
    }
}

fn refused(refusal: u64) -> CPoint {
    CPoint {
        refusal,
        ..CPoint::default()
    }
}

/// Whether an I/O has a byte past the last one.
#[inline]
fn overruns(offset: u64, length: u32) -> bool {
    length != 0 && offset.checked_add(u64::from(length) - 1).is_none()
}

/// One I/O: a reference to each of its blocks.
#[inline(never)]
pub fn refer_span(k: &mut Record, offset: u64, length: u32, t: &mut Tables) -> Result<(), u64> {
    if overruns(offset, length) {
        return Err(10);
    }
    each_block(k, offset, length, t)
}

fn each_block(k: &mut Record, offset: u64, length: u32, t: &mut Tables) -> Result<(), u64> {
    if length == 0 {
        return Ok(());
    }
    let last = offset + u64::from(length) - 1;
    for block in offset / 4096..last / 4096 + 1 {
        one(k, block, t)?;
    }
    Ok(())
}

/// The first event of the bytes, with the number of bytes it took.
#[inline(always)]
pub fn read(bytes: &[u8]) -> Result<(Event, usize), u64> {
    let word = |at: usize| u32::from_le_bytes(bytes[at..at + 4].try_into().unwrap());
    let long = |at: usize| u64::from_le_bytes(bytes[at..at + 8].try_into().unwrap());
    match bytes.first() {
        None => Err(7),
        Some(1) if bytes.len() >= 9 => Ok((Event::Location(long(1)), 9)),
        Some(2) if bytes.len() >= 13 && overruns(long(1), word(9)) => Err(10),
        Some(2) if bytes.len() >= 13 => Ok((Event::Span(long(1), word(9)), 13)),
        Some(3) => Ok((Event::Restart, 1)),
        Some(4) if bytes.len() >= 18 => Ok((
            Event::Setup([word(1), word(5), word(9), word(13)], bytes[17]),
            18,
        )),
        Some(1 | 2 | 4) => Err(7),
        Some(_) => Err(8),
    }
}

/// One trace event, as it was read.
pub fn apply(k: &mut Record, event: Event, t: &mut Tables) -> Result<(), u64> {
    match event {
        Event::Location(x) => one(k, x, t),
        Event::Span(offset, length) => each_block(k, offset, length, t),
        Event::Restart => {
            *k = restart(k, t)?;
            Ok(())
        }
        Event::Setup([limit, start, width, buckets], kind) => {
            let given = Settings {
                limit: limit.into(),
                start: start.into(),
                width: width.into(),
                buckets: buckets.into(),
                hash_kind: kind.into(),
            };
            *k = setup(given, t)?;
            Ok(())
        }
    }
}

fn one(k: &mut Record, location: u64, t: &mut Tables) -> Result<(), u64> {
    refer(
        k,
        location,
        &mut t.locations,
        &mut t.counts,
        &mut t.thresholds,
    )
    .map(|_| ())
}

/// Event after event of the bytes. Returns how many bytes were taken, and whether they were all or the rest is the beginning of an
/// event, or the number of a refusal.
#[inline]
pub fn feed(k: &mut Record, bytes: &[u8], t: &mut Tables) -> (usize, Result<bool, u64>) {
    let mut at = 0;
    while at < bytes.len() {
        match read(&bytes[at..]) {
            Ok((event, taken)) => {
                if let Err(number) = apply(k, event, t) {
                    return (at, Err(number));
                }
                at += taken;
            }
            Err(7) => return (at, Ok(false)),
            Err(number) => return (at, Err(number)),
        }
    }
    (at, Ok(true))
}
