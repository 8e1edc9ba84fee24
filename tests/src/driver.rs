//! The static library, called as C calls it. Everything lent to it lies between guard entries, which are compared too.

use crate::interface::*;
use crate::model::{Event, Fed, Point, Record, Refusal, Reply, Settings, Shape, Tracker};

const GUARDS: usize = 4;

/// Entries between guards.
pub struct Lent<T> {
    all: Vec<T>,
    guard: T,
}

impl<T: Copy + PartialEq> Lent<T> {
    pub fn new(inside: &[T], guard: T) -> Lent<T> {
        let mut all = vec![guard; GUARDS];
        all.extend_from_slice(inside);
        all.extend_from_slice(&[guard; GUARDS]);
        Lent { all, guard }
    }

    pub fn inside(&self) -> &[T] {
        &self.all[GUARDS..self.all.len() - GUARDS]
    }

    fn length(&self) -> usize {
        self.all.len() - 2 * GUARDS
    }

    fn pointer(&mut self) -> *mut T {
        self.all[GUARDS..].as_mut_ptr()
    }

    fn start(&self) -> *const T {
        self.all[GUARDS..].as_ptr()
    }

    /// Whether the entries inside are these and the guards are intact.
    pub fn holds(&self, inside: &[T]) -> bool {
        let end = self.all.len() - GUARDS;
        let whole = |guards: &[T]| guards.iter().all(|g| *g == self.guard);
        whole(&self.all[..GUARDS]) && whole(&self.all[end..]) && self.inside() == inside
    }
}

/// A record's words, in the header's order.
fn words_of(record: Record) -> [u64; RECORD_WORDS] {
    let settings = record.settings;
    [
        settings.limit,
        settings.start,
        settings.width,
        settings.buckets,
        settings.kind,
        record.threshold,
        record.live,
        record.references,
        record.sampled,
    ]
}

/// The words that are lent: of the record as many as the tracker says, then those beyond.
fn lent_words(tracker: &Tracker) -> Vec<u64> {
    let own = words_of(tracker.record);
    assert!(tracker.words == own.len() || tracker.beyond.is_empty());
    [&own[..tracker.words], &tracker.beyond].concat()
}

/// A record and its tables, lent to the library.
pub struct Driver {
    pub record: Lent<u64>,
    pub locations: Lent<u64>,
    pub counts: Lent<u64>,
    pub thresholds: Lent<u32>,
}

const GUARD: u64 = 0x5bd1_e995_1234_5678;

impl Driver {
    pub fn holding(tracker: &Tracker) -> Driver {
        Driver {
            record: Lent::new(&lent_words(tracker), GUARD),
            locations: Lent::new(&tracker.locations, GUARD),
            counts: Lent::new(&tracker.counts, GUARD),
            thresholds: Lent::new(&tracker.thresholds, GUARD as u32),
        }
    }

    pub fn word(&self, number: usize) -> u64 {
        self.record.inside()[number]
    }

    /// What differs from the model's record and tables, if anything does.
    pub fn compare(&self, tracker: &Tracker) -> Result<(), String> {
        let words = lent_words(tracker);
        if !self.record.holds(&words) {
            return Err(format!(
                "record {:?}, model {words:?}",
                self.record.inside()
            ));
        }
        if !self.locations.holds(&tracker.locations) {
            return Err("the location table differs".to_string());
        }
        if !self.counts.holds(&tracker.counts) {
            return Err("the bucket counts differ".to_string());
        }
        if !self.thresholds.holds(&tracker.thresholds) {
            return Err("the bucket thresholds differ".to_string());
        }
        Ok(())
    }

    // Each call below lends the record, the tables and the bytes with their true lengths. None of them overlap.

    pub fn setup(&mut self, given: Settings) -> u64 {
        self.setup_with(CSettings {
            limit: given.limit,
            start: given.start,
            width: given.width,
            buckets: given.buckets,
            hash_kind: given.kind,
        })
    }

    pub fn setup_with(&mut self, settings: CSettings) -> u64 {
        unsafe {
            rockgingham_setup(
                self.record.pointer(),
                self.record.length(),
                settings,
                self.locations.start(),
                self.locations.length(),
                self.counts.pointer(),
                self.counts.length(),
                self.thresholds.pointer(),
                self.thresholds.length(),
            )
        }
    }

    pub fn restart(&mut self) -> u64 {
        unsafe {
            rockgingham_restart(
                self.record.pointer(),
                self.record.length(),
                self.locations.start(),
                self.locations.length(),
                self.counts.pointer(),
                self.counts.length(),
                self.thresholds.pointer(),
                self.thresholds.length(),
            )
        }
    }

    pub fn refer(&mut self, location: u64) -> CAnswer {
        unsafe {
            rockgingham_refer(
                self.record.pointer(),
                self.record.length(),
                location,
                self.locations.pointer(),
                self.locations.length(),
                self.counts.pointer(),
                self.counts.length(),
                self.thresholds.pointer(),
                self.thresholds.length(),
            )
        }
    }

    pub fn refer_span(&mut self, offset: u64, length: u32) -> u64 {
        unsafe {
            rockgingham_refer_span(
                self.record.pointer(),
                self.record.length(),
                offset,
                length,
                self.locations.pointer(),
                self.locations.length(),
                self.counts.pointer(),
                self.counts.length(),
                self.thresholds.pointer(),
                self.thresholds.length(),
            )
        }
    }

    pub fn point(&self, believed: Shape, number: u64) -> CPoint {
        unsafe {
            rockgingham_point(
                self.record.start(),
                self.record.length(),
                shape_of(believed),
                number,
                self.counts.start(),
                self.counts.length(),
                self.thresholds.start(),
                self.thresholds.length(),
            )
        }
    }

    pub fn plot(&self, believed: Shape, number: u64) -> CPlot {
        unsafe {
            rockgingham_plot(
                self.record.start(),
                self.record.length(),
                shape_of(believed),
                number,
                self.counts.start(),
                self.counts.length(),
                self.thresholds.start(),
                self.thresholds.length(),
            )
        }
    }

    pub fn apply(&mut self, bytes: &Lent<u8>) -> CApplied {
        unsafe {
            rockgingham_apply(
                self.record.pointer(),
                self.record.length(),
                bytes.start(),
                bytes.length(),
                self.locations.pointer(),
                self.locations.length(),
                self.counts.pointer(),
                self.counts.length(),
                self.thresholds.pointer(),
                self.thresholds.length(),
            )
        }
    }

    pub fn feed(&mut self, bytes: &Lent<u8>) -> CFed {
        unsafe {
            rockgingham_feed(
                self.record.pointer(),
                self.record.length(),
                bytes.start(),
                bytes.length(),
                self.locations.pointer(),
                self.locations.length(),
                self.counts.pointer(),
                self.counts.length(),
                self.thresholds.pointer(),
                self.thresholds.length(),
            )
        }
    }
}

fn shape_of(believed: Shape) -> CShape {
    CShape {
        buckets: believed.buckets,
        width: believed.width,
    }
}

/// Bytes to be lent.
pub fn lent_bytes(bytes: &[u8]) -> Lent<u8> {
    Lent::new(bytes, 0xa5)
}

pub fn version() -> u64 {
    unsafe { rockgingham_version() }
}

pub fn hash(kind: u64, location: u64) -> u64 {
    unsafe { rockgingham_hash(kind, location) }
}

pub fn read(bytes: &Lent<u8>) -> CEvent {
    unsafe { rockgingham_read(bytes.start(), bytes.length()) }
}

pub fn write(event: Event, buffer: &mut Lent<u8>) -> CWritten {
    let (start, length) = (buffer.pointer(), buffer.length());
    unsafe {
        match event {
            Event::Location(location) => rockgingham_write_location(location, start, length),
            Event::Span(offset, bytes) => rockgingham_write_span(offset, bytes, start, length),
            Event::Restart => rockgingham_write_restart(start, length),
            Event::Setup(limit, from, width, buckets, kind) => {
                rockgingham_write_setup(limit, from, width, buckets, kind, start, length)
            }
        }
    }
}

// What a call must return, all of it, for the model's answer. A refused call gives zeros beside the refusal.

/// The refusal that a call must give.
pub fn number_of<T>(answer: &Result<T, Refusal>) -> u64 {
    match answer {
        Ok(_) => 0,
        Err(refusal) => refusal.number(),
    }
}

pub fn answered(answer: &Result<Reply, Refusal>) -> CAnswer {
    let refusal = number_of(answer);
    let (reply, distance) = match answer {
        Ok(Reply::Skipped) | Err(_) => (0, 0),
        Ok(Reply::Again(place)) => (1, *place),
        Ok(Reply::First) => (2, 0),
    };
    CAnswer {
        refusal,
        reply,
        distance,
    }
}

pub fn pointed(answer: &Result<Point, Refusal>) -> CPoint {
    let zero = Point {
        size: 0,
        hits: 0,
        misses: 0,
        total: 0,
    };
    let point = answer.unwrap_or(zero);
    CPoint {
        refusal: number_of(answer),
        size: point.size,
        hits: point.hits,
        misses: point.misses,
        total: point.total,
    }
}

pub fn plotted(answer: &Result<(f64, f64), Refusal>) -> CPlot {
    let (size, ratio) = answer.unwrap_or((0.0, 0.0));
    CPlot {
        refusal: number_of(answer),
        size,
        ratio,
    }
}

pub fn applied(answer: &Result<usize, Refusal>) -> CApplied {
    CApplied {
        refusal: number_of(answer),
        taken: answer.unwrap_or(0) as u64,
    }
}

pub fn fed(answer: &Fed) -> CFed {
    CFed {
        refusal: number_of(&answer.ending),
        taken: answer.taken as u64,
        incomplete: u64::from(answer.ending == Ok(true)),
    }
}

pub fn written(answer: &Result<usize, Refusal>) -> CWritten {
    CWritten {
        refusal: number_of(answer),
        length: answer.unwrap_or(0) as u64,
    }
}

pub fn got(answer: &Result<(Event, usize), Refusal>) -> CEvent {
    let mut given = CEvent {
        refusal: number_of(answer),
        ..CEvent::default()
    };
    if let Ok((event, taken)) = *answer {
        given.taken = taken as u64;
        put_event(event, &mut given);
    }
    given
}

fn put_event(event: Event, given: &mut CEvent) {
    match event {
        Event::Location(location) => {
            given.kind = 1;
            given.location = location;
        }
        Event::Span(offset, length) => {
            given.kind = 2;
            given.offset = offset;
            given.length = length.into();
        }
        Event::Restart => given.kind = 3,
        Event::Setup(limit, start, width, buckets, kind) => {
            given.kind = 4;
            given.settings = CSettings {
                limit: limit.into(),
                start: start.into(),
                width: width.into(),
                buckets: buckets.into(),
                hash_kind: kind.into(),
            };
        }
    }
}
