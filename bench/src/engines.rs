//! The two sides of the comparison, called in the same way.

use crate::interface::{self, CEvent, CFed, CPoint, CSettings, RECORD_WORDS};
use crate::plain::{self, Answer, Event, Record, Settings, Tables};
use crate::proved;

pub type Hash = unsafe extern "C" fn(kind: u64, location: u64) -> u64;
pub type Read = unsafe extern "C" fn(bytes: *const u8, length: usize) -> CEvent;

/// A tracker with its own tables, and the functions that need no tracker.
pub trait Engine {
    const HASH: Hash;
    const READ: Read;
    fn new(settings: Settings) -> Self;
    fn refer(&mut self, location: u64) -> Result<Answer, u64>;
    fn refer_span(&mut self, offset: u64, length: u32) -> Result<(), u64>;
    fn point(&self, believed: (u64, u64), number: u64) -> CPoint;
    fn feed(&mut self, bytes: &[u8]) -> CFed;
    fn tables(&self) -> &Tables;
    /// The record as its words, in the header's order.
    fn words(&self) -> [u64; RECORD_WORDS];
}

fn tables(settings: &Settings) -> Tables {
    let needed = settings.buckets as usize + 2;
    Tables {
        locations: vec![0; settings.limit as usize],
        counts: vec![0; needed],
        thresholds: vec![0; needed],
    }
}

pub struct Proved {
    words: [u64; RECORD_WORDS],
    tables: Tables,
}

impl Engine for Proved {
    const HASH: Hash = interface::rockgingham_hash;
    const READ: Read = interface::rockgingham_read;

    fn new(settings: Settings) -> Proved {
        let mut tables = tables(&settings);
        let words = proved::setup(settings, &mut tables).expect("these settings are in range");
        Proved { words, tables }
    }

    #[inline(always)]
    fn refer(&mut self, location: u64) -> Result<Answer, u64> {
        proved::refer(&mut self.words, location, &mut self.tables)
    }

    #[inline(always)]
    fn refer_span(&mut self, offset: u64, length: u32) -> Result<(), u64> {
        proved::refer_span(&mut self.words, offset, length, &mut self.tables)
    }

    #[inline(always)]
    fn point(&self, believed: (u64, u64), number: u64) -> CPoint {
        proved::point(&self.words, believed, number, &self.tables)
    }

    #[inline(always)]
    fn feed(&mut self, bytes: &[u8]) -> CFed {
        proved::feed(&mut self.words, bytes, &mut self.tables)
    }

    fn tables(&self) -> &Tables {
        &self.tables
    }

    fn words(&self) -> [u64; RECORD_WORDS] {
        self.words
    }
}

pub struct Plain {
    record: Record,
    tables: Tables,
}

impl Engine for Plain {
    const HASH: Hash = plain::hash_of;
    const READ: Read = plain_read;

    fn new(settings: Settings) -> Plain {
        let mut tables = tables(&settings);
        let record = plain::setup(settings, &mut tables).expect("these settings are in range");
        Plain { record, tables }
    }

    #[inline(always)]
    fn refer(&mut self, location: u64) -> Result<Answer, u64> {
        let t = &mut self.tables;
        plain::refer(
            &mut self.record,
            location,
            &mut t.locations,
            &mut t.counts,
            &mut t.thresholds,
        )
    }

    #[inline(always)]
    fn refer_span(&mut self, offset: u64, length: u32) -> Result<(), u64> {
        plain::refer_span(&mut self.record, offset, length, &mut self.tables)
    }

    #[inline(always)]
    fn point(&self, believed: (u64, u64), number: u64) -> CPoint {
        let t = &self.tables;
        plain::point(&self.record, believed, number, &t.counts, &t.thresholds)
    }

    #[inline(always)]
    fn feed(&mut self, bytes: &[u8]) -> CFed {
        let (taken, ending) = plain::feed(&mut self.record, bytes, &mut self.tables);
        CFed {
            refusal: ending.err().unwrap_or(0),
            taken: taken as u64,
            incomplete: u64::from(ending == Ok(false)),
        }
    }

    fn tables(&self) -> &Tables {
        &self.tables
    }

    fn words(&self) -> [u64; RECORD_WORDS] {
        proved::words(&self.record)
    }
}

/// The plain reading, called like the library's.
///
/// # Safety
/// `bytes` points to `length` bytes.
unsafe extern "C" fn plain_read(bytes: *const u8, length: usize) -> CEvent {
    match plain::read(std::slice::from_raw_parts(bytes, length)) {
        Ok((event, taken)) => given(event, taken),
        Err(refusal) => CEvent {
            refusal,
            ..CEvent::default()
        },
    }
}

/// An event as the library gives it.
#[inline(always)]
fn given(event: Event, taken: usize) -> CEvent {
    let mut given = CEvent {
        taken: taken as u64,
        ..CEvent::default()
    };
    match event {
        Event::Location(location) => {
            given.kind = 1;
            given.location = location;
        }
        Event::Span(offset, length) => {
            given.kind = 2;
            given.offset = offset;
            given.length = length.into();
        }
        Event::Restart => given.kind = 3,
        Event::Setup([limit, start, width, buckets], kind) => {
            given.kind = 4;
            given.settings = CSettings {
                limit: limit.into(),
                start: start.into(),
                width: width.into(),
                buckets: buckets.into(),
                hash_kind: kind.into(),
            };
        }
    }
    given
}
