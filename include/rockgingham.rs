//! The functions of rockgingham.h, declared for Rust. The header documents them; nothing checks the two against each other but the
//! tests, which call every one.
//!
//! What a call gives has the refusal first, 0 if it was accepted. If it was refused, all else is 0, except `taken` of feed.

#![allow(dead_code)]

/// ROCKGINGHAM_VERSION. The names under which setup, apply and feed are exported carry it, see below.
pub const VERSION: u64 = 2;

/// ROCKGINGHAM_RECORD_WORDS: how many words a record has.
pub const RECORD_WORDS: usize = 9;

#[repr(C)]
#[derive(Clone, Copy, PartialEq, Debug, Default)]
pub struct CSettings {
    pub limit: u64,
    pub start: u64,
    pub width: u64,
    pub buckets: u64,
    pub hash_kind: u64,
}

#[repr(C)]
#[derive(Clone, Copy, PartialEq, Debug, Default)]
pub struct CShape {
    pub buckets: u64,
    pub width: u64,
}

#[repr(C)]
#[derive(Clone, Copy, PartialEq, Debug, Default)]
pub struct CAnswer {
    pub refusal: u64,
    pub reply: u64,
    pub distance: u64,
}

#[repr(C)]
#[derive(Clone, Copy, PartialEq, Debug, Default)]
pub struct CPoint {
    pub refusal: u64,
    pub size: u64,
    pub hits: u64,
    pub misses: u64,
    pub total: u64,
}

#[repr(C)]
#[derive(Clone, Copy, PartialEq, Debug, Default)]
pub struct CPlot {
    pub refusal: u64,
    pub size: f64,
    pub ratio: f64,
}

#[repr(C)]
#[derive(Clone, Copy, PartialEq, Debug, Default)]
pub struct CApplied {
    pub refusal: u64,
    pub taken: u64,
}

#[repr(C)]
#[derive(Clone, Copy, PartialEq, Debug, Default)]
pub struct CFed {
    pub refusal: u64,
    pub taken: u64,
    pub incomplete: u64,
}

#[repr(C)]
#[derive(Clone, Copy, PartialEq, Debug, Default)]
pub struct CEvent {
    pub refusal: u64,
    pub kind: u64,
    pub taken: u64,
    pub location: u64,
    pub offset: u64,
    pub length: u64,
    pub settings: CSettings,
}

#[repr(C)]
#[derive(Clone, Copy, PartialEq, Debug, Default)]
pub struct CWritten {
    pub refusal: u64,
    pub length: u64,
}

extern "C" {
    pub fn rockgingham_version() -> u64;
    pub fn rockgingham_hash(hash_kind: u64, location: u64) -> u64;
    #[link_name = "rockgingham_setup_v2"]
    pub fn rockgingham_setup(
        record: *mut u64,
        record_words: usize,
        settings: CSettings,
        locations: *const u64,
        locations_length: usize,
        counts: *mut u64,
        counts_length: usize,
        thresholds: *mut u32,
        thresholds_length: usize,
    ) -> u64;
    pub fn rockgingham_restart(
        record: *mut u64,
        record_words: usize,
        locations: *const u64,
        locations_length: usize,
        counts: *mut u64,
        counts_length: usize,
        thresholds: *mut u32,
        thresholds_length: usize,
    ) -> u64;
    pub fn rockgingham_refer(
        record: *mut u64,
        record_words: usize,
        location: u64,
        locations: *mut u64,
        locations_length: usize,
        counts: *mut u64,
        counts_length: usize,
        thresholds: *mut u32,
        thresholds_length: usize,
    ) -> CAnswer;
    pub fn rockgingham_refer_span(
        record: *mut u64,
        record_words: usize,
        offset: u64,
        length: u32,
        locations: *mut u64,
        locations_length: usize,
        counts: *mut u64,
        counts_length: usize,
        thresholds: *mut u32,
        thresholds_length: usize,
    ) -> u64;
    pub fn rockgingham_point(
        record: *const u64,
        record_words: usize,
        believed: CShape,
        number: u64,
        counts: *const u64,
        counts_length: usize,
        thresholds: *const u32,
        thresholds_length: usize,
    ) -> CPoint;
    pub fn rockgingham_plot(
        record: *const u64,
        record_words: usize,
        believed: CShape,
        number: u64,
        counts: *const u64,
        counts_length: usize,
        thresholds: *const u32,
        thresholds_length: usize,
    ) -> CPlot;
    #[link_name = "rockgingham_apply_v2"]
    pub fn rockgingham_apply(
        record: *mut u64,
        record_words: usize,
        bytes: *const u8,
        bytes_length: usize,
        locations: *mut u64,
        locations_length: usize,
        counts: *mut u64,
        counts_length: usize,
        thresholds: *mut u32,
        thresholds_length: usize,
    ) -> CApplied;
    #[link_name = "rockgingham_feed_v2"]
    pub fn rockgingham_feed(
        record: *mut u64,
        record_words: usize,
        bytes: *const u8,
        bytes_length: usize,
        locations: *mut u64,
        locations_length: usize,
        counts: *mut u64,
        counts_length: usize,
        thresholds: *mut u32,
        thresholds_length: usize,
    ) -> CFed;
    pub fn rockgingham_read(bytes: *const u8, length: usize) -> CEvent;
    pub fn rockgingham_write_location(location: u64, buffer: *mut u8, length: usize) -> CWritten;
    pub fn rockgingham_write_span(
        offset: u64,
        bytes: u32,
        buffer: *mut u8,
        length: usize,
    ) -> CWritten;
    pub fn rockgingham_write_restart(buffer: *mut u8, length: usize) -> CWritten;
    pub fn rockgingham_write_setup(
        limit: u32,
        start: u32,
        width: u32,
        buckets: u32,
        hash_kind: u8,
        buffer: *mut u8,
        length: usize,
    ) -> CWritten;
}
