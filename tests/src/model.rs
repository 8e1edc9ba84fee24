//! A naive model of document 01 in plain Rust, written from its text alone, from document 02's for I/O that spans blocks, and from
//! the header's for a record that is lent as words and for events that are applied and fed. It shares no code and no data structure with the proved crates: numbers are wide, lists
//! are rebuilt at each step, and nothing is kept that the text does not name.
//!
//! A model may contain one deliberate error (`Wrong`). The tests must notice each.

use std::fmt::Write;

pub const P: u64 = 16_777_216;
pub const MOST_REFERENCES: u64 = 4_294_967_295;

/// Errors that look right, and programs that the promises must rule out.
#[derive(Clone, Copy, Debug, PartialEq, Eq)]
pub enum Wrong {
    // document 01, "Errors that look right"
    PlaceFromOne,
    OneEntryRemoved,
    NotAboveThreshold,
    EveryBucketRescaled,
    FirstAfterLowering,
    // document 01, "What the promises decide"
    RefusesEverything,
    SkipsEverything,
    SamePointAlways,
    ListUntouched,
    FeignsAfterFirst,
    InventsReferences,
    InventsSampled,
    InventsLive,
    // other readings that document 01 rules out
    LastOccurrence,
    BothOccurrences,
    ThresholdMayRise,
    NewLocationStays,
    PointStores,
    TotalWithoutFar,
    BelievedShapeUnread,
    PointOfB,
    SkippedNeverFull,
    BucketJudgedAfter,
    SumUnjudged,
    ZeroBucketThreshold,
    LocationsCleared,
    RestartJudgesNothing,
    SpanOfNothingCounts,
    SetupRefusedClears,
    RefusalAtNextEvent,
    BucketsBeforeStale,
    HashCut,
    // a refusal judged before the one that comes just before it in document 01's order
    TablesBeforeSettings,
    RestartTablesBeforeRecord,
    ReferTablesBeforeRecord,
    FullBeforeTables,
    BucketBeforeFull,
    PointTablesBeforeRecord,
    StaleBeforeTables,
    PointBeforeStale,
    BucketsBeforePoint,
    EmptyBeforeBuckets,
    // the same, only for the pair of doubles
    PlotTablesBeforeRecord,
    PlotStaleBeforeTables,
    PlotPointBeforeStale,
    PlotBucketsBeforePoint,
    PlotEmptyBeforeBuckets,
    // the same for reading, and for the setup that follows it
    KindBeforeNoBytes,
    ShortBeforeKind,
    SettingsBeforeShort,
    SettingsBeforeKind,
    // a record that is lent as words
    OneWordShortAccepted,
    MoreWordsRefused,
    WordsBeyondCleared,
    WordsBeforeSettings,
    RestartRecordBeforeWords,
    ReferRecordBeforeWords,
    PointRecordBeforeWords,
    PlotRecordBeforeWords,
    // events applied and fed
    ReadingBeforeWords,
    RecordBeforeReading,
    WordsJudgedByCallAlone,
    ApplyTakesNothing,
    ApplyTakesAll,
    FeedCountsRefused,
    FeedForgetsTaken,
    FeedUndoes,
    FeedRefusesIncomplete,
    FeedNeverIncomplete,
    // I/O that spans blocks
    FirstBlockOnly,
    LastBlockMissed,
    OneBlockMore,
    BlocksFalling,
    LengthNotReduced,
    OverrunLetThrough,
    OverrunAfterReference,
    LastByteOverruns,
    NothingOverruns,
    RefusedReferenceCounted,
    AcceptedPartTakenBack,
    AcceptedPartUnrecorded,
    RefusedSpanGoesOn,
    OverrunBeforeShort,
    OverrunBeforeKind,
    WordsBeforeOverrun,
    SpanRecordBeforeWords,
    RoomBeforeOverrun,
}

pub const ALL_WRONG: [Wrong; 87] = [
    Wrong::PlaceFromOne,
    Wrong::OneEntryRemoved,
    Wrong::NotAboveThreshold,
    Wrong::EveryBucketRescaled,
    Wrong::FirstAfterLowering,
    Wrong::RefusesEverything,
    Wrong::SkipsEverything,
    Wrong::SamePointAlways,
    Wrong::ListUntouched,
    Wrong::FeignsAfterFirst,
    Wrong::InventsReferences,
    Wrong::InventsSampled,
    Wrong::InventsLive,
    Wrong::LastOccurrence,
    Wrong::BothOccurrences,
    Wrong::ThresholdMayRise,
    Wrong::NewLocationStays,
    Wrong::PointStores,
    Wrong::TotalWithoutFar,
    Wrong::BelievedShapeUnread,
    Wrong::PointOfB,
    Wrong::SkippedNeverFull,
    Wrong::BucketJudgedAfter,
    Wrong::SumUnjudged,
    Wrong::ZeroBucketThreshold,
    Wrong::LocationsCleared,
    Wrong::RestartJudgesNothing,
    Wrong::SpanOfNothingCounts,
    Wrong::SetupRefusedClears,
    Wrong::RefusalAtNextEvent,
    Wrong::BucketsBeforeStale,
    Wrong::HashCut,
    Wrong::TablesBeforeSettings,
    Wrong::RestartTablesBeforeRecord,
    Wrong::ReferTablesBeforeRecord,
    Wrong::FullBeforeTables,
    Wrong::BucketBeforeFull,
    Wrong::PointTablesBeforeRecord,
    Wrong::StaleBeforeTables,
    Wrong::PointBeforeStale,
    Wrong::BucketsBeforePoint,
    Wrong::EmptyBeforeBuckets,
    Wrong::PlotTablesBeforeRecord,
    Wrong::PlotStaleBeforeTables,
    Wrong::PlotPointBeforeStale,
    Wrong::PlotBucketsBeforePoint,
    Wrong::PlotEmptyBeforeBuckets,
    Wrong::KindBeforeNoBytes,
    Wrong::ShortBeforeKind,
    Wrong::SettingsBeforeShort,
    Wrong::SettingsBeforeKind,
    Wrong::OneWordShortAccepted,
    Wrong::MoreWordsRefused,
    Wrong::WordsBeyondCleared,
    Wrong::WordsBeforeSettings,
    Wrong::RestartRecordBeforeWords,
    Wrong::ReferRecordBeforeWords,
    Wrong::PointRecordBeforeWords,
    Wrong::PlotRecordBeforeWords,
    Wrong::ReadingBeforeWords,
    Wrong::RecordBeforeReading,
    Wrong::WordsJudgedByCallAlone,
    Wrong::ApplyTakesNothing,
    Wrong::ApplyTakesAll,
    Wrong::FeedCountsRefused,
    Wrong::FeedForgetsTaken,
    Wrong::FeedUndoes,
    Wrong::FeedRefusesIncomplete,
    Wrong::FeedNeverIncomplete,
    Wrong::FirstBlockOnly,
    Wrong::LastBlockMissed,
    Wrong::OneBlockMore,
    Wrong::BlocksFalling,
    Wrong::LengthNotReduced,
    Wrong::OverrunLetThrough,
    Wrong::OverrunAfterReference,
    Wrong::LastByteOverruns,
    Wrong::NothingOverruns,
    Wrong::RefusedReferenceCounted,
    Wrong::AcceptedPartTakenBack,
    Wrong::AcceptedPartUnrecorded,
    Wrong::RefusedSpanGoesOn,
    Wrong::OverrunBeforeShort,
    Wrong::OverrunBeforeKind,
    Wrong::WordsBeforeOverrun,
    Wrong::SpanRecordBeforeWords,
    Wrong::RoomBeforeOverrun,
];

/// For each pair of neighbours among a call's refusals, the wrong model that swaps them.
pub const SETUP_SWAPS: [Wrong; 1] = [Wrong::TablesBeforeSettings];
pub const RESTART_SWAPS: [Wrong; 2] = [
    Wrong::RestartRecordBeforeWords,
    Wrong::RestartTablesBeforeRecord,
];
pub const REFER_SWAPS: [Wrong; 4] = [
    Wrong::ReferRecordBeforeWords,
    Wrong::ReferTablesBeforeRecord,
    Wrong::FullBeforeTables,
    Wrong::BucketBeforeFull,
];
pub const POINT_SWAPS: [Wrong; 6] = [
    Wrong::PointRecordBeforeWords,
    Wrong::PointTablesBeforeRecord,
    Wrong::StaleBeforeTables,
    Wrong::PointBeforeStale,
    Wrong::BucketsBeforePoint,
    Wrong::EmptyBeforeBuckets,
];
pub const PLOT_SWAPS: [Wrong; 6] = [
    Wrong::PlotRecordBeforeWords,
    Wrong::PlotTablesBeforeRecord,
    Wrong::PlotStaleBeforeTables,
    Wrong::PlotPointBeforeStale,
    Wrong::PlotBucketsBeforePoint,
    Wrong::PlotEmptyBeforeBuckets,
];
pub const SPAN_SWAPS: [Wrong; 2] = [Wrong::WordsBeforeOverrun, Wrong::SpanRecordBeforeWords];
pub const READ_SWAPS: [Wrong; 3] = [
    Wrong::KindBeforeNoBytes,
    Wrong::ShortBeforeKind,
    Wrong::OverrunBeforeShort,
];
pub const WRITE_SWAPS: [Wrong; 1] = [Wrong::RoomBeforeOverrun];
pub const EVENT_SWAPS: [Wrong; 2] = [Wrong::ReadingBeforeWords, Wrong::RecordBeforeReading];

/// Why a call is refused. 2 has a variant of its own for the record's words, and Torn has three, so that the tests can count each
/// cause.
#[derive(Clone, Copy, Debug, PartialEq, Eq, PartialOrd, Ord)]
pub enum Refusal {
    Settings,
    Words,
    Tables,
    TornRecord,
    TornBucket,
    TornSum,
    Full,
    Stale,
    Point,
    Short,
    Kind,
    Empty,
    Overrun,
}

impl Refusal {
    pub fn number(self) -> u64 {
        match self {
            Refusal::Settings => 1,
            Refusal::Words | Refusal::Tables => 2,
            Refusal::TornRecord | Refusal::TornBucket | Refusal::TornSum => 3,
            Refusal::Full => 4,
            Refusal::Stale => 5,
            Refusal::Point => 6,
            Refusal::Short => 7,
            Refusal::Kind => 8,
            Refusal::Empty => 9,
            Refusal::Overrun => 10,
        }
    }
}

#[derive(Clone, Copy, Debug, PartialEq, Eq)]
pub struct Settings {
    pub limit: u64,
    pub start: u64,
    pub width: u64,
    pub buckets: u64,
    pub kind: u64,
}

#[derive(Clone, Copy, Debug, PartialEq, Eq)]
pub struct Record {
    pub settings: Settings,
    pub threshold: u64,
    pub live: u64,
    pub references: u64,
    pub sampled: u64,
}

/// How many words a record has.
pub const WORDS: usize = 9;

/// A record with its lent tables. Of the record so many words are lent, at most all; if all are, words beyond them may be lent too.
#[derive(Clone, Debug, PartialEq, Eq)]
pub struct Tracker {
    pub record: Record,
    pub words: usize,
    pub beyond: Vec<u64>,
    pub locations: Vec<u64>,
    pub counts: Vec<u64>,
    pub thresholds: Vec<u32>,
}

#[derive(Clone, Copy, Debug, PartialEq, Eq)]
pub enum Reply {
    Skipped,
    Again(u64),
    First,
}

#[derive(Clone, Copy, Debug, PartialEq, Eq)]
pub struct Point {
    pub size: u64,
    pub hits: u64,
    pub misses: u64,
    pub total: u64,
}

#[derive(Clone, Copy, Debug, PartialEq, Eq)]
pub struct Shape {
    pub buckets: u64,
    pub width: u64,
}

#[derive(Clone, Copy, Debug, PartialEq, Eq)]
pub enum Event {
    Location(u64),
    Span(u64, u32),
    Restart,
    Setup(u32, u32, u32, u32, u8),
}

/// What feeding did: how many bytes it took, and whether the rest is the beginning of an event, or why an event was refused. `inside`
/// says whether references of the refused event were accepted.
#[derive(Clone, Copy, Debug, PartialEq, Eq)]
pub struct Fed {
    pub taken: usize,
    pub ending: Result<bool, Refusal>,
    pub inside: bool,
}

#[derive(Clone, Copy, Debug)]
pub struct Model {
    pub wrong: Option<Wrong>,
}

/// Settings: defaults and ranges.
impl Settings {
    pub fn with_defaults(self) -> Settings {
        let or = |setting: u64, default: u64| if setting == 0 { default } else { setting };
        Settings {
            limit: or(self.limit, 1024),
            start: or(self.start, 1_677_721),
            width: or(self.width, 1),
            buckets: or(self.buckets, 256),
            kind: self.kind,
        }
    }

    pub fn in_range(self) -> bool {
        (1..=8192).contains(&self.limit)
            && (1..=P).contains(&self.start)
            && (1..=MOST_REFERENCES).contains(&self.width)
            && (1..=10_000).contains(&self.buckets)
            && self.kind <= 1
    }
}

impl Record {
    pub fn torn(self) -> bool {
        !self.settings.in_range()
            || self.live > self.settings.limit
            || self.threshold > self.settings.start
            || self.sampled > self.references
            || self.references > MOST_REFERENCES
    }
}

fn scaled(count: u64, threshold: u64, bucket_threshold: u64) -> u64 {
    let product = u128::from(count) * u128::from(threshold);
    match bucket_threshold {
        0 => 0,
        b => (product / u128::from(b)) as u64,
    }
}

impl Tracker {
    /// No record yet: words of 0, and tables of these lengths.
    pub fn blank(locations: usize, counts: usize, thresholds: usize) -> Tracker {
        let zero = Settings {
            limit: 0,
            start: 0,
            width: 0,
            buckets: 0,
            kind: 0,
        };
        Tracker {
            record: Record {
                settings: zero,
                threshold: 0,
                live: 0,
                references: 0,
                sampled: 0,
            },
            words: WORDS,
            beyond: Vec::new(),
            locations: vec![0; locations],
            counts: vec![0; counts],
            thresholds: vec![0; thresholds],
        }
    }

    fn buckets_long_enough(&self, settings: Settings) -> bool {
        let needed = settings.buckets.saturating_add(2);
        self.counts.len() as u64 >= needed && self.thresholds.len() as u64 >= needed
    }

    fn long_enough(&self, settings: Settings) -> bool {
        self.locations.len() as u64 >= settings.limit && self.buckets_long_enough(settings)
    }

    fn live_list(&self) -> &[u64] {
        &self.locations[..self.record.live as usize]
    }

    fn put_live_list(&mut self, list: &[u64]) {
        for (place, location) in list.iter().enumerate() {
            self.locations[place] = *location;
        }
        self.record.live = list.len() as u64;
    }

    fn needed(&self) -> usize {
        self.record.settings.buckets as usize + 2
    }

    /// The counts as they are reported.
    fn rescaled(&self) -> Vec<u64> {
        let mut rescaled = Vec::new();
        for bucket in 0..self.needed() {
            let held = u64::from(self.thresholds[bucket]);
            rescaled.push(scaled(self.counts[bucket], self.record.threshold, held));
        }
        rescaled
    }
}

/// A test that may refuse a call.
type Judge<'a> = &'a dyn Fn() -> Result<(), Refusal>;

fn refuse_if(condition: bool, refusal: Refusal) -> Result<(), Refusal> {
    if condition {
        Err(refusal)
    } else {
        Ok(())
    }
}

impl Model {
    pub fn right() -> Model {
        Model { wrong: None }
    }

    pub fn with(wrong: Wrong) -> Model {
        Model { wrong: Some(wrong) }
    }

    fn is(&self, wrong: Wrong) -> bool {
        self.wrong == Some(wrong)
    }

    /// A model that refuses everything refuses its calls here.
    fn unless_all_refused(&self, refusal: Refusal) -> Result<(), Refusal> {
        refuse_if(self.is(Wrong::RefusesEverything), refusal)
    }

    /// The first refusal in this order, or in the order of a wrong model that swaps two neighbours.
    fn judge<const N: usize>(
        &self,
        mut judges: [Judge; N],
        swaps: &[Wrong],
    ) -> Result<(), Refusal> {
        if let Some(first) = swaps.iter().position(|swap| self.is(*swap)) {
            judges.swap(first, first + 1);
        }
        judges.iter().try_for_each(|judge| judge())
    }

    /// "If it has fewer, it cannot be judged."
    fn judge_words(&self, tracker: &Tracker) -> Result<(), Refusal> {
        let needed = WORDS - usize::from(self.is(Wrong::OneWordShortAccepted));
        let more = self.is(Wrong::MoreWordsRefused) && !tracker.beyond.is_empty();
        refuse_if(tracker.words < needed || more, Refusal::Words)
    }

    pub fn hash(&self, kind: u64, location: u64) -> u64 {
        if kind == 0 {
            return location % P;
        }
        let shift_step = |x: u64| x ^ (x >> 33);
        let times = |x: u64, y: u64| {
            let wide = u128::from(x) * u128::from(y);
            if self.is(Wrong::HashCut) {
                (wide % ((1 << 64) - 1)) as u64
            } else {
                (wide % (1 << 64)) as u64
            }
        };
        let mut x = shift_step(location);
        x = times(x, 0xff51afd7ed558ccd);
        x = shift_step(x);
        x = times(x, 0xc4ceb9fe1a85ec53);
        x = shift_step(x);
        x % P
    }

    fn fresh(&self, settings: Settings, tracker: &mut Tracker) {
        tracker.record = Record {
            settings,
            threshold: settings.start,
            live: 0,
            references: 0,
            sampled: 0,
        };
        for bucket in 0..tracker.needed() {
            tracker.counts[bucket] = 0;
            tracker.thresholds[bucket] = settings.start as u32;
        }
        if self.is(Wrong::LocationsCleared) {
            tracker.locations.fill(0);
        }
        if self.is(Wrong::WordsBeyondCleared) {
            tracker.beyond.fill(0);
        }
    }

    pub fn setup(&self, given: Settings, tracker: &mut Tracker) -> Result<(), Refusal> {
        let settings = given.with_defaults();
        self.unless_all_refused(Refusal::Settings)?;
        if self.is(Wrong::WordsBeforeSettings) {
            self.judge_words(tracker)?;
        }
        let judged = self.judge(
            [
                &|| refuse_if(!settings.in_range(), Refusal::Settings),
                &|| refuse_if(!tracker.long_enough(settings), Refusal::Tables),
                &|| self.judge_words(tracker),
            ],
            &SETUP_SWAPS,
        );
        if judged == Err(Refusal::Settings) && self.is(Wrong::SetupRefusedClears) {
            tracker.record.live = 0;
        }
        judged?;
        self.fresh(settings, tracker);
        Ok(())
    }

    pub fn restart(&self, tracker: &mut Tracker) -> Result<(), Refusal> {
        self.unless_all_refused(Refusal::TornRecord)?;
        let record = tracker.record;
        let judged = !self.is(Wrong::RestartJudgesNothing) || !record.settings.in_range();
        self.judge(
            [
                &|| self.judge_words(tracker),
                &|| refuse_if(judged && record.torn(), Refusal::TornRecord),
                &|| refuse_if(!tracker.long_enough(record.settings), Refusal::Tables),
            ],
            &RESTART_SWAPS,
        )?;
        self.fresh(record.settings, tracker);
        Ok(())
    }

    /// Whether a bucket can be recorded in or reported.
    fn bucket_fits(&self, tracker: &Tracker, bucket: usize, references: u64) -> bool {
        let threshold = u64::from(tracker.thresholds[bucket]);
        let zero = threshold == 0 && !self.is(Wrong::ZeroBucketThreshold);
        !zero
            && threshold >= tracker.record.threshold
            && threshold <= P
            && u128::from(tracker.counts[bucket]) <= 256 * u128::from(references)
    }

    fn record_in(&self, tracker: &mut Tracker, bucket: usize) {
        let threshold = tracker.record.threshold;
        let old = u64::from(tracker.thresholds[bucket]);
        tracker.counts[bucket] = scaled(tracker.counts[bucket], threshold, old) + 256;
        tracker.thresholds[bucket] = threshold as u32;
    }

    fn place_of(&self, list: &[u64], location: u64) -> Option<usize> {
        let mut found = None;
        for (place, other) in list.iter().enumerate() {
            if *other == location && (found.is_none() || self.is(Wrong::LastOccurrence)) {
                found = Some(place);
            }
        }
        found
    }

    fn bucket_of(&self, record: Record, place: u64) -> usize {
        let distance = u128::from(place) * u128::from(P) / u128::from(record.threshold);
        let bucket = distance / u128::from(record.settings.width);
        let far = u128::from(record.settings.buckets);
        bucket.min(far) as usize
    }

    pub fn refer(&self, tracker: &mut Tracker, location: u64) -> Result<Reply, Refusal> {
        self.unless_all_refused(Refusal::TornRecord)?;
        let record = tracker.record;
        self.judge_reference(tracker, location)?;
        if !self.samples(record, location) {
            tracker.record.references += 1;
            return Ok(Reply::Skipped);
        }
        let list = tracker.live_list().to_vec();
        let found = self.place_of(&list, location);
        let bucket = self.recorded_in(record, found);
        tracker.record.references += 1 + u64::from(self.is(Wrong::InventsReferences));
        tracker.record.sampled += 1 + u64::from(self.is(Wrong::InventsSampled));
        match found {
            Some(place) => Ok(self.again(tracker, location, list, place, bucket)),
            None => Ok(self.first(tracker, location, list, bucket)),
        }
    }

    /// The bucket for a sampled location that was found at this place, or nowhere.
    fn recorded_in(&self, record: Record, found: Option<usize>) -> usize {
        match found {
            Some(place) => {
                let counted = place as u64 + u64::from(self.is(Wrong::PlaceFromOne));
                self.bucket_of(record, counted)
            }
            None => record.settings.buckets as usize + 1,
        }
    }

    fn judge_reference(&self, tracker: &Tracker, location: u64) -> Result<(), Refusal> {
        let record = tracker.record;
        self.judge(
            [
                &|| self.judge_words(tracker),
                &|| refuse_if(record.torn(), Refusal::TornRecord),
                &|| refuse_if(!tracker.long_enough(record.settings), Refusal::Tables),
                &|| refuse_if(self.full(record, location), Refusal::Full),
                &|| self.judge_bucket(tracker, location),
            ],
            &REFER_SWAPS,
        )
    }

    fn full(&self, record: Record, location: u64) -> bool {
        let skipped = self.hash(record.settings.kind, location) >= record.threshold;
        let spared = self.is(Wrong::SkippedNeverFull) && skipped;
        record.references == MOST_REFERENCES && !spared
    }

    /// Judges the single bucket that a reference would record in.
    fn judge_bucket(&self, tracker: &Tracker, location: u64) -> Result<(), Refusal> {
        let record = tracker.record;
        if !self.samples(record, location) {
            return Ok(());
        }
        let found = self.place_of(tracker.live_list(), location);
        let bucket = self.recorded_in(record, found);
        let judged_by = record.references + u64::from(self.is(Wrong::BucketJudgedAfter));
        let fits = self.bucket_fits(tracker, bucket, judged_by);
        refuse_if(!fits, Refusal::TornBucket)
    }

    fn samples(&self, record: Record, location: u64) -> bool {
        if self.is(Wrong::SkipsEverything) {
            return false;
        }
        if self.is(Wrong::FeignsAfterFirst) && record.references > 0 {
            return false;
        }
        let hash = self.hash(record.settings.kind, location);
        let threshold = record.threshold;
        hash < threshold
            || (self.is(Wrong::NotAboveThreshold) && hash == threshold && threshold > 0)
    }

    fn again(
        &self,
        tracker: &mut Tracker,
        location: u64,
        list: Vec<u64>,
        place: usize,
        bucket: usize,
    ) -> Reply {
        self.record_in(tracker, bucket);
        let mut moved = vec![location];
        for (at, other) in list.iter().enumerate() {
            let leaves = at == place || (self.is(Wrong::BothOccurrences) && *other == location);
            if !leaves {
                moved.push(*other);
            }
        }
        if !self.is(Wrong::ListUntouched) {
            tracker.put_live_list(&moved);
        }
        Reply::Again(place as u64 + u64::from(self.is(Wrong::PlaceFromOne)))
    }

    fn first(&self, tracker: &mut Tracker, location: u64, list: Vec<u64>, bucket: usize) -> Reply {
        if !self.is(Wrong::FirstAfterLowering) {
            self.record_in(tracker, bucket);
        }
        let mut grown = vec![location];
        grown.extend(list);
        if grown.len() as u64 > tracker.record.settings.limit {
            grown = self.lowered(tracker, grown);
        }
        if self.is(Wrong::FirstAfterLowering) {
            self.record_in(tracker, bucket);
        }
        if !self.is(Wrong::ListUntouched) {
            tracker.put_live_list(&grown);
        }
        if self.is(Wrong::InventsLive) {
            tracker.record.live = tracker.record.settings.limit;
        }
        Reply::First
    }

    /// Lowers the threshold in the record, and returns the list after that.
    fn lowered(&self, tracker: &mut Tracker, list: Vec<u64>) -> Vec<u64> {
        let kind = tracker.record.settings.kind;
        let hashes: Vec<u64> = list.iter().map(|l| self.hash(kind, *l)).collect();
        let largest = *hashes.iter().max().expect("the list is not empty");
        let old = tracker.record.threshold;
        let lower = if self.is(Wrong::ThresholdMayRise) {
            largest.min(tracker.record.settings.start)
        } else {
            old.min(largest)
        };
        tracker.record.threshold = lower;
        if self.is(Wrong::EveryBucketRescaled) {
            for bucket in 0..tracker.needed() {
                let held = u64::from(tracker.thresholds[bucket]);
                tracker.counts[bucket] = scaled(tracker.counts[bucket], lower, held);
                tracker.thresholds[bucket] = lower as u32;
            }
        }
        let mut kept = Vec::new();
        let mut gone = false;
        for (place, location) in list.iter().enumerate() {
            let spared = (self.is(Wrong::OneEntryRemoved) && gone)
                || (self.is(Wrong::NewLocationStays) && place == 0);
            if hashes[place] < lower || spared {
                kept.push(*location);
            } else {
                gone = true;
            }
        }
        kept.truncate(tracker.record.settings.limit as usize);
        kept
    }

    /// One I/O: 10 comes first, then too few words.
    pub fn refer_span(
        &self,
        tracker: &mut Tracker,
        offset: u64,
        length: u32,
    ) -> Result<(), Refusal> {
        let torn = self.is(Wrong::SpanRecordBeforeWords) && tracker.record.torn();
        self.judge(
            [
                &|| self.judge_overrun(offset, length),
                &|| self.judge_words_first(tracker),
                &|| refuse_if(torn, Refusal::TornRecord),
            ],
            &SPAN_SWAPS,
        )?;
        self.span(tracker, offset, length)
    }

    fn judge_overrun(&self, offset: u64, length: u32) -> Result<(), Refusal> {
        let past = |bytes: u32| u128::from(offset) + u128::from(bytes) > u128::from(u64::MAX);
        let refused = match self.wrong {
            Some(Wrong::OverrunLetThrough | Wrong::OverrunAfterReference) => false,
            Some(Wrong::LastByteOverruns) => past(length),
            Some(Wrong::NothingOverruns) => past(length.wrapping_sub(1)),
            _ => overruns(offset, length),
        };
        refuse_if(refused, Refusal::Overrun)
    }

    /// An I/O that 10 does not refuse.
    fn span(&self, tracker: &mut Tracker, offset: u64, length: u32) -> Result<(), Refusal> {
        let blocks = self.blocks(offset, length);
        if self.is(Wrong::OverrunAfterReference) && overruns(offset, length) {
            self.refer_each(tracker, &blocks[..1])?;
            return Err(Refusal::Overrun);
        }
        self.refer_each(tracker, &blocks)
    }

    /// "One reference to each block from offset / 4,096 to (offset + length - 1) / 4,096, rising; length 0 still makes none."
    fn blocks(&self, offset: u64, length: u32) -> Vec<u64> {
        if length == 0 && !self.is(Wrong::SpanOfNothingCounts) {
            return Vec::new();
        }
        let bytes = u128::from(length.max(1)) - u128::from(!self.is(Wrong::LengthNotReduced));
        let first = offset / 4096;
        let last = ((u128::from(offset) + bytes) / 4096) as u64;
        let mut blocks: Vec<u64> = match self.wrong {
            Some(Wrong::FirstBlockOnly) => vec![first],
            Some(Wrong::LastBlockMissed) => (first..last).collect(),
            Some(Wrong::OneBlockMore) => (first..=last + 1).collect(),
            _ => (first..=last).collect(),
        };
        if self.is(Wrong::BlocksFalling) {
            blocks.reverse();
        }
        blocks
    }

    /// "References accepted before a Full or Torn inside an event stay counted; the one refused changes nothing and ends the event."
    fn refer_each(&self, tracker: &mut Tracker, blocks: &[u64]) -> Result<(), Refusal> {
        let before = self.spoils_refused().then(|| tracker.clone());
        let mut ending = Ok(());
        for block in blocks {
            let answer = self.refer(tracker, *block).map(|_| ());
            ending = ending.and(answer);
            if ending.is_err() && !self.is(Wrong::RefusedSpanGoesOn) {
                break;
            }
        }
        if let (Err(refusal), Some(before)) = (ending, before) {
            self.spoil_refused(tracker, before, refusal);
        }
        ending
    }

    fn spoils_refused(&self) -> bool {
        self.is(Wrong::RefusedReferenceCounted)
            || self.is(Wrong::AcceptedPartTakenBack)
            || self.is(Wrong::AcceptedPartUnrecorded)
    }

    fn spoil_refused(&self, tracker: &mut Tracker, before: Tracker, refusal: Refusal) {
        match self.wrong {
            Some(Wrong::AcceptedPartTakenBack) => *tracker = before,
            Some(Wrong::AcceptedPartUnrecorded) => tracker.record = before.record,
            _ if refusal == Refusal::TornRecord || refusal == Refusal::Tables => {}
            _ => tracker.record.references += 1,
        }
    }

    pub fn point(
        &self,
        tracker: &mut Tracker,
        believed: Shape,
        number: u64,
    ) -> Result<Point, Refusal> {
        self.point_judged(tracker, believed, number, &POINT_SWAPS)
    }

    fn point_judged(
        &self,
        tracker: &mut Tracker,
        believed: Shape,
        number: u64,
        swaps: &[Wrong],
    ) -> Result<Point, Refusal> {
        self.unless_all_refused(Refusal::TornRecord)?;
        let record = tracker.record;
        self.judge_point(tracker, believed, number, swaps)?;
        let rescaled = tracker.rescaled();
        let total = u64::try_from(self.total(tracker)).expect("a total is below 2^53");
        if self.is(Wrong::PointStores) {
            for (bucket, count) in rescaled.iter().enumerate() {
                tracker.counts[bucket] = *count;
                tracker.thresholds[bucket] = record.threshold as u32;
            }
        }
        let asked = if self.is(Wrong::SamePointAlways) {
            0
        } else {
            number
        };
        let hits: u64 = rescaled[..asked as usize].iter().sum();
        Ok(Point {
            size: number * record.settings.width,
            hits,
            misses: total.saturating_sub(hits),
            total,
        })
    }

    fn total(&self, tracker: &Tracker) -> u128 {
        let mut rescaled = tracker.rescaled();
        if self.is(Wrong::TotalWithoutFar) {
            rescaled[tracker.record.settings.buckets as usize] = 0;
        }
        rescaled.iter().map(|count| u128::from(*count)).sum()
    }

    fn judge_point(
        &self,
        tracker: &Tracker,
        believed: Shape,
        number: u64,
        swaps: &[Wrong],
    ) -> Result<(), Refusal> {
        let record = tracker.record;
        let settings = record.settings;
        self.judge(
            [
                &|| self.judge_words(tracker),
                &|| refuse_if(record.torn(), Refusal::TornRecord),
                &|| refuse_if(!tracker.buckets_long_enough(settings), Refusal::Tables),
                &|| self.judge_belief(tracker, believed),
                &|| refuse_if(self.beyond(settings, number), Refusal::Point),
                &|| self.judge_buckets(tracker),
                &|| refuse_if(self.total(tracker) == 0, Refusal::Empty),
            ],
            swaps,
        )
    }

    fn judge_belief(&self, tracker: &Tracker, believed: Shape) -> Result<(), Refusal> {
        if self.is(Wrong::BucketsBeforeStale) {
            self.judge_buckets(tracker)?;
        }
        let settings = tracker.record.settings;
        let real = Shape {
            buckets: settings.buckets,
            width: settings.width,
        };
        let stale = believed != real && !self.is(Wrong::BelievedShapeUnread);
        refuse_if(stale, Refusal::Stale)
    }

    fn beyond(&self, settings: Settings, number: u64) -> bool {
        number >= settings.buckets + u64::from(!self.is(Wrong::PointOfB))
    }

    fn judge_buckets(&self, tracker: &Tracker) -> Result<(), Refusal> {
        let references = tracker.record.references;
        let mut sum: u128 = 0;
        for bucket in 0..tracker.needed() {
            if !self.bucket_fits(tracker, bucket, references) {
                return Err(Refusal::TornBucket);
            }
            sum += u128::from(tracker.counts[bucket]);
        }
        let above = sum > 256 * u128::from(references) && !self.is(Wrong::SumUnjudged);
        refuse_if(above, Refusal::TornSum)
    }

    pub fn plot(
        &self,
        tracker: &mut Tracker,
        believed: Shape,
        number: u64,
    ) -> Result<(f64, f64), Refusal> {
        let point = self.point_judged(tracker, believed, number, &PLOT_SWAPS)?;
        Ok((nearest(point.size, 1), nearest(point.misses, point.total)))
    }
}

/// The double nearest to a quotient of numbers below 2^53, ties to even, computed with integers alone.
pub fn nearest(above: u64, below: u64) -> f64 {
    if above == 0 {
        return 0.0;
    }
    let mut exponent: i32 = 0;
    let (mut a, mut b) = (u128::from(above), u128::from(below));
    while a / b >= 1 << 53 {
        b *= 2;
        exponent += 1;
    }
    while a / b < 1 << 52 {
        a *= 2;
        exponent -= 1;
    }
    let (mut mantissa, rest) = (a / b, a % b);
    if rest * 2 > b || (rest * 2 == b && mantissa % 2 == 1) {
        mantissa += 1;
    }
    let mut value = mantissa as f64;
    while exponent < 0 {
        value /= 2.0;
        exponent += 1;
    }
    while exponent > 0 {
        value *= 2.0;
        exponent -= 1;
    }
    value
}

/// Trace events.
impl Event {
    pub fn bytes(self) -> Vec<u8> {
        let mut bytes = Vec::new();
        match self {
            Event::Location(location) => {
                bytes.push(1);
                bytes.extend(location.to_le_bytes());
            }
            Event::Span(offset, length) => {
                bytes.push(2);
                bytes.extend(offset.to_le_bytes());
                bytes.extend(length.to_le_bytes());
            }
            Event::Restart => bytes.push(3),
            Event::Setup(limit, start, width, buckets, kind) => {
                bytes.push(4);
                for number in [limit, start, width, buckets] {
                    bytes.extend(number.to_le_bytes());
                }
                bytes.push(kind);
            }
        }
        bytes
    }
}

/// The number that the bytes hold, lowest byte first.
fn number(bytes: &[u8]) -> u64 {
    let mut value = 0;
    for byte in bytes.iter().rev() {
        value = value * 256 + u64::from(*byte);
    }
    value
}

fn small(bytes: &[u8]) -> u32 {
    number(bytes) as u32
}

/// The length of an event. An unknown kind has none; a wrong model asks for it, and gets the longest.
fn length_of(kind: u8) -> usize {
    match kind {
        1 => 9,
        2 => 13,
        3 => 1,
        _ => 18,
    }
}

/// 10: "when the length is not 0 and offset + length - 1 passes 2^64 - 1".
fn overruns(offset: u64, length: u32) -> bool {
    length != 0 && u128::from(offset) + u128::from(length) - 1 > u128::from(u64::MAX)
}

/// Offset and length of a span event, as far as its bytes are there.
fn span_in(bytes: &[u8]) -> (u64, u32) {
    let part = |from: usize, to: usize| &bytes[from.min(bytes.len())..to.min(bytes.len())];
    (number(part(1, 9)), small(part(9, 13)))
}

/// Whether the bytes have a sample limit outside its range where a setup event has it.
fn limit_too_large(bytes: &[u8]) -> bool {
    bytes.len() >= 5 && small(&bytes[1..5]) > 8192
}

impl Model {
    pub fn read(&self, bytes: &[u8]) -> Result<(Event, usize), Refusal> {
        let kind = bytes.first().copied().unwrap_or(0);
        let length = length_of(kind);
        let settings_first = match self.wrong {
            Some(Wrong::SettingsBeforeShort) => kind == 4 && bytes.len() < length,
            Some(Wrong::SettingsBeforeKind) => kind > 4 && bytes.len() >= length,
            _ => false,
        };
        refuse_if(settings_first && limit_too_large(bytes), Refusal::Settings)?;
        let (offset, extent) = span_in(bytes);
        if self.is(Wrong::OverrunBeforeKind) && kind > 4 {
            self.judge_overrun(offset, extent)?;
        }
        self.judge(
            [
                &|| refuse_if(bytes.is_empty(), Refusal::Short),
                &|| refuse_if(kind == 0 || kind > 4, Refusal::Kind),
                &|| refuse_if(bytes.len() < length, Refusal::Short),
                &|| match kind {
                    2 => self.judge_overrun(offset, extent),
                    _ => Ok(()),
                },
            ],
            &READ_SWAPS,
        )?;
        self.unless_all_refused(Refusal::Short)?;
        let body = &bytes[1..length];
        let event = match bytes[0] {
            1 => Event::Location(number(body)),
            2 => Event::Span(number(&body[..8]), small(&body[8..])),
            3 => Event::Restart,
            _ => Event::Setup(
                small(&body[..4]),
                small(&body[4..8]),
                small(&body[8..12]),
                small(&body[12..16]),
                body[16],
            ),
        };
        Ok((event, length))
    }

    pub fn write(&self, event: Event, buffer: &mut [u8]) -> Result<usize, Refusal> {
        self.unless_all_refused(Refusal::Tables)?;
        let bytes = event.bytes();
        self.judge(
            [
                &|| match event {
                    Event::Span(offset, length) => self.judge_overrun(offset, length),
                    _ => Ok(()),
                },
                &|| refuse_if(buffer.len() < bytes.len(), Refusal::Tables),
            ],
            &WRITE_SWAPS,
        )?;
        for (place, byte) in bytes.iter().enumerate() {
            buffer[place] = *byte;
        }
        Ok(bytes.len())
    }

    pub fn apply(&self, tracker: &mut Tracker, event: Event) -> Result<(), Refusal> {
        match event {
            Event::Location(location) => self.refer(tracker, location).map(|_| ()),
            Event::Span(offset, length) => self.span(tracker, offset, length),
            Event::Restart => self.restart(tracker),
            Event::Setup(limit, start, width, buckets, kind) => {
                let given = Settings {
                    limit: limit.into(),
                    start: start.into(),
                    width: width.into(),
                    buckets: buckets.into(),
                    kind: kind.into(),
                };
                self.setup(given, tracker)
            }
        }
    }

    /// The first event of the bytes, for a record that has enough words.
    fn next_event(&self, tracker: &Tracker, bytes: &[u8]) -> Result<(Event, usize), Refusal> {
        let torn = self.is(Wrong::RecordBeforeReading) && tracker.record.torn();
        self.judge(
            [
                &|| self.judge_words_first(tracker),
                &|| self.read(bytes).map(|_| ()),
                &|| refuse_if(torn, Refusal::TornRecord),
            ],
            &EVENT_SWAPS,
        )?;
        self.read(bytes)
    }

    /// "2 before all else."
    fn judge_words_first(&self, tracker: &Tracker) -> Result<(), Refusal> {
        if self.is(Wrong::WordsJudgedByCallAlone) {
            return Ok(());
        }
        self.judge_words(tracker)
    }

    /// Applies the first event of the bytes, and gives how many bytes it has.
    pub fn apply_first(&self, tracker: &mut Tracker, bytes: &[u8]) -> Result<usize, Refusal> {
        let (event, length) = self.next_event(tracker, bytes)?;
        self.apply(tracker, event)?;
        Ok(match self.wrong {
            Some(Wrong::ApplyTakesNothing) => 0,
            Some(Wrong::ApplyTakesAll) => bytes.len(),
            _ => length,
        })
    }

    /// Applies event after event.
    pub fn feed(&self, tracker: &mut Tracker, bytes: &[u8]) -> Fed {
        let before = self.is(Wrong::FeedUndoes).then(|| tracker.clone());
        let mut fed = match self.judge_feeding(tracker, bytes) {
            Ok(()) => self.feed_events(tracker, bytes),
            Err(refusal) => Fed {
                taken: 0,
                ending: Err(refusal),
                inside: false,
            },
        };
        if let (Err(_), Some(before)) = (fed.ending, before) {
            *tracker = before;
        }
        if fed.ending.is_err() && self.is(Wrong::FeedForgetsTaken) {
            fed.taken = 0;
        }
        fed
    }

    /// "2 for the record's words, with no bytes too."
    fn judge_feeding(&self, tracker: &Tracker, bytes: &[u8]) -> Result<(), Refusal> {
        if self.is(Wrong::ReadingBeforeWords) && !bytes.is_empty() {
            return Ok(());
        }
        self.judge_words_first(tracker)
    }

    fn feed_events(&self, tracker: &mut Tracker, bytes: &[u8]) -> Fed {
        let (mut taken, mut inside) = (0, false);
        let ending = loop {
            if taken == bytes.len() {
                break Ok(false);
            }
            let (event, length) = match self.next_event(tracker, &bytes[taken..]) {
                Ok(next) => next,
                Err(Refusal::Short) if !self.is(Wrong::FeedRefusesIncomplete) => {
                    break Ok(!self.is(Wrong::FeedNeverIncomplete));
                }
                Err(refusal) => break Err(refusal),
            };
            let before = tracker.record.references;
            if let Err(refusal) = self.apply(tracker, event) {
                taken += length * usize::from(self.is(Wrong::FeedCountsRefused));
                inside = tracker.record.references != before;
                break Err(refusal);
            }
            taken += length;
        };
        Fed {
            taken,
            ending,
            inside,
        }
    }

    /// What the curve program prints.
    pub fn program(&self, input: &[u8]) -> String {
        let given = Settings {
            limit: 0,
            start: 0,
            width: 0,
            buckets: 0,
            kind: 1,
        };
        let mut tracker = Tracker::blank(1024, 1026, 1026);
        if let Err(refusal) = self.setup(given, &mut tracker) {
            return format!("refused {} at 0\n", refusal.number());
        }
        let mut at = 0;
        while at < input.len() {
            let mut taken = 0;
            let answer = self.read(&input[at..]).and_then(|(event, length)| {
                taken = length;
                self.apply(&mut tracker, event)
            });
            if let Err(refusal) = answer {
                if self.is(Wrong::RefusalAtNextEvent) {
                    at += taken;
                }
                return format!("refused {} at {}\n", refusal.number(), at);
            }
            at += taken;
        }
        self.printed(&mut tracker)
    }

    fn printed(&self, tracker: &mut Tracker) -> String {
        let record = tracker.record;
        let mut text = format!(
            "curve refs {} sampled {} threshold {} live {}\n",
            record.references, record.sampled, record.threshold, record.live
        );
        let shape = Shape {
            buckets: record.settings.buckets,
            width: record.settings.width,
        };
        for number in 0..=shape.buckets {
            match self.point(tracker, shape, number) {
                Ok(point) => {
                    let line = writeln!(text, "{} {} {}", point.size, point.misses, point.total);
                    line.expect("a string takes what is written");
                }
                Err(Refusal::Empty) => {
                    text.push_str("empty\n");
                    return text;
                }
                Err(refusal) => {
                    text.push_str(&format!("point {number} refused {}\n", refusal.number()));
                    return text;
                }
            }
        }
        text.push_str("end\n");
        text
    }
}
