//! States that a call may be given: whether a refusal holds in one, and changes that make it hold.

use crate::events::{some_event, span_to};
use crate::model::*;
use crate::published;
use crate::random::Random;
use crate::trackers::{damage_word, some_reference, some_settings, some_tracker, with_zeros};

/// Everything that a call may be given.
#[derive(Clone)]
pub struct State {
    pub tracker: Tracker,
    pub given: Settings,
    pub location: u64,
    pub believed: Shape,
    pub number: u64,
    pub bytes: Vec<u8>,
    /// How many spans of length 0 are fed before the bytes.
    pub before: usize,
    /// How many bytes there are to write an event into.
    pub room: usize,
}

// Whether a refusal holds, from document 01's words alone.

pub fn after_defaults(given: Settings) -> Settings {
    let [limit, start, width, buckets] = [
        (given.limit, 1024),
        (given.start, 1_677_721),
        (given.width, 1),
        (given.buckets, 256),
    ]
    .map(|(setting, default)| if setting == 0 { default } else { setting });
    Settings {
        limit,
        start,
        width,
        buckets,
        kind: given.kind,
    }
}

pub fn out_of_range(settings: Settings) -> bool {
    let outside = |setting: u64, most: u64| setting < 1 || setting > most;
    outside(settings.limit, 8192)
        || outside(settings.start, 16_777_216)
        || outside(settings.width, 4_294_967_295)
        || outside(settings.buckets, 10_000)
        || settings.kind > 1
}

pub fn bucket_tables_short(tracker: &Tracker, settings: Settings) -> bool {
    let needed = u128::from(settings.buckets) + 2;
    (tracker.counts.len() as u128) < needed || (tracker.thresholds.len() as u128) < needed
}

pub fn tables_short(tracker: &Tracker, settings: Settings) -> bool {
    (tracker.locations.len() as u64) < settings.limit || bucket_tables_short(tracker, settings)
}

pub fn record_torn(record: Record) -> bool {
    out_of_range(record.settings)
        || record.live > record.settings.limit
        || record.threshold > record.settings.start
        || record.sampled > record.references
        || record.references > 4_294_967_295
}

/// The bucket that a reference would be recorded in, if it is sampled.
pub fn recorded_in(state: &State) -> Option<usize> {
    let record = state.tracker.record;
    let settings = record.settings;
    let hash = match settings.kind {
        0 => state.location % P,
        _ => published::checked(state.location).expect("the published code agrees with itself"),
    };
    if hash >= record.threshold {
        return None;
    }
    let mut live = state.tracker.locations[..record.live as usize].iter();
    let bucket = match live.position(|other| *other == state.location) {
        Some(place) => (place as u64 * P / record.threshold / settings.width).min(settings.buckets),
        None => settings.buckets + 1,
    };
    Some(bucket as usize)
}

pub fn bucket_torn(tracker: &Tracker, bucket: usize) -> bool {
    let threshold = u64::from(tracker.thresholds[bucket]);
    threshold == 0
        || threshold < tracker.record.threshold
        || threshold > P
        || tracker.counts[bucket] > 256 * tracker.record.references
}

fn buckets(tracker: &Tracker) -> std::ops::Range<usize> {
    0..tracker.record.settings.buckets as usize + 2
}

pub fn buckets_torn(tracker: &Tracker) -> bool {
    let counts = tracker.counts[buckets(tracker)].iter();
    let sum: u128 = counts.map(|count| u128::from(*count)).sum();
    buckets(tracker).any(|bucket| bucket_torn(tracker, bucket))
        || sum > 256 * u128::from(tracker.record.references)
}

/// Whether every count is reported as 0. The divisor of a torn bucket may be 0; then the bucket counts as 0 if its product is 0.
pub fn nothing_reported(tracker: &Tracker) -> bool {
    buckets(tracker).all(|bucket| {
        let threshold = u128::from(tracker.record.threshold);
        let product = u128::from(tracker.counts[bucket]) * threshold;
        product == 0 || product < u128::from(tracker.thresholds[bucket])
    })
}

/// The length of an event of this kind. An unknown kind has none; here its event is incomplete if it is shorter than the longest.
pub fn length_of(kind: u8) -> usize {
    match kind {
        1 => 9,
        2 => 13,
        3 => 1,
        _ => 18,
    }
}

/// The settings of a setup event, as far as its bytes are there.
pub fn settings_in(bytes: &[u8]) -> Settings {
    let at = |place: usize| match bytes.get(place..place + 4) {
        Some(word) => u64::from(u32::from_le_bytes([word[0], word[1], word[2], word[3]])),
        None => 0,
    };
    Settings {
        limit: at(1),
        start: at(5),
        width: at(9),
        buckets: at(13),
        kind: bytes.get(17).map_or(0, |kind| u64::from(*kind)),
    }
}

/// Offset and length of a span event, as far as its bytes are there.
pub fn span_in(bytes: &[u8]) -> (u64, u32) {
    let mut body = [0; 12];
    for (place, byte) in bytes.iter().skip(1).take(12).enumerate() {
        body[place] = *byte;
    }
    let word = |at: usize| u32::from_le_bytes([body[at], body[at + 1], body[at + 2], body[at + 3]]);
    (u64::from(word(0)) | u64::from(word(4)) << 32, word(8))
}

/// Whether a span has a byte past the last one, which is number 2^64 - 1.
pub fn overrun(bytes: &[u8]) -> bool {
    let (offset, length) = span_in(bytes);
    u64::from(length) > 1 && u64::MAX - offset < u64::from(length) - 1
}

// Changes that make a refusal hold. Each is made in a state where no refusal holds that comes before it in an order.

/// A number above this one, often just above.
pub fn above(random: &mut Random, most: u64) -> u64 {
    if random.one_in(2) {
        most + 1
    } else {
        most.saturating_add(random.any().max(1))
    }
}

pub fn put_out_of_range(random: &mut Random, settings: &mut Settings) {
    match random.below(5) {
        0 => settings.limit = above(random, 8192),
        1 => settings.start = above(random, P),
        2 => settings.width = above(random, MOST_REFERENCES),
        3 => settings.buckets = above(random, 10_000),
        _ => settings.kind = above(random, 1),
    }
}

pub fn tear_record(random: &mut Random, record: &mut Record) {
    let settings = &mut record.settings;
    match random.below(9) {
        0 => settings.limit = 0,
        1 => settings.start = 0,
        2 => settings.width = 0,
        3 => settings.buckets = 0,
        4 => put_out_of_range(random, settings),
        5 => record.live = above(random, settings.limit),
        6 => record.threshold = above(random, settings.start),
        7 => record.sampled = above(random, record.references),
        _ => record.references = above(random, MOST_REFERENCES),
    }
}

/// A length that is too short, often by one.
fn fewer(random: &mut Random, needed: u64) -> usize {
    let length = match random.below(2) {
        0 => needed - 1,
        _ => random.below(needed),
    };
    length as usize
}

pub fn cut_a_bucket_table(random: &mut Random, tracker: &mut Tracker, settings: Settings) {
    let length = fewer(random, settings.buckets + 2);
    if random.one_in(2) {
        tracker.counts.truncate(length);
    } else {
        tracker.thresholds.truncate(length);
    }
}

pub fn cut_a_table(random: &mut Random, tracker: &mut Tracker, settings: Settings) {
    if random.one_in(3) {
        let length = fewer(random, settings.limit);
        tracker.locations.truncate(length);
    } else {
        cut_a_bucket_table(random, tracker, settings);
    }
}

fn tear_bucket(random: &mut Random, tracker: &mut Tracker, bucket: usize) {
    let record = tracker.record;
    let threshold = match random.below(4) {
        0 => 0,
        1 if record.threshold > 1 => random.between(1, record.threshold - 1),
        2 => above(random, P).min(u64::from(u32::MAX)),
        _ => {
            tracker.counts[bucket] = above(random, 256 * record.references);
            return;
        }
    };
    tracker.thresholds[bucket] = threshold as u32;
}

/// A reference that would not be sampled is replaced by one to location 0, whose hash is 0 for either kind, in its event too.
pub fn tear_recorded_in(random: &mut Random, state: &mut State) {
    if recorded_in(state).is_none() {
        state.location = 0;
        if let [1 | 2, body @ ..] = &mut state.bytes[..] {
            body[..8].fill(0);
        }
        let record = &mut state.tracker.record;
        record.threshold = record.threshold.max(1);
    }
    let bucket = recorded_in(state).expect("the hash is below the threshold");
    tear_bucket(random, &mut state.tracker, bucket);
}

/// Sometimes only the sum is too large.
pub fn tear_buckets(random: &mut Random, state: &mut State) {
    let tracker = &mut state.tracker;
    let most = 256 * tracker.record.references;
    let bucket = random.below(tracker.record.settings.buckets + 1) as usize;
    if most > 0 && random.one_in(4) {
        tracker.counts[bucket] = most;
        tracker.counts[bucket + 1] = tracker.counts[bucket + 1].max(1);
    } else {
        let bucket = bucket + random.below(2) as usize;
        tear_bucket(random, tracker, bucket);
    }
}

/// No counts at all, a threshold of 0, or a threshold of 1 with bucket thresholds that are larger than the counts.
pub fn report_nothing(random: &mut Random, state: &mut State) {
    let tracker = &mut state.tracker;
    let needed = buckets(tracker);
    match random.below(3) {
        0 => tracker.counts[needed].fill(0),
        1 => tracker.record.threshold = 0,
        _ => {
            tracker.record.threshold = 1;
            for bucket in needed {
                tracker.thresholds[bucket] = P as u32;
                tracker.counts[bucket] %= P;
            }
        }
    }
}

/// Sometimes a longer curve, of which the number is a point.
pub fn believe_another(random: &mut Random, state: &mut State) {
    let settings = state.tracker.record.settings;
    let believed = &mut state.believed;
    match random.below(6) {
        0 => believed.buckets = 0,
        1 => believed.buckets = settings.buckets - 1,
        2 => believed.buckets = above(random, settings.buckets).max(state.number),
        3 => believed.width = 0,
        4 => believed.width = settings.width - 1,
        _ => believed.width = above(random, settings.width),
    }
}

/// Moves a span so far that its last byte is past 2^64 - 1, often by one. The lowest byte of the length is at least 2 then, so that an
/// event that is cut behind it may still overrun.
pub fn put_overrun(random: &mut Random, state: &mut State) {
    let (_, length) = span_in(&state.bytes);
    let length = if length & 0xff < 2 {
        length | 2
    } else {
        length
    };
    let past = match random.below(2) {
        0 => 1,
        _ => random.between(1, u64::from(length) - 1),
    };
    let offset = u64::MAX - u64::from(length) + 1 + past;
    state.bytes[1..13].copy_from_slice(&Event::Span(offset, length).bytes()[1..]);
}

/// Cuts the first event, often to its kind byte. An event of a single byte is replaced by a longer one first.
pub fn cut_event(random: &mut Random, state: &mut State) {
    if state.bytes[0] == 3 {
        state.bytes = Event::Location(random.any()).bytes();
    }
    let most = match random.below(3) {
        0 => 1,
        _ => length_of(state.bytes[0]) as u64 - 1,
    };
    state.bytes.truncate(random.between(1, most) as usize);
}

fn put_word(bytes: &mut [u8], place: usize, number: u64) {
    let word = number.min(u64::from(u32::MAX)) as u32;
    bytes[place..place + 4].copy_from_slice(&word.to_le_bytes());
}

pub fn put_event_out_of_range(random: &mut Random, bytes: &mut [u8]) {
    match random.below(4) {
        0 => put_word(bytes, 1, above(random, 8192)),
        1 => put_word(bytes, 5, above(random, P)),
        2 => put_word(bytes, 13, above(random, 10_000)),
        _ => bytes[17] = random.between(2, 255) as u8,
    }
}

/// A sample limit or a number of buckets that is in range, but too large for the program's tables.
pub fn outgrow_program(random: &mut Random, state: &mut State) {
    let (place, most) = random.pick(&[(1, 8192), (13, 10_000)]);
    let number = match random.below(3) {
        0 => 1025,
        1 => most,
        _ => random.between(1025, most),
    };
    put_word(&mut state.bytes, place, number);
}

// States that are often accepted.

pub fn some_state(random: &mut Random) -> State {
    let tracker = some_tracker(random);
    let settings = tracker.record.settings;
    let mut bytes = some_event(random).bytes();
    if random.one_in(2) {
        bytes.extend(some_event(random).bytes());
    }
    State {
        given: settings,
        location: some_reference(random, &tracker),
        believed: Shape {
            buckets: settings.buckets,
            width: settings.width,
        },
        number: random.between(0, settings.buckets),
        bytes,
        before: random.below(3) as usize,
        room: random.between(18, 24) as usize,
        tracker,
    }
}

/// An event that refers to the state's location.
pub fn some_reference_event(random: &mut Random) -> State {
    let mut state = some_state(random);
    state.bytes = Event::Location(state.location).bytes();
    state
}

/// An event that is no span.
pub fn some_other_event(random: &mut Random) -> State {
    let mut state = some_state(random);
    while state.bytes[0] == 2 {
        state.bytes = some_event(random).bytes();
    }
    state
}

/// A span whose first block is the state's location. Of a record that has almost all references it is the only one, so that a span
/// whose first reference is accepted is accepted.
pub fn some_span_event(random: &mut Random) -> State {
    let mut state = some_state(random);
    state.location %= 1 << 50;
    let event = match span_to(random, state.location) {
        Event::Span(offset, length) if state.tracker.record.references > MOST_REFERENCES - 40 => {
            Event::Span(offset, length.min(4096 - (offset % 4096) as u32))
        }
        event => event,
    };
    state.bytes = event.bytes();
    state
}

/// An event that stands for no call.
pub fn some_empty_span(random: &mut Random) -> State {
    State {
        bytes: Event::Span(random.any(), 0).bytes(),
        ..some_state(random)
    }
}

pub fn some_restart_event(random: &mut Random) -> State {
    State {
        bytes: Event::Restart.bytes(),
        ..some_state(random)
    }
}

/// Settings with tables that are long enough, and a record that setup does not judge.
pub fn some_setup(random: &mut Random) -> State {
    let mut state = some_state(random);
    let given = some_settings(random);
    state.given = with_zeros(random, given);
    let settings = after_defaults(state.given);
    let tracker = &mut state.tracker;
    let mut length = |needed: u64| (needed + random.below(3)) as usize;
    tracker.locations.resize(length(settings.limit), 7);
    tracker.counts.resize(length(settings.buckets + 2), 8);
    tracker.thresholds.resize(length(settings.buckets + 2), 9);
    damage_word(random, &mut tracker.record);
    state
}

/// A setup event with tables that are long enough.
pub fn some_setup_event(random: &mut Random) -> State {
    let state = some_setup(random);
    let given = state.given;
    let [limit, start, width, buckets] =
        [given.limit, given.start, given.width, given.buckets].map(|word| word as u32);
    State {
        bytes: Event::Setup(limit, start, width, buckets, given.kind as u8).bytes(),
        ..state
    }
}

/// A setup event that the program accepts.
pub fn some_program_event(random: &mut Random) -> State {
    let mut word = |most: u64| random.between(0, most) as u32;
    let event = Event::Setup(
        word(1024),
        word(P),
        word(MOST_REFERENCES),
        word(1024),
        word(1) as u8,
    );
    State {
        bytes: event.bytes(),
        ..some_state(random)
    }
}
