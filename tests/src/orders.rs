//! The order of refusals. Document 01 lists the refusals of each call in order, document 02 adds 10, and the header those for the words
//! of a record; if several hold, the first is the answer. Each pair of neighbours is tried in states where both hold and none before them does. If each
//! is answered before the next, the order is right.

use crate::calls::{same, same_bytes};
use crate::driver::{self, lent_bytes, number_of, Driver};
use crate::events::unknown_kind;
use crate::model::*;
use crate::program::printed;
use crate::random::Random;
use crate::states::*;
use crate::tally::Tally;
use crate::traces::same as same_text;
use crate::trackers::cut_words;
use std::fmt::Debug;

/// A refusal: its number, the model's names for it, whether it holds in a state, and a change that makes it hold.
struct Rule {
    number: u64,
    named: &'static [Refusal],
    holds: fn(&State) -> bool,
    make: fn(&mut Random, &mut State),
}

// The refusals, in document 01's words.

/// 1: a setting outside its range.
const SETTINGS: Rule = Rule {
    number: 1,
    named: &[Refusal::Settings],
    holds: |state| out_of_range(after_defaults(state.given)),
    make: |random, state| put_out_of_range(random, &mut state.given),
};

/// 2: a lent table shorter than needed, for the settings of a setup.
const SETUP_TABLES: Rule = Rule {
    number: 2,
    named: &[Refusal::Tables],
    holds: |state| tables_short(&state.tracker, after_defaults(state.given)),
    make: |random, state| cut_a_table(random, &mut state.tracker, after_defaults(state.given)),
};

/// 2: the record has fewer words than it needs.
const FEW_WORDS: Rule = Rule {
    number: 2,
    named: &[Refusal::Words],
    holds: |state| state.tracker.words < 9,
    make: |random, state| cut_words(random, &mut state.tracker),
};

/// 3: "record: a setting out of range, live above S, T above T0, sampled above references, references above 2^32 - 1".
const TORN_RECORD: Rule = Rule {
    number: 3,
    named: &[Refusal::TornRecord],
    holds: |state| record_torn(state.tracker.record),
    make: |random, state| tear_record(random, &mut state.tracker.record),
};

/// 2: a lent table shorter than needed, where all three are lent.
const TABLES: Rule = Rule {
    number: 2,
    named: &[Refusal::Tables],
    holds: |state| tables_short(&state.tracker, state.tracker.record.settings),
    make: |random, state| {
        let settings = state.tracker.record.settings;
        cut_a_table(random, &mut state.tracker, settings);
    },
};

/// 2: a lent table shorter than needed, where only the two of the buckets are lent.
const BUCKET_TABLES: Rule = Rule {
    number: 2,
    named: &[Refusal::Tables],
    holds: |state| bucket_tables_short(&state.tracker, state.tracker.record.settings),
    make: |random, state| {
        let settings = state.tracker.record.settings;
        cut_a_bucket_table(random, &mut state.tracker, settings);
    },
};

/// 4: references already 2^32 - 1.
const FULL: Rule = Rule {
    number: 4,
    named: &[Refusal::Full],
    holds: |state| state.tracker.record.references == MOST_REFERENCES,
    make: |_, state| state.tracker.record.references = MOST_REFERENCES,
};

/// 3: "Bucket: threshold 0, below T or above P, or count above 256·references", for the bucket that a reference would record in.
const TORN_BUCKET: Rule = Rule {
    number: 3,
    named: &[Refusal::TornBucket],
    holds: |state| match recorded_in(state) {
        Some(bucket) => bucket_torn(&state.tracker, bucket),
        None => false,
    },
    make: tear_recorded_in,
};

/// 5: believed B or W differs from the tracker's.
const STALE: Rule = Rule {
    number: 5,
    named: &[Refusal::Stale],
    holds: |state| {
        let settings = state.tracker.record.settings;
        state.believed.buckets != settings.buckets || state.believed.width != settings.width
    },
    make: believe_another,
};

/// 6: point number above B.
const POINT_ABOVE: Rule = Rule {
    number: 6,
    named: &[Refusal::Point],
    holds: |state| state.number > state.tracker.record.settings.buckets,
    make: |random, state| state.number = above(random, state.tracker.record.settings.buckets),
};

/// 3: any bucket torn. "Report also: raw counts sum above 256·references."
const TORN_BUCKETS: Rule = Rule {
    number: 3,
    named: &[Refusal::TornBucket, Refusal::TornSum],
    holds: |state| buckets_torn(&state.tracker),
    make: tear_buckets,
};

/// 9: total is 0.
const EMPTY: Rule = Rule {
    number: 9,
    named: &[Refusal::Empty],
    holds: |state| nothing_reported(&state.tracker),
    make: report_nothing,
};

/// 8: kind byte 0 or above 4.
const KIND: Rule = Rule {
    number: 8,
    named: &[Refusal::Kind],
    holds: |state| state.bytes[0] == 0 || state.bytes[0] > 4,
    make: |random, state| state.bytes[0] = unknown_kind(random),
};

/// 7: event incomplete.
const SHORT: Rule = Rule {
    number: 7,
    named: &[Refusal::Short],
    holds: |state| state.bytes.len() < length_of(state.bytes[0]),
    make: cut_event,
};

/// 10: "when the length is not 0 and offset + length - 1 passes 2^64 - 1".
const OVERRUN: Rule = Rule {
    number: 10,
    named: &[Refusal::Overrun],
    holds: |state| overrun(&state.bytes),
    make: put_overrun,
};

/// 2: too few bytes for the event.
const ROOM: Rule = Rule {
    number: 2,
    named: &[Refusal::Tables],
    holds: |state| state.room < length_of(state.bytes[0]),
    make: |random, state| state.room = random.below(length_of(state.bytes[0]) as u64) as usize,
};

/// 7: no bytes at all.
const NO_BYTES: Rule = Rule {
    number: 7,
    named: &[Refusal::Short],
    holds: |state| state.bytes.is_empty(),
    make: |_, state| state.bytes.clear(),
};

/// 1: a setting outside its range, in the bytes of a setup event.
const EVENT_SETTINGS: Rule = Rule {
    number: 1,
    named: &[Refusal::Settings],
    holds: |state| out_of_range(after_defaults(settings_in(&state.bytes))),
    make: |random, state| put_event_out_of_range(random, &mut state.bytes),
};

/// 2: a lent table shorter than needed, for the settings of a setup event.
const EVENT_TABLES: Rule = Rule {
    number: 2,
    named: &[Refusal::Tables],
    holds: |state| tables_short(&state.tracker, after_defaults(settings_in(&state.bytes))),
    make: |random, state| {
        let settings = after_defaults(settings_in(&state.bytes));
        cut_a_table(random, &mut state.tracker, settings);
    },
};

/// 2: a lent table shorter than needed. The program's "hold 1,024 locations and 1,026 buckets".
const PROGRAM_TABLES: Rule = Rule {
    number: 2,
    named: &[Refusal::Tables],
    holds: |state| {
        let settings = after_defaults(settings_in(&state.bytes));
        settings.limit > 1024 || settings.buckets > 1024
    },
    make: outgrow_program,
};

// The orders, in the documents' words, and in the header's: too few words are refused "2 before all else", by setup "only after 1", by
// an I/O "only after 10".

/// "Setup: 1, 2."
const SETUP: &[Rule] = &[SETTINGS, SETUP_TABLES];
const SETUP_OF_WORDS: &[Rule] = &[SETTINGS, FEW_WORDS];

/// "A restart with the same settings (kind 3): 3 for the record, 2."
const RESTART: &[Rule] = &[FEW_WORDS, TORN_RECORD, TABLES];

/// "A reference: 3 for the record, 2, 4, then 3 for the single bucket it would record in."
const REFER: &[Rule] = &[FEW_WORDS, TORN_RECORD, TABLES, FULL, TORN_BUCKET];

/// 10 "before any of its references".
const REFER_SPAN: &[Rule] = &[OVERRUN, FEW_WORDS, TORN_RECORD, TABLES, FULL, TORN_BUCKET];

/// "A point: 3 for the record, 2, 5, 6, 3 for the buckets, 9."
const POINT: &[Rule] = &[
    FEW_WORDS,
    TORN_RECORD,
    BUCKET_TABLES,
    STALE,
    POINT_ABOVE,
    TORN_BUCKETS,
    EMPTY,
];

/// "Reading: 7 if empty, 8, 7." The first two never hold together: without bytes there is no kind byte. `few_bytes` tries the first.
const READ: &[Rule] = &[KIND, SHORT];

/// "In reading it comes after a complete body [..], in writing before 2." What is there of an incomplete body can be enough to see that
/// the span will overrun.
const READ_SPAN: &[Rule] = &[KIND, SHORT, OVERRUN];
const WRITE_SPAN: &[Rule] = &[OVERRUN, ROOM];

// Applying: "2 for the record's words; those of rockgingham_read; those of the call that the event stands for."
const APPLY_NOTHING: &[Rule] = &[FEW_WORDS, NO_BYTES];
const APPLY_REFERENCE: &[Rule] = &[
    FEW_WORDS,
    KIND,
    SHORT,
    TORN_RECORD,
    TABLES,
    FULL,
    TORN_BUCKET,
];
const APPLY_SPAN: &[Rule] = &[
    FEW_WORDS,
    KIND,
    SHORT,
    OVERRUN,
    TORN_RECORD,
    TABLES,
    FULL,
    TORN_BUCKET,
];
const APPLY_RESTART: &[Rule] = &[FEW_WORDS, KIND, TORN_RECORD, TABLES];
const APPLY_SETUP: &[Rule] = &[FEW_WORDS, KIND, SHORT, EVENT_SETTINGS, EVENT_TABLES];

// Feeding: "2 for the record's words [..]; 8; 10; those of the call that an event stands for." An incomplete event is not refused.
const FEED_REFERENCE: &[Rule] = &[FEW_WORDS, KIND, TORN_RECORD, TABLES, FULL, TORN_BUCKET];
const FEED_SPAN: &[Rule] = &[
    FEW_WORDS,
    KIND,
    OVERRUN,
    TORN_RECORD,
    TABLES,
    FULL,
    TORN_BUCKET,
];
const FEED_RESTART: &[Rule] = &[FEW_WORDS, KIND, TORN_RECORD, TABLES];
const FEED_SETUP: &[Rule] = &[FEW_WORDS, KIND, EVENT_SETTINGS, EVENT_TABLES];

/// A setup event in the program: "A kind-4 event is read without judging its settings; setup does that." No other event can be refused
/// by its call there: the record is never torn, and is full only after 2^32 - 1 references.
const EVENT: &[Rule] = &[KIND, SHORT, EVENT_SETTINGS, PROGRAM_TABLES];

/// A span in the program is refused only in reading.
const EVENT_SPAN: &[Rule] = READ_SPAN;

/// A call: its refusals in order; for each pair of neighbours, the wrong model that swaps them; a state that is often accepted; and a
/// check that the library or the program gives this refusal, or none, as the model does.
struct Call {
    name: &'static str,
    rules: &'static [Rule],
    swaps: &'static [Wrong],
    state: fn(&mut Random) -> State,
    check: fn(&Model, &State, Option<&Rule>) -> Result<(), String>,
}

const LIBRARY: &[Call] = &[
    Call {
        name: "setup",
        rules: SETUP,
        swaps: &SETUP_SWAPS,
        state: some_setup,
        check: check_setup,
    },
    Call {
        name: "setup",
        rules: SETUP_OF_WORDS,
        swaps: &[Wrong::WordsBeforeSettings],
        state: some_setup,
        check: check_setup,
    },
    Call {
        name: "restart",
        rules: RESTART,
        swaps: &RESTART_SWAPS,
        state: some_state,
        check: |model, state, rule| {
            let modelled = |tracker: &mut Tracker| {
                let answer = model.restart(tracker);
                (answer.err(), number_of(&answer))
            };
            check_library(state, rule, modelled, |driver| driver.restart())
        },
    },
    Call {
        name: "refer",
        rules: REFER,
        swaps: &REFER_SWAPS,
        state: some_state,
        check: |model, state, rule| {
            let modelled = |tracker: &mut Tracker| {
                let answer = model.refer(tracker, state.location);
                (answer.err(), driver::answered(&answer))
            };
            check_library(state, rule, modelled, |driver| driver.refer(state.location))
        },
    },
    Call {
        name: "refer_span",
        rules: REFER_SPAN,
        swaps: &[
            Wrong::WordsBeforeOverrun,
            Wrong::SpanRecordBeforeWords,
            Wrong::ReferTablesBeforeRecord,
            Wrong::FullBeforeTables,
            Wrong::BucketBeforeFull,
        ],
        state: some_span_event,
        check: |model, state, rule| {
            let (offset, length) = span_in(&state.bytes);
            let modelled = |tracker: &mut Tracker| {
                let answer = model.refer_span(tracker, offset, length);
                (answer.err(), number_of(&answer))
            };
            check_library(state, rule, modelled, |driver| {
                driver.refer_span(offset, length)
            })
        },
    },
    Call {
        name: "point",
        rules: POINT,
        swaps: &POINT_SWAPS,
        state: some_state,
        check: |model, state, rule| {
            let (believed, number) = (state.believed, state.number);
            let modelled = |tracker: &mut Tracker| {
                let answer = model.point(tracker, believed, number);
                (answer.err(), driver::pointed(&answer))
            };
            check_library(state, rule, modelled, |driver| {
                driver.point(believed, number)
            })
        },
    },
    Call {
        name: "plot",
        rules: POINT,
        swaps: &PLOT_SWAPS,
        state: some_state,
        check: |model, state, rule| {
            let (believed, number) = (state.believed, state.number);
            let modelled = |tracker: &mut Tracker| {
                let answer = model.plot(tracker, believed, number);
                (answer.err(), driver::plotted(&answer))
            };
            check_library(state, rule, modelled, |driver| {
                driver.plot(believed, number)
            })
        },
    },
    Call {
        name: "apply nothing",
        rules: APPLY_NOTHING,
        swaps: &[Wrong::ReadingBeforeWords],
        state: some_empty_span,
        check: check_apply,
    },
    Call {
        name: "apply a reference",
        rules: APPLY_REFERENCE,
        swaps: &[
            Wrong::ReadingBeforeWords,
            Wrong::ShortBeforeKind,
            Wrong::RecordBeforeReading,
            Wrong::ReferTablesBeforeRecord,
            Wrong::FullBeforeTables,
            Wrong::BucketBeforeFull,
        ],
        state: some_reference_event,
        check: check_apply,
    },
    Call {
        name: "apply a span",
        rules: APPLY_SPAN,
        swaps: &[
            Wrong::ReadingBeforeWords,
            Wrong::ShortBeforeKind,
            Wrong::OverrunBeforeShort,
            Wrong::OverrunAfterReference,
            Wrong::ReferTablesBeforeRecord,
            Wrong::FullBeforeTables,
            Wrong::BucketBeforeFull,
        ],
        state: some_span_event,
        check: check_apply,
    },
    Call {
        name: "apply a restart",
        rules: APPLY_RESTART,
        swaps: &[
            Wrong::ReadingBeforeWords,
            Wrong::RecordBeforeReading,
            Wrong::RestartTablesBeforeRecord,
        ],
        state: some_restart_event,
        check: check_apply,
    },
    Call {
        name: "apply a setup",
        rules: APPLY_SETUP,
        swaps: &[
            Wrong::ReadingBeforeWords,
            Wrong::ShortBeforeKind,
            Wrong::SettingsBeforeShort,
            Wrong::TablesBeforeSettings,
        ],
        state: some_setup_event,
        check: check_apply,
    },
    Call {
        name: "feed a reference",
        rules: FEED_REFERENCE,
        swaps: &[
            Wrong::ReadingBeforeWords,
            Wrong::RecordBeforeReading,
            Wrong::ReferTablesBeforeRecord,
            Wrong::FullBeforeTables,
            Wrong::BucketBeforeFull,
        ],
        state: some_reference_event,
        check: check_feed,
    },
    Call {
        name: "feed a span",
        rules: FEED_SPAN,
        swaps: &[
            Wrong::ReadingBeforeWords,
            Wrong::OverrunBeforeKind,
            Wrong::OverrunAfterReference,
            Wrong::ReferTablesBeforeRecord,
            Wrong::FullBeforeTables,
            Wrong::BucketBeforeFull,
        ],
        state: some_span_event,
        check: check_feed,
    },
    Call {
        name: "feed a restart",
        rules: FEED_RESTART,
        swaps: &[
            Wrong::ReadingBeforeWords,
            Wrong::RecordBeforeReading,
            Wrong::RestartTablesBeforeRecord,
        ],
        state: some_restart_event,
        check: check_feed,
    },
    Call {
        name: "feed a setup",
        rules: FEED_SETUP,
        swaps: &[
            Wrong::ReadingBeforeWords,
            Wrong::SettingsBeforeKind,
            Wrong::TablesBeforeSettings,
        ],
        state: some_setup_event,
        check: check_feed,
    },
    Call {
        name: "read",
        rules: READ,
        swaps: &[Wrong::ShortBeforeKind],
        state: some_other_event,
        check: check_read,
    },
    Call {
        name: "read a span",
        rules: READ_SPAN,
        swaps: &[Wrong::ShortBeforeKind, Wrong::OverrunBeforeShort],
        state: some_span_event,
        check: check_read,
    },
    Call {
        name: "write a span",
        rules: WRITE_SPAN,
        swaps: &WRITE_SWAPS,
        state: some_span_event,
        check: check_write_span,
    },
];

const PROGRAM: &[Call] = &[
    Call {
        name: "program",
        rules: EVENT,
        swaps: &[
            Wrong::ShortBeforeKind,
            Wrong::SettingsBeforeShort,
            Wrong::TablesBeforeSettings,
        ],
        state: some_program_event,
        check: check_program,
    },
    Call {
        name: "program, a span",
        rules: EVENT_SPAN,
        swaps: &[Wrong::ShortBeforeKind, Wrong::OverrunBeforeShort],
        state: some_span_event,
        check: check_program,
    },
];

/// Which of the refusals holds first.
fn first_held(rules: &[Rule], state: &State) -> Option<usize> {
    rules.iter().position(|rule| (rule.holds)(state))
}

/// The most draws for one state. More than one is needed if a change undoes another, or if the state is refused without any.
const DRAWS: usize = 200;

/// Three states, each made from the one before: in the first no refusal holds; in the next the second of two neighbours holds,
/// and none before it; in the last both do, and none before them. In half of the draws later refusals may hold too.
fn drawn(call: &Call, first: usize, random: &mut Random) -> Result<[State; 3], String> {
    let (rules, second) = (call.rules, first + 1);
    for _ in 0..DRAWS {
        let none = (call.state)(random);
        let mut one = none.clone();
        if random.one_in(2) {
            for rule in rules[second + 1..].iter().rev() {
                (rule.make)(random, &mut one);
            }
        }
        (rules[second].make)(random, &mut one);
        let mut both = one.clone();
        (rules[first].make)(random, &mut both);
        if first_held(rules, &none).is_none()
            && first_held(rules, &one) == Some(second)
            && first_held(rules, &both) == Some(first)
            && (rules[second].holds)(&both)
        {
            return Ok([none, one, both]);
        }
    }
    Err("the two never held at once".to_string())
}

/// Checks that the model's answer is this refusal, or none.
fn check_refusal(refusal: Option<Refusal>, rule: Option<&Rule>) -> Result<(), String> {
    match (refusal, rule) {
        (None, None) => Ok(()),
        (Some(refusal), Some(rule))
            if refusal.number() == rule.number && rule.named.contains(&refusal) =>
        {
            Ok(())
        }
        (_, Some(rule)) => Err(format!("answered {refusal:?}, not {:?}", rule.named)),
        (Some(refusal), None) => Err(format!("{refusal:?} where no refusal holds")),
    }
}

/// `modelled` returns the model's refusal and all that the call must give; `called` calls the library. A refusal must change nothing.
fn check_library<C: PartialEq + Debug>(
    state: &State,
    rule: Option<&Rule>,
    modelled: impl FnOnce(&mut Tracker) -> (Option<Refusal>, C),
    called: impl FnOnce(&mut Driver) -> C,
) -> Result<(), String> {
    let mut tracker = state.tracker.clone();
    let mut driver = Driver::holding(&tracker);
    let (refusal, expected) = modelled(&mut tracker);
    same(called(&mut driver), expected)?;
    check_refusal(refusal, rule)?;
    driver.compare(&tracker)?;
    if rule.is_some() {
        driver.compare(&state.tracker)?;
    }
    Ok(())
}

fn check_setup(model: &Model, state: &State, rule: Option<&Rule>) -> Result<(), String> {
    let modelled = |tracker: &mut Tracker| {
        let answer = model.setup(state.given, tracker);
        (answer.err(), number_of(&answer))
    };
    check_library(state, rule, modelled, |driver| driver.setup(state.given))
}

fn check_apply(model: &Model, state: &State, rule: Option<&Rule>) -> Result<(), String> {
    let modelled = |tracker: &mut Tracker| {
        let answer = model.apply_first(tracker, &state.bytes);
        (answer.err(), driver::applied(&answer))
    };
    let lent = lent_bytes(&state.bytes);
    check_library(state, rule, modelled, |driver| driver.apply(&lent))?;
    same_bytes(&lent, &state.bytes)
}

/// The event is fed after some spans of length 0, which change nothing and are taken.
fn check_feed(model: &Model, state: &State, rule: Option<&Rule>) -> Result<(), String> {
    let mut bytes = Event::Span(7, 0).bytes().repeat(state.before);
    bytes.extend(&state.bytes);
    let modelled = |tracker: &mut Tracker| {
        let fed = model.feed(tracker, &bytes);
        (fed.ending.err(), driver::fed(&fed))
    };
    let lent = lent_bytes(&bytes);
    check_library(state, rule, modelled, |driver| driver.feed(&lent))?;
    same_bytes(&lent, &bytes)
}

fn check_read(model: &Model, state: &State, rule: Option<&Rule>) -> Result<(), String> {
    let answer = model.read(&state.bytes);
    let lent = lent_bytes(&state.bytes);
    same(driver::read(&lent), driver::got(&answer))?;
    same_bytes(&lent, &state.bytes)?;
    check_refusal(answer.err(), rule)
}

/// The span of the bytes, written into a buffer.
fn check_write_span(model: &Model, state: &State, rule: Option<&Rule>) -> Result<(), String> {
    let (offset, length) = span_in(&state.bytes);
    let mut buffer = vec![0x77; state.room];
    let mut lent = lent_bytes(&buffer);
    let answer = model.write(Event::Span(offset, length), &mut buffer);
    let given = driver::write(Event::Span(offset, length), &mut lent);
    same(given, driver::written(&answer))?;
    same_bytes(&lent, &buffer)?;
    check_refusal(answer.err(), rule)
}

/// The program, given the event after a few references.
fn check_program(model: &Model, state: &State, rule: Option<&Rule>) -> Result<(), String> {
    let mut input = Vec::new();
    for location in state.tracker.locations.iter().take(3) {
        input.extend(Event::Location(*location).bytes());
    }
    let at = input.len();
    input.extend(&state.bytes);
    let text = printed(&input)?;
    same_text(&text, &model.program(&input))?;
    match rule {
        Some(rule) => same_text(&text, &format!("refused {} at {at}\n", rule.number)),
        None if text.starts_with("curve ") => Ok(()),
        None => Err(format!("printed '{text}' where no refusal holds")),
    }
}

fn pair_name(rules: &[Rule], first: usize) -> String {
    let (one, next) = (rules[first].named[0], rules[first + 1].named[0]);
    format!("{one:?}-{next:?}")
}

/// Tries two neighbours among a call's refusals in this many states.
fn pair(
    call: &Call,
    first: usize,
    model: &Model,
    seed: u64,
    states: u64,
    tally: &mut Tally,
) -> Result<(), String> {
    let name = pair_name(call.rules, first);
    let rules = [None, call.rules.get(first + 1), call.rules.get(first)];
    for case in 0..states {
        let mut random = Random::new(seed ^ (case << 20) ^ ((first as u64) << 56));
        drawn(call, first, &mut random)
            .and_then(|states| {
                let mut each = states.iter().zip(rules);
                each.try_for_each(|(state, rule)| (call.check)(model, state, rule))
            })
            .map_err(|error| format!("{} {name}, seed {seed} state {case}: {error}", call.name))?;
        tally.count(call.name, &name);
    }
    Ok(())
}

fn every_pair(
    calls: &[Call],
    model: &Model,
    seed: u64,
    states: u64,
    tally: &mut Tally,
) -> Result<(), String> {
    for call in calls {
        for first in 0..call.rules.len() - 1 {
            pair(call, first, model, seed, states, tally)?;
        }
    }
    Ok(())
}

/// An empty input is refused 7, and each unknown kind byte alone is refused 8.
fn few_bytes(model: &Model) -> Result<(), String> {
    let mut state = some_state(&mut Random::new(0));
    state.bytes.clear();
    check_read(model, &state, Some(&SHORT)).map_err(|error| format!("no bytes: {error}"))?;
    for kind in (0..=255).filter(|kind| !(1..=4).contains(kind)) {
        state.bytes = vec![kind];
        check_read(model, &state, Some(&KIND)).map_err(|error| format!("byte {kind}: {error}"))?;
    }
    Ok(())
}

/// Every call that takes a record, on records that it accepts, lent with each number of words from none to twice the needed.
fn each_number_of_words(model: &Model, seed: u64) -> Result<(), String> {
    let judged = |call: &&Call| call.rules.iter().any(|rule| rule.named == FEW_WORDS.named);
    for call in LIBRARY.iter().filter(judged) {
        for words in 0..=2 * WORDS {
            let mut random = Random::new(seed ^ words as u64);
            let [mut state, _, _] = drawn(call, 0, &mut random)?;
            state.tracker.words = words.min(WORDS);
            state.tracker.beyond = (WORDS..words).map(|_| random.any()).collect();
            let rule = (words < WORDS).then_some(&FEW_WORDS);
            (call.check)(model, &state, rule)
                .map_err(|error| format!("{}, {words} words, seed {seed}: {error}", call.name))?;
        }
    }
    Ok(())
}

/// The pairs that must have been tried, by the model's names.
pub const WANTED: &[(&str, &[&str])] = &[
    ("setup", &["Settings-Tables", "Settings-Words"]),
    ("restart", &["Words-TornRecord", "TornRecord-Tables"]),
    (
        "refer",
        &[
            "Words-TornRecord",
            "TornRecord-Tables",
            "Tables-Full",
            "Full-TornBucket",
        ],
    ),
    (
        "refer_span",
        &[
            "Overrun-Words",
            "Words-TornRecord",
            "TornRecord-Tables",
            "Tables-Full",
            "Full-TornBucket",
        ],
    ),
    ("point", WANTED_OF_POINT),
    ("plot", WANTED_OF_POINT),
    ("apply nothing", &["Words-Short"]),
    (
        "apply a reference",
        &[
            "Words-Kind",
            "Kind-Short",
            "Short-TornRecord",
            "TornRecord-Tables",
            "Tables-Full",
            "Full-TornBucket",
        ],
    ),
    (
        "apply a span",
        &[
            "Words-Kind",
            "Kind-Short",
            "Short-Overrun",
            "Overrun-TornRecord",
            "TornRecord-Tables",
            "Tables-Full",
            "Full-TornBucket",
        ],
    ),
    ("apply a restart", WANTED_OF_RESTART),
    (
        "apply a setup",
        &[
            "Words-Kind",
            "Kind-Short",
            "Short-Settings",
            "Settings-Tables",
        ],
    ),
    (
        "feed a reference",
        &[
            "Words-Kind",
            "Kind-TornRecord",
            "TornRecord-Tables",
            "Tables-Full",
            "Full-TornBucket",
        ],
    ),
    (
        "feed a span",
        &[
            "Words-Kind",
            "Kind-Overrun",
            "Overrun-TornRecord",
            "TornRecord-Tables",
            "Tables-Full",
            "Full-TornBucket",
        ],
    ),
    ("feed a restart", WANTED_OF_RESTART),
    (
        "feed a setup",
        &["Words-Kind", "Kind-Settings", "Settings-Tables"],
    ),
    ("read", &["Kind-Short"]),
    ("read a span", &["Kind-Short", "Short-Overrun"]),
    ("write a span", &["Overrun-Tables"]),
];

const WANTED_OF_POINT: &[&str] = &[
    "Words-TornRecord",
    "TornRecord-Tables",
    "Tables-Stale",
    "Stale-Point",
    "Point-TornBucket",
    "TornBucket-Empty",
];

const WANTED_OF_RESTART: &[&str] = &["Words-Kind", "Kind-TornRecord", "TornRecord-Tables"];

pub const WANTED_OF_PROGRAM: &[(&str, &[&str])] = &[
    (
        "program",
        &["Kind-Short", "Short-Settings", "Settings-Tables"],
    ),
    ("program, a span", &["Kind-Short", "Short-Overrun"]),
];

pub fn pairs(wanted: &[(&str, &[&str])]) -> usize {
    wanted.iter().map(|(_, pairs)| pairs.len()).sum()
}

pub fn library(model: &Model, seed: u64, states: u64, tally: &mut Tally) -> Result<(), String> {
    every_pair(LIBRARY, model, seed, states, tally)?;
    few_bytes(model)?;
    each_number_of_words(model, seed)
}

pub fn program(model: &Model, seed: u64, inputs: u64, tally: &mut Tally) -> Result<(), String> {
    every_pair(PROGRAM, model, seed, inputs, tally)
}

/// Swaps each pair in the model, and checks that the swap is noticed at that very pair. Returns the number of pairs.
pub fn swapped(seed: u64, states: u64) -> Result<usize, String> {
    let mut pairs = 0;
    for call in LIBRARY.iter().chain(PROGRAM) {
        for first in 0..call.rules.len() - 1 {
            let model = Model::with(call.swaps[first]);
            if pair(call, first, &model, seed, states, &mut Tally::default()).is_ok() {
                let name = pair_name(call.rules, first);
                return Err(format!("{} {name}: the swap was not noticed", call.name));
            }
            pairs += 1;
        }
    }
    Ok(pairs)
}
