//! Long clean runs of the static library, with many lowerings: every word and entry is compared with the model after every call. The
//! record is lent with more words than it has.

use crate::calls::*;
use crate::driver::Driver;
use crate::events::span_to;
use crate::model::*;
use crate::random::Random;
use crate::tally::Tally;

struct Plan {
    settings: Settings,
    references: u64,
    locations: u64,
}

fn plan(
    limit: u64,
    start: u64,
    width: u64,
    buckets: u64,
    kind: u64,
    references: u64,
    locations: u64,
) -> Plan {
    Plan {
        settings: Settings {
            limit,
            start,
            width,
            buckets,
            kind,
        },
        references,
        locations,
    }
}

fn plans(small: bool) -> Vec<Plan> {
    let scale = if small { 20 } else { 1 };
    vec![
        plan(1, P, 1, 4, 1, 20_000 / scale, 40),
        plan(4, P, 1, 4, 0, 20_000 / scale, 30),
        plan(16, P, 2, 40, 1, 40_000 / scale, 4_000),
        plan(64, 1_677_721, 5, 300, 1, 60_000 / scale, 40_000),
        plan(7, 4096, MOST_REFERENCES, 1, 0, 20_000 / scale, 6_000),
        plan(0, 0, 0, 0, 1, 60_000 / scale, 50_000),
        plan(0, P, 0, 10_000, 1, 40_000 / scale, 20_000),
        plan(8192, P, 3, 10_000, 1, 30_000 / scale, 60_000),
    ]
}

/// The next location: a recent one, one of a few, or any of the plan's.
fn next_location(random: &mut Random, recent: &[u64], locations: u64) -> u64 {
    match random.below(4) {
        0 if !recent.is_empty() => {
            let back = random.below(recent.len().min(300) as u64) as usize;
            recent[recent.len() - 1 - back]
        }
        1 => random.below(locations / 10 + 1) + P * random.below(2),
        _ => random.below(locations),
    }
}

/// A reference, or those of an I/O that begins there: by a call, or by an event that is applied or fed.
fn refer_somehow(
    model: &Model,
    random: &mut Random,
    tracker: &mut Tracker,
    driver: &mut Driver,
    location: u64,
    tally: &mut Tally,
) -> Result<(), String> {
    let event = match random.below(2) {
        0 => Event::Location(location),
        _ => span_to(random, location),
    };
    match (random.below(4), event) {
        (0, _) => check_apply(model, tracker, driver, &event.bytes(), tally),
        (1, _) => check_feed(model, tracker, driver, &event.bytes(), tally).map(|_| ()),
        (2, Event::Span(offset, length)) => {
            check_refer_span(model, tracker, driver, (offset, length), tally)
        }
        _ => check_refer(model, tracker, driver, location, tally),
    }
}

fn ask_points(
    model: &Model,
    random: &mut Random,
    tracker: &mut Tracker,
    driver: &mut Driver,
    tally: &mut Tally,
) -> Result<(), String> {
    let settings = tracker.record.settings;
    let shape = Shape {
        buckets: settings.buckets,
        width: settings.width,
    };
    let number = random.between(0, settings.buckets);
    check_point(model, tracker, driver, shape, number, tally)?;
    check_plot(model, tracker, driver, shape, number, tally)
}

fn run(model: &Model, random: &mut Random, plan: &Plan, tally: &mut Tally) -> Result<u64, String> {
    let settings = plan.settings.with_defaults();
    let needed = settings.buckets as usize + 2;
    let mut tracker = Tracker::blank(settings.limit as usize + 3, needed + 1, needed + 2);
    tracker.beyond = (0..random.between(1, 5)).map(|_| random.any()).collect();
    tracker.locations.fill(77);
    tracker.counts.fill(78);
    tracker.thresholds.fill(79);
    let mut driver = Driver::holding(&tracker);
    check_setup(model, &mut tracker, &mut driver, plan.settings, tally)?;
    let mut recent = Vec::new();
    let mut lowerings = 0;
    for at in 0..plan.references {
        let location = next_location(random, &recent, plan.locations);
        recent.push(location);
        let before = tracker.record.threshold;
        refer_somehow(model, random, &mut tracker, &mut driver, location, tally)
            .map_err(|error| format!("{:?} reference {at} to {location}: {error}", settings))?;
        lowerings += u64::from(tracker.record.threshold < before);
        if at % 97 == 0 {
            ask_points(model, random, &mut tracker, &mut driver, tally)?;
        }
        if at == plan.references / 2 {
            check_restart(model, &mut tracker, &mut driver, tally)?;
        }
    }
    Ok(lowerings)
}

/// Runs all plans, and returns the number of lowerings.
pub fn clean(model: &Model, seed: u64, small: bool, tally: &mut Tally) -> Result<u64, String> {
    let mut lowerings = 0;
    for (number, plan) in plans(small).iter().enumerate() {
        let mut random = Random::new(seed ^ ((number as u64) << 40));
        lowerings += run(model, &mut random, plan, tally)
            .map_err(|error| format!("seed {seed} run {number}: {error}"))?;
    }
    Ok(lowerings)
}
