//! The hot paths of the library, one call at a time.

use crate::engines::{Engine, Hash, Plain, Proved, Read};
use crate::measure::{nanoseconds, Cost, Counter, Row, Size};
use crate::plain::{Answer, Settings, FULL_RATE};
use std::process::Command;

/// One side of a hot path, set up and ready.
trait Work {
    /// Performs this many operations, and returns a sum over their answers.
    fn run(&mut self, count: usize) -> u64;
    /// The record's words and the tables, if there are any.
    fn state(&self) -> Vec<u64>;
}

/// A hot path: both sides, how many operations are timed in a round at the full size, and how many are counted.
pub struct HotPath {
    name: String,
    timed: usize,
    counted: usize,
    proved: fn() -> Box<dyn Work>,
    plain: fn() -> Box<dyn Work>,
}

fn settings(limit: u64, start: u64, buckets: u64, hash_kind: u64) -> Settings {
    Settings {
        limit,
        start,
        width: 1,
        buckets,
        hash_kind,
    }
}

fn state_of(engine: &impl Engine) -> Vec<u64> {
    let tables = engine.tables();
    let mut state = engine.words().to_vec();
    state.extend(&tables.locations);
    state.extend(&tables.counts);
    state.extend(tables.thresholds.iter().map(|x| u64::from(*x)));
    state
}

/// Hides a function from the compiler, so that it is called each time.
fn unseen<F: Copy>(function: F) -> F {
    // SAFETY: a local value is read.
    unsafe { std::ptr::read_volatile(&function) }
}

struct Hashes(Hash);

impl Work for Hashes {
    fn run(&mut self, count: usize) -> u64 {
        let hash = unseen(self.0);
        (0..count as u64).fold(0u64, |sum, x| {
            // SAFETY: the function is passed two numbers.
            sum.wrapping_add(unsafe { hash(1, x.wrapping_mul(0x9e37_79b9_7f4a_7c15)) })
        })
    }

    fn state(&self) -> Vec<u64> {
        Vec::new()
    }
}

fn hash() -> HotPath {
    HotPath {
        name: "hash kind 1".to_string(),
        timed: 4_000_000,
        counted: 10_000,
        proved: || Box::new(Hashes(Proved::HASH)),
        plain: || Box::new(Hashes(Plain::HASH)),
    }
}

/// References; `next` chooses the location from the table of locations and the turn.
struct References<E, N> {
    engine: E,
    turn: usize,
    next: N,
}

/// What an answer adds to a sum that both sides must agree on.
fn weight(answer: Result<Answer, u64>) -> u64 {
    match answer {
        Ok(Answer::Skipped) => 1,
        Ok(Answer::First) => 2,
        Ok(Answer::Again(place)) => 3 + place,
        Err(number) => 1_000_000 + number,
    }
}

impl<E: Engine, N: Fn(&[u64], usize) -> u64> Work for References<E, N> {
    fn run(&mut self, count: usize) -> u64 {
        let mut sum: u64 = 0;
        for _ in 0..count {
            let location = (self.next)(&self.engine.tables().locations, self.turn);
            self.turn += 1;
            sum = sum.wrapping_add(weight(self.engine.refer(location)));
        }
        sum
    }

    fn state(&self) -> Vec<u64> {
        state_of(&self.engine)
    }
}

fn references<E, N>(engine: E, next: N) -> Box<dyn Work>
where
    E: Engine + 'static,
    N: Fn(&[u64], usize) -> u64 + 'static,
{
    Box::new(References {
        engine,
        turn: 0,
        next,
    })
}

fn skipped() -> HotPath {
    fn work<E: Engine + 'static>() -> Box<dyn Work> {
        references(E::new(settings(1024, 1, 256, 1)), |_, turn| {
            (turn as u64).wrapping_mul(0x9e37_79b9_7f4a_7c15) | 1
        })
    }
    HotPath {
        name: "a reference that is Skipped".to_string(),
        timed: 4_000_000,
        counted: 10_000,
        proved: work::<Proved>,
        plain: work::<Plain>,
    }
}

fn again<const LIMIT: u64>() -> HotPath {
    fn work<E: Engine + 'static, const LIMIT: u64>() -> Box<dyn Work> {
        let mut engine = E::new(settings(LIMIT, FULL_RATE, 256, 1));
        for x in 0..LIMIT {
            let _ = engine.refer(x);
        }
        references(engine, |locations, _| locations[LIMIT as usize / 2])
    }
    HotPath {
        name: format!("Again at the middle of the list, S {LIMIT}"),
        timed: 400_000,
        counted: 200,
        proved: work::<Proved, LIMIT>,
        plain: work::<Plain, LIMIT>,
    }
}

fn lowering() -> HotPath {
    fn work<E: Engine + 'static>() -> Box<dyn Work> {
        let top = FULL_RATE - 1;
        let mut engine = E::new(settings(8192, FULL_RATE, 256, 0));
        for x in 0..8192 {
            let _ = engine.refer(top - x);
        }
        references(engine, move |_, turn| top - 8192 - turn as u64)
    }
    HotPath {
        name: "First with a lowering, S 8192".to_string(),
        timed: 4_000,
        counted: 40,
        proved: work::<Proved>,
        plain: work::<Plain>,
    }
}

/// I/Os of 64 KiB, each of 16 blocks; `next` chooses the number of the first block from the turn.
struct Spans<E> {
    engine: E,
    turn: u64,
    next: fn(turn: u64) -> u64,
}

impl<E: Engine> Work for Spans<E> {
    fn run(&mut self, count: usize) -> u64 {
        let mut refused = 0;
        for _ in 0..count {
            let offset = (self.next)(self.turn) * 4096;
            self.turn += 1;
            refused += u64::from(self.engine.refer_span(offset, 65_536).is_err());
        }
        refused
    }

    fn state(&self) -> Vec<u64> {
        state_of(&self.engine)
    }
}

fn span_skipped() -> HotPath {
    fn work<E: Engine + 'static>() -> Box<dyn Work> {
        Box::new(Spans {
            engine: E::new(settings(1024, 1, 256, 1)),
            turn: 1,
            next: |turn| turn.wrapping_mul(0x9e37_79b9_7f4a_7c15) >> 13,
        })
    }
    HotPath {
        name: "an I/O of 16 blocks, all Skipped".to_string(),
        timed: 400_000,
        counted: 1_000,
        proved: work::<Proved>,
        plain: work::<Plain>,
    }
}

/// The first half of the listed blocks is referred to over and over, so that each is found at the middle of the list.
fn span_again() -> HotPath {
    fn work<E: Engine + 'static>() -> Box<dyn Work> {
        let mut engine = E::new(settings(1024, FULL_RATE, 256, 1));
        for x in (0..1024).rev() {
            let _ = engine.refer(x);
        }
        for x in 0..512 {
            let _ = engine.refer(x);
        }
        Box::new(Spans {
            engine,
            turn: 0,
            next: |turn| turn % 32 * 16,
        })
    }
    HotPath {
        name: "an I/O of 16 blocks, Again, S 1024".to_string(),
        timed: 25_000,
        counted: 32,
        proved: work::<Proved>,
        plain: work::<Plain>,
    }
}

struct Points<E> {
    engine: E,
    buckets: u64,
}

impl<E: Engine> Work for Points<E> {
    fn run(&mut self, count: usize) -> u64 {
        let believed = (self.buckets, 1);
        (0..count as u64).fold(0u64, |sum, k| {
            let p = self.engine.point(believed, k % (self.buckets + 1));
            let mixed = p.size ^ p.hits.rotate_left(16) ^ p.misses.rotate_left(32) ^ p.total;
            sum.rotate_left(1).wrapping_add(p.refusal ^ mixed)
        })
    }

    fn state(&self) -> Vec<u64> {
        state_of(&self.engine)
    }
}

fn point<const BUCKETS: u64>() -> HotPath {
    fn work<E: Engine + 'static, const BUCKETS: u64>() -> Box<dyn Work> {
        let mut engine = E::new(settings(8192, FULL_RATE, BUCKETS, 1));
        for x in 0..4 * BUCKETS {
            let _ = engine.refer(x * x % (BUCKETS / 2 + 1));
        }
        Box::new(Points {
            engine,
            buckets: BUCKETS,
        })
    }
    HotPath {
        name: format!("a point, B {BUCKETS}"),
        timed: 2_000_000 / BUCKETS as usize,
        counted: 100_000 / BUCKETS as usize,
        proved: work::<Proved, BUCKETS>,
        plain: work::<Plain, BUCKETS>,
    }
}

const READ_EVENTS: usize = 1_000_000;

struct Reads {
    read: Read,
    bytes: Vec<u8>,
}

impl Work for Reads {
    fn run(&mut self, count: usize) -> u64 {
        let read = unseen(self.read);
        // Four events of the trace take 40 bytes.
        let bytes = &self.bytes[..count / 4 * 40];
        let (mut at, mut sum) = (0, 0u64);
        while at < bytes.len() {
            let left = &bytes[at..];
            // SAFETY: the bytes are passed with their own length.
            let event = unsafe { read(left.as_ptr(), left.len()) };
            let span = event.offset.rotate_left(8) ^ event.length.rotate_left(16);
            sum = sum.wrapping_add(event.refusal ^ event.kind ^ event.location ^ span);
            at += event.taken as usize;
        }
        sum
    }

    fn state(&self) -> Vec<u64> {
        Vec::new()
    }
}

fn reading() -> HotPath {
    fn work<E: Engine>() -> Box<dyn Work> {
        Box::new(Reads {
            read: E::READ,
            bytes: crate::program::references(READ_EVENTS),
        })
    }
    HotPath {
        name: "reading an event".to_string(),
        timed: READ_EVENTS,
        counted: 10_000,
        proved: work::<Proved>,
        plain: work::<Plain>,
    }
}

struct Feeds<E> {
    engine: E,
    bytes: Vec<u8>,
}

/// Four events of the trace take 40 bytes, so that no piece ends inside an event.
const PIECE: usize = 4_000;

impl<E: Engine> Work for Feeds<E> {
    fn run(&mut self, count: usize) -> u64 {
        let mut sum = 0u64;
        for piece in self.bytes[..count / 4 * 40].chunks(PIECE) {
            let fed = self.engine.feed(piece);
            sum = sum.wrapping_add(fed.refusal ^ fed.taken.rotate_left(16) ^ fed.incomplete);
        }
        sum
    }

    fn state(&self) -> Vec<u64> {
        state_of(&self.engine)
    }
}

fn feeding() -> HotPath {
    fn work<E: Engine + 'static>() -> Box<dyn Work> {
        Box::new(Feeds {
            engine: E::new(settings(1024, FULL_RATE / 10, 256, 1)),
            bytes: crate::program::references(READ_EVENTS),
        })
    }
    HotPath {
        name: "feeding a trace, an event".to_string(),
        timed: READ_EVENTS,
        counted: 100_000,
        proved: work::<Proved>,
        plain: work::<Plain>,
    }
}

pub fn hot_paths() -> Vec<HotPath> {
    vec![
        hash(),
        skipped(),
        again::<1024>(),
        again::<8192>(),
        lowering(),
        span_skipped(),
        span_again(),
        point::<256>(),
        point::<10_000>(),
        reading(),
        feeding(),
    ]
}

/// One number for a whole state.
fn digest(state: &[u64]) -> u64 {
    state.iter().fold(0, |sum, x| {
        (sum.rotate_left(5) ^ x).wrapping_mul(0x9e37_79b9_7f4a_7c15)
    })
}

impl HotPath {
    /// Performs this many operations of one side alone, to be counted, and prints what both sides must agree on.
    pub fn work(&self, side: &str, count: usize) {
        let mut work = match side {
            "proved" => (self.proved)(),
            _ => (self.plain)(),
        };
        let sum = work.run(count);
        println!("answers {sum} state {}", digest(&work.state()));
    }

    fn timed(&self, size: Size) -> Cost {
        let (mut ours, mut theirs) = ((self.proved)(), (self.plain)());
        let count = (self.timed / size.scale).max(1);
        let cost = nanoseconds(
            &self.name,
            size.rounds,
            count,
            || ours.run(count),
            || theirs.run(count),
        );
        assert!(ours.state() == theirs.state(), "{}: states", self.name);
        cost
    }

    /// Runs each side in its own process: this program under the counter.
    fn counted(&self, number: usize, counter: &Counter) -> Cost {
        let own = std::env::current_exe().expect("this program's own path");
        let side = |command: &mut Command, side: &str, count: usize| {
            command.arg(&own).arg("work");
            command.args([&number.to_string(), side, &count.to_string()]);
        };
        counter.instructions(
            &self.name,
            self.counted,
            |command, count| side(command, "proved", count),
            |command, count| side(command, "plain", count),
        )
    }

    /// The row of the table: timed if a size is given, counted if a counter is.
    pub fn row(&self, number: usize, size: Option<Size>, counter: Option<&Counter>) -> Row {
        Row {
            name: self.name.clone(),
            nanoseconds: size.map(|size| self.timed(size)),
            instructions: counter.map(|counter| self.counted(number, counter)),
        }
    }
}
