//! The program that prints a curve, compared with a plain one on the same trace.

use crate::measure::{nanoseconds, Cost, Counter, Row, Size};
use crate::plain::{self, Record, Settings, Tables};
use std::fs::File;
use std::io::{self, Read, Write};
use std::path::{Path, PathBuf};
use std::process::Command;

/// Made-up blocks, this many, out of a few million.
fn blocks(events: usize) -> impl Iterator<Item = u64> {
    let mut state: u64 = 0x2545_f491_4f6c_dd1d;
    (0..events as u64).map(move |turn| {
        state ^= state << 13;
        state ^= state >> 7;
        state ^= state << 17;
        (state >> 40) % (1 + turn % 4_000_000)
    })
}

fn put_span(bytes: &mut Vec<u8>, block: u64, length: u32) {
    bytes.push(2);
    bytes.extend_from_slice(&(block * 4096).to_le_bytes());
    bytes.extend_from_slice(&length.to_le_bytes());
}

/// A made-up trace of this many events, each one reference; every fourth is a span.
pub fn references(events: usize) -> Vec<u8> {
    let mut bytes = Vec::with_capacity(events * 10);
    for (turn, block) in blocks(events).enumerate() {
        if turn % 4 == 3 {
            put_span(&mut bytes, block, 4096);
        } else {
            bytes.push(1);
            bytes.extend_from_slice(&block.to_le_bytes());
        }
    }
    bytes
}

/// A made-up trace of this many I/Os of 64 KiB, each of 16 blocks.
fn spans(events: usize) -> Vec<u8> {
    let mut bytes = Vec::with_capacity(events * 13);
    for block in blocks(events) {
        put_span(&mut bytes, block, 65_536);
    }
    bytes
}

/// The plain program: events from standard input, the curve to standard output.
pub fn plain_curve() {
    let given = Settings {
        limit: 0,
        start: 0,
        width: 0,
        buckets: 0,
        hash_kind: 1,
    };
    let mut t = Tables {
        locations: vec![0; 1024],
        counts: vec![0; 1026],
        thresholds: vec![0; 1026],
    };
    let mut k = plain::setup(given, &mut t).expect("the defaults are in range");
    match feed(&mut k, &mut t) {
        Err((number, place)) => println!("refused {number} at {place}"),
        Ok(()) => print_curve(&k, &t),
    }
}

/// Feeds standard input; a refusal is returned with its place.
fn feed(k: &mut Record, t: &mut Tables) -> Result<(), (u64, u64)> {
    let mut input = io::stdin().lock();
    let mut buffer = vec![0u8; 1 << 16];
    let (mut kept, mut before) = (0, 0u64);
    loop {
        let got = input.read(&mut buffer[kept..]).expect("a read that works");
        let held = kept + got;
        let (at, ending) = plain::feed(k, &buffer[..held], t);
        ending.map_err(|number| (number, before + at as u64))?;
        buffer.copy_within(at..held, 0);
        kept = held - at;
        before += at as u64;
        if got == 0 {
            return if kept == 0 { Ok(()) } else { Err((7, before)) };
        }
    }
}

fn print_curve(k: &Record, t: &Tables) {
    let mut out = String::new();
    out += &format!(
        "curve refs {} sampled {} threshold {} live {}\n",
        k.references, k.sampled, k.threshold, k.live
    );
    let shape = (k.settings.buckets, k.settings.width);
    for number in 0..=k.settings.buckets {
        let p = plain::point(k, shape, number, &t.counts, &t.thresholds);
        if p.refusal != 0 {
            out += "empty\n";
            break;
        }
        out += &format!("{} {} {}\n", p.size, p.misses, p.total);
        if number == k.settings.buckets {
            out += "end\n";
        }
    }
    io::stdout()
        .write_all(out.as_bytes())
        .expect("a write that works");
}

/// A trace in its own file, which is removed with it.
struct TraceFile(PathBuf);

impl TraceFile {
    fn new(bytes: &[u8]) -> TraceFile {
        let name = format!("rockgingham-bench-{}-{}", std::process::id(), bytes.len());
        let path = std::env::temp_dir().join(name);
        std::fs::write(&path, bytes).expect("the trace can be written");
        TraceFile(path)
    }

    fn open(&self) -> File {
        File::open(&self.0).expect("the trace can be read")
    }
}

impl Drop for TraceFile {
    fn drop(&mut self) {
        let _ = std::fs::remove_file(&self.0);
    }
}

/// A kind of trace: how many events are timed in a round at the full size, and how many are counted.
pub struct Kind {
    name: &'static str,
    timed: usize,
    counted: usize,
    trace: fn(events: usize) -> Vec<u8>,
}

/// About 100 MB are timed.
pub const REFERENCES: Kind = Kind {
    name: "the program, an event",
    timed: 10_000_000,
    counted: 1_000_000,
    trace: references,
};

pub const SPANS: Kind = Kind {
    name: "the program, an I/O of 16 blocks",
    timed: 1_000_000,
    counted: 100_000,
    trace: spans,
};

/// What a program prints for a trace.
fn printed(mut command: Command, trace: &TraceFile) -> String {
    let end = command.stdin(trace.open()).output();
    let output = end.expect("the program can be run").stdout;
    String::from_utf8_lossy(&output).into_owned()
}

impl Kind {
    fn timed(&self, size: Size, curve: &Path, own: &Path) -> Cost {
        let events = self.timed / size.scale;
        let trace = TraceFile::new(&(self.trace)(events));
        nanoseconds(
            self.name,
            size.rounds.min(5),
            events,
            || printed(Command::new(curve), &trace),
            || {
                let mut plain = Command::new(own);
                plain.arg("curve");
                printed(plain, &trace)
            },
        )
    }

    /// Counts on a trace, and on one that is twice as long and begins with it.
    fn counted(&self, counter: &Counter, curve: &Path, own: &Path) -> Cost {
        let traces = [self.counted, 2 * self.counted].map(|n| TraceFile::new(&(self.trace)(n)));
        let input = |events: usize| traces[events / self.counted - 1].open();
        counter.instructions(
            self.name,
            self.counted,
            |command, events| {
                command.arg(curve).stdin(input(events));
            },
            |command, events| {
                command.arg(own).arg("curve").stdin(input(events));
            },
        )
    }

    /// Both programs on one trace.
    pub fn row(&self, size: Option<Size>, counter: Option<&Counter>, curve: &Path) -> Row {
        let own = std::env::current_exe().expect("this program's own path");
        Row {
            name: self.name.to_string(),
            nanoseconds: size.map(|size| self.timed(size, curve, &own)),
            instructions: counter.map(|counter| self.counted(counter, curve, &own)),
        }
    }
}
