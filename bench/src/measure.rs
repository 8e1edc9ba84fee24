//! Compares two pieces of work that do the same: timed in turns, or counted in executed instructions, with the ratio of the two.

use std::process::Command;
use std::time::{Duration, Instant};

/// How much is timed: the gate's small sizes, or the full ones. Counting has only one size.
#[derive(Clone, Copy)]
pub struct Size {
    pub rounds: usize,
    pub scale: usize,
}

pub const SMALL: Size = Size {
    rounds: 1,
    scale: 100,
};
pub const FULL: Size = Size {
    rounds: 9,
    scale: 1,
};

/// The cost of one operation on both sides.
#[derive(Clone, Copy)]
pub struct Cost {
    pub proved: f64,
    pub plain: f64,
}

/// One line of the table.
pub struct Row {
    pub name: String,
    pub nanoseconds: Option<Cost>,
    pub instructions: Option<Cost>,
}

fn median(mut times: Vec<Duration>) -> f64 {
    times.sort();
    times[times.len() / 2].as_secs_f64()
}

fn timed<T>(work: impl FnOnce() -> T) -> (Duration, T) {
    let begun = Instant::now();
    let result = work();
    (begun.elapsed(), result)
}

/// Times both in turns, `count` operations per round, and panics if their results differ.
pub fn nanoseconds<T: PartialEq + std::fmt::Debug>(
    name: &str,
    rounds: usize,
    count: usize,
    mut proved: impl FnMut() -> T,
    mut plain: impl FnMut() -> T,
) -> Cost {
    let (mut first, mut second) = (Vec::new(), Vec::new());
    for _ in 0..rounds {
        let (time, ours) = timed(&mut proved);
        first.push(time);
        let (time, theirs) = timed(&mut plain);
        second.push(time);
        assert_eq!(ours, theirs, "{name}: the two answer differently");
    }
    let each = 1e9 / count as f64;
    Cost {
        proved: median(first) * each,
        plain: median(second) * each,
    }
}

/// Counts the instructions of a program: a command to put before it, which prints `instructions N` on standard error at its end.
pub struct Counter(pub Vec<String>);

impl Counter {
    /// The instructions that a program executes, and what it prints. `complete` adds the program, its arguments and its input.
    fn run(&self, complete: &dyn Fn(&mut Command)) -> (u64, Vec<u8>) {
        let mut command = Command::new(&self.0[0]);
        command.args(&self.0[1..]);
        complete(&mut command);
        let end = command.output().expect("the counter can be run");
        let said = String::from_utf8_lossy(&end.stderr).into_owned();
        let count = said.lines().find_map(|line| {
            let number = line.strip_prefix("instructions ")?;
            number.parse().ok()
        });
        match count {
            Some(count) if end.status.success() => (count, end.stdout),
            _ => panic!("no count: {}, {said}", end.status),
        }
    }

    /// Runs both sides with N and with 2 N operations, and panics if they print different things. The cost of one operation is the
    /// difference between a side's two runs, divided by N: all other costs of a run are in both.
    pub fn instructions(
        &self,
        name: &str,
        count: usize,
        proved: impl Fn(&mut Command, usize),
        plain: impl Fn(&mut Command, usize),
    ) -> Cost {
        let cost = |run: [u64; 2]| (run[1] as f64 - run[0] as f64) / count as f64;
        let (mut first, mut second) = ([0; 2], [0; 2]);
        for (turn, operations) in [count, 2 * count].into_iter().enumerate() {
            let (ours, printed) = self.run(&|command| proved(command, operations));
            let (theirs, expected) = self.run(&|command| plain(command, operations));
            assert_eq!(
                String::from_utf8_lossy(&printed),
                String::from_utf8_lossy(&expected),
                "{name}: the two print differently"
            );
            first[turn] = ours;
            second[turn] = theirs;
        }
        Cost {
            proved: cost(first),
            plain: cost(second),
        }
    }
}

/// The table: a row's name, then three columns for each thing that was measured.
pub fn print(rows: &[Row]) {
    let (mut heads, mut columns) = (Vec::new(), Vec::new());
    for (head, cost) in [
        ("nanoseconds", rows[0].nanoseconds),
        ("instructions", rows[0].instructions),
    ] {
        if cost.is_some() {
            heads.push(format!("{head:>33}"));
            columns.push(format!("{:>13}{:>13}{:>7}", "proved", "plain", "ratio"));
        }
    }
    println!("{:40}{}", "", heads.concat());
    println!("{:40}{}", "", columns.concat());
    for row in rows {
        let costs = [row.nanoseconds, row.instructions];
        let numbers = costs.iter().flatten().map(|cost| {
            let ratio = cost.proved / cost.plain;
            format!("{:>13.2}{:>13.2}{ratio:>7.2}", cost.proved, cost.plain)
        });
        println!("{:40}{}", row.name, numbers.collect::<String>());
    }
}
