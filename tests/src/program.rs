//! The curve program, run on bytes.

use std::fs::File;
use std::io::{Read, Write};
use std::process::{Child, Command, Stdio};
use std::thread;
use std::time::Duration;

const CURVE: &str = concat!(env!("CARGO_MANIFEST_DIR"), "/../target/bin/curve");

/// Built from tests/interrupted.c by `tests/run`.
const INTERRUPTED: &str = concat!(
    env!("CARGO_MANIFEST_DIR"),
    "/../target/tests/interrupted.so"
);

const MORNING: &str = concat!(env!("CARGO_MANIFEST_DIR"), "/../data/morning.trace");

/// The emulator that runs programs for x86-64, if one is needed; tools/x86-64.sh chooses it.
pub fn emulator() -> Option<String> {
    std::env::var("ROCKGINGHAM_EMULATOR")
        .ok()
        .filter(|name| !name.is_empty())
}

/// A command that runs the program, with a library loaded before the system's. What an emulated program starts is not emulated
/// automatically, and the emulator must not load the library into itself.
fn curve(preloaded: Option<&str>) -> Command {
    match emulator() {
        None => {
            let mut command = Command::new(CURVE);
            command.envs(preloaded.map(|library| ("LD_PRELOAD", library)));
            command
        }
        Some(emulator) => {
            let mut command = Command::new(emulator);
            if let Some(library) = preloaded {
                command.args(["-E", &format!("LD_PRELOAD={library}")]);
            }
            command.arg(CURVE);
            command
        }
    }
}

fn start() -> Result<Child, String> {
    curve(None)
        .stdin(Stdio::piped())
        .stdout(Stdio::piped())
        .stderr(Stdio::piped())
        .spawn()
        .map_err(|error| format!("{CURVE}: {error}"))
}

/// What the program prints if `feed` writes its input, on a separate thread.
fn run(feed: impl FnOnce(&mut dyn Write) + Send) -> Result<String, String> {
    let mut child = start()?;
    let mut input = child.stdin.take().expect("standard input is a pipe");
    let mut output = child.stdout.take().expect("standard output is a pipe");
    let mut printed = String::new();
    thread::scope(|scope| {
        scope.spawn(move || feed(&mut input));
        output.read_to_string(&mut printed)
    })
    .map_err(|error| format!("the program's output: {error}"))?;
    let end = child
        .wait_with_output()
        .map_err(|error| error.to_string())?;
    if !end.status.success() || !end.stderr.is_empty() {
        let complaint = String::from_utf8_lossy(&end.stderr).into_owned();
        return Err(format!(
            "the program ended with {}: {complaint}",
            end.status
        ));
    }
    Ok(printed)
}

/// What the program prints for an input in one piece. If it refuses an event it may stop reading; then the rest cannot be written.
pub fn printed(bytes: &[u8]) -> Result<String, String> {
    run(|input| {
        let _ = input.write_all(bytes);
    })
}

/// What the program prints for an input in pieces of these lengths, with a pause after each.
pub fn printed_in_pieces(bytes: &[u8], lengths: &[usize]) -> Result<String, String> {
    run(|input| {
        let mut rest = bytes;
        for length in lengths.iter().cycle() {
            if rest.is_empty() {
                break;
            }
            let (piece, later) = rest.split_at((*length).min(rest.len()));
            if input.write_all(piece).and_then(|()| input.flush()).is_err() {
                break;
            }
            thread::sleep(Duration::from_micros(60));
            rest = later;
        }
    })
}

/// A read that fails (here of a directory) is not the end of the input: nothing is printed, and standard error says why.
pub fn failed_read() -> Result<(), String> {
    let folder = File::open("/").map_err(|error| error.to_string())?;
    let end = curve(None)
        .stdin(folder)
        .output()
        .map_err(|error| format!("{CURVE}: {error}"))?;
    let said = String::from_utf8_lossy(&end.stderr).into_owned();
    if end.stdout.is_empty() && said.starts_with("curve: standard input: ") {
        Ok(())
    } else {
        let printed = String::from_utf8_lossy(&end.stdout).into_owned();
        Err(format!(
            "after a read that failed the program printed '{printed}' and said '{said}'"
        ))
    }
}

/// The program prints the same curve if its reads are interrupted and its writes take only a few bytes at a time.
pub fn interrupted() -> Result<(), String> {
    let bytes = std::fs::read(MORNING).map_err(|error| format!("{MORNING}: {error}"))?;
    let expected = printed(&bytes)?;
    let trace = File::open(MORNING).map_err(|error| error.to_string())?;
    let end = curve(Some(INTERRUPTED))
        .stdin(trace)
        .output()
        .map_err(|error| format!("{CURVE}: {error}"))?;
    let (output, said) = (
        String::from_utf8_lossy(&end.stdout).into_owned(),
        String::from_utf8_lossy(&end.stderr).into_owned(),
    );
    let words: Vec<&str> = said.split_whitespace().collect();
    let often = |word: &str| matches!(word.parse::<u64>(), Ok(times) if times > 1);
    match words[..] {
        ["interrupted", reads, "shortened", writes] if often(reads) && often(writes) => {}
        _ => return Err(format!("nothing was interrupted: '{said}'")),
    }
    if output == expected {
        Ok(())
    } else {
        Err(format!(
            "after interrupted reads the program printed '{output}'"
        ))
    }
}

/// A write that fails (here to a full device) is reported on standard error.
pub fn failed_write() -> Result<(), String> {
    let trace = File::open(MORNING).map_err(|error| format!("{MORNING}: {error}"))?;
    let full = File::options()
        .write(true)
        .open("/dev/full")
        .map_err(|error| format!("/dev/full: {error}"))?;
    let end = curve(None)
        .stdin(trace)
        .stdout(full)
        .output()
        .map_err(|error| format!("{CURVE}: {error}"))?;
    let said = String::from_utf8_lossy(&end.stderr).into_owned();
    if said.starts_with("curve: standard output: ") {
        Ok(())
    } else {
        Err(format!(
            "after a write that failed standard error says '{said}'"
        ))
    }
}
