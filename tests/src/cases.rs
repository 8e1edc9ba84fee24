//! The twelve cases of document 01's bench table, run on the program or the library, whose expected answers are the document's own, and
//! cases of I/O that spans blocks, computed by hand.

use crate::driver::{self, lent_bytes, Driver};
use crate::interface::{CAnswer, CEvent, VERSION};
use crate::model::{Event, Model, Settings, Shape, Tracker, MOST_REFERENCES, P};
use crate::program::printed;
use crate::published;
use crate::random::Random;
use crate::traces::same;

fn input(setup: Event, locations: &[u64]) -> Vec<u8> {
    let mut bytes = setup.bytes();
    for location in locations {
        bytes.extend(Event::Location(*location).bytes());
    }
    bytes
}

fn is<T: PartialEq + std::fmt::Debug>(what: &str, got: T, expected: T) -> Result<(), String> {
    if got == expected {
        Ok(())
    } else {
        Err(format!("{what}: {got:?}, expected {expected:?}"))
    }
}

/// A driver set up with these settings and with tables that are just long enough.
fn set_up(given: Settings) -> Result<Driver, String> {
    let settings = given.with_defaults();
    let needed = settings.buckets as usize + 2;
    let mut driver = Driver::holding(&Tracker::blank(settings.limit as usize, needed, needed));
    is("setup", driver.setup(given), 0)?;
    Ok(driver)
}

fn settings(limit: u64, start: u64, width: u64, buckets: u64, kind: u64) -> Settings {
    Settings {
        limit,
        start,
        width,
        buckets,
        kind,
    }
}

fn refer_all(driver: &mut Driver, locations: &[u64]) -> Result<(), String> {
    for location in locations {
        is("reference", driver.refer(*location).refusal, 0)?;
    }
    Ok(())
}

const LOCATIONS_OF_A: [u64; 6] = [1, 2, 1, 3, 2, 2];

fn a() -> Result<(), String> {
    let bytes = input(Event::Setup(4, P as u32, 1, 4, 0), &LOCATIONS_OF_A);
    let expected = "curve refs 6 sampled 6 threshold 16777216 live 3\n\
        0 1536 1536\n1 1280 1536\n2 1024 1536\n3 768 1536\n4 768 1536\nend\n";
    same(&printed(&bytes)?, expected)
}

fn b() -> Result<(), String> {
    let bytes: Vec<u8> = [
        vec![4, 2, 0, 0, 0, 0x10, 0, 0, 0, 0, 0, 0x10, 0, 4, 0, 0, 0, 0],
        vec![1, 10, 0, 0, 0, 0, 0, 0, 0, 1, 5, 0, 0, 0, 0, 0, 0, 0],
        vec![1, 10, 0, 0, 0, 0, 0, 0, 0, 1, 7, 0, 0, 0, 0, 0, 0, 0],
        vec![1, 5, 0, 0, 0, 0, 0, 0, 0],
    ]
    .concat();
    let expected = "curve refs 5 sampled 5 threshold 10 live 2\n\
        0 896 896\n1048576 896 896\n2097152 480 896\n3145728 480 896\n4194304 480 896\nend\n";
    same(&printed(&bytes)?, expected)?;
    let mut driver = set_up(settings(2, 16, 1 << 20, 4, 0))?;
    refer_all(&mut driver, &[10, 5, 10])?;
    is("the threshold before location 7", driver.word(5), 16)?;
    refer_all(&mut driver, &[7])?;
    is("the threshold after location 7", driver.word(5), 10)
}

fn first_line(bytes: &[u8]) -> Result<String, String> {
    Ok(printed(bytes)?.lines().next().unwrap_or("").to_string())
}

fn c() -> Result<(), String> {
    let bytes = input(Event::Setup(1, 16, 0, 0, 0), &[3, 16_777_219]);
    let expected = "curve refs 2 sampled 2 threshold 3 live 0";
    same(&first_line(&bytes)?, expected)
}

fn d() -> Result<(), String> {
    let bytes = input(
        Event::Setup(1, 16, 0, 0, 0),
        &[0, 16_777_216, 0, 1, 16_777_216],
    );
    let expected = "curve refs 5 sampled 2 threshold 0 live 0\nempty\n";
    same(&printed(&bytes)?, expected)
}

fn e() -> Result<(), String> {
    let mut driver = set_up(settings(0, 1_677_721, 0, 0, 0))?;
    refer_all(&mut driver, &[1, 2, 3, 4])?;
    let again = CAnswer {
        refusal: 0,
        reply: 1,
        distance: 3,
    };
    is("Again with D", driver.refer(1), again)?;
    let mut expected = vec![0; 258];
    expected[30] = 256;
    expected[257] = 1024;
    is("counts", driver.counts.inside().to_vec(), expected)
}

fn f() -> Result<(), String> {
    let mut driver = set_up(settings(2, 7, 0, 2, 0))?;
    refer_all(&mut driver, &[1, 1])?;
    is("count", driver.counts.inside()[0], 256)?;
    is("bucket threshold", driver.thresholds.inside()[0], 7)?;
    refer_all(&mut driver, &[5, 2])?;
    is("the threshold first", driver.word(5), 5)?;
    refer_all(&mut driver, &[4])?;
    is("the threshold then", driver.word(5), 4)?;
    let shape = Shape {
        buckets: 2,
        width: 1,
    };
    let point = driver.point(shape, 1);
    is("point", point.refusal, 0)?;
    is("hits at 1", point.hits, 146)
}

fn g() -> Result<(), String> {
    let mut driver = set_up(settings(4, P, 1, 4, 0))?;
    refer_all(&mut driver, &LOCATIONS_OF_A)?;
    let shape = Shape {
        buckets: 4,
        width: 1,
    };
    is("point 4", driver.point(shape, 4).refusal, 0)?;
    is("point 5", driver.point(shape, 5).refusal, 6)
}

fn h() -> Result<(), String> {
    let mut driver = set_up(settings(8192, 0, 0, 0, 0))?;
    is("S 8,192", driver.setup(settings(8192, 0, 0, 0, 0)), 0)?;
    let long = Tracker::blank(8193, 258, 258);
    let mut driver = Driver::holding(&long);
    is("S 8,193", driver.setup(settings(8193, 0, 0, 0, 0)), 1)?;
    driver.compare(&long)
}

/// With a T0 of 1, only a location whose hash is 0 is sampled.
fn i() -> Result<(), String> {
    is("the kind 1 hash of 0", driver::hash(1, 0), 0)?;
    let bytes = input(Event::Setup(0, 1, 0, 0, 1), &[0]);
    let expected = "curve refs 1 sampled 1 threshold 1 live 1";
    same(&first_line(&bytes)?, expected)
}

fn j() -> Result<(), String> {
    same(&printed(&[0])?, "refused 8 at 0\n")?;
    is("read", driver::read(&lent_bytes(&[0])).refusal, 8)
}

fn k() -> Result<(), String> {
    let restart = CEvent {
        kind: 3,
        taken: 1,
        ..CEvent::default()
    };
    is("read", driver::read(&lent_bytes(&[3])), restart)?;
    let expected = "curve refs 0 sampled 0 threshold 1677721 live 0\nempty\n";
    same(&printed(&[3])?, expected)
}

fn l() -> Result<(), String> {
    let bytes = [1, 2, 3, 4, 5, 6, 7, 8];
    same(&printed(&bytes)?, "refused 7 at 0\n")?;
    is("read", driver::read(&lent_bytes(&bytes)).refusal, 7)
}

/// Two reads of 64 KiB: the second finds each of the 16 blocks behind the 15 others.
fn same_read_twice() -> Result<(), String> {
    let mut bytes = Event::Setup(16, P as u32, 15, 2, 0).bytes();
    bytes.extend(Event::Span(4096 * 100, 65_536).bytes().repeat(2));
    let expected = "curve refs 32 sampled 32 threshold 16777216 live 16\n\
        0 8192 8192\n15 8192 8192\n30 4096 8192\nend\n";
    same(&printed(&bytes)?, expected)
}

/// Blocks 0 to 3, rising: then block 3 is found at 0, block 1 at 2, and block 2 at 2.
fn rising() -> Result<(), String> {
    let mut bytes = Event::Setup(4, P as u32, 1, 4, 0).bytes();
    bytes.extend(Event::Span(4095, 8194).bytes());
    for (offset, length) in [(4096 * 3 + 7, 1), (4096 + 4095, 2), (0, 0)] {
        bytes.extend(Event::Span(offset, length).bytes());
    }
    let expected = "curve refs 7 sampled 7 threshold 16777216 live 4\n\
        0 1792 1792\n1 1536 1792\n2 1536 1792\n3 1024 1792\n4 1024 1792\nend\n";
    same(&printed(&bytes)?, expected)
}

/// A read of the last byte of all is a reference to block 2^52 - 1, whose hash of kind 0 is 2^24 - 1; one of a byte more is refused,
/// where its event begins.
fn last_byte() -> Result<(), String> {
    let mut bytes = Event::Setup(1, P as u32, 1, 1, 0).bytes();
    bytes.extend(Event::Span(u64::MAX, 1).bytes());
    let expected = "curve refs 1 sampled 1 threshold 16777216 live 1\n\
        0 256 256\n1 256 256\nend\n";
    same(&printed(&bytes)?, expected)?;
    bytes.extend(Event::Location((1 << 52) - 1).bytes());
    let expected = "curve refs 2 sampled 2 threshold 16777216 live 1\n\
        0 512 512\n1 256 512\nend\n";
    same(&printed(&bytes)?, expected)?;
    bytes.extend(Event::Span(u64::MAX, 2).bytes());
    same(&printed(&bytes)?, "refused 10 at 40\n")
}

/// With 2 references left, an I/O of 3 blocks is refused 4 after 2.
fn full_inside() -> Result<(), String> {
    let mut tracker = Tracker::blank(4, 6, 6);
    let setup = Model::right().setup(settings(4, P, 1, 4, 0), &mut tracker);
    setup.map_err(|refusal| format!("{refusal:?}"))?;
    tracker.record.references = MOST_REFERENCES - 2;
    let mut driver = Driver::holding(&tracker);
    is("refusal", driver.refer_span(5 * 4096, 3 * 4096), 4)?;
    is("references", driver.word(7), MOST_REFERENCES)?;
    is("sampled", driver.word(8), 2)?;
    is("live", driver.word(6), 2)?;
    is("locations", driver.locations.inside(), &[6, 5, 0, 0][..])?;
    is("counts", driver.counts.inside(), &[0, 0, 0, 0, 0, 512][..])
}

/// Block 7 was referred to before and bucket 2 is torn: blocks 5 and 6 are counted, and 7, found behind them, is refused 3.
fn torn_inside() -> Result<(), String> {
    let mut tracker = Tracker::blank(4, 6, 6);
    let setup = Model::right().setup(settings(4, P, 1, 4, 0), &mut tracker);
    setup.map_err(|refusal| format!("{refusal:?}"))?;
    tracker.thresholds[2] = 0;
    let mut driver = Driver::holding(&tracker);
    refer_all(&mut driver, &[7])?;
    is("refusal", driver.refer_span(5 * 4096 + 9, 4 * 4096), 3)?;
    is("references", driver.word(7), 3)?;
    is("sampled", driver.word(8), 3)?;
    is("locations", driver.locations.inside(), &[6, 5, 7, 0][..])?;
    is("counts", driver.counts.inside(), &[0, 0, 0, 0, 0, 768][..])
}

/// The library's threshold after references to L and to 0, with S 1, T0 P and hash kind 1, is the published hash of L.
pub fn published_hash(seed: u64, locations: u64) -> Result<u64, String> {
    let mut random = Random::new(seed);
    let mut tried = 0;
    let given = settings(1, P, 0, 1, 1);
    let mut driver = set_up(given)?;
    for case in 0..locations {
        let location = published::location(&mut random, case);
        let hash = published::checked(location)?;
        is("hash", driver::hash(1, location), hash)?;
        if hash == 0 {
            continue;
        }
        is("setup", driver.setup(given), 0)?;
        refer_all(&mut driver, &[location, 0])?;
        is(&format!("hash of {location:x}"), driver.word(5), hash)?;
        tried += 1;
    }
    Ok(tried)
}

/// The version of the library is that of rockgingham.rs and of the header.
pub fn version() -> Result<u64, String> {
    is("version", driver::version(), VERSION)?;
    let defined = format!("\n#define ROCKGINGHAM_VERSION {VERSION}\n");
    let header = include_str!("../../include/rockgingham.h");
    is("the header's version", header.contains(&defined), true)?;
    Ok(VERSION)
}

type Case = (&'static str, fn() -> Result<(), String>);

fn run(cases: &[Case]) -> Result<usize, String> {
    for (name, case) in cases {
        case().map_err(|error| format!("case {name}: {error}"))?;
    }
    Ok(cases.len())
}

pub fn bench() -> Result<usize, String> {
    run(&[
        ("a", a),
        ("b", b),
        ("c", c),
        ("d", d),
        ("e", e),
        ("f", f),
        ("g", g),
        ("h", h),
        ("i", i),
        ("j", j),
        ("k", k),
        ("l", l),
    ])
}

pub fn spans() -> Result<usize, String> {
    run(&[
        ("same read twice", same_read_twice),
        ("rising", rising),
        ("last byte", last_byte),
        ("full inside", full_inside),
        ("torn inside", torn_inside),
    ])
}
