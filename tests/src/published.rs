//! Published MurmurHash3 code, from Debian's libmurmurhash: its x64 128-bit form, made to yield its 64-bit finaliser alone.
//!
//! From 8 bytes and seed 0 that form makes one number s by scrambling the bytes, sets h1 = (s xor 8) + 8 and h2 = 8 + h1, finalises
//! both to f(h1) and f(h2), and outputs f(h1) + f(h2) and then that sum + f(h2). So f(h1) and f(h2) follow from its output, and the
//! scrambling (two products and a rotation) can be undone for any wanted h1. `checked` checks that it is undone correctly: f of a
//! number must be the same as h1 of one input and as h2 of another, and the finaliser of 0 must be 0.

use crate::random::Random;

extern "C" {
    fn lmmh_x64_128(address: *const u8, length: u32, seed: u32, out: *mut u64);
}

const FIRST: u64 = 0x87c37b91114253d5;
const SECOND: u64 = 0x4cf5ad432745937f;

/// The inverse of an odd number modulo 2^64.
fn inverse(odd: u64) -> u64 {
    let mut found: u64 = 1;
    for _ in 0..6 {
        found = found.wrapping_mul(2u64.wrapping_sub(odd.wrapping_mul(found)));
    }
    assert_eq!(
        found.wrapping_mul(odd),
        1,
        "{odd:x} has the inverse {found:x}"
    );
    found
}

/// The bytes from which the published code makes h1 the wanted number.
fn bytes_for(wanted: u64) -> [u8; 8] {
    let scrambled = wanted.wrapping_sub(8) ^ 8;
    let rotated = scrambled.wrapping_mul(inverse(SECOND));
    let product = rotated.rotate_right(31);
    product.wrapping_mul(inverse(FIRST)).to_le_bytes()
}

/// The published finaliser of a number, and of that number plus 8.
fn pair(wanted: u64) -> (u64, u64) {
    let bytes = bytes_for(wanted);
    let mut out = [0u64; 2];
    // The function reads 8 bytes and writes two numbers.
    unsafe { lmmh_x64_128(bytes.as_ptr(), 8, 0, out.as_mut_ptr()) };
    let second = out[1].wrapping_sub(out[0]);
    (out[0].wrapping_sub(second), second)
}

/// The published finaliser of a number, modulo 2^24, with the check described above.
pub fn checked(location: u64) -> Result<u64, String> {
    let (direct, _) = pair(location);
    let (_, beside) = pair(location.wrapping_sub(8));
    if direct != beside {
        return Err(format!(
            "the published code gives {direct:x} and {beside:x} for {location:x}"
        ));
    }
    if pair(0).0 != 0 {
        return Err("the published finaliser of 0 is not 0".to_string());
    }
    Ok(direct % (1 << 24))
}

/// The locations to try: some fixed ones, then every other one at least 2^63.
pub fn location(random: &mut Random, case: u64) -> u64 {
    let fixed = [1, 1 << 63, (1 << 63) + 1, u64::MAX, u64::MAX - 1];
    match fixed.get(case as usize) {
        Some(location) => *location,
        None if case % 2 == 0 => random.next() | 1 << 63,
        None => random.any(),
    }
}
