//! `layer` against published layers and against the independent count.

use crate::common::calls::{expect_long_inputs_refused, mijdegen_layer, raw_layer};
use crate::common::Random;
use mijdegen::{layer, LONGEST};
use std::ptr::{self, NonNull};

#[test]
fn published_layers() {
    assert_eq!(layer(b"2653ae71"), Ok(0));
    assert_eq!(layer(b"blue"), Ok(1));
    assert_eq!(layer(b"app.bsky.feed.post/454397e440ec"), Ok(4));
    assert_eq!(layer(b"app.bsky.feed.post/9adeb165882c"), Ok(8));
}

/// Strings found by search, with the leading zero bits of their digests. A random string has so
/// many too seldom for the test of random strings.
#[test]
fn many_leading_zero_bits() {
    let found = [
        ("layer/0000009285", 16),
        ("layer/0000224576", 17),
        ("layer/0000909107", 18),
        ("layer/0000315498", 19),
        ("layer/0000004696", 20),
        ("layer/0002548750", 21),
        ("layer/0000672623", 22),
        ("layer/0025198807", 23),
        ("layer/0021486030", 24),
        ("layer/0069058063", 25),
        ("layer/0064011101", 26),
        ("layer/0112470353", 27),
        ("layer/0337396509", 28),
        ("layer/0880089582", 29),
        ("layer/3709325243", 30),
        ("layer/1714524762", 31),
        ("depth/6002263208", 32),
    ];
    // 17 strings, with 16 to 32 leading zero bits.
    assert_eq!(found.len(), 17);
    for (input, zeros) in found {
        assert_eq!(layer(input.as_bytes()), Ok(zeros / 2), "{input}");
        assert_eq!(independent::layer(input.as_bytes()), zeros / 2, "{input}");
    }
}

#[test]
fn random_strings() {
    let mut random = Random::new(1);
    let mut counts = [0; 129];
    // 65,536 cases of 0 to 40 bytes.
    for _ in 0..65_536 {
        let length = random.below(41);
        let input = random.bytes(length);
        let expected = independent::layer(&input);
        assert_eq!(layer(&input), Ok(expected), "{input:?}");
        counts[usize::from(expected)] += 1;
    }
    assert_eq!(counts.iter().sum::<u32>(), 65_536);
    // About one string in 1,024 has layer 5 or more.
    for (layer, &count) in counts.iter().enumerate().take(6) {
        assert!(count > 0, "no string has layer {layer}");
    }
}

#[test]
fn lengths_to_300() {
    let mut random = Random::new(2);
    // 301 lengths with 8 strings each.
    for length in 0..=300 {
        for _ in 0..8 {
            let input = random.bytes(length);
            assert_eq!(layer(&input), Ok(independent::layer(&input)), "{input:?}");
        }
    }
}

#[test]
fn empty_string() {
    // The digest of the empty string begins with the byte 0xe3, so with a one bit.
    assert_eq!(layer(b""), Ok(0));
}

#[test]
fn longest_input() {
    let mut input = Random::new(3).bytes(LONGEST);
    let mut highest = 0;
    // 8 strings, of which some have a layer over 0.
    for first in 0..8 {
        input[0] = first;
        let expected = independent::layer(&input);
        assert_eq!(layer(&input), Ok(expected), "first byte {first}");
        highest = highest.max(expected);
    }
    assert!(highest > 0);
}

#[test]
fn longer_inputs_are_refused() {
    expect_long_inputs_refused(layer);
}

#[test]
fn raw_answers() {
    let mut random = Random::new(5);
    // 2,000 cases.
    for _ in 0..2_000 {
        let length = random.below(200);
        let mut input = random.bytes(length);
        let expected = 256 * u64::from(independent::layer(&input));
        assert_eq!(raw_layer(&mut input), expected, "{input:?}");
    }
    assert_eq!(raw_layer(&mut b"blue".to_vec()), 256);
    assert_eq!(raw_layer(&mut random.bytes(LONGEST + 1)), 1);
}

#[test]
fn raw_call_does_not_read_an_empty_input() {
    // 2 pointers that cannot be read.
    for input in [ptr::null(), NonNull::<u8>::dangling().as_ptr().cast_const()] {
        // SAFETY: At length 0 the input is not read.
        let answer = unsafe { mijdegen_layer(input, 0) };
        assert_eq!(answer, 0);
    }
}
