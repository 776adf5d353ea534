//! `digest` against published digests and against the independent SHA-256.

use crate::common::calls::{expect_long_inputs_refused, mijdegen_digest, Surrounded};
use crate::common::{hexadecimal, Random};
use mijdegen::{digest, LONGEST};
use std::collections::BTreeSet;
use std::ptr::{self, NonNull};

fn check_published(message: &[u8], published: &str) {
    let found = digest(message).expect("the message is short enough");
    assert_eq!(hexadecimal(&found), published);
}

#[test]
fn fips_empty() {
    check_published(
        b"",
        "e3b0c44298fc1c149afbf4c8996fb92427ae41e4649b934ca495991b7852b855",
    );
}

#[test]
fn fips_3_bytes() {
    check_published(
        b"abc",
        "ba7816bf8f01cfea414140de5dae2223b00361a396177a9cb410ff61f20015ad",
    );
}

#[test]
fn fips_56_bytes() {
    let message = b"abcdbcdecdefdefgefghfghighijhijkijkljklmklmnlmnomnopnopq";
    assert_eq!(message.len(), 56);
    check_published(
        message,
        "248d6a61d20638b8e5c026930c3e6039a33ce45964ff2167f6ecedd419db06c1",
    );
}

#[test]
fn fips_112_bytes() {
    let message = b"abcdefghbcdefghicdefghijdefghijkefghijklfghijklmghijklmn\
                    hijklmnoijklmnopjklmnopqklmnopqrlmnopqrsmnopqrstnopqrstu";
    assert_eq!(message.len(), 112);
    check_published(
        message,
        "cf5b16a778af8380036ce59e7b0492370b249b11e8f07a51afac45037afee9d1",
    );
}

#[test]
fn fips_a_million_bytes() {
    check_published(
        &vec![b'a'; 1_000_000],
        "cdc76e5c9914fb9281a1c7e284d73e67f1809a48a497200e046d39ccc7112cd0",
    );
}

#[test]
fn lengths_around_blocks() {
    let mut lengths: BTreeSet<usize> = (0..=300).collect();
    for multiple in (64..=2_048).step_by(64) {
        lengths.extend(multiple - 3..=multiple + 3);
    }
    // 301 lengths up to 300, and 7 around each of the 28 multiples from 320 to 2,048.
    assert_eq!(lengths.len(), 301 + 7 * 28);

    let mut random = Random::new(1);
    let mut cases = 0;
    for &length in &lengths {
        let counting: Vec<u8> = (0..length).map(|place| (place + length) as u8).collect();
        let contents = [
            vec![0x00; length],
            vec![0xff; length],
            counting,
            random.bytes(length),
        ];
        for input in contents {
            assert_eq!(
                digest(&input),
                Ok(independent::sha256(&input)),
                "length {length}"
            );
            cases += 1;
        }
    }
    assert_eq!(cases, 497 * 4);
}

#[test]
fn random_strings() {
    let mut random = Random::new(2);
    // 4,000 cases. Each lies at some offset in a longer buffer, so that the address is aligned
    // in different ways and other bytes stand before and after the input.
    for _ in 0..4_000 {
        let length = random.below(5_001);
        let offset = random.below(16);
        let buffer = random.bytes(offset + length + 16);
        let input = &buffer[offset..offset + length];
        assert_eq!(
            digest(input),
            Ok(independent::sha256(input)),
            "length {length}, offset {offset}"
        );
    }
}

#[test]
fn longest_inputs() {
    let bytes = Random::new(3).bytes(LONGEST);
    // 6 lengths: the longest, and some just below it that end in other ways.
    for less in [0, 1, 8, 9, 63, 64] {
        let input = &bytes[..LONGEST - less];
        assert_eq!(
            digest(input),
            Ok(independent::sha256(input)),
            "length {}",
            input.len()
        );
    }
}

#[test]
fn longer_inputs_are_refused() {
    expect_long_inputs_refused(digest);
}

/// Calls the C function with an output of 32 bytes 0xAA inside a longer buffer, at the offset.
/// Checks that the bytes around the output and the input stay as they were. Gives the answer
/// and the output.
fn raw_digest(input: &mut [u8], offset: usize) -> (u64, [u8; 32]) {
    let mut out = Surrounded::at(offset, 32);
    let before = input.to_vec();
    // The pointer to the input comes from a mutable reference, so that a write to it would be
    // seen below.
    // SAFETY: The pointer and the length are of one slice, and the output has 32 bytes in a
    // buffer of its own.
    let answer = unsafe {
        mijdegen_digest(
            input.as_mut_ptr().cast_const(),
            input.len(),
            out.start().cast(),
        )
    };
    assert!(input == before, "the input was changed");
    let out = out.contents("the output").try_into().expect("32 bytes");
    (answer, out)
}

#[test]
fn raw_call_that_is_done() {
    let mut random = Random::new(5);
    let mut cases = 0;
    for length in [0, 1, 55, 56, 63, 64, 65, 119, 120, 128, 1_000] {
        for offset in 0..16 {
            let mut input = random.bytes(length);
            let expected = independent::sha256(&input);
            assert_eq!(
                raw_digest(&mut input, offset),
                (0, expected),
                "length {length}, offset {offset}"
            );
            cases += 1;
        }
    }
    assert_eq!(cases, 11 * 16);
}

#[test]
fn raw_call_that_is_done_with_the_longest_input() {
    let mut input = Random::new(6).bytes(LONGEST);
    let expected = independent::sha256(&input);
    assert_eq!(raw_digest(&mut input, 0), (0, expected));
}

#[test]
fn raw_call_that_is_refused() {
    let mut input = Random::new(7).bytes(LONGEST + 1);
    // 16 offsets of the output.
    for offset in 0..16 {
        assert_eq!(
            raw_digest(&mut input, offset),
            (1, [0; 32]),
            "offset {offset}"
        );
    }
}

#[test]
fn raw_call_does_not_read_an_empty_input() {
    let expected = independent::sha256(b"");
    // 2 pointers that cannot be read.
    for input in [ptr::null(), NonNull::<u8>::dangling().as_ptr().cast_const()] {
        let mut out = [0xaa; 32];
        // SAFETY: At length 0 the input is not read, and the output has 32 bytes.
        let answer = unsafe { mijdegen_digest(input, 0, &mut out) };
        assert_eq!((answer, out), (0, expected));
    }
}
