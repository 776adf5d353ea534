//! The names and numbers of the refusals.

use mijdegen::{Codec, Refusal, LONGEST, LONGEST_KEY, LONGEST_SCREEN, PER_SCREEN, VALUE_BYTES};
use std::collections::HashSet;
use std::error::Error;

/// The 17 refusals with their numbers and their names in C.
const REFUSALS: [(Refusal, u8, &str); 17] = [
    (Refusal::TooLong, 1, "MIJDEGEN_TOO_LONG"),
    (Refusal::EndsEarly, 2, "MIJDEGEN_ENDS_EARLY"),
    (Refusal::Departs, 3, "MIJDEGEN_DEPARTS"),
    (Refusal::BytesFollow, 4, "MIJDEGEN_BYTES_FOLLOW"),
    (Refusal::TooManyRecords, 5, "MIJDEGEN_TOO_MANY_RECORDS"),
    (Refusal::WrongPrefix, 6, "MIJDEGEN_WRONG_PREFIX"),
    (Refusal::UnlawfulKey, 7, "MIJDEGEN_UNLAWFUL_KEY"),
    (Refusal::KeysNotRising, 8, "MIJDEGEN_KEYS_NOT_RISING"),
    (Refusal::WrongTree, 9, "MIJDEGEN_WRONG_TREE"),
    (Refusal::WrongDigest, 10, "MIJDEGEN_WRONG_DIGEST"),
    (Refusal::WrongValue, 11, "MIJDEGEN_WRONG_VALUE"),
    (Refusal::KeyAbsent, 12, "MIJDEGEN_KEY_ABSENT"),
    (Refusal::NoRoom, 13, "MIJDEGEN_NO_ROOM"),
    (Refusal::FirstAfterLast, 14, "MIJDEGEN_FIRST_AFTER_LAST"),
    (Refusal::NoSuchScreen, 15, "MIJDEGEN_NO_SUCH_SCREEN"),
    (Refusal::PageNotDue, 16, "MIJDEGEN_PAGE_NOT_DUE"),
    (Refusal::UntrueHead, 17, "MIJDEGEN_UNTRUE_HEAD"),
];

#[test]
fn numbers_lead_to_refusals_and_back() {
    for (refusal, number, _) in REFUSALS {
        assert_eq!(refusal.number(), number);
        assert_eq!(Refusal::from_number(number), Some(refusal));
    }
}

#[test]
fn other_numbers_are_no_refusal() {
    assert_eq!(Refusal::from_number(0), None);
    // 238 numbers.
    for number in 18..=255 {
        assert_eq!(Refusal::from_number(number), None);
    }
}

#[test]
fn each_refusal_has_its_own_message() {
    let messages: HashSet<String> = REFUSALS
        .iter()
        .map(|(refusal, _, _)| {
            let error: &dyn Error = refusal;
            error.to_string()
        })
        .collect();
    assert_eq!(messages.len(), 17);
    assert!(!messages.contains(""));
}

/// The C header is written by hand, so its names and numbers are compared with the crate's.
#[test]
fn the_header_has_the_same_numbers() {
    let header = include_str!("../include/mijdegen.h");

    let found: Vec<(&str, u8)> = header
        .lines()
        .filter_map(|line| line.trim().trim_end_matches(',').split_once(" = "))
        .map(|(name, number)| (name, number.parse().expect("a number follows the name")))
        .collect();
    let expected: Vec<(&str, u8)> = REFUSALS
        .iter()
        .map(|&(_, number, name)| (name, number))
        .collect();
    assert_eq!(found, expected);

    for (name, number) in [
        ("LONGEST", LONGEST),
        ("LONGEST_KEY", LONGEST_KEY),
        ("VALUE_BYTES", VALUE_BYTES),
        ("PER_SCREEN", PER_SCREEN),
        ("LONGEST_SCREEN", LONGEST_SCREEN),
    ] {
        let defined = format!("#define MIJDEGEN_{name} {number}");
        assert!(header.lines().any(|line| line == defined), "{name}");
    }
    for (name, codec) in [("RAW", Codec::Raw), ("DAG_CBOR", Codec::DagCbor)] {
        let defined = format!("#define MIJDEGEN_{name} 0x{:02x}", codec.byte());
        assert!(header.lines().any(|line| line == defined), "{name}");
    }
}

#[test]
fn the_longest_lengths() {
    assert_eq!(LONGEST, 4_194_304);
    assert_eq!(LONGEST_KEY, 256);
    assert_eq!(VALUE_BYTES, 33);
    assert_eq!(PER_SCREEN, 8);
    assert_eq!(LONGEST_SCREEN, 65_536);
}
