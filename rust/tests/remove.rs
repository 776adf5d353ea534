//! `remove` against the independent crate and against the sets themselves.

use crate::common::forge::{one_record, EMPTY};
use crate::common::heads::head_for;
use crate::common::sets::{keys_near, part, set, sets_to, unlawful_keys, Kind, HIGH, KINDS};
use crate::common::values::filled;
use crate::common::writes::{compare_lengths, expect_refusal, expect_table, written, Call};
use crate::common::Random;
use independent::{lawful, table, tree_of};

#[test]
fn each_record_from_the_others() {
    let mut cases = 0;
    for (kind, set) in sets_to(100) {
        let register = table(&set);
        for (n, key) in set.keys().enumerate() {
            let others = table(&part(&set, |other| other != n));
            let call = Call::remove(key);
            expect_table(&register, &call, others.len(), &others);
            if set.len() <= 10 {
                let found = compare_lengths(&register, &call);
                assert!(found == Ok(others), "{kind:?} {n}");
            }
            cases += 1;
        }
    }
    assert_eq!(cases, KINDS.len() * (1 + 2 + 3 + 10 + 100));
}

#[test]
fn records_of_larger_registers() {
    let mut cases = 0;
    for kind in KINDS {
        let set = set(kind, 1_000);
        let register = table(&set);
        for n in [0, 1, 333, 500, 998, 999] {
            let others = table(&part(&set, |other| other != n));
            let key = set.keys().nth(n).expect("there are 1,000");
            expect_table(&register, &Call::remove(key), others.len(), &others);
            cases += 1;
        }
    }
    assert_eq!(cases, KINDS.len() * 6);
}

/// The only record leaves the empty register.
#[test]
fn the_last_record() {
    let call = Call::remove(b"a/b1");
    expect_table(&one_record(), &call, 7, &EMPTY);
    expect_table(&one_record(), &call, 64, &EMPTY);
    expect_refusal(&one_record(), &call, 6, 13);
    let mut cases = 0;
    for kind in KINDS {
        let set = set(kind, 1);
        let key = set.keys().next().expect("there is one");
        let found = compare_lengths(&table(&set), &Call::remove(key));
        assert!(found.as_deref() == Ok(&EMPTY), "{kind:?}");
        cases += 1;
    }
    assert_eq!(cases, KINDS.len());
}

/// All records in a random order, down to the empty register. The pages of one kind shrink over
/// the counts of 256, 255, 24 and 23 entries.
#[test]
fn all_records_in_turn() {
    let mut random = Random::new(61);
    let mut cases = 0;
    for (kind, count) in KINDS.map(|kind| (kind, 60)).into_iter().chain([
        (Kind::OnePage, 300),
        (Kind::Chains, 150),
        (Kind::Alternating, 150),
    ]) {
        let mut left = set(kind, count);
        let mut register = table(&left);
        let mut keys: Vec<_> = left.keys().cloned().collect();
        random.shuffle(&mut keys);
        for key in keys {
            left.remove(&key);
            let expected = table(&left);
            let call = Call::remove(&key);
            expect_table(&register, &call, expected.len() + 5, &expected);
            expect_refusal(&expected, &call, expected.len(), 12);
            register = expected;
            cases += 1;
        }
        assert_eq!(register, EMPTY, "{kind:?}");
    }
    assert_eq!(cases, KINDS.len() * 60 + 300 + 150 + 150);
}

/// The keys of the highest layers in turn: the root falls by one layer or by many.
#[test]
fn the_root_falls() {
    let mut left = set(Kind::Chains, 60);
    let mut register = table(&left);
    let mut cases = 0;
    for key in HIGH {
        left.remove(key.as_bytes());
        let found = compare_lengths(&register, &Call::remove(key.as_bytes()));
        register = found.expect("there is room");
        assert!(register == table(&left), "{key}");
        cases += 1;
    }
    assert_eq!(cases, 17);
    // The others are of layer 0, so that one page is left.
    assert_eq!(tree_of(&left).pages(), 1);
    assert_eq!(left.len(), 60 - 17);
}

#[test]
fn absent_keys() {
    let mut random = Random::new(62);
    let (mut cases, mut absent) = (0, 0);
    for (_, set) in sets_to(10) {
        let register = table(&set);
        for key in set.keys() {
            for near in keys_near(&mut random, key) {
                let expected = match set.contains_key(&near) {
                    true => None,
                    false if lawful(&near) => Some(12),
                    false => Some(7),
                };
                let found = compare_lengths(&register, &Call::remove(&near));
                assert_eq!(found.err(), expected, "{near:?}");
                absent += usize::from(expected == Some(12));
                cases += 1;
            }
        }
        for key in [&b"-/-"[..], b"~/~", b"a/b1"] {
            expect_refusal(&register, &Call::remove(key), 50, 12);
            cases += 1;
        }
    }
    assert_eq!(cases, KINDS.len() * ((1 + 2 + 3 + 10) * 20 + 5 * 3));
    assert!(absent > 500);
}

#[test]
fn unlawful_keys_are_refused() {
    let mut cases = 0;
    for (_, set) in sets_to(3) {
        let register = table(&set);
        for key in unlawful_keys() {
            expect_refusal(&register, &Call::remove(&key), 100, 7);
            cases += 1;
        }
    }
    assert_eq!(cases, KINDS.len() * 4 * unlawful_keys().len());
}

/// What was put is removed again, and the register is the one before, byte for byte.
#[test]
fn put_and_removed_again() {
    let mut random = Random::new(63);
    let sources: Vec<Vec<Vec<u8>>> = KINDS
        .iter()
        .map(|kind| set(*kind, 200).into_keys().collect())
        .collect();
    let mut cases = 0;
    for (kind, set) in sets_to(100) {
        let register = table(&set);
        for _ in 0..20 {
            let source = random.one_of(&sources);
            let key = random.one_of(source);
            if set.contains_key(key) {
                continue;
            }
            let more = written(&register, &Call::put(key, &filled(0x77)));
            assert!(more != register, "{kind:?}");
            assert!(written(&more, &Call::remove(key)) == register, "{kind:?}");
            cases += 1;
        }
    }
    assert!(cases > KINDS.len() * 6 * 15);
}

/// The key may be a part of the register, since both are only read.
#[test]
fn the_key_may_lie_in_the_register() {
    let register = one_record();
    let (mut head, mut out) = (head_for(&register), [0xaa; 8]);
    let removed = mijdegen::remove(&register, &mut head, &register[8..12], &mut out);
    assert_eq!(removed, Ok(7));
    assert_eq!(head, head_for(&EMPTY));
    assert_eq!(out[..7], EMPTY);
    assert_eq!(out[7], 0);
}
