//! `merge` against the independent crate, against the sets themselves, and its three laws.

use crate::common::calls::count_of;
use crate::common::forge::{one_record, EMPTY};
use crate::common::heads::head_of;
use crate::common::lists::Source;
use crate::common::sets::{
    part, parts, rows_of_few_layers, set, set_of_layers, sets_to, value, KINDS,
};
use crate::common::values::filled;
use crate::common::writes::{compare_lengths, expect_table, written, Call};
use crate::common::Random;
use independent::{merge_in, set_of, table, Set};
use mijdegen::merge;

/// Merges with an output that has room.
fn merged(first: &[u8], second: &[u8]) -> Vec<u8> {
    written(first, &Call::merge(second))
}

/// A register with the empty one, in both directions, and with itself.
#[test]
fn with_the_empty_register_and_itself() {
    let mut cases = 0;
    for (kind, set) in sets_to(100) {
        let register = table(&set);
        for (first, second) in [
            (&register[..], &EMPTY[..]),
            (&EMPTY, &register),
            (&register, &register),
        ] {
            let found = compare_lengths(first, &Call::merge(second));
            assert!(found.as_ref() == Ok(&register), "{kind:?}");
            cases += 1;
        }
        // The very same bytes are lent twice.
        let (mut head, mut out) = (head_of(&set), vec![0xaa; register.len()]);
        let length = merge(&register, &mut head, &register, &mut out);
        assert_eq!(length, Ok(register.len()));
        assert!(out == register, "{kind:?}");
        assert_eq!(head, head_of(&set), "{kind:?}");
        cases += 1;
    }
    assert_eq!(cases, KINDS.len() * 6 * 4);
}

/// Sets of all kinds with sets of all kinds.
#[test]
fn all_pairs_of_kinds() {
    let sets = sets_to(10);
    let mut cases = 0;
    for (_, first) in &sets {
        for (_, second) in &sets {
            let expected = table(&merge_in(first.clone(), second));
            let found = compare_lengths(&table(first), &Call::merge(&table(second)));
            assert!(found == Ok(expected));
            cases += 1;
        }
    }
    assert_eq!(cases, (KINDS.len() * 5) * (KINDS.len() * 5));

    // Larger ones with an output that is just long enough.
    let mut cases = 0;
    for one in KINDS {
        for other in KINDS {
            let (first, second) = (set(one, 300), set(other, 200));
            let expected = table(&merge_in(first.clone(), &second));
            let call = Call::merge(&table(&second));
            expect_table(&table(&first), &call, expected.len(), &expected);
            cases += 1;
        }
    }
    assert_eq!(cases, KINDS.len() * KINDS.len());
}

/// Two parts of a set give the set, whichever records they have in common.
#[test]
fn parts_of_a_set() {
    let mut random = Random::new(71);
    let mut cases = 0;
    for kind in KINDS {
        for count in [2, 3, 10, 100] {
            let set = set(kind, count);
            let whole = table(&set);
            let split = random.below(count);
            let odd = part(&set, |n| n % 2 == 1);
            let even = part(&set, |n| n % 2 == 0);
            let before = part(&set, |n| n < split);
            let behind = part(&set, |n| n >= split);
            // Each third record stands in both parts.
            let one = part(&set, |n| n % 3 != 0);
            let other = part(&set, |n| n % 3 != 1);
            for (first, second) in [(odd, even), (before, behind), (one, other)] {
                for (first, second) in [(&first, &second), (&second, &first)] {
                    let call = Call::merge(&table(second));
                    let found = compare_lengths(&table(first), &call);
                    assert!(found.as_ref() == Ok(&whole), "{kind:?} {count}");
                    cases += 1;
                }
            }
        }
    }
    assert_eq!(cases, KINDS.len() * 4 * 3 * 2);
}

/// All rows of few layers, and all ways to part each of them in two.
#[test]
fn all_parts_of_all_rows_of_few_layers() {
    let mut cases = 0;
    for row in rows_of_few_layers() {
        let set = set_of_layers(&row);
        let whole = table(&set);
        let parts = parts(&set);
        for (first, second) in parts.iter().zip(parts.iter().rev()) {
            let (first, second) = (table(first), table(second));
            expect_table(&first, &Call::merge(&second), whole.len(), &whole);
            cases += 1;
        }
    }
    // A row of n layers has 2 to the n ways.
    assert_eq!(
        cases,
        3 * 2 + 9 * 4 + 27 * 8 + 81 * 16 + 243 * 32 + 25 * 4 + 125 * 8
    );
}

/// The same keys with other values: each record keeps the greater of the two.
#[test]
fn other_values() {
    let mut random = Random::new(72);
    let mut cases = 0;
    for (kind, first) in sets_to(100) {
        let second: Set = first
            .keys()
            .map(|key| (key.clone(), value(&mut random)))
            .collect();
        let greater: Set = first
            .iter()
            .map(|(key, value)| (key.clone(), *value.max(&second[key])))
            .collect();
        let expected = table(&greater);
        for (one, other) in [(&first, &second), (&second, &first)] {
            let found = compare_lengths(&table(one), &Call::merge(&table(other)));
            assert!(found.as_ref() == Ok(&expected), "{kind:?}");
            cases += 1;
        }
    }
    assert_eq!(cases, KINDS.len() * 6 * 2);
}

/// Merge joins each record of the second register in turn.
#[test]
fn as_many_joins() {
    let mut random = Random::new(73);
    let mut cases = 0;
    for kind in KINDS {
        let source = Source::new(set(kind, 30).into_keys());
        for _ in 0..10 {
            let first = table(&source.set(&mut random, 20));
            let second = source.set(&mut random, 20);
            let mut joined = first.clone();
            for (key, value) in &second {
                joined = written(&joined, &Call::join(key, value));
            }
            assert!(joined == merged(&first, &table(&second)), "{kind:?}");
            cases += 1;
        }
    }
    assert_eq!(cases, KINDS.len() * 10);
}

/// The three laws, byte for byte, on registers that have keys in common with other values.
#[test]
fn laws() {
    let mut random = Random::new(74);
    let mut cases = 0;
    for kind in KINDS {
        let source = Source::new(set(kind, 40).into_keys());
        for _ in 0..60 {
            let [a, b, c] = [0; 3].map(|_| table(&source.set(&mut random, 30)));
            let a_and_b = merged(&a, &b);
            assert!(a_and_b == merged(&b, &a), "{kind:?}: commutative");
            let one_way = merged(&a_and_b, &c);
            assert!(
                one_way == merged(&a, &merged(&b, &c)),
                "{kind:?}: associative"
            );
            assert!(merged(&a, &a) == a, "{kind:?}: idempotent");
            // Nothing of the three is lost, and merging a part once more changes nothing.
            assert_eq!(count_of(&one_way), Ok(set_of(&one_way).unwrap().len()));
            for one in [&a, &b, &c] {
                assert!(merged(&one_way, one) == one_way, "{kind:?}");
            }
            cases += 1;
        }
    }
    assert_eq!(cases, KINDS.len() * 60);
}

/// The laws on large registers: three of 2,000 records, of which each two have some in common.
#[test]
fn laws_on_large_registers() {
    let mut random = Random::new(75);
    let mut cases = 0;
    for kind in KINDS {
        let all = set(kind, 4_000);
        let [a, b, c] = [0, 1, 2].map(|which| {
            let mut set = part(&all, |n| n % 4 == which || n % 4 == 3);
            // Some of the records that all have get another value.
            for (n, kept) in set.values_mut().enumerate() {
                if n % 7 == which {
                    *kept = value(&mut random);
                }
            }
            table(&set)
        });
        let a_and_b = merged(&a, &b);
        assert!(a_and_b == merged(&b, &a), "{kind:?}: commutative");
        let one_way = merged(&a_and_b, &c);
        assert!(
            one_way == merged(&a, &merged(&b, &c)),
            "{kind:?}: associative"
        );
        assert!(
            merged(&one_way, &one_way) == one_way,
            "{kind:?}: idempotent"
        );
        assert_eq!(count_of(&one_way), Ok(4_000));
        cases += 1;
    }
    assert_eq!(cases, KINDS.len());
}

/// A register that is lent as the second is not changed, and a part of it may be the first.
#[test]
fn one_register_may_lie_in_the_other() {
    // A value that is the empty register and more: 7 bytes of the second register are the first.
    let mut value = filled(0x11);
    value.digest[..7].copy_from_slice(&EMPTY);
    let set = Set::from([(b"a/b1".to_vec(), value)]);
    let register = table(&set);
    let (mut head, mut out) = (head_of(&Set::new()), [0xaa; 64]);
    let length = merge(&register[29..36], &mut head, &register, &mut out);
    assert_eq!(length, Ok(64));
    assert_eq!(out[..], register);
    assert_eq!(head, head_of(&set));
    let length = merge(&register, &mut head, &register[29..36], &mut out);
    assert_eq!(length, Ok(64));
    assert_eq!(out[..], register);
    assert_eq!(head, head_of(&set));
    assert_eq!(register.len(), one_record().len());
}
