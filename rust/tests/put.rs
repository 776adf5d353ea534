//! `put` and `join` against the independent crate and against the sets themselves.

use crate::common::calls::{mijdegen_join, mijdegen_put};
use crate::common::forge::{one_record, EMPTY};
use crate::common::heads::head_for;
use crate::common::sets::{
    keys_near, keys_with, part, set, set_of_layers, sets_to, unlawful_keys, Kind, KINDS,
};
use crate::common::values::{filled, other_codec, unusual_values, value_at, GREATEST, LEAST};
use crate::common::writes::{
    compare_call, compare_lengths, expect_refusal, expect_table, written, Call,
};
use crate::common::Random;
use independent::{lawful, lookup, table, Set, Value};
use mijdegen::Refusal;

/// The two calls with the same record.
fn both(key: &[u8], value: &Value) -> [Call; 2] {
    [Call::put(key, value), Call::join(key, value)]
}

#[test]
fn rows_of_the_scope() {
    let longest = [&[b'a'; 100][..], b"/", &[b'b'; 155]].concat();
    assert_eq!(longest.len(), 256);
    let mut cases = 0;
    for call in both(b"a/b1", &filled(0x11)) {
        expect_table(&EMPTY, &call, 64, &one_record());
        expect_table(&EMPTY, &call, 65, &one_record());
        expect_refusal(&EMPTY, &call, 63, 13);
        cases += 3;
    }
    for call in both(&longest, &filled(0x11)) {
        // 252 bytes of the key more than `a/b1` has, and 2 more for the length.
        assert_eq!(compare_call(&EMPTY, &call, 400), Ok(64 + 252 + 2));
        cases += 1;
    }
    for call in both(&[&longest[..], b"b"].concat(), &filled(0x11)) {
        expect_refusal(&EMPTY, &call, 400, 7);
        cases += 1;
    }
    assert_eq!(cases, 2 * 5);
}

/// Each record of a set, where all others are there already.
#[test]
fn each_record_into_the_others() {
    let mut cases = 0;
    for (kind, set) in sets_to(100) {
        let whole = table(&set);
        for (n, (key, value)) in set.iter().enumerate() {
            let others = table(&part(&set, |other| other != n));
            for call in both(key, value) {
                expect_table(&others, &call, whole.len(), &whole);
                if set.len() <= 10 {
                    let found = compare_lengths(&others, &call);
                    assert!(found.as_ref() == Ok(&whole), "{kind:?} {n}");
                }
                cases += 1;
            }
        }
    }
    assert_eq!(cases, KINDS.len() * (1 + 2 + 3 + 10 + 100) * 2);
}

/// Each record of a set with another value: put takes it, join only where it is greater.
#[test]
fn present_keys() {
    let mut cases = 0;
    for (kind, set) in sets_to(10) {
        let register = table(&set);
        for (key, value) in &set {
            for other in [LEAST, GREATEST, *value, other_codec(value)] {
                let mut changed = set.clone();
                changed.insert(key.clone(), other);
                let found = compare_lengths(&register, &Call::put(key, &other));
                assert!(found == Ok(table(&changed)), "{kind:?}");

                changed.insert(key.clone(), *value.max(&other));
                let found = compare_lengths(&register, &Call::join(key, &other));
                assert!(found == Ok(table(&changed)), "{kind:?}");
                cases += 2;
            }
        }
    }
    assert_eq!(cases, KINDS.len() * (1 + 2 + 3 + 10) * 8);
}

/// Keys that differ little from present ones.
#[test]
fn keys_near_present_ones() {
    let mut random = Random::new(51);
    let (mut cases, mut done) = (0, 0);
    for (_, set) in sets_to(10) {
        let register = table(&set);
        for key in set.keys() {
            for near in keys_near(&mut random, key) {
                let expected = if lawful(&near) { None } else { Some(7) };
                for call in both(&near, &filled(0x76)) {
                    let found = compare_lengths(&register, &call);
                    assert_eq!(found.as_ref().err(), expected.as_ref());
                    done += usize::from(found.is_ok());
                    cases += 1;
                }
            }
        }
    }
    assert_eq!(cases, KINDS.len() * (1 + 2 + 3 + 10) * 20 * 2);
    assert!(done > 1_000 && done < cases - 1_000);
}

/// Keys before the first record and after the last, and records all over larger registers.
#[test]
fn keys_into_larger_registers() {
    let mut random = Random::new(52);
    let mut cases = 0;
    for kind in KINDS {
        let set = set(kind, 1_000);
        let register = table(&set);
        let mut keys = vec![b"-/-".to_vec(), b"~/~".to_vec()];
        for key in set.keys().step_by(333) {
            let near = keys_near(&mut random, key);
            keys.push(near.into_iter().find(|key| lawful(key)).expect("a key"));
        }
        for key in keys {
            let mut changed = set.clone();
            changed.insert(key.clone(), filled(0x76));
            let expected = table(&changed);
            for call in both(&key, &filled(0x76)) {
                expect_table(&register, &call, expected.len(), &expected);
                cases += 1;
            }
        }
    }
    assert_eq!(cases, KINDS.len() * (2 + 4) * 2);
}

/// Two values that differ at one place of the digest, where the bytes behind it and the codec say
/// the opposite.
#[test]
fn the_greater_value_byte_by_byte() {
    let register_with = |value: &Value| {
        let mut set = set_of_layers(&[0, 1, 0]);
        let key = set.keys().nth(1).expect("there are 3").clone();
        set.insert(key.clone(), *value);
        (table(&set), key)
    };
    let mut cases = 0;
    for place in 0..32 {
        for (lesser_byte, greater_byte) in [(0, 1), (0x7f, 0x80), (0xfe, 0xff), (0, 0xff)] {
            let mut lesser = Value::dag_cbor([0x55; 32]);
            let mut greater = Value::raw([0x55; 32]);
            lesser.digest[place] = lesser_byte;
            greater.digest[place] = greater_byte;
            lesser.digest[place + 1..].fill(0xff);
            greater.digest[place + 1..].fill(0x00);

            let (with_lesser, key) = register_with(&lesser);
            let (with_greater, _) = register_with(&greater);
            for (register, value) in [(&with_lesser, &greater), (&with_greater, &lesser)] {
                let found = compare_lengths(register, &Call::join(&key, value));
                assert!(found.as_ref() == Ok(&with_greater), "place {place}");
            }
            // Merge joins as well, in both directions.
            for (first, second) in [(&with_lesser, &with_greater), (&with_greater, &with_lesser)] {
                let found = compare_lengths(first, &Call::merge(second));
                assert!(found.as_ref() == Ok(&with_greater), "place {place}");
            }
            // Put takes what it is handed.
            let found = compare_lengths(&with_greater, &Call::put(&key, &lesser));
            assert!(found.as_ref() == Ok(&with_lesser), "place {place}");
            cases += 5;
        }
    }
    assert_eq!(cases, 32 * 4 * 5);
}

/// Values of other lengths, with each codec first, and each other byte in the place of the codec.
#[test]
fn wrong_values() {
    let registers = [
        EMPTY.to_vec(),
        one_record(),
        table(&set(Kind::Ordinary, 10)),
    ];
    let lengths = (0..=100).filter(|length| *length != 33);
    let lengths = lengths.chain([256 + 33, 65_536 + 33, 4_194_304, 4_194_337]);
    let of_lengths = lengths.flat_map(|length| [vec![0x55; length], vec![0x71; length]]);
    let no_codecs = (0..=255).filter(|byte| *byte != 0x55 && *byte != 0x71);
    let of_no_codec = no_codecs.map(|byte| vec![byte; 33]);
    let mut cases = 0;
    for value in of_lengths.chain(of_no_codec) {
        for register in &registers {
            for call in [
                Call::put_bytes(b"a/b1", &value),
                Call::join_bytes(b"a/b1", &value),
            ] {
                assert_eq!(compare_call(register, &call, 70), Err(11), "{call:?}");
                cases += 1;
            }
        }
        // The safe functions cannot be handed such bytes.
        let refused = mijdegen::Value::try_from(&value[..]);
        assert_eq!(refused, Err(Refusal::WrongValue));
    }
    assert_eq!(cases, ((100 + 4) * 2 + 254) * 3 * 2);
}

#[test]
fn unlawful_keys_are_refused() {
    let mut cases = 0;
    for (_, set) in sets_to(3) {
        let register = table(&set);
        for key in unlawful_keys() {
            for call in both(&key, &filled(0x11)) {
                expect_refusal(&register, &call, 100, 7);
                cases += 1;
            }
        }
    }
    assert_eq!(cases, KINDS.len() * 4 * unlawful_keys().len() * 2);
}

/// Each byte beside the slash: the record is put where it is lawful, else 7.
#[test]
fn each_byte_of_a_key() {
    let register = table(&set(Kind::Ordinary, 3));
    let mut cases = 0;
    for byte in 0..=255_u8 {
        for key in keys_with(byte) {
            for call in both(&key, &filled(0x76)) {
                let found = compare_call(&register, &call, 1_000);
                assert_eq!(found.is_ok(), lawful(&key), "{key:?}");
                assert!(found.is_ok() || found == Err(7), "{key:?}");
                cases += 1;
            }
        }
    }
    assert_eq!(cases, 256 * 4 * 2);
}

/// A key of each length into the empty register and, in both orders, into one register.
#[test]
fn each_length_of_keys() {
    let key = |length: usize| {
        let mut key = vec![b'k'; length];
        key[1] = b'/';
        key
    };
    let mut cases = 0;
    for length in 3..=256 {
        let call = Call::put(&key(length), &filled(length as u8));
        compare_lengths(&EMPTY, &call).expect("the key is lawful");
        cases += 1;
    }
    let all: Set = (3..=256)
        .map(|length| (key(length), filled(length as u8)))
        .collect();
    for falling in [false, true] {
        let mut register = EMPTY.to_vec();
        for step in 0..254 {
            let length = if falling { 256 - step } else { 3 + step };
            let call = Call::put(&key(length), &filled(length as u8));
            register = written(&register, &call);
            cases += 1;
        }
        assert!(register == table(&all));
    }
    assert_eq!(cases, 254 * 3);
}

/// A page that grows over the counts of 23, 24, 255 and 256 entries, at any of its places.
#[test]
fn each_count_of_entries() {
    let mut random = Random::new(53);
    let all = set(Kind::OnePage, 300);
    let mut records: Vec<_> = all.iter().collect();
    random.shuffle(&mut records);
    let (mut register, mut grown) = (EMPTY.to_vec(), Set::new());
    for (key, value) in records {
        let call = Call::put(key, value);
        grown.insert(key.clone(), *value);
        let expected = table(&grown);
        expect_table(&register, &call, expected.len() + 3, &expected);
        register = expected;
    }
    assert_eq!(grown.len(), 300);
    assert!(register == table(&all));
}

/// Values of every kind are written as they are, also those that look like parts of a page.
#[test]
fn every_value_is_taken() {
    let register = table(&set_of_layers(&[0, 1, 0, 2]));
    let mut cases = 0;
    for value in unusual_values() {
        for call in both(b"a/b1", &value) {
            let found = compare_lengths(&register, &call).expect("there is room");
            let place = lookup(&found, b"a/b1").expect("the key is present");
            assert_eq!(value_at(&found, place), value);
            cases += 1;
        }
    }
    assert_eq!(cases, 10 * 2);
}

/// The key and the value may be parts of the register, since all of them are only read.
#[test]
fn the_key_and_the_value_may_lie_in_the_register() {
    let register = one_record();
    // The value is the codec and the bytes behind it. It is greater than the one that is there,
    // since its digest begins with 12.
    let (key, value) = (&register[8..12], &register[26..59]);
    for call in [mijdegen_put, mijdegen_join] {
        let (mut head, mut out) = (head_for(&register), [0xaa; 64]);
        // SAFETY: Each pointer has as many bytes as the library is told. The inputs may share them,
        // and the head and the output are no part of them.
        let answer = unsafe {
            call(
                register.as_ptr(),
                register.len(),
                &mut head,
                key.as_ptr(),
                key.len(),
                value.as_ptr(),
                value.len(),
                out.as_mut_ptr(),
                out.len(),
            )
        };
        assert_eq!(answer, 256 * 64);
        assert_eq!(out[26], value[0]);
        assert_eq!(out[29..61], value[1..]);
        assert_eq!(head, head_for(&out));
    }
}
