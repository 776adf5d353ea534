//! `lookup` and `lookup_place` against the independent crate and against the sets themselves.

use crate::common::calls::{compare_lookup, mijdegen_lookup, raw_lookup};
use crate::common::forge::{link_with, one_record, EMPTY};
use crate::common::sets::{keys_near, keys_with, set, sets_to, unlawful_keys, Kind, KINDS};
use crate::common::values::{filled, library_value};
use crate::common::Random;
use independent::{lawful, table, Set};
use mijdegen::{lookup, lookup_place, Refusal, Value, LONGEST};
use std::ptr;

/// What lookup gives by the set: 7 for an unlawful key, 12 for an absent one, else the value.
fn by_set(set: &Set, key: &[u8]) -> Result<Value, Refusal> {
    if !lawful(key) {
        return Err(Refusal::UnlawfulKey);
    }
    set.get(key).map(library_value).ok_or(Refusal::KeyAbsent)
}

#[test]
fn each_present_key() {
    let mut cases = 0;
    for (kind, set) in sets_to(100) {
        let register = table(&set);
        for (key, value) in &set {
            let place = compare_lookup(&register, key).expect("the key is present");
            assert_eq!(lookup(&register, key), by_set(&set, key), "{kind:?}");
            // Nine bytes of the link stand before the digest.
            let link = link_with(value.codec.byte(), &value.digest);
            assert_eq!(register[place - 9..place + 32], link, "{kind:?}");
            cases += 1;
        }
    }
    assert_eq!(cases, KINDS.len() * (1 + 2 + 3 + 10 + 100));
}

#[test]
fn present_keys_of_large_registers() {
    let mut cases = 0;
    for kind in KINDS {
        for (count, step) in [(1_000, 37), (4_096, 585)] {
            let set = set(kind, count);
            let register = table(&set);
            // Keys all over the register, with the first and the last.
            let records: Vec<_> = set.iter().collect();
            for (key, _) in records.iter().step_by(step) {
                assert_eq!(lookup(&register, key), by_set(&set, key), "{kind:?}");
                cases += 1;
            }
            // The place of the last, which stands on a step.
            let (key, value) = records[count - 1];
            let place = lookup_place(&register, key).expect("the key is present");
            assert_eq!(register[place..place + 32], value.digest, "{kind:?}");
            compare_lookup(&register, key).expect("the key is present");
        }
    }
    assert_eq!(cases, KINDS.len() * (28 + 8));
}

/// Keys that differ little from present ones: shorter, longer, and with another byte.
#[test]
fn keys_near_present_ones() {
    let mut random = Random::new(21);
    let (mut cases, mut present, mut absent, mut unlawful) = (0, 0, 0, 0);
    for (kind, set) in sets_to(10) {
        let register = table(&set);
        for key in set.keys() {
            for key in keys_near(&mut random, key) {
                let expected = by_set(&set, &key);
                assert_eq!(lookup(&register, &key), expected, "{kind:?} {key:?}");
                let found = compare_lookup(&register, &key);
                match found {
                    Ok(_) => present += 1,
                    Err(12) => absent += 1,
                    Err(7) => unlawful += 1,
                    Err(number) => panic!("number {number}"),
                }
                cases += 1;
            }
        }
    }
    assert_eq!(cases, KINDS.len() * (1 + 2 + 3 + 10) * 20);
    assert_eq!(cases, present + absent + unlawful);
    assert!(absent > 500 && unlawful > 500);
}

#[test]
fn keys_before_the_first_and_after_the_last() {
    let mut cases = 0;
    for (kind, set) in sets_to(1_000) {
        let register = table(&set);
        for key in [&b"-/-"[..], b"-/--", b"~/~", b"~/~~~"] {
            assert!(!set.contains_key(key));
            let found = lookup(&register, key);
            assert_eq!(found, Err(Refusal::KeyAbsent), "{kind:?} {key:?}");
            assert_eq!(compare_lookup(&register, key), Err(12));
            cases += 1;
        }
    }
    assert_eq!(cases, KINDS.len() * 7 * 4);
}

#[test]
fn unlawful_keys_are_refused() {
    let mut cases = 0;
    for (kind, set) in sets_to(10) {
        let register = table(&set);
        for key in unlawful_keys() {
            let found = lookup(&register, &key);
            assert_eq!(found, Err(Refusal::UnlawfulKey), "{kind:?}");
            assert_eq!(raw_lookup(&mut register.clone(), &mut key.clone()), 7);
            cases += 1;
        }
    }
    assert_eq!(cases, KINDS.len() * 5 * unlawful_keys().len());
    for key in unlawful_keys() {
        assert_eq!(compare_lookup(&EMPTY, &key), Err(7));
    }
}

/// Each byte beside the slash, in keys that are absent: 12 where it is lawful, else 7.
#[test]
fn each_byte_of_a_key() {
    let register = table(&set(Kind::Ordinary, 3));
    let (mut cases, mut lawful_bytes) = (0, 0);
    for byte in 0..=255_u8 {
        lawful_bytes += usize::from(lawful(&[byte, b'/', b'b']));
        for key in keys_with(byte) {
            let expected = if lawful(&key) { 12 } else { 7 };
            assert_eq!(compare_lookup(&register, &key), Err(expected), "{key:?}");
            cases += 1;
        }
    }
    assert_eq!(lawful_bytes, 67);
    assert_eq!(cases, 256 * 4);
}

/// The register is judged before the key.
#[test]
fn refused_registers() {
    let ordinary = table(&set(Kind::Ordinary, 10));
    let cut = &ordinary[..ordinary.len() - 1];
    let mut followed = ordinary.clone();
    followed.push(0);
    let too_long = vec![0; LONGEST + 1];
    let mut cases = 0;
    for (register, number) in [(cut, 2), (&followed, 4), (&too_long, 1), (&[], 2)] {
        let mut keys = unlawful_keys();
        keys.push(b"a/b1".to_vec());
        keys.extend(set(Kind::Ordinary, 10).into_keys());
        for key in keys {
            assert_eq!(compare_lookup(register, &key), Err(number), "{key:?}");
            cases += 1;
        }
    }
    assert_eq!(cases, 4 * (unlawful_keys().len() + 1 + 10));
}

/// Lengths whose low 32 bits alone would be those of an accepted register and of a present key.
/// Most of the memory is never written, so the system only sets addresses aside.
#[cfg(target_pointer_width = "64")]
#[test]
fn lengths_over_32_bits() {
    let register = one_record();
    let mut key = vec![0; (1 << 32) + 4];
    key[..4].copy_from_slice(b"a/b1");
    assert_eq!(lookup(&register, &key), Err(Refusal::UnlawfulKey));
    let value = Value::dag_cbor([0x11; 32]);
    assert_eq!(lookup(&register, &key[..4]), Ok(value));
    drop(key);

    let mut long = vec![0; (1 << 32) + register.len()];
    long[..register.len()].copy_from_slice(&register);
    assert_eq!(lookup(&long, b"a/b1"), Err(Refusal::TooLong));
}

/// The key may be a part of the register, since both are only read.
#[test]
fn the_key_may_lie_in_the_register() {
    let register = one_record();
    let value = Value::dag_cbor([0x11; 32]);
    assert_eq!(lookup(&register, &register[8..12]), Ok(value));
    assert_eq!(lookup(&register, &register[8..11]), Err(Refusal::KeyAbsent));
    assert_eq!(lookup(&register, &register), Err(Refusal::UnlawfulKey));
}

/// Of several values that are the same, the place is the one of the key.
#[test]
fn equal_values() {
    let mut set = set(Kind::Ordinary, 100);
    set.values_mut().for_each(|value| *value = filled(0x22));
    let register = table(&set);
    let mut places: Vec<usize> = set
        .keys()
        .map(|key| compare_lookup(&register, key).expect("the key is present"))
        .collect();
    places.sort();
    places.dedup();
    assert_eq!(places.len(), 100);
}

/// A value that is written like a page or an entry is passed over.
#[test]
fn values_that_look_like_keys() {
    let mut set = Set::new();
    for (number, bytes) in [
        &b"\xa4\x61k\x44a/b5\x61p\x00"[..],
        &EMPTY,
        b"\x61v\xd8\x2a\x58",
    ]
    .iter()
    .enumerate()
    {
        let mut value = filled(0);
        value.digest[..bytes.len()].copy_from_slice(bytes);
        set.insert(format!("a/b{number}").into_bytes(), value);
    }
    let register = table(&set);
    for key in set.keys() {
        assert_eq!(lookup(&register, key), by_set(&set, key));
        compare_lookup(&register, key).expect("the key is present");
    }
    assert_eq!(compare_lookup(&register, b"a/b5"), Err(12));
}

#[test]
fn raw_call_does_not_read_empty_inputs() {
    let mut register = EMPTY;
    // SAFETY: An input of length 0 is not read, and the other is a slice.
    unsafe {
        assert_eq!(mijdegen_lookup(ptr::null(), 0, ptr::null(), 0), 2);
        let lent = register.as_mut_ptr().cast_const();
        assert_eq!(mijdegen_lookup(lent, register.len(), ptr::null(), 0), 7);
        let key = b"a/b1";
        assert_eq!(mijdegen_lookup(ptr::null(), 0, key.as_ptr(), 4), 2);
        assert_eq!(mijdegen_lookup(lent, register.len(), key.as_ptr(), 4), 12);
    }
}
