//! Values of both codecs, of record blocks and of raw files, in every call. Two values with equal
//! digests and unlike codecs are unequal; the digest says which of two values is the greater, and
//! at equal digests the codec.

use crate::common::calls::{
    compare_check, compare_list, compare_lookup, number_of, raw_list, raw_lookup,
};
use crate::common::forge::{codec_places, one_drawing, Page, EMPTY};
use crate::common::paths::{compare_verify, expect_path, raw_verify};
use crate::common::sets::{
    keys_and_neighbours, part, set_of_layers, sets_to, small_sets, under, value, KINDS,
};
use crate::common::values::{filled, library_value, other_codec, NO_CODECS};
use crate::common::writes::{compare_lengths, written, Call};
use crate::common::{hexadecimal, Random};
use independent::{head_of, pages, sha256, table, Codec, Set, Value};
use mijdegen::{check, digest, lookup};
use std::collections::HashSet;

/// Four values, each greater than the one before it.
const RISING: [Value; 4] = [
    Value::raw([0x11; 32]),
    Value::dag_cbor([0x11; 32]),
    Value::raw([0x12; 32]),
    Value::dag_cbor([0x12; 32]),
];

// ---- examples

/// The register of `a/b1` with a raw value of 32 bytes `11`.
#[test]
fn one_drawing_by_hand() {
    let by_hand = [
        "a2616581",         // a page, `e`: one entry
        "a4616b44612f6231", // an entry, `k`: the 4 bytes `a/b1`
        "617000",           // `p`: 0
        "6174f6",           // `t`: no link
        "6176d82a58250001", // `v`: a link
        "55",               // the codec of a raw file
        "1220",             // a SHA-256 digest of 32 bytes
        "1111111111111111111111111111111111111111111111111111111111111111",
        "616cf6", // `l`: no link
    ];
    let register = one_drawing();
    assert_eq!(hexadecimal(&register), by_hand.concat());
    assert_eq!(register.len(), 64);
    let value = Value::raw([0x11; 32]);
    let set = Set::from([(b"a/b1".to_vec(), value)]);
    assert_eq!(table(&set), register);

    // The digest was made with another implementation.
    let root = "9bc8af8583b11ab9eea5cfa34ad0d954f85074bc1d4c01824311a44c4f0ce298";
    let head = compare_check(&register).expect("an accepted register");
    assert_eq!((head.count, head.layer), (1, 0));
    assert_eq!(hexadecimal(&head.digest), root);
    assert_eq!(hexadecimal(&head_of(&set).digest), root);
    assert_eq!(digest(&register), Ok(head.digest));

    // The codec is told beside the place of the digest, and first where the value is written.
    let found = 256 * (29 + (0x55 << 24));
    let answer = raw_lookup(&mut register.clone(), &mut b"a/b1".to_vec());
    assert_eq!(answer, found);
    assert_eq!(raw_verify(&register, b"a/b1", &head.digest), found);
    let listed = raw_list(&mut register.clone(), 0, 4);
    assert_eq!(listed, (256 * 4, b"a/b1".to_vec(), value.bytes()));
    assert_eq!(value.bytes()[0], 0x55);
    assert_eq!(lookup(&register, b"a/b1"), Ok(library_value(&value)));
    assert_eq!(number_of(&register), 0);
}

/// The page of `a/b1` and `a/b2` with raw values of bytes `11` and `22`. It is a path, and no
/// register, since the two keys have unlike layers.
#[test]
fn a_page_of_two_drawings_by_hand() {
    let by_hand = [
        "a2616582",         // a page, `e`: two entries
        "a4616b44612f6231", // an entry, `k`: the 4 bytes `a/b1`
        "6170006174f6",     // `p`: 0, `t`: no link
        "6176d82a58250001", // `v`: a link
        "551220",           // the codec of a raw file, a SHA-256 digest of 32 bytes
        "1111111111111111111111111111111111111111111111111111111111111111",
        "a4616b4132",       // an entry, `k`: the byte `2`
        "6170036174f6",     // `p`: 3, `t`: no link
        "6176d82a58250001", // `v`: a link
        "551220",           // the codec of a raw file, a SHA-256 digest of 32 bytes
        "2222222222222222222222222222222222222222222222222222222222222222",
        "616cf6", // `l`: no link
    ];
    let mut page = Page::of_keys(&[b"a/b1", b"a/b2"]);
    for (entry, byte) in page.entries.iter_mut().zip([0x11, 0x22]) {
        entry.value = Value::raw([byte; 32]);
    }
    let page = page.table();
    assert_eq!(hexadecimal(&page), by_hand.concat());
    assert_eq!(page.len(), 118);
    assert_eq!(number_of(&page), 9);

    // The digest was made with another implementation.
    let root = sha256(&page);
    let expected = "7a66449d57e1d2b930b5cb701aa736faee640406e979fc05886030734949c793";
    assert_eq!(hexadecimal(&root), expected);
    assert_eq!(digest(&page), Ok(root));
    for (key, verdict) in [
        (b"a/b0", None),
        (b"a/b1", Some((29, Codec::Raw))),
        (b"a/b2", Some((83, Codec::Raw))),
        (b"a/b3", None),
    ] {
        assert_eq!(compare_verify(&page, key, &root), Ok(verdict));
    }
}

// ---- in every call

/// The tests of all calls are about sets with values of both codecs.
#[test]
fn the_sets_are_mixed() {
    for (kind, set) in sets_to(4_096) {
        let is_raw = |value: &&Value| value.codec == Codec::Raw;
        let raw = set.values().filter(is_raw).count();
        let blocks = set.len() - raw;
        if set.len() >= 10 {
            assert!(raw > 0 && blocks > 0, "{kind:?} {}", set.len());
        }
        if set.len() >= 100 {
            assert!(raw.abs_diff(blocks) < set.len() / 4, "{kind:?} {raw}");
        }
    }
}

/// All ways to give the records of a small tree two codecs: each set has its own register, and all
/// calls answer as the independent crate does.
#[test]
fn every_mix_in_a_small_tree() {
    let set = set_of_layers(&[0, 2, 1, 0]);
    let (mut heads, mut cases) = (HashSet::new(), 0);
    for mix in 0..1 << set.len() {
        let mut mixed = under(Value::dag_cbor, set.clone());
        for (n, value) in mixed.values_mut().enumerate() {
            if mix >> n & 1 == 1 {
                *value = Value::raw(value.digest);
            }
        }
        let register = table(&mixed);
        heads.insert(check(&register).expect("an accepted register"));
        cases += compare_all_calls(&register, &mixed);
    }
    assert_eq!(heads.len(), 16);
    assert_eq!(cases, 16 * 4 * 5);
}

/// Compares the calls on the register of a set with the independent crate. Gives the number of
/// those that change a record.
fn compare_all_calls(register: &[u8], set: &Set) -> usize {
    // Check, and the calls that give records or leave them as they are.
    assert_eq!(number_of(register), 0);
    let root = Page::of_set(set);
    let root = root.written();
    for key in keys_and_neighbours(set) {
        expect_path(register, set, &root, &key);
    }
    let mut cases = 0;
    for (n, (key, value)) in (0..).zip(set) {
        let place = compare_lookup(register, key).expect("the key is present");
        assert_eq!(register[place - 3], value.codec.byte());
        assert_eq!(compare_list(register, n, key.len()), Ok(key.len()));
        let other = other_codec(value);
        for call in [
            Call::put(key, value),
            Call::put(key, &other),
            Call::join(key, value),
            Call::join(key, &other),
            Call::remove(key),
        ] {
            compare_lengths(register, &call).expect("the key is present");
            cases += 1;
        }
    }
    cases
}

/// Raw values alone: other registers than those of the same digests as record blocks, and other
/// heads, in the digest of the root alone.
#[test]
fn raw_values_alone() {
    let mut cases = 0;
    for (kind, set) in sets_to(10) {
        let (raw, blocks) = (under(Value::raw, set.clone()), under(Value::dag_cbor, set));
        let register = table(&raw);
        cases += compare_all_calls(&register, &raw);
        let [one, other] = [&register, &table(&blocks)].map(|register| check(register));
        let (one, other) = (one.expect("accepted"), other.expect("accepted"));
        assert_eq!((one.count, one.layer), (other.count, other.layer));
        assert_eq!(one == other, raw.is_empty(), "{kind:?}");
    }
    assert_eq!(cases, KINDS.len() * (1 + 2 + 3 + 10) * 5);
}

// ---- equal digests

/// Each of four values where each stands: put takes what it is handed, join and merge keep the
/// greater, and the difference lists the second where the two are unequal.
#[test]
fn each_value_over_each() {
    // The record alone, and in the root and below it.
    let mut trees = vec![(Set::new(), b"a/b1".to_vec())];
    for n in 0..3 {
        let mut others = set_of_layers(&[0, 1, 0]);
        let key = others.keys().nth(n).expect("there are 3").clone();
        others.remove(&key);
        trees.push((others, key));
    }
    let mut cases = 0;
    for (others, key) in &trees {
        let with = |value: &Value| {
            let mut set = others.clone();
            set.insert(key.clone(), *value);
            table(&set)
        };
        for (n, kept) in RISING.iter().enumerate() {
            for (m, given) in RISING.iter().enumerate() {
                let (first, second) = (with(kept), with(given));
                let greater = with(&RISING[n.max(m)]);
                let lacking = match n == m {
                    true => EMPTY.to_vec(),
                    false => table(&Set::from([(key.clone(), *given)])),
                };
                for (call, expected) in [
                    (Call::put(key, given), &second),
                    (Call::join(key, given), &greater),
                    (Call::merge(&second), &greater),
                    (Call::difference(&second), &lacking),
                ] {
                    let found = compare_lengths(&first, &call);
                    assert!(found.as_ref() == Ok(expected), "{kept:?}: {call:?}");
                    cases += 1;
                }
            }
        }
    }
    assert_eq!(cases, 4 * 4 * 4 * 4);
}

/// Two keys of unlike layers, each absent or with one of four values: all pairs of these registers
/// in merge and difference, and the laws of merge on all triples.
#[test]
fn all_registers_of_two_keys() {
    // Number 0 stands for an absent key.
    let keys = [b"a/b1", b"a/b2"];
    let numbers: Vec<[usize; 2]> = (0..25).map(|n| [n / 5, n % 5]).collect();
    let set_with = |numbers: &[usize; 2]| -> Set {
        let records = keys.iter().zip(numbers).filter(|(_, number)| **number > 0);
        records
            .map(|(key, number)| (key.to_vec(), RISING[number - 1]))
            .collect()
    };
    let registers: Vec<Vec<u8>> = numbers.iter().map(|set| table(&set_with(set))).collect();
    let place = |register: &[u8]| registers.iter().position(|other| other == register);

    let mut merged = Vec::new();
    for (first, one) in registers.iter().zip(&numbers) {
        for (second, other) in registers.iter().zip(&numbers) {
            let [mut greater, mut lacking] = [*other; 2];
            for n in 0..2 {
                greater[n] = one[n].max(other[n]);
                if one[n] == other[n] {
                    lacking[n] = 0;
                }
            }
            let found = compare_lengths(first, &Call::merge(second)).expect("room");
            assert!(found == table(&set_with(&greater)), "{one:?} {other:?}");
            merged.push(place(&found).expect("one of the registers"));

            let found = compare_lengths(first, &Call::difference(second)).expect("room");
            assert!(found == table(&set_with(&lacking)), "{one:?} {other:?}");
            // The difference does for a merge what the whole register does.
            let by_difference = written(first, &Call::merge(&found));
            assert_eq!(place(&by_difference), merged.last().copied());
        }
    }
    let merge = |one: usize, other: usize| merged[25 * one + other];
    for a in 0..25 {
        assert_eq!(merge(a, a), a, "idempotent");
        for b in 0..25 {
            assert_eq!(merge(a, b), merge(b, a), "commutative");
            for c in 0..25 {
                let one_way = merge(merge(a, b), c);
                assert_eq!(one_way, merge(a, merge(b, c)), "associative");
            }
        }
    }
}

/// Registers in which all values, or each third one, have the other codec: the difference lists
/// just these, and a merge keeps the record blocks.
#[test]
fn other_codecs_in_whole_registers() {
    let mut cases = 0;
    for (kind, set) in sets_to(100) {
        for step in [1, 3] {
            let mut other = set.clone();
            let turned = other.values_mut().step_by(step);
            turned.for_each(|value| *value = other_codec(value));
            let mut greater = set.clone();
            let turned = greater.values_mut().step_by(step);
            turned.for_each(|value| *value = Value::dag_cbor(value.digest));
            let greater = table(&greater);
            for (first, second) in [(&set, &other), (&other, &set)] {
                let lacking = part(second, |n| n % step == 0);
                let (first, second) = (table(first), table(second));
                let found = compare_lengths(&first, &Call::difference(&second));
                assert!(found == Ok(table(&lacking)), "{kind:?}");
                let found = compare_lengths(&first, &Call::merge(&second));
                assert!(found.as_ref() == Ok(&greater), "{kind:?}");
                cases += 2;
            }
        }
    }
    assert_eq!(cases, KINDS.len() * 6 * 2 * 2 * 2);
}

// ---- links

/// Says whether the codec at the place is that of a value: its name stands before the link.
fn is_of_value(bytes: &[u8], place: usize) -> bool {
    bytes[place - 7] == b'v'
}

/// Gives other bytes for the codec at the place, each with whether it fits the form there: in a
/// value's link the other codec does, and in a link to a page nothing.
fn other_bytes(bytes: &[u8], place: usize) -> Vec<(u8, bool)> {
    let other = bytes[place] ^ 0x55 ^ 0x71;
    let mut others = vec![(other, is_of_value(bytes, place))];
    others.extend(NO_CODECS.map(|byte| (byte, false)));
    others
}

/// Each link of small registers with other bytes in the place of the codec. Of a value in the root
/// the other codec is accepted, and below the root the digest of its page is another.
#[test]
fn the_codec_of_each_link() {
    let (mut values, mut linked) = (0, 0);
    for set in small_sets() {
        let register = table(&set);
        let root = pages(&set)[0].len();
        for place in codec_places(&register) {
            match is_of_value(&register, place) {
                true => values += 1,
                false => linked += 1,
            }
            for (byte, fits) in other_bytes(&register, place) {
                let mut changed = register.clone();
                changed[place] = byte;
                let expected = match (fits, place < root) {
                    (false, _) => 3,
                    (true, true) => 0,
                    (true, false) => 10,
                };
                assert_eq!(number_of(&changed), expected, "{place} {byte}");
                let expected = if fits { 2 } else { 3 };
                let cut = &changed[..=place];
                assert_eq!(number_of(cut), expected, "{place} {byte}");
            }
        }
    }
    let sets = small_sets();
    assert_eq!(values, sets.iter().map(Set::len).sum::<usize>());
    let below = sets.iter().map(|set| pages(set).len() - 1);
    assert_eq!(linked, below.sum::<usize>());
}

/// The same in paths: a value under the other codec cannot be passed off.
#[test]
fn the_codec_of_each_link_in_a_path() {
    let mut counts = [0; 17];
    for set in small_sets() {
        let root = Page::of_set(&set);
        let root = root.written();
        for key in keys_and_neighbours(&set) {
            let path = root.path(&key).concat();
            for place in codec_places(&path) {
                for (byte, fits) in other_bytes(&path, place) {
                    let mut changed = path.clone();
                    changed[place] = byte;
                    let expected = if fits { 16 } else { 3 };
                    let verdict = compare_verify(&changed, &key, &root.digest);
                    assert_eq!(verdict, Err(expected), "{place} {byte}");
                    counts[usize::from(expected)] += 1;
                    let expected = if fits { 2 } else { 3 };
                    let verdict = compare_verify(&changed[..=place], &key, &root.digest);
                    assert_eq!(verdict, Err(expected), "{place} {byte}");
                }
            }
        }
    }
    assert!(counts[3] > 1_000 && counts[16] > 100, "{counts:?}");
}

// ---- the types of the crate

#[test]
fn bytes_of_codecs() {
    for byte in 0..=255 {
        let found = mijdegen::Codec::from_byte(byte).map(mijdegen::Codec::byte);
        assert_eq!(found, [0x55, 0x71].contains(&byte).then_some(byte));
    }
}

/// The crate compares values as the library does.
#[test]
fn order_of_values() {
    let mut random = Random::new(181);
    let mut values: Vec<Value> = RISING.to_vec();
    values.extend((0..=255).map(filled));
    values.extend((0..100).map(|_| value(&mut random)));
    values.extend(values.clone().iter().map(other_codec));
    for one in &values {
        let bytes = library_value(one).bytes();
        assert_eq!(bytes, one.bytes());
        assert_eq!(
            mijdegen::Value::try_from(&bytes[..]),
            Ok(library_value(one))
        );
        for other in &values {
            let found = library_value(one).cmp(&library_value(other));
            assert_eq!(found, one.cmp(other), "{one:?} {other:?}");
        }
    }
    let rising = RISING.map(|value| library_value(&value));
    assert!(rising.windows(2).all(|pair| pair[0] < pair[1]));
}
