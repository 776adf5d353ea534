//! `at_or_after`, `before` and `run` against the independent crate and against the sets
//! themselves.

use crate::common::calls::{count_of, mijdegen_at_or_after, mijdegen_before, mijdegen_run};
use crate::common::forge::{faulty_registers, one_record, EMPTY};
use crate::common::neighbours::{compare_neighbour, expect_record, Neighbour, NEIGHBOURS};
use crate::common::sets::{
    greatest_key, just_after, just_before, keys_and_neighbours, keys_near, keys_with, least_key,
    part, rows_of_few_layers, set, set_of_layers, sets_to, unlawful_keys, value, Kind, FULL_KINDS,
    HIGH, KINDS,
};
use crate::common::values::{filled, library_value, unusual_values};
use crate::common::writes::{
    compare_call, compare_lengths, expect_refusal, expect_table, written, Call,
};
use crate::common::Random;
use independent::{lawful, pages, table, Set};
use mijdegen::{at_or_after, before, list, lookup, run, Listed, Refusal, LONGEST, LONGEST_KEY};
use std::ops::Bound::Included;
use std::ptr;

/// Gives the records of the set from the first key up to and including the last.
fn between(set: &Set, first: &[u8], last: &[u8]) -> Set {
    let records = set.range::<[u8], _>((Included(first), Included(last)));
    records.map(|(key, value)| (key.clone(), *value)).collect()
}

/// Gives the keys of the set in their order.
fn keys_of(set: &Set) -> Vec<&[u8]> {
    set.keys().map(Vec::as_slice).collect()
}

/// Gives the key with one slash after its first byte, and so many bytes in all: each is the start
/// of all longer ones.
fn key_of_length(length: usize) -> Vec<u8> {
    let mut key = vec![b'k'; length];
    key[1] = b'/';
    key
}

/// Expects the record beside the key by the set, for outputs of several lengths: just enough, one
/// more, the longest key, one byte too few and none.
fn expect_lengths(register: &[u8], set: &Set, call: Neighbour, key: &[u8]) {
    let record = call.by_set(set, key);
    let length = record.map_or(4, |(key, _)| key.len());
    for out_length in [length, length + 1, LONGEST_KEY + 9, length - 1, 0] {
        expect_record(register, call, key, out_length, record);
    }
}

// ---- the keys that the tests are about

/// No lawful key lies between a key and the one just before or just after it.
#[test]
fn keys_just_before_and_just_after() {
    let mut random = Random::new(111);
    let mut cases = 0;
    for (_, set) in sets_to(100) {
        for key in set.keys() {
            for near in keys_near(&mut random, key).iter().filter(|key| lawful(key)) {
                if let Some(lesser) = just_before(key) {
                    assert!(lesser < *key && (*near <= lesser || near >= key));
                }
                if let Some(greater) = just_after(key) {
                    assert!(greater > *key && (near <= key || *near >= greater));
                }
                assert!(least_key() < *near && *near < greatest_key());
            }
            cases += 1;
        }
    }
    assert_eq!(cases, KINDS.len() * (1 + 2 + 3 + 10 + 100));

    assert_eq!(just_after(b"a/b1"), Some(b"a/b1-".to_vec()));
    assert_eq!(just_after(&key_of_length(256)), None);
    assert_eq!(just_before(b"a/b-"), Some(b"a/b".to_vec()));
    assert_eq!(just_before(b"a/-"), None);
    let mut longest = b"a/b0".to_vec();
    longest.resize(256, b'~');
    assert_eq!(just_before(b"a/b1"), Some(longest));
    for key in [least_key(), greatest_key()] {
        assert!(lawful(&key));
        assert_eq!(key.len(), 256);
    }
}

// ---- the record beside a key

/// A present key: its own record, and the one before it.
#[test]
fn each_present_key() {
    let mut cases = 0;
    for (kind, set) in sets_to(100) {
        let register = table(&set);
        let records: Vec<_> = set.iter().map(|(key, value)| (&key[..], value)).collect();
        for (n, (key, value)) in records.iter().enumerate() {
            assert_eq!(Neighbour::AtOrAfter.by_set(&set, key), Ok((*key, *value)));
            let previous = n.checked_sub(1).map(|n| records[n]).ok_or(12);
            assert_eq!(Neighbour::Before.by_set(&set, key), previous);
            for call in NEIGHBOURS {
                if set.len() <= 10 {
                    expect_lengths(&register, &set, call, key);
                }
                let found = compare_neighbour(&register, call, key, 300);
                assert_eq!(found, call.by_set(&set, key).map(|(key, _)| key.len()));
                cases += 1;
            }
            let mut out = [0xaa; LONGEST_KEY];
            let listed = Listed {
                key_length: key.len(),
                value: library_value(value),
            };
            assert_eq!(
                at_or_after(&register, key, &mut out),
                Ok(listed),
                "{kind:?}"
            );
            assert_eq!(out[..key.len()], **key);
            assert!(out[key.len()..].iter().all(|byte| *byte == 0));
        }
    }
    assert_eq!(cases, KINDS.len() * (1 + 2 + 3 + 10 + 100) * 2);
}

/// Keys just before and just after each record, and the least and the greatest of all.
#[test]
fn keys_between_the_records() {
    let (mut cases, mut found) = (0, 0);
    for (_, set) in sets_to(100) {
        let register = table(&set);
        for key in keys_and_neighbours(&set) {
            for call in NEIGHBOURS {
                let record = call.by_set(&set, &key);
                if set.len() <= 10 {
                    expect_lengths(&register, &set, call, &key);
                } else {
                    expect_record(&register, call, &key, LONGEST_KEY, record);
                }
                found += usize::from(record.is_ok());
                cases += 1;
            }
        }
    }
    // The least key has no record before it, the greatest none after it.
    assert!(cases - found >= KINDS.len() * 6 * 2);
    assert!(found > 4_000, "{found}");
}

/// Keys that differ little from present ones: shorter, longer, and with another byte.
#[test]
fn keys_near_present_ones() {
    let mut random = Random::new(112);
    let (mut cases, mut counts) = (0, [0; 15]);
    for (_, set) in sets_to(10) {
        let register = table(&set);
        for key in set.keys() {
            for key in keys_near(&mut random, key) {
                for call in NEIGHBOURS {
                    let record = call.by_set(&set, &key);
                    expect_record(&register, call, &key, LONGEST_KEY, record);
                    let found = compare_neighbour(&register, call, &key, 30);
                    counts[usize::from(found.err().unwrap_or(0))] += 1;
                    cases += 1;
                }
            }
        }
    }
    assert_eq!(cases, KINDS.len() * (1 + 2 + 3 + 10) * 20 * 2);
    for number in [0, 7, 12, 13] {
        assert!(counts[number] > 100, "number {number}: {}", counts[number]);
    }
    assert_eq!(counts[0] + counts[7] + counts[12] + counts[13], cases);
}

/// Keys all over the larger registers, and those just before and just after them.
#[test]
fn keys_of_large_registers() {
    let mut cases = 0;
    for kind in KINDS {
        for (count, step) in [(1_000, 111), (4_096, 1_365)] {
            let set = set(kind, count);
            let register = table(&set);
            // The first and the last stand on a step.
            for key in set.keys().step_by(step) {
                let keys = [Some(key.clone()), just_before(key), just_after(key)];
                for key in keys.iter().flatten() {
                    for call in NEIGHBOURS {
                        let record = call.by_set(&set, key);
                        expect_record(&register, call, key, LONGEST_KEY, record);
                    }
                }
                cases += 1;
            }
            for key in [least_key(), greatest_key()] {
                for call in NEIGHBOURS {
                    let record = call.by_set(&set, &key);
                    expect_record(&register, call, &key, LONGEST_KEY, record);
                }
                cases += 1;
            }
        }
    }
    assert_eq!(cases, KINDS.len() * (10 + 2 + 4 + 2));
}

/// Small trees of every form: the record beside a key stands in a page above or below the gap where
/// the key would stand.
#[test]
fn all_rows_of_few_layers() {
    let (mut rows, mut cases) = (0, 0);
    for row in rows_of_few_layers() {
        let set = set_of_layers(&row);
        let register = table(&set);
        for key in keys_and_neighbours(&set) {
            for call in NEIGHBOURS {
                let record = call.by_set(&set, &key);
                expect_record(&register, call, &key, 32, record);
                cases += 1;
            }
        }
        rows += 1;
    }
    assert_eq!(rows, 513);
    // 3 keys for each of the 3 + 18 + 81 + 324 + 1,215 + 50 + 375 records, and 2 in each row.
    assert_eq!(cases, (3 * 2_066 + 2 * 513) * 2);
}

/// A key of each length, all beginning with one another: in a register of all of them, and of
/// every third.
#[test]
fn keys_that_begin_with_one_another() {
    let mut cases = 0;
    for step in [1, 3] {
        let lengths = (3..=LONGEST_KEY).step_by(step);
        let set: Set = lengths
            .map(|length| (key_of_length(length), filled(length as u8)))
            .collect();
        let register = table(&set);
        for length in 3..=LONGEST_KEY {
            let key = key_of_length(length);
            // Lengths from 3 on in steps.
            let next = 3 + (length - 3).div_ceil(step) * step;
            let record = Neighbour::AtOrAfter.by_set(&set, &key);
            let expected = if next <= LONGEST_KEY {
                Ok(next)
            } else {
                Err(12)
            };
            assert_eq!(record.map(|(key, _)| key.len()), expected);
            expect_record(&register, Neighbour::AtOrAfter, &key, LONGEST_KEY, record);
            expect_record(&register, Neighbour::AtOrAfter, &key, length, record);

            let record = Neighbour::Before.by_set(&set, &key);
            let expected = if length == 3 {
                Err(12)
            } else {
                Ok(3 + (length - 4) / step * step)
            };
            assert_eq!(record.map(|(key, _)| key.len()), expected);
            expect_record(&register, Neighbour::Before, &key, LONGEST_KEY, record);
            expect_record(&register, Neighbour::Before, &key, length - 1, record);
            cases += 4;
        }
    }
    assert_eq!(cases, 2 * 254 * 4);
}

/// The empty register has no record beside any key, whatever the output.
#[test]
fn the_empty_register() {
    let mut cases = 0;
    let keys = [
        b"a/b1".to_vec(),
        b"-/-".to_vec(),
        least_key(),
        greatest_key(),
    ];
    for key in &keys {
        for call in NEIGHBOURS {
            for out_length in [0, 1, 3, 256, 300] {
                expect_record(&EMPTY, call, key, out_length, Err(12));
                assert_eq!(compare_neighbour(&EMPTY, call, key, out_length), Err(12));
                cases += 1;
            }
        }
        for other in &keys {
            let found = compare_lengths(&EMPTY, &Call::run(key, other));
            match key > other {
                true => assert_eq!(found, Err(14)),
                false => assert_eq!(found.as_deref(), Ok(&EMPTY[..])),
            }
            cases += 1;
        }
    }
    assert_eq!(cases, 4 * (2 * 5 + 4));
}

/// Each byte beside the slash: 7 where it is unlawful.
#[test]
fn each_byte_of_a_key() {
    let set = set(Kind::Mixed, 10);
    let register = table(&set);
    let mut cases = 0;
    for byte in 0..=255_u8 {
        for key in keys_with(byte) {
            for call in NEIGHBOURS {
                let record = call.by_set(&set, &key);
                assert_eq!(record == Err(7), !lawful(&key), "{key:?}");
                expect_record(&register, call, &key, 200, record);
                cases += 1;
            }
            // A run that begins with the key, and one that ends with it.
            for call in [
                Call::run(&key, &greatest_key()),
                Call::run(&least_key(), &key),
            ] {
                let found = compare_call(&register, &call, 5_000);
                assert_eq!(found.err(), (!lawful(&key)).then_some(7), "{key:?}");
                cases += 1;
            }
        }
    }
    assert_eq!(cases, 256 * 4 * 4);
}

/// Outputs of every length around that of the record's key.
#[test]
fn every_length_of_the_output() {
    let mut cases = 0;
    for (kind, count) in [(Kind::Ordinary, 3), (Kind::Longest, 2), (Kind::Chains, 3)] {
        let set = set(kind, count);
        let register = table(&set);
        for key in set.keys() {
            for call in NEIGHBOURS {
                let record = call.by_set(&set, key);
                for out_length in 0..LONGEST_KEY + 44 {
                    expect_record(&register, call, key, out_length, record);
                    cases += 1;
                }
            }
        }
    }
    assert_eq!(cases, (3 + 2 + 3) * 2 * 300);

    // An output longer than the longest register has zeros to its end.
    let register = one_record();
    let value = filled(0x11);
    let record: Result<_, u8> = Ok((&b"a/b1"[..], &value));
    for out_length in [LONGEST, LONGEST + 1_000] {
        expect_record(&register, Neighbour::AtOrAfter, b"a/b1", out_length, record);
        expect_record(&register, Neighbour::Before, b"a/b2", out_length, record);
        expect_record(&register, Neighbour::Before, b"a/b1", out_length, Err(12));
    }
}

/// Goes through a register from its first record to the last, and back, as a caller would.
#[test]
fn all_records_in_turn() {
    for kind in [Kind::Ordinary, Kind::Chains] {
        let set = set(kind, 300);
        let register = table(&set);
        let expected = set.into_iter();
        let expected = expected.map(|(key, value)| (key, library_value(&value)));
        let expected: Vec<_> = expected.collect();

        let mut out = [0; LONGEST_KEY];
        let (mut records, mut key) = (Vec::new(), least_key());
        while let Ok(found) = at_or_after(&register, &key, &mut out) {
            let own = out[..found.key_length].to_vec();
            key = just_after(&own).expect("the keys are short");
            records.push((own, found.value));
            assert!(records.len() <= 300, "{kind:?} goes on");
        }
        assert!(records == expected, "{kind:?}");

        let (mut records, mut key) = (Vec::new(), greatest_key());
        while let Ok(found) = before(&register, &key, &mut out) {
            key = out[..found.key_length].to_vec();
            records.push((key.clone(), found.value));
            assert!(records.len() <= 300, "{kind:?} goes on");
        }
        records.reverse();
        assert!(records == expected, "{kind:?}");
    }
}

/// The calls agree with lookup, list and run: a present key is its own record at or after it, the
/// record at or after a key is the first of the run from there on, and the one before it the last
/// of the run up to there.
#[test]
fn the_calls_agree() {
    let mut cases = 0;
    for (kind, set) in sets_to(10) {
        let register = table(&set);
        for key in keys_and_neighbours(&set) {
            let mut out = [0xaa; LONGEST_KEY];
            let next = at_or_after(&register, &key, &mut out);
            let next_key = next.map(|found| out[..found.key_length].to_vec());
            let present = lookup(&register, &key);
            assert_eq!(present.is_ok(), next_key.as_ref() == Ok(&key), "{kind:?}");
            if let Ok(value) = present {
                assert_eq!(next.map(|found| found.value), Ok(value));
            }

            let from_here = written(&register, &Call::run(&key, &greatest_key()));
            let mut first = [0xaa; LONGEST_KEY];
            let listed = list(&from_here, 0, &mut first).expect("accepted");
            assert_eq!(listed, next.ok(), "{kind:?}");
            assert_eq!(first, out, "{kind:?}");

            // The key's own record is left out where there is one.
            let mut to_here = written(&register, &Call::run(&least_key(), &key));
            if present.is_ok() {
                to_here = written(&to_here, &Call::remove(&key));
            }
            let count = count_of(&to_here).expect("accepted");
            let listed = list(&to_here, count.wrapping_sub(1), &mut first);
            let last = before(&register, &key, &mut out).ok();
            assert_eq!(listed.expect("accepted"), last, "{kind:?}");
            assert_eq!(first, out, "{kind:?}");
            cases += 1;
        }
    }
    assert!(cases > KINDS.len() * (2 * 16 + 2 * 5), "{cases}");
}

// ---- runs

/// Every pair of keys of small sets, of those just before and just after them, and of the least and
/// the greatest key: among them equal keys, and first keys that are greater than the last.
#[test]
fn every_pair_of_keys() {
    let (mut cases, mut empty, mut refused) = (0, 0, 0);
    for (kind, set) in sets_to(10) {
        let register = table(&set);
        let keys = keys_and_neighbours(&set);
        for first in &keys {
            for last in &keys {
                let call = Call::run(first, last);
                cases += 1;
                if first > last {
                    expect_refusal(&register, &call, 100, 14);
                    refused += 1;
                    continue;
                }
                let expected = table(&between(&set, first, last));
                expect_table(&register, &call, expected.len(), &expected);
                if set.len() <= 3 {
                    let found = compare_lengths(&register, &call);
                    assert!(found.as_ref() == Ok(&expected), "{kind:?}");
                }
                empty += usize::from(expected == EMPTY);
            }
        }
    }
    assert_eq!(cases, 8_032);
    assert!(empty > 300 && refused > 3_500, "{empty} {refused}");
}

/// Every pair of keys of small trees of every form: layers of the root fall away, and pages without
/// entries come and go.
#[test]
fn every_pair_of_keys_in_few_layers() {
    let (mut rows, mut cases) = (0, 0);
    for row in rows_of_few_layers() {
        let set = set_of_layers(&row);
        let register = table(&set);
        let keys = keys_of(&set);
        for (n, first) in keys.iter().enumerate() {
            for last in &keys[n..] {
                let expected = table(&between(&set, first, last));
                let call = Call::run(first, last);
                expect_table(&register, &call, expected.len(), &expected);
                cases += 1;
            }
        }
        rows += 1;
    }
    assert_eq!(rows, 513);
    // 1, 3, 6, 10 and 15 pairs in the rows of 1 to 5 layers.
    assert_eq!(
        cases,
        3 + (9 + 25) * 3 + (27 + 125) * 6 + 81 * 10 + 243 * 15
    );
}

/// Equal keys give the register of one record, or the empty one.
#[test]
fn equal_keys() {
    let mut cases = 0;
    for (kind, set) in sets_to(100) {
        let register = table(&set);
        for (key, value) in &set {
            let alone = table(&Set::from([(key.clone(), *value)]));
            let found = compare_lengths(&register, &Call::run(key, key));
            assert!(found == Ok(alone), "{kind:?}");
            let absent = just_before(key).filter(|key| !set.contains_key(key));
            for absent in absent.into_iter().chain([b"-/-".to_vec()]) {
                expect_table(&register, &Call::run(&absent, &absent), 7, &EMPTY);
            }
            cases += 1;
        }
    }
    assert_eq!(cases, KINDS.len() * (1 + 2 + 3 + 10 + 100));
}

/// Keys that begin with one another, as first and as last.
#[test]
fn runs_of_keys_that_begin_with_one_another() {
    let lengths = (3..=LONGEST_KEY).step_by(2);
    let set: Set = lengths
        .map(|length| (key_of_length(length), filled(length as u8)))
        .collect();
    let register = table(&set);
    let (mut cases, mut refused) = (0, 0);
    for first in (3..=LONGEST_KEY).step_by(23) {
        for last in (3..=LONGEST_KEY).step_by(11) {
            let (first, last) = (key_of_length(first), key_of_length(last));
            let call = Call::run(&first, &last);
            if first.len() > last.len() {
                expect_refusal(&register, &call, 500, 14);
                refused += 1;
            } else {
                let expected = between(&set, &first, &last);
                let wanted = |length: &usize| length % 2 == 1;
                let count = (first.len()..=last.len()).filter(wanted).count();
                assert_eq!(expected.len(), count);
                let expected = table(&expected);
                expect_table(&register, &call, expected.len() + 20, &expected);
            }
            cases += 1;
        }
    }
    assert_eq!(cases, 12 * 24);
    assert!(refused > 100);
}

/// Says where a run begins and ends, by numbers in key order.
type Bounds = fn(usize) -> (usize, usize);

/// The whole of larger registers, halves, a few records, one, and all but the first and the last.
const BOUNDS: [Bounds; 8] = [
    |count| (0, count - 1),
    |count| (0, count / 2 - 1),
    |count| (count / 2, count - 1),
    |count| (1, count - 2),
    |count| (count / 3, count / 3 + 7),
    |_| (0, 0),
    |count| (count - 1, count - 1),
    |count| (count / 4, count - count / 4),
];

/// Expects the runs of a large register. Gives their number.
fn expect_runs(set: &Set) -> usize {
    let (register, keys) = (table(set), keys_of(set));
    for bounds in BOUNDS {
        let (from, to) = bounds(set.len());
        let expected = table(&part(set, |n| from <= n && n <= to));
        let call = Call::run(keys[from], keys[to]);
        expect_table(&register, &call, expected.len(), &expected);
        expect_refusal(&register, &call, expected.len() - 1, 13);
        // Absent keys on both sides give the same.
        let (first, last) = (just_before(keys[from]), just_after(keys[to]));
        if let (Some(first), Some(last)) = (first, last) {
            let others = [&first, &last].map(|key| set.contains_key(key));
            let call = Call::run(&first, &last);
            if others == [false; 2] {
                expect_table(&register, &call, expected.len() + 50, &expected);
            }
        }
    }
    BOUNDS.len()
}

#[test]
fn runs_of_larger_registers() {
    let mut cases = 0;
    for kind in KINDS {
        cases += expect_runs(&set(kind, 1_000));
    }
    for kind in FULL_KINDS {
        cases += expect_runs(&set(kind, 4_096));
    }
    assert_eq!(cases, (KINDS.len() + FULL_KINDS.len()) * 8);
}

/// The keys between those of high layers: a register whose root is 16 layers high gives runs of one
/// page, and runs with the high keys at their ends.
#[test]
fn the_root_falls() {
    let set = set(Kind::Chains, 200);
    let (register, keys) = (table(&set), keys_of(&set));
    let high: Vec<usize> = (0..keys.len())
        .filter(|n| HIGH.iter().any(|key| key.as_bytes() == keys[*n]))
        .collect();
    assert_eq!(high.len(), HIGH.len());
    let (mut cases, mut one_page) = (0, 0);
    for pair in high.windows(2) {
        // With both high keys, with one of them, and without them.
        for (from, to) in [
            (pair[0], pair[1]),
            (pair[0] + 1, pair[1]),
            (pair[0], pair[1] - 1),
            (pair[0] + 1, pair[1] - 1),
        ] {
            if from > to {
                continue;
            }
            let expected = part(&set, |n| from <= n && n <= to);
            let call = Call::run(keys[from], keys[to]);
            let found = compare_lengths(&register, &call);
            assert!(found == Ok(table(&expected)), "{from} {to}");
            one_page += usize::from(pages(&expected).len() == 1);
            cases += 1;
        }
    }
    assert!(cases > 40 && one_page > 10, "{cases} {one_page}");
}

/// What a run writes is accepted and lists exactly the records between the keys.
#[test]
fn what_is_written_is_read_back() {
    let mut random = Random::new(113);
    let (mut cases, mut records) = (0, 0);
    for (kind, set) in sets_to(100) {
        let register = table(&set);
        let keys = keys_and_neighbours(&set);
        for _ in 0..10 {
            let mut ends = [random.one_of(&keys), random.one_of(&keys)];
            ends.sort();
            let expected = between(&set, ends[0], ends[1]);

            let mut out = vec![0xaa; register.len() + 10];
            let length = run(&register, ends[0]..=ends[1], &mut out).expect("there is room");
            assert!(out[length..].iter().all(|byte| *byte == 0), "{kind:?}");
            out.truncate(length);
            assert_eq!(count_of(&out), Ok(expected.len()), "{kind:?}");
            let mut key_out = [0; LONGEST_KEY];
            for (n, (key, value)) in expected.iter().enumerate() {
                let listed = list(&out, n, &mut key_out)
                    .expect("accepted")
                    .expect("a record");
                assert_eq!(key_out[..listed.key_length], **key, "{kind:?}");
                assert_eq!(listed.value, library_value(value), "{kind:?}");
                records += 1;
            }
            assert_eq!(list(&out, expected.len(), &mut key_out), Ok(None));
            cases += 1;
        }
    }
    assert_eq!(cases, KINDS.len() * 6 * 10);
    assert!(records > 1_000, "{records}");
}

/// A run of a run is the run of what both have in common, byte for byte.
#[test]
fn runs_of_runs() {
    let mut random = Random::new(114);
    let (mut cases, mut common) = (0, 0);
    for kind in KINDS {
        let set = set(kind, 100);
        let register = table(&set);
        let keys = keys_and_neighbours(&set);
        for _ in 0..40 {
            let [mut one, mut other] = [0; 2].map(|_| [0; 2].map(|_| random.one_of(&keys)));
            one.sort();
            other.sort();
            let (first, last) = (one[0].max(other[0]), one[1].min(other[1]));
            let mut expected = EMPTY.to_vec();
            if first <= last {
                expected = written(&register, &Call::run(first, last));
                common += 1;
            }
            for [outer, inner] in [[one, other], [other, one]] {
                let part = written(&register, &Call::run(outer[0], outer[1]));
                let found = written(&part, &Call::run(inner[0], inner[1]));
                assert!(found == expected, "{kind:?}");
            }
            // Once more with the same keys nothing changes.
            let again = Call::run(one[0], one[1]);
            let part = written(&register, &again);
            expect_table(&part, &again, part.len(), &part);
            cases += 1;
        }
    }
    assert_eq!(cases, KINDS.len() * 40);
    assert!(common > 100, "{common}");
}

/// Runs that follow one another give the whole register when they are merged.
#[test]
fn runs_that_follow_one_another() {
    let mut cases = 0;
    for (kind, set) in sets_to(100) {
        if set.len() < 2 {
            continue;
        }
        let (register, keys) = (table(&set), keys_of(&set));
        for cut in (1..keys.len()).step_by(1 + keys.len() / 10) {
            let one = written(&register, &Call::run(&least_key(), keys[cut - 1]));
            let other = written(&register, &Call::run(keys[cut], &greatest_key()));
            assert!(written(&one, &Call::merge(&other)) == register, "{kind:?}");
            assert_eq!(count_of(&one), Ok(cut));
            assert_eq!(count_of(&other), Ok(keys.len() - cut));
            cases += 1;
        }
    }
    assert_eq!(cases, KINDS.len() * (1 + 2 + 5 + 9));
}

/// Values are taken over as they are, also those that look like parts of a page.
#[test]
fn every_value_is_taken() {
    let mut random = Random::new(115);
    let mut set = set_of_layers(&[0, 1, 0, 2, 0, 0, 1, 0]);
    for (place, unusual) in unusual_values().into_iter().enumerate() {
        for (n, old) in set.values_mut().enumerate() {
            *old = match n == place % 8 {
                true => unusual,
                false => value(&mut random),
            };
        }
        let register = table(&set);
        for (first, last) in [(0, 7), (1, 6), (2, 4), (4, 7)] {
            let keys = keys_of(&set);
            let expected = table(&part(&set, |n| first <= n && n <= last));
            let found = compare_lengths(&register, &Call::run(keys[first], keys[last]));
            assert!(found == Ok(expected), "{place}");
        }
        for key in set.keys() {
            for call in NEIGHBOURS {
                expect_lengths(&register, &set, call, key);
            }
        }
    }
}

// ---- what is refused

/// Unlawful keys of every form, in registers with and without records.
#[test]
fn unlawful_keys_are_refused() {
    let registers = [
        EMPTY.to_vec(),
        one_record(),
        table(&set(Kind::Ordinary, 10)),
    ];
    let mut cases = 0;
    for register in registers {
        for key in unlawful_keys() {
            for call in NEIGHBOURS {
                expect_record(&register, call, &key, 20, Err(7));
                expect_record(&register, call, &key, 0, Err(7));
            }
            // As the first key, as the last, and as both; a lawful one beside it may be greater or
            // less than it.
            for call in [
                Call::run(&key, &least_key()),
                Call::run(&key, &greatest_key()),
                Call::run(&least_key(), &key),
                Call::run(&greatest_key(), &key),
                Call::run(&key, &key),
                Call::run(&key, b""),
            ] {
                expect_refusal(&register, &call, 100, 7);
            }
            cases += 1;
        }
    }
    assert_eq!(cases, 3 * unlawful_keys().len());
}

/// The register is judged before the keys and the output: the scope's example of each number.
#[test]
fn refused_registers() {
    let mut cases = 0;
    for (register, number) in faulty_registers().iter().zip(1..) {
        for key in [&b"a/b1"[..], b"ab", b"", &least_key(), &greatest_key()] {
            for out_length in [0, 3, 300] {
                for call in NEIGHBOURS {
                    expect_record(register, call, key, out_length, Err(number));
                    cases += 1;
                }
                for call in [
                    Call::run(key, b"a/b1"),
                    Call::run(b"a/b1", key),
                    Call::run(key, b"/"),
                ] {
                    expect_refusal(register, &call, out_length, number);
                    cases += 1;
                }
            }
        }
        assert_eq!(independent::check(register), Err(number));
    }
    assert_eq!(cases, 10 * 5 * 3 * 5);
}

/// First keys that are greater than the last in every way, present or not.
#[test]
fn first_keys_after_the_last() {
    let set: Set = [&b"a/b"[..], b"a/b1", b"a/b10", b"a/b2", b"b/a"]
        .iter()
        .map(|key| (key.to_vec(), filled(0x11)))
        .collect();
    let register = table(&set);
    let pairs: [(&[u8], &[u8]); 10] = [
        (b"a/b2", b"a/b1"),
        (b"a/b1", b"a/b"),
        (b"a/b10", b"a/b1"),
        // Keys are not ordered by length first.
        (b"a/b2", b"a/b10"),
        (b"b/a", b"a/b10"),
        (b"b/b", b"a/b"),
        (b"b/b", b"b/a"),
        (b"a/b1-", b"a/b1"),
        // The slash stands before digits and letters and after the dash and the dot.
        (b"a0/b", b"a/b0"),
        (b"a/b", b"a./b"),
    ];
    let mut cases = 0;
    for (first, last) in pairs {
        for out_length in [0, 6, 7, 64, 1_000] {
            expect_refusal(&register, &Call::run(first, last), out_length, 14);
            cases += 1;
        }
        let mut out = [0xaa; 500];
        let refused = run(&register, first..=last, &mut out);
        assert_eq!(refused, Err(Refusal::FirstAfterLast));
        assert_eq!(out, [0; 500]);
        // The other way round it is done.
        let expected = table(&between(&set, last, first));
        let found = compare_lengths(&register, &Call::run(last, first));
        assert!(found == Ok(expected));
    }
    assert_eq!(cases, 10 * 5);
}

/// The keys may be parts of the register, since all of them are only read.
#[test]
fn the_keys_may_lie_in_the_register() {
    let register = one_record();
    let key = &register[8..12];
    let mut out = [0xaa; 64];
    let listed = Listed {
        key_length: 4,
        value: library_value(&filled(0x11)),
    };
    assert_eq!(at_or_after(&register, key, &mut out), Ok(listed));
    assert_eq!(before(&register, key, &mut out), Err(Refusal::KeyAbsent));
    assert_eq!(run(&register, key..=key, &mut out), Ok(64));
    assert_eq!(out[..], register);
    // The first key is the start of the last.
    assert_eq!(run(&register, &register[8..11]..=key, &mut out), Ok(64));
    let refused = run(&register, key..=&register[8..11], &mut out);
    assert_eq!(refused, Err(Refusal::FirstAfterLast));
    let refused = run(&register, &register..=&register, &mut out);
    assert_eq!(refused, Err(Refusal::UnlawfulKey));
}

#[test]
fn raw_calls_do_not_touch_empty_buffers() {
    let register = one_record();
    let (reg, reg_len) = (register.as_ptr(), register.len());
    let (key, later) = (b"a/b1".as_ptr(), b"a/b2".as_ptr());
    let (none, no_out) = (ptr::null(), ptr::null_mut());
    let mut value = [0xaa; 33];
    // SAFETY: A buffer of length 0 is neither read nor written, and the others are whole.
    unsafe {
        for call in [mijdegen_at_or_after, mijdegen_before] {
            let mut refused = |reg, reg_len, key, key_len, number| {
                let answer = call(reg, reg_len, key, key_len, no_out, 0, &mut value);
                assert_eq!((answer, value), (number, [0; 33]));
                value.fill(0xaa);
            };
            refused(none, 0, none, 0, 2);
            refused(none, 0, key, 4, 2);
            refused(reg, reg_len, none, 0, 7);
            refused(EMPTY.as_ptr(), 7, key, 4, 12);
        }
        let found = mijdegen_at_or_after(reg, reg_len, key, 4, no_out, 0, &mut value);
        assert_eq!((found, value), (13, [0; 33]));
        value.fill(0xaa);
        let found = mijdegen_before(reg, reg_len, later, 4, no_out, 0, &mut value);
        assert_eq!((found, value), (13, [0; 33]));

        assert_eq!(mijdegen_run(none, 0, none, 0, none, 0, no_out, 0), 2);
        assert_eq!(mijdegen_run(none, 0, key, 4, key, 4, no_out, 0), 2);
        assert_eq!(mijdegen_run(reg, reg_len, none, 0, none, 0, no_out, 0), 7);
        assert_eq!(mijdegen_run(reg, reg_len, none, 0, key, 4, no_out, 0), 7);
        assert_eq!(mijdegen_run(reg, reg_len, key, 4, none, 0, no_out, 0), 7);
        assert_eq!(mijdegen_run(reg, reg_len, later, 4, key, 4, no_out, 0), 14);
        assert_eq!(mijdegen_run(reg, reg_len, key, 4, later, 4, no_out, 0), 13);
    }
}
