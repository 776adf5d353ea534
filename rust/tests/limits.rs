//! The writing calls around 4,096 records, and the longest tables.

use crate::common::calls::{count_of, number_of};
use crate::common::forge::{Entry, Page};
use crate::common::paths::expect_path;
use crate::common::sets::{
    collections, just_before, part, screens_of, set, value, Kind, FULL_KINDS,
};
use crate::common::values::{filled, GREATEST, LEAST};
use crate::common::writes::{compare_call, expect_refusal, expect_table, expect_table_and, Call};
use crate::common::Random;
use independent::{layer, merge_in, table, Set, LONGEST};

/// The greatest count of records, one less and one more.
const COUNTS: [usize; 3] = [4_095, 4_096, 4_097];

/// Expects the table of so many records, by an output that is just long enough, or number 5 where
/// there is one too many.
fn expect_count(register: &[u8], call: &Call, count: usize, table: &[u8]) {
    if count > 4_096 {
        expect_refusal(register, call, table.len(), 5);
    } else {
        expect_table(register, call, table.len(), table);
    }
}

/// A new key that gives 4,095 records, 4,096 or one too many.
#[test]
fn put_and_join() {
    let mut cases = 0;
    for kind in FULL_KINDS {
        for count in COUNTS {
            let all = set(kind, count);
            let whole = table(&all);
            // The new key stands first, in the middle and last.
            for n in [0, 2_048, count - 1] {
                let register = table(&part(&all, |other| other != n));
                let (key, value) = all.iter().nth(n).expect("a record");
                for call in [Call::put(key, value), Call::join(key, value)] {
                    expect_count(&register, &call, count, &whole);
                    cases += 1;
                }
            }
        }
    }
    assert_eq!(cases, FULL_KINDS.len() * 3 * 3 * 2);
}

/// A present key gives no further record, where there are 4,095 and where there are 4,096.
#[test]
fn present_keys() {
    let mut cases = 0;
    for kind in FULL_KINDS {
        for count in [4_095, 4_096] {
            let mut set = set(kind, count);
            let register = table(&set);
            let key = set.keys().nth(count / 3).expect("a key").clone();
            // The value is greater than each random one.
            set.insert(key.clone(), GREATEST);
            let greater = table(&set);
            for call in [Call::put(&key, &GREATEST), Call::join(&key, &GREATEST)] {
                expect_table(&register, &call, greater.len(), &greater);
                expect_refusal(&register, &call, greater.len() - 1, 13);
                cases += 2;
            }
            let less = Call::join(&key, &LEAST);
            expect_table(&greater, &less, greater.len() + 9, &greater);
            cases += 1;
        }
    }
    assert_eq!(cases, FULL_KINDS.len() * 2 * 5);
}

/// From 4,096 records and from 4,095.
#[test]
fn remove() {
    let mut cases = 0;
    for kind in FULL_KINDS {
        for count in [4_095, 4_096] {
            let set = set(kind, count);
            let register = table(&set);
            for n in [0, count / 2, count - 1] {
                let key = set.keys().nth(n).expect("a key");
                let others = table(&part(&set, |other| other != n));
                expect_table(&register, &Call::remove(key), others.len(), &others);
                cases += 1;
            }
            expect_refusal(&register, &Call::remove(b"a/b1"), 100, 12);
            cases += 1;
        }
    }
    assert_eq!(cases, FULL_KINDS.len() * 2 * 4);
}

/// Says by a record's number in key order whether it stands in a part of a set.
type Wanted = fn(usize) -> bool;

/// Two parts that are together 4,095 records, 4,096 or one too many.
#[test]
fn merge() {
    // Halves, every second record, all but one, and parts with about 1,900 in common.
    let parts: [[Wanted; 2]; 4] = [
        [|n| n < 2_048, |n| n >= 2_048],
        [|n| n % 2 == 0, |n| n % 2 == 1],
        [|n| n != 77, |n| n == 77],
        [|n| n < 3_000, |n| n >= 1_096],
    ];
    let mut cases = 0;
    for kind in FULL_KINDS {
        for count in COUNTS {
            let all = set(kind, count);
            let whole = table(&all);
            for [one, other] in parts {
                let (first, second) = (table(&part(&all, one)), table(&part(&all, other)));
                for (first, second) in [(&first, &second), (&second, &first)] {
                    expect_count(first, &Call::merge(second), count, &whole);
                    cases += 1;
                }
            }
        }
    }
    assert_eq!(cases, FULL_KINDS.len() * 3 * 4 * 2);
}

/// 4,096 records with some of them, with all of them, with other values of all of them, and with
/// as many others.
#[test]
fn merge_of_full_registers() {
    let mut random = Random::new(92);
    let mut cases = 0;
    for kind in FULL_KINDS {
        let full = set(kind, 4_096);
        let register = table(&full);
        for second in [table(&part(&full, |n| n % 100 == 0)), register.clone()] {
            let call = Call::merge(&second);
            expect_table(&register, &call, register.len(), &register);
            expect_refusal(&register, &call, register.len() - 1, 13);
            cases += 2;
        }
        let mut other_values = full.clone();
        for other in other_values.values_mut() {
            *other = value(&mut random);
        }
        let call = Call::merge(&table(&other_values));
        let greater = table(&merge_in(full, &other_values));
        expect_table(&register, &call, greater.len(), &greater);
        cases += 1;
    }
    assert_eq!(cases, FULL_KINDS.len() * 5);

    let (one, other) = (set(Kind::Ordinary, 4_096), set(Kind::Mixed, 4_096));
    assert!(one.keys().all(|key| !other.contains_key(key)));
    let call = Call::merge(&table(&other));
    expect_refusal(&table(&one), &call, 3_000_000, 5);
    expect_refusal(&table(&one), &call, 0, 5);
}

/// The first screen and the last of each collection in 4,095 records and in 4,096, and number 5 of
/// one record more.
#[test]
fn screen() {
    let mut cases = 0;
    for kind in FULL_KINDS {
        for count in COUNTS {
            let set = set(kind, count);
            let register = table(&set);
            let mut shown = 0;
            for collection in collections(&set) {
                let screens = screens_of(&set, collection);
                let last = screens.len() - 1;
                for n in [0, last] {
                    let call = Call::screen(collection, n as u64);
                    let expected = table(&screens[n]);
                    match count {
                        0..=4_096 => {
                            let length = expected.len();
                            expect_table_and(&register, &call, length, &expected, last + 1);
                        }
                        _ => expect_refusal(&register, &call, expected.len(), 5),
                    }
                    cases += 1;
                }
                shown += screens.iter().map(Set::len).sum::<usize>();
            }
            assert_eq!(shown, count, "{kind:?}");
        }
    }
    // Ordinary keys, on one page too, have 4 collections, the others one.
    assert_eq!(cases, (4 + 1 + 4 + 1) * 3 * 2);
}

/// The paths of the first key, of one in the middle and of the last, and of the keys just before
/// them, in 4,095 records and in 4,096; and number 5 of one record more.
#[test]
fn path() {
    let mut cases = 0;
    for kind in FULL_KINDS {
        for count in COUNTS {
            let set = set(kind, count);
            let register = table(&set);
            let root = Page::of_set(&set);
            let root = root.written();
            for n in [0, count / 2, count - 1] {
                let key = set.keys().nth(n).expect("a key");
                let before = just_before(key).expect("a lesser key");
                for key in [key, &before] {
                    match count {
                        0..=4_096 => drop(expect_path(&register, &set, &root, key)),
                        _ => expect_refusal(&register, &Call::path(key), 300, 5),
                    }
                    cases += 1;
                }
            }
        }
    }
    assert_eq!(cases, FULL_KINDS.len() * 3 * 6);
}

/// Keys of 256 bytes that share few of them, of layers 3 and 0 in turn: below each entry of the
/// root stand two pages without entries and one with a record. A longer table would need higher
/// layers, and one over the greatest length layers of about 31, which no search finds.
fn long_table(count: usize) -> Set {
    let mut random = Random::new(91);
    (0..count)
        .map(|number| {
            let wanted = if number % 2 == 0 { 3 } else { 0 };
            let mut key = format!("{number:04}/{:0>251}", random.next()).into_bytes();
            while layer(&key) != wanted {
                let number = format!("{:020}", random.next());
                key[236..].copy_from_slice(number.as_bytes());
            }
            assert_eq!(key.len(), 256);
            (key, value(&mut random))
        })
        .collect()
}

#[test]
fn the_longest_tables() {
    let all = long_table(4_096);
    let whole = table(&all);
    assert!(whole.len() > 1_500_000, "{}", whole.len());
    assert_eq!(count_of(&whole), Ok(4_096));

    let mut cases = 0;
    // The new record is of layer 3, then of layer 0.
    for n in [2_048, 2_049] {
        let others = table(&part(&all, |m| m != n));
        let (key, value) = all.iter().nth(n).expect("a record");
        for call in [Call::put(key, value), Call::join(key, value)] {
            expect_table(&others, &call, whole.len(), &whole);
            expect_refusal(&others, &call, whole.len() - 1, 13);
            expect_table(&others, &call, LONGEST, &whole);
            expect_table(&others, &call, LONGEST + 1, &whole);
            cases += 4;
        }
        expect_table(&whole, &Call::remove(key), others.len(), &others);
        cases += 1;
    }
    let odd = table(&part(&all, |n| n % 2 == 1));
    let even = table(&part(&all, |n| n % 2 == 0));
    for (first, second) in [(&odd, &even), (&even, &odd), (&whole, &odd)] {
        let call = Call::merge(second);
        expect_table(first, &call, whole.len(), &whole);
        expect_refusal(first, &call, whole.len() - 1, 13);
        expect_refusal(first, &call, whole.len() / 2, 13);
        cases += 3;
    }
    // Each record is a collection of its own.
    for n in [0, 2_049, 4_095] {
        let alone = table(&part(&all, |m| m == n));
        let call = Call::screen(format!("{n:04}").as_bytes(), 0);
        expect_table_and(&whole, &call, alone.len(), &alone, 1);
        expect_refusal(&whole, &call, alone.len() - 1, 13);
        cases += 2;
    }
    // The root has 2,048 entries, and below it are three pages on the way to a record of layer 0.
    let root = Page::of_set(&all);
    let root = root.written();
    for n in [0, 1, 2_048, 2_049, 4_095] {
        let key = all.keys().nth(n).expect("a key");
        let path = expect_path(&whole, &all, &root, key);
        assert_eq!(root.path(key).len(), if n % 2 == 0 { 1 } else { 4 });
        expect_refusal(&whole, &Call::path(key), path.len() - 1, 13);
        cases += 2;
    }
    assert_eq!(cases, 2 * 9 + 3 * 3 + 3 * 2 + 5 * 2);
}

/// Registers of about 13,515 bytes, up to which the library takes short rows, with as many records
/// as go into them: one page of keys that differ in their last byte.
#[test]
fn as_many_records_as_short_registers_have() {
    let mut random = Random::new(3);
    let letters = ('0'..='9').chain('A'..='Z').chain('a'..='z');
    let keys = letters.clone().flat_map(|first| {
        letters
            .clone()
            .map(move |second| format!("a/{first}{second}"))
    });
    let all: Set = keys
        .map(String::into_bytes)
        .filter(|key| layer(key) == 0)
        .take(300)
        .map(|key| (key, value(&mut random)))
        .collect();
    let mut lengths = Vec::new();
    for count in 240..=258 {
        let set = part(&all, |n| n < count);
        let register = table(&set);
        assert_eq!(number_of(&register), 0);
        lengths.push(register.len());
        let second = table(&part(&all, |n| n >= 300 - count));
        let [first, next] = [count / 2, count].map(|n| all.keys().nth(n).expect("a key"));
        for call in [
            Call::put(b"a/-", &filled(0x76)),
            Call::put(next, &filled(0x77)),
            Call::join(first, &GREATEST),
            Call::remove(first),
            Call::run(b"a/-", first),
            Call::merge(&second),
            Call::difference(&second),
            Call::screen(b"a", count as u64 / 16),
            Call::path(first),
        ] {
            let result = compare_call(&register, &call, 2 * register.len());
            assert!(result.is_ok(), "{count} records");
        }
    }
    assert!(lengths[0] < 13_515 && lengths[lengths.len() - 1] > 13_515);

    // Entries of 53 bytes, the shortest that there are.
    for count in 250..=260 {
        let page = Page {
            left: None,
            entries: vec![Entry::new(b""); count],
        };
        assert_eq!(number_of(&page.table()), 7);
    }
}
