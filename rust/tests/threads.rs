//! Calls at the same time from several threads. A safe function must allow them.

use crate::common::forge::Page;
use crate::common::heads::{head_of, Heads};
use crate::common::lists::{damaged, List, Source};
use crate::common::neighbours::NEIGHBOURS;
use crate::common::paths::expect_verdict;
use crate::common::sets::{collections, greatest_key, least_key, screens_of, set, value, Kind};
use crate::common::values::library_value;
use crate::common::writes::{expect_outcome, Call};
use crate::common::Random;
use independent::{table, Set, Value};
use mijdegen::{check, digest, layer, list, lookup_place, slash, Head, Listed, Refusal};
use std::thread;

#[test]
fn calls_at_the_same_time() {
    // 4 threads with 2,000 inputs each, all different, and as many keys, lawful and not.
    let source = &Source::new(set(Kind::Mixed, 60).into_keys());
    thread::scope(|scope| {
        for seed in 1..=4 {
            scope.spawn(move || {
                let mut random = Random::new(seed);
                for _ in 0..2_000 {
                    let length = random.below(1_000);
                    let input = random.bytes(length);
                    assert_eq!(digest(&input), Ok(independent::sha256(&input)));
                    assert_eq!(layer(&input), Ok(independent::layer(&input)));
                    let key = source.key(&mut random, &Set::new());
                    assert_eq!(
                        slash(&key).map_err(Refusal::number),
                        independent::slash(&key)
                    );
                }
            });
        }
    });
}

#[test]
fn reading_calls_at_the_same_time() {
    // 4 threads with 40 registers each, all different and of different counts. Every second one
    // is cut. What the calls give is known before they run side by side, 200 times each.
    thread::scope(|scope| {
        for seed in 1..=4 {
            scope.spawn(move || {
                let mut random = Random::new(10 + seed);
                let cases: Vec<_> = (0..40).map(|count| case(&mut random, count)).collect();
                for _ in 0..200 {
                    for (register, key, expected) in &cases {
                        assert_eq!(results(register, key), *expected);
                    }
                }
            });
        }
    });
}

#[test]
fn writing_calls_at_the_same_time() {
    // 4 threads with 4 lists of 60 calls each, all different. What the calls answer is known
    // before they run side by side, 3 times each.
    thread::scope(|scope| {
        for seed in 1..=4 {
            scope.spawn(move || {
                let mut random = Random::new(20 + seed);
                let source = Source::new(set(Kind::Ordinary, 40).into_keys());
                let lists = [0; 4].map(|_| {
                    let start = source.set(&mut random, 40);
                    List::draw(&mut random, &source, &start, 60)
                });
                for _ in 0..3 {
                    for list in &lists {
                        assert_eq!(list.run().iter().sum::<usize>(), 60);
                    }
                }
            });
        }
    });
}

#[test]
fn differences_runs_screens_and_paths_at_the_same_time() {
    // 4 threads with 40 pairs of registers each, all different, and as many runs, screens and
    // paths. What is due is known before they run side by side, 20 times each.
    thread::scope(|scope| {
        for seed in 1..=4 {
            scope.spawn(move || {
                let mut random = Random::new(30 + seed);
                // Many collections of one record, and one of several screens.
                let keys = [Kind::Mixed, Kind::SharedPrefix].map(|kind| set(kind, 60).into_keys());
                let source = Source::new(keys.into_iter().flatten());
                let cases: Vec<_> = (0..160)
                    .map(|case| {
                        let held = source.set(&mut random, 60);
                        let call = match case % 4 {
                            0 => Call::difference(&table(&source.set(&mut random, 60))),
                            1 => drawn_run(&mut random, &source),
                            2 => drawn_screen(&mut random, &held),
                            _ => Call::path(&drawn_key(&mut random, &source)),
                        };
                        let first = table(&held);
                        // These calls leave the head alone.
                        let mut heads = Heads::stay(head_of(&held));
                        let mut output = vec![0; 40_000];
                        let expected = call.independent(&first, &mut heads.after, &mut output);
                        (first, heads, call, expected, output)
                    })
                    .collect();
                for _ in 0..20 {
                    for (first, heads, call, expected, output) in &cases {
                        assert!(expected.is_ok());
                        expect_outcome(first, heads, call, *expected, output);
                    }
                }
            });
        }
    });
}

#[test]
fn verdicts_at_the_same_time() {
    // 4 threads with 80 paths each, all different. Every second one is damaged. What they say is
    // known before they run side by side, 200 times each.
    thread::scope(|scope| {
        for seed in 1..=4 {
            scope.spawn(move || {
                let mut random = Random::new(40 + seed);
                let source = Source::new(set(Kind::Mixed, 60).into_keys());
                let cases: Vec<_> = (0..80)
                    .map(|case| {
                        let root = Page::of_set(&source.set(&mut random, 60));
                        let root = root.written();
                        let key = drawn_key(&mut random, &source);
                        let mut path = root.path(&key).concat();
                        if case % 2 == 1 {
                            path = damaged(&mut random, path);
                        }
                        let expected = independent::verify(&path, &key, &root.digest);
                        assert_eq!(expected.is_ok(), case % 2 == 0);
                        (path, key, root.digest, expected)
                    })
                    .collect();
                for _ in 0..200 {
                    for (path, key, root, expected) in &cases {
                        expect_verdict(path, key, root, *expected);
                    }
                }
            });
        }
    });
}

/// Draws a key of the source, or the least or the greatest of all.
fn drawn_key(random: &mut Random, source: &Source) -> Vec<u8> {
    let mut keys: Vec<_> = source.set(random, 60).into_keys().collect();
    keys.push(least_key());
    keys.push(greatest_key());
    random.one_of(&keys).clone()
}

/// Draws a run between two keys.
fn drawn_run(random: &mut Random, source: &Source) -> Call {
    let mut ends = [0; 2].map(|_| drawn_key(random, source));
    ends.sort();
    Call::run(&ends[0], &ends[1])
}

/// Draws a screen of one of the set's collections, or of one without records.
fn drawn_screen(random: &mut Random, set: &Set) -> Call {
    let mut named: Vec<&[u8]> = collections(set).into_iter().collect();
    named.push(b"none");
    let collection = *random.one_of(&named);
    let screens = screens_of(set, collection).len();
    Call::screen(collection, random.below(screens) as u64)
}

/// A record, or none where a call gives none, and the output with its key.
type Given<T> = (Result<T, Refusal>, [u8; 40]);

/// What check, lookup, list, at_or_after and before give.
type Results = (
    Result<Head, Refusal>,
    Result<usize, Refusal>,
    Given<Option<Listed>>,
    [Given<Listed>; 2],
);

/// Gives a register of so many records, or a part of it, with its last key and the results.
fn case(random: &mut Random, count: usize) -> (Vec<u8>, Vec<u8>, Results) {
    let set: Set = (0..count)
        .map(|_| {
            let key = format!("thread/{}", random.next());
            (key.into_bytes(), value(random))
        })
        .collect();
    let mut register = table(&set);
    register.truncate(register.len() - count % 2);

    let mut from_the_last = set.iter().rev();
    let (last, previous) = (from_the_last.next(), from_the_last.next());
    let key = last.map_or(b"a/b1".to_vec(), |(key, _)| key.clone());
    if count % 2 == 1 {
        let refused = Refusal::EndsEarly;
        let beside = [(Err(refused), [0; 40]); 2];
        let results = (Err(refused), Err(refused), (Err(refused), [0; 40]), beside);
        return (register, key, results);
    }
    let place = independent::lookup(&register, &key);
    let place = place
        .map(|(place, _)| place)
        .map_err(|_| Refusal::KeyAbsent);
    let given = |record: Option<(&Vec<u8>, &Value)>| {
        let mut out = [0; 40];
        let listed = record.map(|(key, value)| {
            out[..key.len()].copy_from_slice(key);
            Listed {
                key_length: key.len(),
                value: library_value(value),
            }
        });
        (listed, out)
    };
    let (listed, out) = given(last);
    let beside = [last, previous].map(|record| {
        let (listed, out) = given(record);
        (listed.ok_or(Refusal::KeyAbsent), out)
    });
    let results = (Ok(head_of(&set)), place, (Ok(listed), out), beside);
    (register, key, results)
}

/// Checks the register, looks for the key, lists the record of the last number and gives those
/// beside the key.
fn results(register: &[u8], key: &[u8]) -> Results {
    let head = check(register);
    let n = head.map_or(0, |head| head.count as usize).saturating_sub(1);
    let mut out = [0xaa; 40];
    let listed = list(register, n, &mut out);
    let beside = NEIGHBOURS.map(|call| {
        let mut out = [0xaa; 40];
        (call.safe(register, key, &mut out), out)
    });
    (head, lookup_place(register, key), (listed, out), beside)
}
