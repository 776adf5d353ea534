//! Lists of puts, removals, joins and merges, refused ones included: each call answers as the
//! plain map does, and lists that reach the same set end in the same bytes.

use crate::common::forge::EMPTY;
use crate::common::lists::{full_set, Counts, List, Source};
use crate::common::sets::{part, set, value, Kind, FULL_KINDS, KINDS};
use crate::common::values::LEAST;
use crate::common::writes::{written, Call};
use crate::common::Random;
use independent::{layer, table, Set, Value};

/// Adds the counts of one list to those of others.
fn add(counts: &mut Counts, more: Counts) {
    for (count, more) in counts.iter_mut().zip(more) {
        *count += more;
    }
}

/// Lists on registers of each kind, from any register and from the empty one.
#[test]
fn lists_of_calls() {
    let mut random = Random::new(41);
    let mut counts = [0; 18];
    for kind in KINDS {
        let source = Source::new(set(kind, 40).into_keys());
        for number in 0..12 {
            let start = match number {
                0 => Set::new(),
                _ => source.set(&mut random, 40),
            };
            let list = List::draw(&mut random, &source, &start, 100);
            add(&mut counts, list.run());
        }
    }
    assert_eq!(counts.iter().sum::<usize>(), KINDS.len() * 12 * 100);
    // Every number that is due on a writing call is answered at least three times, one call in ten
    // has an untrue head, and almost half of the calls are done.
    for (number, count) in counts.iter().enumerate() {
        match number {
            14..=16 => assert_eq!(*count, 0, "number {number}"),
            17 => assert!((600..1_100).contains(count), "number {number}: {count}"),
            _ => assert!(*count >= 3, "number {number}: {count}"),
        }
    }
    assert!(counts[0] > 3_500, "{}", counts[0]);
}

/// Lists with keys of several kinds: chains of pages without entries come and go.
#[test]
fn lists_of_calls_with_mixed_keys() {
    let mut random = Random::new(42);
    let mut counts = [0; 18];
    let keys = KINDS.map(|kind| set(kind, 8)).into_iter().flatten();
    let source = Source::new(keys.map(|(key, _)| key));
    for _ in 0..15 {
        let start = source.set(&mut random, 20);
        let list = List::draw(&mut random, &source, &start, 100);
        add(&mut counts, list.run());
    }
    assert_eq!(counts.iter().sum::<usize>(), 15 * 100);
    assert!(counts[17] > 100, "{}", counts[17]);
}

/// Lists around 4,096 records.
#[test]
fn lists_of_calls_on_full_registers() {
    let mut random = Random::new(43);
    let mut counts = [0; 18];
    for kind in FULL_KINDS {
        let (start, source) = full_set(kind);
        let list = List::draw(&mut random, &source, &start, 25);
        add(&mut counts, list.run());
        assert!(list.end.len() > 4_080);
    }
    assert_eq!(counts.iter().sum::<usize>(), 4 * 25);
    assert!(counts[0] > 30, "{}", counts[0]);
    assert!(counts[5] > 5, "{}", counts[5]);
    assert!(counts[17] > 5, "{}", counts[17]);
}

/// Puts or joins the records one after the other, in a random order.
fn one_by_one(
    random: &mut Random,
    call: fn(&[u8], &Value) -> Call,
    start: &[u8],
    records: &Set,
) -> Vec<u8> {
    let mut records: Vec<_> = records.iter().collect();
    random.shuffle(&mut records);
    let mut register = start.to_vec();
    for (key, value) in records {
        register = written(&register, &call(key, value));
    }
    register
}

/// Merges some parts of the records, each reached by puts, in any order.
fn by_merges(random: &mut Random, records: &Set, parts: usize) -> Vec<u8> {
    let which: Vec<usize> = records.iter().map(|_| random.below(parts)).collect();
    let mut registers: Vec<Vec<u8>> = (0..parts)
        .map(|wanted| {
            let part = part(records, |n| which[n] == wanted);
            one_by_one(random, Call::put, &EMPTY, &part)
        })
        .collect();
    while registers.len() > 1 {
        let one = registers.swap_remove(random.below(registers.len()));
        let place = random.below(registers.len());
        registers[place] = written(&one, &Call::merge(&registers[place]));
    }
    registers.remove(0)
}

/// Removes all keys that are not of the records, in a random order.
fn by_removes(random: &mut Random, start: &[u8], more: &Set, records: &Set) -> Vec<u8> {
    let absent = more.keys().filter(|key| !records.contains_key(*key));
    let mut keys: Vec<_> = absent.collect();
    random.shuffle(&mut keys);
    let mut register = start.to_vec();
    for key in keys {
        register = written(&register, &Call::remove(key));
    }
    register
}

/// Each set is reached by seven lists of calls, and the bytes are those of its only register.
#[test]
fn one_register_for_each_set() {
    let mut random = Random::new(44);
    let mut cases = 0;
    for kind in KINDS {
        let keys: Vec<_> = set(kind, 60).into_keys().collect();
        for count in [0, 1, 2, 5, 10, 20, 30] {
            let draw = |random: &mut Random, count| -> Set {
                (0..count)
                    .map(|_| (random.one_of(&keys).clone(), value(random)))
                    .collect()
            };
            let set = draw(&mut random, count);
            let other_values: Set = set
                .keys()
                .map(|key| (key.clone(), value(&mut random)))
                .collect();
            let least: Set = set.keys().map(|key| (key.clone(), LEAST)).collect();
            let more = draw(&mut random, 20);

            let mut ways = vec![
                one_by_one(&mut random, Call::put, &EMPTY, &set),
                one_by_one(&mut random, Call::join, &EMPTY, &set),
            ];
            for parts in [2, 5] {
                ways.push(by_merges(&mut random, &set, parts));
            }
            // Other values that are put over, and lesser ones that are joined over.
            let start = one_by_one(&mut random, Call::put, &EMPTY, &other_values);
            ways.push(one_by_one(&mut random, Call::put, &start, &set));
            let start = one_by_one(&mut random, Call::put, &EMPTY, &least);
            ways.push(one_by_one(&mut random, Call::join, &start, &set));
            // More records, which are removed.
            let start = one_by_one(&mut random, Call::put, &EMPTY, &more);
            let start = one_by_one(&mut random, Call::put, &start, &set);
            ways.push(by_removes(&mut random, &start, &more, &set));

            let expected = table(&set);
            for (n, register) in ways.iter().enumerate() {
                assert!(*register == expected, "{kind:?} {count}, way {n}");
                cases += 1;
            }
        }
    }
    assert_eq!(cases, KINDS.len() * 7 * 7);
}

/// A list that brings each layer of the root in turn, up and down again: after each put and each
/// removal the register is the only one of the set.
#[test]
fn the_root_rises_and_falls() {
    let set = set(Kind::Chains, 34);
    let mut keys: Vec<_> = set.keys().cloned().collect();
    keys.sort_by_key(|key| layer(key));
    assert_eq!(layer(&keys[0]), 0);
    assert_eq!(layer(&keys[33]), 16);

    let (mut register, mut grown) = (EMPTY.to_vec(), Set::new());
    let mut registers = vec![register.clone()];
    for key in &keys {
        register = written(&register, &Call::put(key, &set[key]));
        grown.insert(key.clone(), set[key]);
        assert!(register == table(&grown));
        registers.push(register.clone());
    }
    for key in keys.iter().rev() {
        assert!(Some(&register) == registers.last());
        registers.pop();
        register = written(&register, &Call::remove(key));
    }
    assert_eq!(register, EMPTY);
    assert_eq!(registers.len(), 1);
}
