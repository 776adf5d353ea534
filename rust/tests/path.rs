//! `path` against the independent crate and against the sets themselves, with what `verify` says by
//! each path.

use crate::common::forge::{one_record, Page, EMPTY};
use crate::common::paths::{expect_path, expect_presence};
use crate::common::sets::{
    dotted_keys, greatest_key, just_after, just_before, keys_and_neighbours, keys_near, least_key,
    one_page_below_high, published_trees, rows_of_few_layers, set, set_of_layers, sets_to,
    unlawful_keys, value, Kind, HIGH, KINDS,
};
use crate::common::values::{filled, library_value};
use crate::common::writes::{compare_call, compare_lengths, expect_refusal, expect_table, Call};
use crate::common::Random;
use independent::{lawful, layer, pages, table, Set};
use mijdegen::{digest, lookup, path, Refusal};

/// Expects the paths of the set's keys, of those just before and just after each, and of the least
/// and the greatest key, some of them for outputs of several lengths; and that verify says by each
/// path what lookup says. Gives how many paths have each number of pages.
fn expect_all_paths(set: &Set) -> [usize; 20] {
    let register = table(set);
    let root = Page::of_set(set);
    let root = root.written();
    let (mut present, mut lengths) = (0, [0; 20]);
    for (n, key) in keys_and_neighbours(set).into_iter().enumerate() {
        let path = expect_path(&register, set, &root, &key);
        let call = Call::path(&key);
        assert_eq!(
            compare_call(&register, &call, path.len() + 1),
            Ok(path.len())
        );
        if n % 7 == 0 {
            assert!(compare_lengths(&register, &call) == Ok(path));
        }
        let value = set.get(&key).map(library_value);
        assert_eq!(lookup(&register, &key).ok(), value);
        present += usize::from(set.contains_key(&key));
        lengths[root.path(&key).len()] += 1;
    }
    assert_eq!(present, set.len());
    lengths
}

// ---- which pages a path has

/// Sets of each kind, none and one record among them.
#[test]
fn every_key_and_every_gap() {
    let mut lengths = [0; 20];
    for (_, set) in sets_to(100) {
        let found = expect_all_paths(&set);
        for (sum, found) in lengths.iter_mut().zip(found) {
            *sum += found;
        }
    }
    assert_eq!(lengths[0], 0);
    assert!(lengths[1..=4].iter().all(|count| *count > 100));
    // The chains have the deepest trees.
    assert!(lengths[17] > 0, "{lengths:?}");
    for (set, _) in published_trees() {
        expect_all_paths(&set);
    }
}

/// Small trees of every form, pages without entries among them.
#[test]
fn all_rows_of_few_layers() {
    let (mut cases, mut present) = (0, 0);
    for row in rows_of_few_layers() {
        let set = set_of_layers(&row);
        let register = table(&set);
        let root = Page::of_set(&set);
        let root = root.written();
        for key in keys_and_neighbours(&set) {
            let path = expect_path(&register, &set, &root, &key);
            let found = compare_call(&register, &Call::path(&key), path.len() + 1);
            assert_eq!(found, Ok(path.len()), "{row:?}");
            present += usize::from(set.contains_key(&key));
            cases += 1;
        }
    }
    let records = 3 + 9 * 2 + 27 * 3 + 81 * 4 + 243 * 5 + 25 * 2 + 125 * 3;
    assert_eq!(present, records);
    assert_eq!(cases, 3 * records + 2 * 513);
}

/// Registers of 1,000 and of 4,096 records: what verify says of every key and every gap, where the
/// paths are short, and what path writes for some of them.
#[test]
fn every_key_of_large_registers() {
    let (mut cases, mut written) = (0, 0);
    for kind in KINDS {
        for (count, step) in [(1_000, 331), (4_096, 3_001)] {
            let set = set(kind, count);
            let register = table(&set);
            let root = Page::of_set(&set);
            let root = root.written();
            let each = match (kind, count) {
                // Paths with pages of hundreds of entries take long.
                (Kind::OnePage | Kind::Alternating | Kind::Chains, _) => count / 20,
                (Kind::Ordinary, _) | (_, 1_000) => 1,
                _ => 10,
            };
            let keys = keys_and_neighbours(&set);
            for (n, key) in keys.iter().enumerate() {
                if n % step == 0 {
                    let path = expect_path(&register, &set, &root, key);
                    let found = compare_call(&register, &Call::path(key), path.len());
                    assert_eq!(found, Ok(path.len()), "{kind:?}");
                    written += 1;
                } else if n % each == 0 {
                    let path = root.path(key).concat();
                    expect_presence(&path, key, &root.digest, set.get(key));
                }
                cases += 1;
            }
        }
    }
    // Keys that begin with one another have a neighbour in common, and those of 256 bytes have
    // none just after them.
    assert!(cases > 13 * (1_000 + 4_096), "{cases}");
    assert!(written >= 7 * (7 + 3), "{written}");
}

/// A key of a high layer in one page of many keys: below it a chain of pages without entries stands
/// on both sides, and each path goes through one of them.
#[test]
fn chains_of_pages_without_entries() {
    let mut cases = 0;
    for (count, keys) in [(10, &HIGH[..]), (1_000, &HIGH[..4])] {
        for high in keys.iter().map(|key| key.as_bytes()) {
            let mut set = one_page_below_high(count);
            set.insert(high.to_vec(), filled(0x77));
            let register = table(&set);
            let root = Page::of_set(&set);
            let root = root.written();
            let before = just_before(high).expect("a lesser key");
            let after = just_after(high).expect("a short key");
            for key in [high, &before, &after, &least_key(), &greatest_key()] {
                expect_path(&register, &set, &root, key);
                let is_side = |other: &[u8]| (other < high) == (key < high);
                // A side without keys has no pages.
                let side = set.keys().any(|other| other != high && is_side(other));
                let below = if key != high && side { layer(high) } else { 0 };
                assert_eq!(root.path(key).len(), 1 + usize::from(below), "{count}");
                cases += 1;
            }
        }
    }
    assert_eq!(cases, (17 + 4) * 5);
}

/// A register of one page is the path of every key, and its digest is the root digest.
#[test]
fn one_page() {
    let mut random = Random::new(131);
    let mut cases = 0;
    for count in [0, 1, 2, 10, 300] {
        let set = match count {
            0 => Set::new(),
            _ => set(Kind::OnePage, count),
        };
        let register = table(&set);
        assert_eq!(pages(&set).len(), 1);
        let root = digest(&register).expect("a short page");
        let mut keys = vec![b"a/b1".to_vec(), least_key(), greatest_key()];
        for key in set.keys().step_by(1 + count / 10) {
            keys.extend(keys_near(&mut random, key));
            keys.push(key.clone());
        }
        for key in keys.iter().filter(|key| lawful(key)) {
            let call = Call::path(key);
            expect_table(&register, &call, register.len() + 9, &register);
            expect_presence(&register, key, &root, set.get(key));
            cases += 1;
        }
    }
    assert!(cases > 200, "{cases}");
}

/// Dots at the edges of both parts of a key.
#[test]
fn dots_in_keys() {
    let mut random = Random::new(132);
    let keys = dotted_keys();
    let half = keys.iter().step_by(2).cloned();
    let set: Set = half.map(|key| (key, value(&mut random))).collect();
    let register = table(&set);
    let root = Page::of_set(&set);
    for key in &keys {
        expect_path(&register, &set, &root.written(), key);
    }
    assert!(keys.len() > set.len() && set.len() > 30);
}

/// With one record more or less only the pages on the way to it are others: paths for other keys
/// share those pages that both trees have.
#[test]
fn paths_before_and_after_a_change() {
    let mut others = set(Kind::Ordinary, 300);
    let (key, value) = others.pop_last().expect("a record");
    let mut with = others.clone();
    with.insert(key.clone(), value);
    let (before, after) = (Page::of_set(&others), Page::of_set(&with));
    let (before, after) = (before.written(), after.written());
    assert_ne!(before.digest, after.digest);
    expect_path(&table(&others), &others, &before, &key);
    expect_path(&table(&with), &with, &after, &key);
    let mut shared = 0;
    for other in others.keys() {
        let (one, two) = (before.path(other), after.path(other));
        expect_presence(&two.concat(), other, &after.digest, others.get(other));
        shared += usize::from(one.last() == two.last());
    }
    assert!(shared > 200, "{shared}");
}

// ---- what is refused

#[test]
fn unlawful_keys_are_refused() {
    let mut cases = 0;
    for register in [EMPTY.to_vec(), one_record(), table(&set(Kind::Mixed, 100))] {
        for key in unlawful_keys() {
            let call = Call::path(&key);
            assert_eq!(compare_call(&register, &call, register.len()), Err(7));
            // The key goes before the output.
            expect_refusal(&register, &call, 0, 7);
            cases += 1;
        }
    }
    assert_eq!(cases, 3 * unlawful_keys().len());
}

/// The key may be a part of the register, since both are only read.
#[test]
fn the_key_may_lie_in_the_register() {
    let register = one_record();
    let mut out = [0xaa; 70];
    for key in [&register[8..12], &register[8..11]] {
        assert_eq!(path(&register, key, &mut out), Ok(64));
        assert_eq!(out[..64], register);
        assert_eq!(out[64..], [0; 6]);
        out.fill(0xaa);
    }
    let refused = path(&register, &register, &mut out);
    assert_eq!(refused, Err(Refusal::UnlawfulKey));
    assert_eq!(out, [0; 70]);
}
