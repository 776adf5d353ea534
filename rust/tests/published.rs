//! The trees that are published with the format, reached by the writing calls: their roots have
//! the published digests.

use crate::common::forge::EMPTY;
use crate::common::sets::{part, published_trees, set, Kind};
use crate::common::writes::{compare_lengths, written, Call};
use crate::common::{hexadecimal, Random};
use independent::{pages, table, Set};
use mijdegen::digest;

/// Expects the register to be the set's, and its root to have the published digest.
fn expect_root(register: &[u8], set: &Set, root: &str) {
    assert!(*register == table(set));
    let length = pages(set)[0].len();
    let found = digest(&register[..length]).expect("a page is short");
    assert_eq!(hexadecimal(&found), root);
}

/// Gives all orders of the items.
fn orders<T: Clone>(items: &[T]) -> Vec<Vec<T>> {
    if items.is_empty() {
        return vec![vec![]];
    }
    let mut all = Vec::new();
    for n in 0..items.len() {
        let mut others = items.to_vec();
        let first = others.remove(n);
        for mut order in orders(&others) {
            order.insert(0, first.clone());
            all.push(order);
        }
    }
    all
}

/// The records in all orders, by puts and by joins.
#[test]
fn by_puts_and_joins() {
    let mut cases = 0;
    for (set, root) in published_trees() {
        let records: Vec<_> = set.iter().collect();
        for order in orders(&records) {
            for call in [Call::put, Call::join] {
                let mut register = EMPTY.to_vec();
                for (key, value) in &order {
                    let found = compare_lengths(&register, &call(key, value));
                    register = found.expect("there is room");
                }
                expect_root(&register, &set, root);
                cases += 1;
            }
        }
    }
    // 0, 1 and 5 records have 1, 1 and 120 orders.
    assert_eq!(cases, (1 + 1 + 120) * 2);
}

/// All pairs of parts that have each record at least once.
#[test]
fn by_merges() {
    let mut cases = 0;
    for (set, root) in published_trees() {
        let parts = 3_usize.pow(set.len() as u32);
        for number in 0..parts {
            // Each record stands in the first part, in the second, or in both.
            let digit = |n: usize| number / 3_usize.pow(n as u32) % 3;
            let first = table(&part(&set, |n| digit(n) != 1));
            let second = table(&part(&set, |n| digit(n) != 0));
            let found = compare_lengths(&first, &Call::merge(&second));
            expect_root(&found.expect("there is room"), &set, root);
            cases += 1;
        }
    }
    assert_eq!(cases, 1 + 3 + 243);
}

/// From larger sets, by removals in random orders.
#[test]
fn by_removes() {
    let mut random = Random::new(81);
    let mut cases = 0;
    for (set_of_tree, root) in published_trees() {
        for kind in [Kind::Ordinary, Kind::Chains, Kind::Mixed] {
            for count in [1, 2, 5, 20] {
                let more = set(kind, count);
                let mut larger = set_of_tree.clone();
                larger.extend(more.clone());
                let mut register = table(&larger);
                let mut keys: Vec<_> = more.into_keys().collect();
                random.shuffle(&mut keys);
                for key in keys {
                    let found = compare_lengths(&register, &Call::remove(&key));
                    register = found.expect("the key is present");
                }
                expect_root(&register, &set_of_tree, root);
                cases += 1;
            }
        }
    }
    assert_eq!(cases, 3 * 3 * 4);
}

/// By lists of puts, removals and merges that go astray on the way.
#[test]
fn by_mixed_lists() {
    let mut random = Random::new(82);
    let mut cases = 0;
    for (set_of_tree, root) in published_trees() {
        for _ in 0..20 {
            let more: Set = part(&set(Kind::Ordinary, 40), |n| n % 4 == 1);
            let mut register = written(&EMPTY, &Call::merge(&table(&more)));
            let mut calls = Vec::new();
            for key in more.keys() {
                calls.push(Call::remove(key));
            }
            for (n, (key, value)) in set_of_tree.iter().enumerate() {
                let alone = Set::from([(key.clone(), *value)]);
                calls.push(match n % 3 {
                    0 => Call::put(key, value),
                    1 => Call::join(key, value),
                    _ => Call::merge(&table(&alone)),
                });
            }
            random.shuffle(&mut calls);
            for call in &calls {
                register = written(&register, call);
            }
            expect_root(&register, &set_of_tree, root);
            cases += 1;
        }
    }
    assert_eq!(cases, 3 * 20);
}
