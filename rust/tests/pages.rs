//! Pages that are parted and joined by the writing calls.

use crate::common::sets::{
    long_keys_in_turn, of_layer, one_page_below_high, ordinary_of_layer, part, rows_of_few_layers,
    set, set_of_layers, Kind, HIGH, KINDS,
};
use crate::common::values::filled;
use crate::common::writes::{compare_lengths, expect_table, written, Call};
use crate::common::Random;
use independent::{layer, pages, table, Set, Value};

const VALUE: Value = Value::raw([0x77; 32]);

/// Gives the highest layer of a set with records.
fn highest(set: &Set) -> u8 {
    let layers = set.keys().map(|key| layer(key));
    layers.max().expect("there are records")
}

/// Each record of each row of few layers comes to the others and goes away again.
#[test]
fn each_record_of_all_rows_of_few_layers() {
    let mut cases = 0;
    for row in rows_of_few_layers() {
        let set = set_of_layers(&row);
        let whole = table(&set);
        for (n, (key, value)) in set.iter().enumerate() {
            let others = table(&part(&set, |other| other != n));
            expect_table(&others, &Call::put(key, value), whole.len(), &whole);
            expect_table(&others, &Call::join(key, value), whole.len(), &whole);
            expect_table(&whole, &Call::remove(key), others.len(), &others);
            cases += 3;
        }
    }
    let records = 3 + 9 * 2 + 27 * 3 + 81 * 4 + 243 * 5 + 25 * 2 + 125 * 3;
    assert_eq!(cases, 3 * records);
}

/// A key of a high layer comes into one page of many keys of layer 0: the page is parted in two,
/// with chains of pages without entries above both. When it goes away they are one page again.
#[test]
fn a_high_key_in_one_page() {
    let mut cases = 0;
    for (count, keys) in [(10, &HIGH[..]), (1_000, &HIGH), (4_095, &HIGH[..3])] {
        let low = one_page_below_high(count);
        let one_page = table(&low);
        assert_eq!((low.len(), pages(&low).len()), (count, 1));
        for key in keys {
            let key = key.as_bytes();
            let mut with = low.clone();
            with.insert(key.to_vec(), VALUE);
            // Two parts at most, each below a chain from the key's layer down.
            assert!(pages(&with).len() <= 1 + 2 * usize::from(layer(key)));
            let parted = table(&with);
            expect_table(&one_page, &Call::put(key, &VALUE), parted.len(), &parted);
            expect_table(&parted, &Call::remove(key), one_page.len(), &one_page);
            cases += 2;
        }
    }
    assert_eq!(cases, (17 + 17 + 3) * 2);
}

/// Ordinary keys of layers 1 to 5, at any place of one page of layer 0, and before and behind it.
#[test]
fn keys_of_each_layer_in_one_page() {
    let mut random = Random::new(111);
    let low = set(Kind::OnePage, 500);
    let one_page = table(&low);
    let mut cases = 0;
    for wanted in 1..=5 {
        for _ in 0..8 {
            let key = ordinary_of_layer(&mut random, wanted);
            let mut with = low.clone();
            with.insert(key.clone(), VALUE);
            let parted = table(&with);
            expect_table(&one_page, &Call::put(&key, &VALUE), parted.len(), &parted);
            expect_table(&parted, &Call::remove(&key), one_page.len(), &one_page);
            cases += 2;
        }
        // Another page without entries stands on each layer between.
        for first in [b'-', b'~'] {
            let key = (0..)
                .map(|number| format!("{}/{number}", first as char).into_bytes())
                .find(|key| layer(key) == wanted)
                .expect("there is always a further key");
            let mut with = low.clone();
            with.insert(key.clone(), VALUE);
            let found = compare_lengths(&one_page, &Call::put(&key, &VALUE));
            assert!(found == Ok(table(&with)));
            assert_eq!(pages(&with).len(), 1 + usize::from(wanted));
            cases += 1;
        }
    }
    assert_eq!(cases, 5 * (8 * 2 + 2));
}

/// Registers that hold one layer of a set each, so that all but the lowest part the pages of the
/// others: merged in any order they are the register of the set.
#[test]
fn layers_merged_in_any_order() {
    let mut random = Random::new(112);
    let mut cases = 0;
    for kind in KINDS {
        for count in [40, 1_000] {
            let set = set(kind, count);
            let whole = table(&set);
            let mut layers: Vec<Vec<u8>> = (0..=highest(&set))
                .map(|wanted| of_layer(&set, wanted))
                .filter(|part| !part.is_empty())
                .inspect(|part| assert_eq!(pages(part).len(), 1))
                .map(|part| table(&part))
                .collect();
            // From the lowest layer up, from the highest down, and in a random order.
            for order in 0..3 {
                match order {
                    0 => {}
                    1 => layers.reverse(),
                    _ => random.shuffle(&mut layers),
                }
                let merged = layers[1..].iter().fold(layers[0].clone(), |held, more| {
                    written(&held, &Call::merge(more))
                });
                assert!(merged == whole, "{kind:?} {count}, order {order}");
                cases += 1;
            }
        }
    }
    assert_eq!(cases, KINDS.len() * 2 * 3);
}

/// One page of 2,048 keys of layer 0 is parted by 2,048 keys of layer 1 between them.
#[test]
fn one_page_parted_by_many_keys() {
    let set = set(Kind::Alternating, 4_096);
    let whole = table(&set);
    let (low, high) = (of_layer(&set, 0), of_layer(&set, 1));
    assert_eq!((low.len(), high.len()), (2_048, 2_048));
    assert_eq!((pages(&low).len(), pages(&high).len()), (1, 1));
    assert_eq!(pages(&set).len(), 2_049);
    let (low, high) = (table(&low), table(&high));
    for (first, second) in [(&low, &high), (&high, &low)] {
        let found = compare_lengths(first, &Call::merge(second));
        assert!(found.as_ref() == Ok(&whole));
    }
}

/// Keys that part a page go away one after the other: from the first on, from the last on, and in
/// a random order.
#[test]
fn pages_joined_one_after_the_other() {
    let mut random = Random::new(113);
    let all = set(Kind::Alternating, 120);
    let one_page = of_layer(&all, 0);
    let mut keys: Vec<_> = of_layer(&all, 1).into_keys().collect();
    let mut cases = 0;
    for order in 0..3 {
        match order {
            0 => {}
            1 => keys.reverse(),
            _ => random.shuffle(&mut keys),
        }
        let mut left = all.clone();
        let mut register = table(&all);
        for key in &keys {
            left.remove(key);
            let expected = table(&left);
            let call = Call::remove(key);
            expect_table(&register, &call, expected.len(), &expected);
            register = expected;
            cases += 1;
        }
        assert!(register == table(&one_page));
    }
    assert_eq!(cases, 3 * 60);
}

/// Keys of 256 bytes that share 240 and more, with several layers in turn. A key that moves to
/// another page is written there with another prefix, or whole.
#[test]
fn long_keys_with_long_prefixes() {
    let mut random = Random::new(114);
    let mut cases = 0;
    for layers in [
        &[0][..],
        &[1, 0],
        &[0, 0, 1],
        &[0, 1, 2, 0],
        &[2, 0, 0, 1, 0],
        &[3, 0],
    ] {
        let set = long_keys_in_turn(layers, 300);
        let whole = table(&set);
        // Single records come and go.
        for _ in 0..10 {
            let n = random.below(300);
            let (key, value) = set.iter().nth(n).expect("there are 300");
            let others = table(&part(&set, |other| other != n));
            expect_table(&others, &Call::put(key, value), whole.len(), &whole);
            expect_table(&whole, &Call::remove(key), others.len(), &others);
            cases += 2;
        }
        // Halves, every second and every third record, and all of one layer.
        let highest = highest(&set);
        let parts = [
            (part(&set, |n| n < 150), part(&set, |n| n >= 150)),
            (part(&set, |n| n % 2 == 0), part(&set, |n| n % 2 == 1)),
            (part(&set, |n| n % 3 != 0), part(&set, |n| n % 3 == 0)),
            (
                of_layer(&set, highest),
                part(&set, |n| layers[n % layers.len()] != highest),
            ),
        ];
        for (one, other) in &parts {
            for (first, second) in [(one, other), (other, one)] {
                let call = Call::merge(&table(second));
                let found = compare_lengths(&table(first), &call);
                assert!(found.as_ref() == Ok(&whole), "{layers:?}");
                cases += 1;
            }
        }
    }
    assert_eq!(cases, 6 * (10 * 2 + 4 * 2));
}

/// The same at 4,096 records: 2,048 keys of one page are written whole in pages of their own.
#[test]
fn many_long_keys_parted_at_once() {
    let set = long_keys_in_turn(&[1, 0], 4_096);
    let whole = table(&set);
    let (low, high) = (table(&of_layer(&set, 0)), table(&of_layer(&set, 1)));
    // The result is much longer than both registers together.
    assert!(whole.len() > 2 * (low.len() + high.len()));
    for (first, second) in [(&low, &high), (&high, &low)] {
        expect_table(first, &Call::merge(second), whole.len(), &whole);
    }
}

/// Keys that begin with one another, over several pages: each is the one before and a byte more.
#[test]
fn keys_that_begin_with_one_another() {
    let mut random = Random::new(115);
    let set: Set = (3..=256)
        .map(|length| {
            let mut key = vec![b'k'; length];
            key[1] = b'/';
            (key, filled(length as u8))
        })
        .collect();
    assert!(pages(&set).len() > 30);
    let whole = table(&set);
    let mut cases = 0;
    for _ in 0..20 {
        let which: Vec<bool> = (0..254).map(|_| random.below(2) == 0).collect();
        let first = table(&part(&set, |n| which[n]));
        let second = table(&part(&set, |n| !which[n]));
        expect_table(&first, &Call::merge(&second), whole.len(), &whole);
        cases += 1;
    }
    for (n, key) in set.keys().enumerate() {
        let others = table(&part(&set, |other| other != n));
        expect_table(&others, &Call::put(key, &set[key]), whole.len(), &whole);
        expect_table(&whole, &Call::remove(key), others.len(), &others);
        cases += 2;
    }
    assert_eq!(cases, 20 + 2 * 254);
}
