//! The names `.` and `..`: a key that has one of them breaks the key rule, as an argument and in a
//! register. Dots anywhere else do not.

use crate::common::calls::{compare_lookup, compare_slash, number_of};
use crate::common::forge::{link_to, Page, EMPTY};
use crate::common::neighbours::{expect_record, NEIGHBOURS};
use crate::common::paths::expect_verdict;
use crate::common::sets::{dot_name_keys, dotted_keys, set, value, Kind, KINDS};
use crate::common::writes::{expect_refusal, written, Call};
use crate::common::Random;
use independent::{lawful, layer, sha256, table, Set, Value};

const VALUE: Value = Value::raw([0x11; 32]);

/// The register of one record with this key, whatever the key is.
fn register_of(key: &[u8]) -> Vec<u8> {
    table(&Set::from([(key.to_vec(), VALUE)]))
}

/// Every name of one and two bytes that may stand beside the slash, as an argument and as the only
/// key of a register, and the same bytes as a collection.
#[test]
fn every_short_name() {
    let plain: Vec<u8> = (0..=255)
        .filter(|byte| lawful(&[*byte, b'/', b'b']))
        .collect();
    assert_eq!(plain.len(), 67);
    let mut parts: Vec<Vec<u8>> = plain.iter().map(|byte| vec![*byte]).collect();
    for first in &plain {
        parts.extend(plain.iter().map(|second| vec![*first, *second]));
    }
    let mut unlawful = Vec::new();
    for part in &parts {
        let named = [b"a/", part.as_slice()].concat();
        let number = number_of(&register_of(&named));
        let absent = compare_lookup(&EMPTY, &named);
        assert_eq!(absent, Err(if number == 0 { 12 } else { 7 }), "{named:?}");
        if number != 0 {
            assert_eq!(number, 7, "{named:?}");
            unlawful.push(named);
        }
        let collected = [part.as_slice(), b"/a"].concat();
        assert_eq!(number_of(&register_of(&collected)), 0, "{collected:?}");
    }
    assert_eq!(parts.len(), 67 + 67 * 67);
    assert_eq!(unlawful, [&b"a/."[..], b"a/.."]);
}

/// Each call that takes a key refuses a dot name with 7, whether or not the register has records
/// on both sides of it.
#[test]
fn as_arguments() {
    let registers = [EMPTY.to_vec(), table(&set(Kind::Mixed, 100))];
    let mut cases = 0;
    for register in registers {
        for key in dot_name_keys() {
            assert_eq!(compare_slash(&key), Err(7), "{key:?}");
            assert_eq!(compare_lookup(&register, &key), Err(7), "{key:?}");
            for call in NEIGHBOURS {
                expect_record(&register, call, &key, 300, Err(7));
            }
            for call in [
                Call::run(&key, b"~/~"),
                Call::run(b"-/-", &key),
                Call::put(&key, &VALUE),
                Call::join(&key, &VALUE),
                Call::remove(&key),
                Call::screen(&key, 0),
                Call::path(&key),
            ] {
                expect_refusal(&register, &call, register.len() + 500, 7);
            }
            expect_verdict(&register, &key, &sha256(&register), Err(7));
            cases += 1;
        }
    }
    assert_eq!(cases, 2 * dot_name_keys().len());
}

/// A register with one dot name among lawful keys is refused with 7, wherever the tree has its
/// record. Its pages are those that all other rules give, so that nothing else is due.
#[test]
fn in_registers() {
    let (mut cases, mut layers) = (0, [0; 4]);
    for kind in KINDS {
        for count in [0, 1, 10, 100] {
            let set = set(kind, count);
            assert_eq!(number_of(&table(&set)), 0, "{kind:?} {count}");
            for key in dot_name_keys() {
                let mut with = set.clone();
                with.insert(key.clone(), VALUE);
                let register = table(&with);
                assert!(Page::of_set(&with).table() == register, "{key:?}");
                assert_eq!(number_of(&register), 7, "{kind:?} {count} {key:?}");
                layers[usize::from(layer(&key)).min(3)] += 1;
                cases += 1;
            }
        }
    }
    assert_eq!(cases, KINDS.len() * 4 * dot_name_keys().len());
    assert!(layers[0] > 0 && layers[1..].iter().any(|count| *count > 0));
}

/// A dot name in 4,096 records, and one record more.
#[test]
fn in_the_largest_registers() {
    for key in [b"a/.".to_vec(), b"a/..".to_vec()] {
        let mut full = set(Kind::Ordinary, 4_095);
        full.insert(key, VALUE);
        assert_eq!(number_of(&table(&full)), 7);
        full.insert(b"a/b1".to_vec(), VALUE);
        assert_eq!(number_of(&table(&full)), 5);
    }
}

/// A dot name and another fault: 1 to 6 go before it, 8 to 10 come after it.
#[test]
fn with_another_fault() {
    let mut cases = 0;
    for key in dot_name_keys() {
        let one = Page::of_keys(&[&key]);
        let table = one.table();
        // 2, 3 and 4: the bytes are cut, changed at the end, or followed by another.
        assert_eq!(number_of(&table[..table.len() - 1]), 2);
        assert_eq!(number_of(&[&table[..table.len() - 1], &[0xf7]].concat()), 3);
        assert_eq!(number_of(&[&table[..], &[0xf6]].concat()), 4);
        // 6: the prefix of the same entry, and of an entry in a page below it.
        let mut wrong_prefix = one.clone();
        wrong_prefix.entries[0].prefix = 1;
        assert_eq!(number_of(&wrong_prefix.table()), 6);
        let mut below = Page::of_keys(&[b"~/b1"]);
        below.entries[0].prefix = 1;
        let mut above = one.clone();
        above.entries[0].after = link_to(below);
        assert_eq!(number_of(&above.table()), 6);
        // 8: keys that fall before it, behind it and at it, and the key twice.
        for keys in [
            [&key[..], b"~/b2", b"~/b1"],
            [b"-/b2", b"-/b1", &key],
            [b"~/b1", &key, b"~/b2"],
            [b"-/b1", &key, &key],
        ] {
            assert_eq!(number_of(&Page::of_keys(&keys).table()), 7, "{keys:?}");
        }
        // 9: a root without entries, and a link of a gap without keys.
        assert_eq!(number_of(&Page::above(one.clone()).table()), 7);
        let mut empty_gap = one.clone();
        empty_gap.entries[0].after = link_to(Page::default());
        assert_eq!(number_of(&empty_gap.table()), 7);
        // 10: the digest in the link to its page, and in one of its own page.
        let mut page = Page::of_keys(&[b"~/b1"]);
        page.left = link_to(one.clone());
        page.left.as_mut().expect("a link").flip[0] = 1;
        assert_eq!(number_of(&page.table()), 7);
        let mut page = one.clone();
        page.left = link_to(Page::of_keys(&[b"-/b1"]));
        page.left.as_mut().expect("a link").flip[31] = 0x80;
        assert_eq!(number_of(&page.table()), 7);
        cases += 1;
    }
    assert_eq!(cases, dot_name_keys().len());
}

/// Lawful keys with dots at their edges, put one after the other in any order and removed again:
/// each register is that of its set.
#[test]
fn dots_elsewhere() {
    let mut random = Random::new(81);
    let keys = dotted_keys();
    assert_eq!(keys.len(), 9 * 7);
    assert!(keys.windows(2).all(|pair| pair[0] < pair[1]));
    let mut shuffled = keys.clone();
    random.shuffle(&mut shuffled);
    let (mut register, mut set) = (EMPTY.to_vec(), Set::new());
    for key in &shuffled {
        let value = value(&mut random);
        register = written(&register, &Call::put(key, &value));
        set.insert(key.clone(), value);
        assert!(register == table(&set), "{key:?}");
        assert_eq!(number_of(&register), 0, "{key:?}");
        compare_lookup(&register, key).expect("the key is present");
    }
    assert!(set.keys().eq(&keys));
    for key in &keys {
        register = written(&register, &Call::remove(key));
        set.remove(key);
        assert!(register == table(&set), "{key:?}");
    }
    assert_eq!(register, EMPTY);
}
