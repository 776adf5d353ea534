//! `difference` against the independent crate, against the sets and the pages' bytes themselves,
//! and together with `merge`.

use crate::common::calls::count_of;
use crate::common::forge::EMPTY;
use crate::common::lists::Source;
use crate::common::sets::{
    of_layer, one_page_below_high, part, parts, rows_of_few_layers, set, set_of_layers, sets_to,
    value, Kind, COUNTS, HIGH, KINDS,
};
use crate::common::values::{filled, other_codec, GREATEST, LEAST};
use crate::common::writes::{
    compare_call, compare_lengths, expect_refusal, expect_table, expect_table_and, value_of_two,
    written, Call,
};
use crate::common::Random;
use independent::{layer, pages, table, tree, tree_of, Set, Value, LONGEST};
use mijdegen::{difference, Difference};
use std::collections::HashSet;
use std::slice::Iter;

/// Counts the opened pages of the second set by the bytes of the pages, without any digest.
fn opened_pages(first: &Set, second: &Set) -> usize {
    fn visit(
        page: &tree::Page<(&[u8], &Value)>,
        bytes: &mut Iter<Vec<u8>>,
        known: &HashSet<Vec<u8>>,
        known_above: bool,
    ) -> usize {
        let own = bytes.next().expect("as many pages as the tree has");
        let known_here = known_above || known.contains(own);
        let after = page.entries.iter().map(|(_, gap)| gap);
        let below = [&page.left].into_iter().chain(after).flatten();
        let below = below.map(|page| visit(page, bytes, known, known_here));
        usize::from(!known_here) + below.sum::<usize>()
    }
    let known = pages(first).into_iter().collect();
    visit(&tree_of(second), &mut pages(second).iter(), &known, false)
}

/// Gives the records of the second set that the first does not hold, key and value.
fn lacking(first: &Set, second: &Set) -> Set {
    let mut lacking = second.clone();
    lacking.retain(|key, value| first.get(key) != Some(value));
    lacking
}

/// Expects what the sets say, in an output that is just long enough. Gives the difference and the
/// number of opened pages.
fn expect_difference(first: &Set, second: &Set) -> (Vec<u8>, usize) {
    let expected = table(&lacking(first, second));
    let opened = opened_pages(first, second);
    let call = Call::difference(&table(second));
    expect_table_and(&table(first), &call, expected.len(), &expected, opened);
    (expected, opened)
}

/// Compares the difference of the two with the independent crate and with the sets, for outputs of
/// several lengths, and merges it. Gives the number of opened pages.
fn compare(first: &Set, second: &Set) -> usize {
    let (expected, opened) = expect_difference(first, second);
    let (one, other) = (table(first), table(second));
    let found = compare_lengths(&one, &Call::difference(&other));
    assert!(found.as_ref() == Ok(&expected));
    assert_eq!(
        compare_call(&one, &Call::difference(&other), expected.len() + 1),
        Ok(value_of_two(expected.len(), opened))
    );
    // The difference does for a merge what the whole register does.
    assert!(written(&one, &Call::merge(&expected)) == written(&one, &Call::merge(&other)));
    opened
}

/// Equal registers have no opened page.
#[test]
fn equal_registers() {
    let mut cases = 0;
    for (kind, set) in sets_to(4_096) {
        let register = table(&set);
        let call = Call::difference(&register);
        for length in [7, 8, register.len() + 1] {
            expect_table(&register, &call, length, &EMPTY);
        }
        for length in [0, 6] {
            expect_refusal(&register, &call, length, 13);
        }
        // The very same bytes are lent twice.
        let mut out = [0xaa; 9];
        let found = difference(&register, &register, &mut out);
        let none = Difference {
            length: 7,
            opened: 0,
        };
        assert_eq!(found, Ok(none), "{kind:?}");
        assert_eq!(out[..7], EMPTY);
        assert_eq!(out[7..], [0; 2]);
        cases += 6;
    }
    assert_eq!(cases, KINDS.len() * COUNTS.len() * 6);
}

/// One of the two is empty. The only page of the empty register is known to itself alone.
#[test]
fn one_is_empty() {
    let empty = Set::new();
    let mut cases = 0;
    for (kind, set) in sets_to(4_096) {
        let (found, opened) = expect_difference(&empty, &set);
        assert!(found == table(&set), "{kind:?}");
        let all = if set.is_empty() { 0 } else { pages(&set).len() };
        assert_eq!(opened, all, "{kind:?}");

        let (found, opened) = expect_difference(&set, &empty);
        assert_eq!(found, EMPTY);
        assert_eq!(opened, usize::from(!set.is_empty()), "{kind:?}");
        cases += 2;
        if set.len() <= 100 {
            compare(&empty, &set);
            compare(&set, &empty);
            cases += 2;
        }
    }
    assert_eq!(cases, KINDS.len() * (COUNTS.len() * 2 + 6 * 2));
}

/// One record is taken away, added, or given another value.
#[test]
fn one_record_apart() {
    let mut cases = 0;
    for (kind, set) in sets_to(100) {
        let count = set.len();
        let places: HashSet<usize> = match count {
            0..=10 => (0..count).collect(),
            _ => [0, count / 3, count - 1].into(),
        };
        for n in places {
            let others = part(&set, |other| other != n);
            let mut greater = set.clone();
            *greater.values_mut().nth(n).expect("a record") = GREATEST;
            let mut lesser = set.clone();
            *lesser.values_mut().nth(n).expect("a record") = LEAST;
            for changed in [&others, &greater, &lesser] {
                for (first, second) in [(&set, changed), (changed, &set)] {
                    assert!(compare(first, second) <= pages(second).len(), "{kind:?}");
                    cases += 1;
                }
            }
        }
    }
    // 16 places in the sets of at most 10 records, and 3 in those of 100.
    assert_eq!(cases, KINDS.len() * (16 + 3) * 3 * 2);
}

/// With one record apart only the pages from the root down to it are opened.
#[test]
fn few_pages_are_opened() {
    let mut cases = 0;
    for kind in [Kind::Ordinary, Kind::Mixed, Kind::Alternating] {
        let set = set(kind, 4_096);
        let highest = set.keys().map(|key| layer(key)).max().expect("records");
        for n in [0, 1_000, 4_095] {
            let mut changed = set.clone();
            *changed.values_mut().nth(n).expect("a record") = GREATEST;
            let (found, opened) = expect_difference(&set, &changed);
            assert_eq!(count_of(&found), Ok(1));
            let key = changed.keys().nth(n).expect("a record");
            assert_eq!(opened, 1 + usize::from(highest - layer(key)), "{kind:?}");
            cases += 1;
        }
    }
    assert_eq!(cases, 3 * 3);
}

/// Registers without a record in common, of one kind and of two: all pages are opened.
#[test]
fn nothing_in_common() {
    let mut cases = 0;
    for kind in KINDS {
        for count in [2, 3, 10, 100, 300] {
            let set = set(kind, count);
            let odd = part(&set, |n| n % 2 == 1);
            let even = part(&set, |n| n % 2 == 0);
            let (before, behind) = (
                part(&set, |n| n < count / 2),
                part(&set, |n| n >= count / 2),
            );
            for (first, second) in [(odd, even), (before, behind)] {
                assert_eq!(compare(&first, &second), pages(&second).len());
                assert_eq!(compare(&second, &first), pages(&first).len());
                cases += 2;
            }
        }
    }
    assert_eq!(cases, KINDS.len() * 5 * 2 * 2);
}

/// The same keys with other values: the second's values are given, the lesser ones too.
#[test]
fn other_values() {
    let mut random = Random::new(81);
    let mut cases = 0;
    for (kind, first) in sets_to(100) {
        // All values are others, or each third one.
        for step in [1, 3] {
            let mut second = first.clone();
            for kept in second.values_mut().step_by(step) {
                *kept = value(&mut random);
            }
            compare(&first, &second);
            compare(&second, &first);
            let (found, _) = expect_difference(&first, &second);
            let apart = first.len().div_ceil(step);
            assert_eq!(count_of(&found), Ok(apart), "{kind:?}");
            cases += 3;
        }
    }
    assert_eq!(cases, KINDS.len() * 6 * 2 * 3);
}

/// Values that differ in one bit alone are two.
#[test]
fn values_one_bit_apart() {
    let set = set_of_layers(&[0, 1, 0]);
    let mut cases = 0;
    for n in 0..3 {
        for bit in 0..256 {
            let mut changed = set.clone();
            let kept = changed.values_mut().nth(n).expect("3 records");
            kept.digest[bit / 8] ^= 1 << (bit % 8);
            let (found, _) = expect_difference(&set, &changed);
            assert_eq!(count_of(&found), Ok(1));
            cases += 1;
        }
    }
    assert_eq!(cases, 3 * 256);
}

/// Sets of all kinds with sets of all kinds.
#[test]
fn all_pairs_of_kinds() {
    let sets = sets_to(10);
    let mut cases = 0;
    for (_, first) in &sets {
        for (_, second) in &sets {
            compare(first, second);
            cases += 1;
        }
    }
    assert_eq!(cases, (KINDS.len() * 5) * (KINDS.len() * 5));
}

/// All pairs of parts of all rows of few layers; of the longest rows, the whole and each part.
#[test]
fn all_parts_of_all_rows_of_few_layers() {
    let mut cases = 0;
    for row in rows_of_few_layers() {
        let parts = parts(&set_of_layers(&row));
        for first in &parts {
            for second in &parts {
                if row.len() < 5 || first.len() == 5 || second.len() == 5 {
                    expect_difference(first, second);
                    cases += 1;
                }
            }
        }
    }
    // A row of n layers has 2 to the n parts.
    assert_eq!(
        cases,
        3 * 4 + 9 * 16 + 27 * 64 + 81 * 256 + 243 * 63 + 25 * 16 + 125 * 64
    );
}

/// A page is known wherever it stands in the first register.
#[test]
fn pages_known_in_other_places() {
    // The second's root is a page below in the first: at the left, between two entries, last, and
    // below pages without entries.
    let mut cases = 0;
    for (row, top) in [
        (&[0, 0, 1][..], 1),
        (&[1, 0, 0, 1], 1),
        (&[1, 0, 0], 1),
        (&[0, 0, 3], 3),
        (&[3, 0, 0, 3], 3),
        (&[0, 1, 0, 4], 4),
    ] {
        let first = set_of_layers(row);
        let high = of_layer(&first, top);
        let second = lacking(&high, &first);
        assert_eq!(compare(&first, &second), 0, "{row:?}");
        // The other way round: the first's root is a page below in the second, and only the pages
        // above it are opened.
        let below = layer(second.keys().max_by_key(|key| layer(key)).expect("a key"));
        assert_eq!(
            compare(&second, &first),
            usize::from(top - below),
            "{row:?}"
        );
        assert_eq!(expect_difference(&second, &first).0, table(&high));
        cases += 2;
    }
    assert_eq!(cases, 6 * 2);

    // One page stands under other parents, one layer and more above it, and at other sides.
    let set = set_of_layers(&[2, 1, 0, 0, 1, 2, 3]);
    let low = of_layer(&set, 0);
    let mut cases = 0;
    let parts = parts(&lacking(&low, &set));
    for one in 0..parts.len() {
        for other in 0..parts.len() {
            let [first, second] = [one, other].map(|which| {
                let mut made = parts[which].clone();
                made.extend(low.clone());
                made
            });
            // The page of the lowest records stays whole, so it is never opened.
            let opened = compare(&first, &second);
            assert!(opened < pages(&second).len(), "{one} {other}");
            cases += 1;
        }
    }
    assert_eq!(cases, 32 * 32);
}

/// Known pages that have no entries themselves.
#[test]
fn known_pages_without_entries() {
    // Between the layers 0 and 5 lie four pages without entries.
    let set = set_of_layers(&[0, 0, 5, 0, 5, 4]);
    let mut cases = 0;
    for one in 0..1_usize << 6 {
        for other in 0..1_usize << 6 {
            let first = part(&set, |n| one >> n & 1 == 1);
            let second = part(&set, |n| other >> n & 1 == 1);
            expect_difference(&first, &second);
            cases += 1;
        }
    }
    assert_eq!(cases, 64 * 64);
    // Another record in the root: the chain at the left is known from its first page on.
    let one = part(&set, |n| n < 3);
    let other = part(&set, |n| n < 2 || n == 4);
    assert_eq!(pages(&other).len(), 6);
    assert_eq!(compare(&one, &other), 1);
}

/// Keys of layers 8 to 16 with keys of layer 0 between them: most pages have no entries.
#[test]
fn many_pages_without_entries() {
    let mut cases = 0;
    for count in [100, 300] {
        let set = set(Kind::Chains, count);
        let low = of_layer(&set, 0);
        // Each key of a high layer alone is taken away, and all of them are.
        for key in HIGH {
            let mut without = set.clone();
            without.remove(key.as_bytes()).expect("a key of the set");
            compare(&set, &without);
            compare(&without, &set);
            cases += 2;
        }
        compare(&set, &low);
        compare(&low, &set);
        // One record of layer 0 in each chain is another.
        let thin = part(&set, |n| n % 7 != 3);
        compare(&set, &thin);
        compare(&thin, &set);
        cases += 4;
    }
    assert_eq!(cases, 2 * (HIGH.len() * 2 + 4));

    // One page of 4,095 records, and the highest key that is known above a part of it.
    let low = one_page_below_high(4_095);
    let mut high = low.clone();
    high.insert(HIGH[0].as_bytes().to_vec(), filled(0x77));
    let (found, opened) = expect_difference(&low, &high);
    assert_eq!(count_of(&found), Ok(1));
    // Two chains of 16 pages below the root, of which no page is the one page.
    assert_eq!(opened, 1 + 2 * 16);
    let (found, opened) = expect_difference(&high, &low);
    assert_eq!((&found[..], opened), (&EMPTY[..], 1));
}

/// As many pages as known keys give in short time: 2,048 entries, each with 5 pages below it, of
/// which 4 have no entries.
#[test]
fn ten_thousand_pages() {
    let set = set_of_layers(&[5, 0].repeat(2_048));
    assert_eq!(set.len(), 4_096);
    assert_eq!(pages(&set).len(), 1 + 5 * 2_048);
    let (found, opened) = expect_difference(&Set::new(), &set);
    assert!(found == table(&set));
    assert_eq!(opened, 10_241);

    // One record in the root and one at the lowest layer have another value.
    let mut cases = 0;
    for (n, expected) in [(2_000, 1), (2_001, 6), (4_095, 6)] {
        let mut changed = set.clone();
        *changed.values_mut().nth(n).expect("a record") = GREATEST;
        let (found, opened) = expect_difference(&set, &changed);
        assert_eq!((count_of(&found), opened), (Ok(1), expected));
        cases += 1;
    }
    assert_eq!(cases, 3);

    // All records of the root have another value, or all the others have.
    let mut root = set.clone();
    let highest = root.values_mut().step_by(2);
    highest.for_each(|kept| kept.digest[0] ^= 1);
    assert_eq!(expect_difference(&set, &root).1, 1);
    let mut others = set.clone();
    let lowest = others.values_mut().skip(1).step_by(2);
    lowest.for_each(|kept| *kept = other_codec(kept));
    assert_eq!(expect_difference(&set, &others).1, 10_241);

    // The records of layer 0 alone are one page, which the first does not have.
    let low = of_layer(&set, 0);
    assert_eq!(expect_difference(&set, &low), (EMPTY.to_vec(), 1));
    assert_eq!(expect_difference(&low, &set).1, 10_241);
    // Every second entry with its chain: all chains are known, and no root is.
    let half = part(&set, |n| n / 2 % 2 == 0);
    assert_eq!(expect_difference(&set, &half), (EMPTY.to_vec(), 1));
    assert_eq!(expect_difference(&half, &set).1, 1 + 5 * 1_024);
}

/// Full registers that differ in few and in many records.
#[test]
fn full_registers() {
    let mut random = Random::new(82);
    let mut cases = 0;
    for kind in KINDS {
        let first = set(kind, 4_096);
        for step in [3, 400] {
            // Some records are lacking and some have another value.
            let mut second = part(&first, |n| n % step != 1);
            for kept in second.values_mut().step_by(step + 1) {
                *kept = value(&mut random);
            }
            for (one, other) in [(&first, &second), (&second, &first)] {
                let length = table(&lacking(one, other)).len();
                let found = value_of_two(length, opened_pages(one, other));
                let (one, call) = (table(one), Call::difference(&table(other)));
                assert_eq!(compare_call(&one, &call, length + 100), Ok(found));
                expect_refusal(&one, &call, length - 1, 13);
                cases += 2;
            }
        }
    }
    assert_eq!(cases, KINDS.len() * 2 * 2 * 2);
}

/// Two registers of 4,096 records each, with nothing in common: the union would have too many
/// records, but the difference has not.
#[test]
fn two_full_registers() {
    let mut cases = 0;
    for kind in KINDS {
        let all = set(kind, 8_192);
        let first = part(&all, |n| n % 2 == 0);
        let second = part(&all, |n| n % 2 == 1);
        let (found, opened) = expect_difference(&first, &second);
        assert!(found == table(&second), "{kind:?}");
        assert_eq!(opened, pages(&second).len(), "{kind:?}");
        expect_refusal(&table(&first), &Call::merge(&found), 100, 5);
        cases += 2;
    }
    assert_eq!(cases, KINDS.len() * 2);
}

/// Two registers that each take what they lack of the other are the same afterwards.
#[test]
fn in_step() {
    let mut random = Random::new(83);
    let mut cases = 0;
    for kind in KINDS {
        let source = Source::new(set(kind, 60).into_keys());
        for _ in 0..30 {
            let [one, other] = [0; 2].map(|_| source.set(&mut random, 50));
            compare(&one, &other);
            compare(&other, &one);
            let (one, other) = (table(&one), table(&other));
            let for_one = written(&one, &Call::difference(&other));
            let for_other = written(&other, &Call::difference(&one));
            let union = written(&one, &Call::merge(&other));
            assert!(written(&one, &Call::merge(&for_one)) == union, "{kind:?}");
            assert!(
                written(&other, &Call::merge(&for_other)) == union,
                "{kind:?}"
            );
            // What one has already is not given again.
            let again = written(&union, &Call::difference(&union));
            assert_eq!(again, EMPTY);
            // A difference taken twice is the same: the first holds nothing of it.
            let twice = written(&one, &Call::difference(&for_one));
            assert!(twice == for_one, "{kind:?}");
            cases += 6;
        }
    }
    assert_eq!(cases, KINDS.len() * 30 * 6);
}

/// Outputs of every length up to the table's, and longer ones, also around the longest table.
#[test]
fn every_length_of_the_output() {
    let pairs = [
        (set_of_layers(&[1]), set_of_layers(&[0, 1, 0])),
        (set_of_layers(&[0]), set_of_layers(&[0, 2])),
        (set(Kind::Chains, 2), set(Kind::Chains, 4)),
        (
            part(&set(Kind::Ordinary, 10), |n| n % 4 == 0),
            set(Kind::Ordinary, 10),
        ),
        (set_of_layers(&[0, 1]), set_of_layers(&[0, 1])),
    ];
    let (mut cases, mut lengths) = (0, 0);
    for (first, second) in &pairs {
        let (expected, opened) = expect_difference(first, second);
        let (first, call) = (table(first), Call::difference(&table(second)));
        for length in 0..expected.len() {
            expect_refusal(&first, &call, length, 13);
            cases += 1;
        }
        let near = expected.len()..expected.len() + 70;
        for length in near.chain([LONGEST - 1, LONGEST, LONGEST + 1, LONGEST + 1_000]) {
            expect_table_and(&first, &call, length, &expected, opened);
            cases += 1;
        }
        lengths += expected.len() + 70 + 4;
    }
    assert_eq!(cases, lengths);
}

/// The registers stand at any place in memory, with other bytes around them, and may share bytes.
#[test]
fn registers_at_any_place() {
    let set = set(Kind::Ordinary, 10);
    let (first, second) = (part(&set, |n| n % 2 == 0), part(&set, |n| n % 3 > 0));
    let (expected, opened) = expect_difference(&first, &second);
    let found = Difference {
        length: expected.len(),
        opened,
    };
    let (first, second) = (table(&first), table(&second));
    let mut cases = 0;
    for offset in 0..16 {
        for around in [0x00, 0xff, 0xa2] {
            let buffer = [&vec![around; offset][..], &first, &second, &[around; 16]].concat();
            let (one, other) = buffer[offset..buffer.len() - 16].split_at(first.len());
            let mut out = vec![0xaa; expected.len()];
            assert_eq!(difference(one, other, &mut out), Ok(found));
            assert!(out == expected, "at {offset}");
            cases += 1;
        }
    }
    assert_eq!(cases, 16 * 3);

    // A value that is the empty register and more: 7 bytes of one register are the other.
    let mut value = filled(0x11);
    value.digest[..7].copy_from_slice(&EMPTY);
    let register = table(&Set::from([(b"a/b1".to_vec(), value)]));
    let mut out = [0xaa; 64];
    let all = Difference {
        length: 64,
        opened: 1,
    };
    let found = difference(&register[29..36], &register, &mut out);
    assert_eq!(found, Ok(all));
    assert_eq!(out[..], register);
    let none = Difference {
        length: 7,
        opened: 1,
    };
    let found = difference(&register, &register[29..36], &mut out);
    assert_eq!(found, Ok(none));
    assert_eq!(out[..7], EMPTY);
    assert_eq!(out[7..], [0; 57]);
}
