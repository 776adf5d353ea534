//! `screen` against the independent crate and against the sets themselves.

use crate::common::calls::{compare_slash, count_of};
use crate::common::forge::{one_record, EMPTY};
use crate::common::sets::{
    collection_of, collections, dotted_keys, long_keys_in_turn, published_trees, records_of,
    rows_of_few_layers, screens_of, set, set_of_layers, sets_to, unlawful_keys, value, Kind, HIGH,
    KINDS, NEAR_COLLECTIONS,
};
use crate::common::values::{filled, library_value};
use crate::common::writes::{
    compare_call, compare_lengths, expect_refusal, expect_table_and, written, Call,
};
use crate::common::Random;
use independent::{layer, table, Set};
use mijdegen::{
    list, screen, Refusal, Screen, Value, LONGEST, LONGEST_KEY, LONGEST_SCREEN, PER_SCREEN,
};

/// Counts of records around the eights, each with the number of screens.
const COUNTS: [(usize, usize); 7] = [(0, 1), (1, 1), (7, 1), (8, 1), (9, 2), (16, 2), (17, 3)];

/// The collection that most tests are about.
const PART: &[u8] = b"part";

/// Expects all screens of the collection by the set, for outputs of several lengths, and 15 behind
/// the last one. Gives the counts of their records.
fn expect_screens(register: &[u8], set: &Set, collection: &[u8]) -> Vec<usize> {
    let screens = screens_of(set, collection);
    let count = screens.len();
    for (n, shown) in (0..).zip(&screens) {
        let call = Call::screen(collection, n);
        let expected = table(shown);
        let length = expected.len();
        expect_table_and(register, &call, length, &expected, count);
        assert!(compare_lengths(register, &call).as_ref() == Ok(&expected));
        // It is the only screen of its own register.
        let again = Call::screen(collection, 0);
        expect_table_and(&expected, &again, length, &expected, 1);
    }
    for n in [count, count + 1] {
        let call = Call::screen(collection, n as u64);
        assert_eq!(compare_call(register, &call, 300), Err(15));
    }
    screens.iter().map(Set::len).collect()
}

/// Gives the records of the sets together.
fn together<'a>(sets: impl IntoIterator<Item = &'a Set>) -> Set {
    let records = sets.into_iter().flatten();
    records.map(|(key, value)| (key.clone(), *value)).collect()
}

// ---- which records a screen has

/// A collection alone, first, last and between others.
#[test]
fn counts_around_the_eights() {
    let mut random = Random::new(121);
    // The dash stands before the slash and letters behind it.
    let before = records_of(&mut random, b"part-old", 9);
    let behind = records_of(&mut random, b"parts", 9);
    let mut cases = 0;
    for (count, screens) in COUNTS {
        let own = records_of(&mut random, PART, count);
        for others in [&[][..], &[&behind], &[&before], &[&before, &behind]] {
            let set = together(others.iter().copied().chain([&own]));
            let counts = expect_screens(&table(&set), &set, PART);
            assert_eq!(counts.len(), screens, "{count}");
            assert_eq!(counts.iter().sum::<usize>(), count);
            assert!(counts[..screens - 1].iter().all(|count| *count == 8));
            cases += 1;
        }
    }
    assert_eq!(cases, 7 * 4);
}

/// All screens of a full register, and of another the first, the last and some between them.
#[test]
fn a_collection_of_4_096_records() {
    let mut cases = 0;
    for (kind, step) in [(Kind::Alternating, 1), (Kind::SharedPrefix, 73)] {
        let set = set(kind, 4_096);
        let register = table(&set);
        let collection = collections(&set).pop_first().expect("a collection");
        let screens = screens_of(&set, collection);
        assert_eq!(screens.len(), 512);
        for (n, shown) in (0..).zip(&screens).step_by(step) {
            assert_eq!(shown.len(), 8);
            let expected = table(shown);
            let call = Call::screen(collection, n);
            expect_table_and(&register, &call, expected.len() + 1, &expected, 512);
            if n % 73 == 0 {
                assert!(compare_lengths(&register, &call) == Ok(expected));
            }
            cases += 1;
        }
        for n in [512, 513] {
            expect_refusal(&register, &Call::screen(collection, n), 300, 15);
        }
    }
    // The first and the last stand on a step.
    assert_eq!(cases, 512 + 8);
}

/// Any of six collections that begin with one another: each is the first, the last and alone in
/// some of the registers, and absent from half of them.
#[test]
fn collections_that_begin_with_one_another() {
    let mut random = Random::new(122);
    let counts = [9, 1, 8, 3, 17, 2];
    let all: Vec<Set> = NEAR_COLLECTIONS
        .iter()
        .zip(counts)
        .map(|(collection, count)| records_of(&mut random, collection, count))
        .collect();
    let mut cases = 0;
    for mask in 0..1_usize << 6 {
        let is_in = |which: usize| mask >> which & 1 == 1;
        let set = together(
            (0..6)
                .filter(|which| is_in(*which))
                .map(|which| &all[which]),
        );
        let register = table(&set);
        for (which, collection) in NEAR_COLLECTIONS.iter().enumerate() {
            let shown = expect_screens(&register, &set, collection);
            let expected = if is_in(which) { counts[which] } else { 0 };
            assert_eq!(shown.iter().sum::<usize>(), expected, "{mask} {which}");
            cases += 1;
        }
    }
    assert_eq!(cases, 64 * 6);
}

/// A collection among those that have one byte more, each of the bytes that may stand there.
#[test]
fn every_byte_behind_a_collection() {
    let mut random = Random::new(123);
    let longer: Vec<Vec<u8>> = (0..=255)
        .map(|byte| vec![b'a', byte])
        .filter(|collection| compare_slash(&[collection, &b"/n"[..]].concat()).is_ok())
        .collect();
    assert_eq!(longer.len(), 67);
    let mut set = records_of(&mut random, b"a", 17);
    for collection in &longer {
        set.append(&mut records_of(&mut random, collection, 2));
    }
    let register = table(&set);
    assert_eq!(expect_screens(&register, &set, b"a"), [8, 8, 1]);
    for collection in &longer {
        assert_eq!(expect_screens(&register, &set, collection), [2]);
    }
}

/// The collections `.` and `..` are lawful, though no name is one of them.
#[test]
fn dots_in_collections() {
    let mut random = Random::new(124);
    let keys = dotted_keys().into_iter();
    let dotted: Set = keys.map(|key| (key, value(&mut random))).collect();
    let register = table(&dotted);
    let named = collections(&dotted);
    assert!(named.contains(&b"."[..]) && named.contains(&b".."[..]));
    for collection in &named {
        assert_eq!(expect_screens(&register, &dotted, collection), [7]);
    }
    assert_eq!(named.len(), 9);
    // With ten records more, and alone.
    for collection in [&b"."[..], b".."] {
        let more = records_of(&mut random, collection, 10);
        let set = together([&dotted, &more]);
        assert_eq!(expect_screens(&table(&set), &set, collection), [8, 8, 1]);
        assert_eq!(expect_screens(&table(&more), &more, collection), [8, 2]);
    }
}

/// Every collection of sets of each kind, and one that they do not have.
#[test]
fn collections_of_each_kind() {
    let mut cases = 0;
    for (kind, set) in sets_to(100) {
        let register = table(&set);
        let mut shown = 0;
        for collection in collections(&set) {
            let counts = expect_screens(&register, &set, collection);
            shown += counts.iter().sum::<usize>();
        }
        assert_eq!(shown, set.len(), "{kind:?}");
        assert_eq!(expect_screens(&register, &set, b"none"), [0]);
        cases += 1;
    }
    assert_eq!(cases, KINDS.len() * 6);
    for (set, _) in published_trees() {
        let counts = expect_screens(&table(&set), &set, b"com.example.record");
        assert_eq!(counts, [set.len()]);
    }
}

/// Small trees of every form on the second screen, behind a first one that has higher layers.
#[test]
fn all_rows_of_few_layers() {
    let mut cases = 0;
    for row in rows_of_few_layers() {
        let set = set_of_layers(&[&[1, 0, 5, 0, 0, 2, 0, 3], &row[..]].concat());
        let register = table(&set);
        let collection = collections(&set).pop_first().expect("a collection");
        let screens = screens_of(&set, collection);
        assert_eq!(screens[1].len(), row.len());
        for (n, shown) in (0..).zip(&screens) {
            let expected = table(shown);
            let call = Call::screen(collection, n);
            expect_table_and(&register, &call, expected.len(), &expected, 2);
            cases += 1;
        }
    }
    assert_eq!(cases, 513 * 2);
}

/// Goes through each collection screen by screen, as a caller would: the screens merged are the run
/// of its keys, and all records of all screens are those of the set, each just once.
#[test]
fn all_screens_in_turn() {
    let mut sets = sets_to(100);
    for kind in [Kind::Ordinary, Kind::Chains] {
        sets.push((kind, set(kind, 1_000)));
    }
    let (mut shown, mut all) = (0, 0);
    for (kind, set) in sets {
        let register = table(&set);
        let (mut records, mut out) = (Vec::new(), vec![0xaa; LONGEST_SCREEN]);
        for collection in collections(&set) {
            let (mut merged, mut screens) = (EMPTY.to_vec(), 0);
            let refusal = loop {
                let found = match screen(&register, collection, screens, &mut out) {
                    Ok(found) => found,
                    Err(refusal) => break refusal,
                };
                screens += 1;
                assert!(screens <= found.screens, "{kind:?}");
                let (table, rest) = out.split_at(found.length);
                assert!(rest.iter().all(|byte| *byte == 0), "{kind:?}");
                merged = written(&merged, &Call::merge(table));
                add_records(table, &mut records);
                shown += 1;
            };
            assert_eq!(refusal, Refusal::NoSuchScreen, "{kind:?}");
            assert!(out.iter().all(|byte| *byte == 0), "{kind:?}");
            assert_eq!(screens, screens_of(&set, collection).len(), "{kind:?}");

            let least = [collection, b"/-"].concat();
            let mut greatest = [collection, b"/"].concat();
            greatest.resize(LONGEST_KEY, b'~');
            let run = written(&register, &Call::run(&least, &greatest));
            assert!(merged == run, "{kind:?}");
        }
        all += records.len();
        // Collections are in another order than their keys.
        records.sort();
        let expected = set.iter();
        let expected = expected.map(|(key, value)| (key.clone(), library_value(value)));
        assert!(records.into_iter().eq(expected), "{kind:?}");
    }
    assert_eq!(all, KINDS.len() * (1 + 2 + 3 + 10 + 100) + 2 * 1_000);
    assert!(shown > 500, "{shown}");
}

/// Adds the records of a register in key order. A screen has at most 8.
fn add_records(register: &[u8], records: &mut Vec<(Vec<u8>, Value)>) {
    let count = count_of(register).expect("accepted");
    assert!(count <= PER_SCREEN);
    for n in 0..count {
        let mut key = [0; LONGEST_KEY];
        let listed = list(register, n, &mut key).expect("accepted");
        let listed = listed.expect("n is less than the count");
        records.push((key[..listed.key_length].to_vec(), listed.value));
    }
}

/// The highest keys that are known, with a key of layer 0 behind each, and long keys of layers 6
/// and 0 in turn: there is room for each screen where the longest would have it.
#[test]
fn the_longest_screens() {
    let mut random = Random::new(125);
    let mut high = Set::new();
    for key in HIGH.map(str::as_bytes) {
        let low = (0..)
            .map(|number| [key, format!(".{number}").as_bytes()].concat())
            .find(|key| layer(key) == 0)
            .expect("there is always a further key");
        for key in [key, &low] {
            high.insert(key.to_vec(), value(&mut random));
        }
    }
    let (mut cases, mut longest) = (0, 0);
    for set in [high, long_keys_in_turn(&[6, 0], 32)] {
        let register = table(&set);
        for collection in collections(&set) {
            expect_screens(&register, &set, collection);
            for (n, shown) in screens_of(&set, collection).iter().enumerate() {
                let mut out = vec![0xaa; LONGEST_SCREEN];
                let found = screen(&register, collection, n, &mut out).expect("there is room");
                assert!(out[..found.length] == table(shown));
                longest = longest.max(found.length);
                cases += 1;
            }
        }
    }
    // `depth` has 2 records, `layer` 32, and the long keys are one collection.
    assert_eq!(cases, 1 + 4 + 4);
    assert!(longest > 3_000, "{longest}");
}

// ---- what is refused

/// Numbers at the end and past it, also such as 8 times the number would be less than 2^32 or 2^64.
#[test]
fn numbers_past_the_end() {
    let mut random = Random::new(126);
    let mut cases = 0;
    for (count, screens) in COUNTS {
        let register = table(&records_of(&mut random, PART, count));
        let screens = screens as u64;
        let numbers = [
            screens,
            screens + 1,
            count.max(4) as u64,
            512,
            1 << 8,
            1 << 16,
            // The low 32 bits of 8 times the number are those of a screen's place.
            1 << 29,
            (1 << 29) + screens - 1,
            (1 << 32) - 1,
            // The low 32 bits are those of a screen.
            1 << 32,
            (1 << 32) + screens - 1,
            // The low 64 bits of 8 times the number are those of a screen's place.
            (1 << 61) - 1,
            1 << 61,
            (1 << 61) + screens - 1,
            7 << 61,
            1 << 63,
            u64::MAX - 1,
            u64::MAX,
        ];
        for n in numbers {
            let call = Call::screen(PART, n);
            for length in [0, 7, 64, 3_000] {
                assert_eq!(compare_call(&register, &call, length), Err(15), "{n}");
                cases += 1;
            }
        }
        let mut out = [0xaa; 100];
        let refused = screen(&register, PART, usize::MAX, &mut out);
        assert_eq!(refused, Err(Refusal::NoSuchScreen));
        assert_eq!(out, [0; 100]);
    }
    assert_eq!(cases, 7 * 18 * 4);
}

/// Expects the collection's only screen without a record and with it, or 7 where the bytes are no
/// collection. Says whether they are.
fn judged(collection: &[u8]) -> bool {
    let key = [collection, b"/n"].concat();
    let call = Call::screen(collection, 0);
    let lawful = compare_slash(&key) == Ok(collection.len());
    for register in [EMPTY.to_vec(), one_record(), table(&set(Kind::Mixed, 10))] {
        if lawful {
            let mut set = independent::set_of(&register).expect("accepted");
            let without = expect_screens(&register, &set, collection);
            set.insert(key.clone(), filled(0x22));
            let with = expect_screens(&table(&set), &set, collection);
            assert_eq!(with, [without[0] + 1]);
        } else {
            assert_eq!(compare_call(&register, &call, 300), Err(7));
            // The collection goes before the number and the output.
            expect_refusal(&register, &call, 0, 7);
            expect_refusal(&register, &Call::screen(collection, 1), 20, 7);
        }
    }
    lawful
}

/// Each byte alone, and at the start, in the middle and at the end of a longer collection.
#[test]
fn each_byte_of_a_collection() {
    let mut counts = [0; 2];
    for byte in 0..=255 {
        for collection in [
            &[byte][..],
            &[byte, b'b', b'c'],
            &[b'a', byte, b'c'],
            &[b'a', b'b', byte],
        ] {
            counts[usize::from(judged(collection))] += 1;
        }
    }
    // 26 + 26 + 10 + 5 bytes may stand beside the slash.
    assert_eq!(counts, [(256 - 67) * 4, 67 * 4]);
}

/// Collections of 1 to 254 bytes are lawful, since a slash and one byte must still fit into a key.
#[test]
fn collections_of_each_length() {
    for length in 0..=300 {
        let lawful = (1..=254).contains(&length);
        assert_eq!(judged(&vec![b'a'; length]), lawful, "length {length}");
    }
    for length in [512, 65_536, LONGEST, LONGEST + 1] {
        assert!(!judged(&vec![b'a'; length]), "length {length}");
    }
    // As many records as a collection of 254 bytes can have: a name of one byte is no dot.
    let collection = [b'~'; 254];
    let mut set = set(Kind::Longest, 10);
    for byte in 0..=255 {
        let key = [&collection[..], b"/", &[byte]].concat();
        if compare_slash(&key) == Ok(254) {
            set.insert(key, filled(byte));
        }
    }
    let counts = expect_screens(&table(&set), &set, &collection);
    assert_eq!(counts, [8, 8, 8, 8, 8, 8, 8, 8, 2]);
}

/// Bytes with a slash are no collection, whether they are a lawful key or not.
#[test]
fn keys_are_no_collections() {
    let mut cases = 0;
    for key in unlawful_keys() {
        let found = judged(&key);
        assert!(!(found && key.contains(&b'/')), "{key:?}");
        cases += usize::from(!found);
    }
    // `a`, `ab` and `abc` are collections.
    assert_eq!(cases, unlawful_keys().len() - 3);
    for kind in KINDS {
        let set = set(kind, 10);
        let register = table(&set);
        for key in set.keys() {
            let slash = collection_of(key).len();
            for bytes in [&key[..], &key[..=slash], &key[slash..]] {
                let call = Call::screen(bytes, 0);
                assert_eq!(compare_call(&register, &call, 300), Err(7), "{bytes:?}");
            }
        }
    }
}

/// The collection may be a part of the register, since both are only read.
#[test]
fn the_collection_may_lie_in_the_register() {
    let register = one_record();
    let mut out = [0xaa; 64];
    // The key `a/b1` stands from the 8th byte on.
    let whole = Screen {
        length: 64,
        screens: 1,
    };
    assert_eq!(screen(&register, &register[8..9], 0, &mut out), Ok(whole));
    assert_eq!(out[..], register);
    let none = Screen {
        length: 7,
        screens: 1,
    };
    assert_eq!(screen(&register, &register[10..12], 0, &mut out), Ok(none));
    assert_eq!(out[..7], EMPTY);
    assert_eq!(out[7..], [0; 57]);
    for collection in [&register[8..10], &register] {
        let refused = screen(&register, collection, 0, &mut out);
        assert_eq!(refused, Err(Refusal::UnlawfulKey));
    }
}
