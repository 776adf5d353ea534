//! The head beside the register: check gives it, and put, join, remove and merge judge it and move
//! it on. The order of its number among the others stands in `order`.

use crate::common::calls::{compare_check, raw_check};
use crate::common::forge::{faulty_registers, one_record, Page, EMPTY};
use crate::common::heads::{draw_untrue, head_for, head_of, untrue_heads, Heads, UNTRUE, ZEROS};
use crate::common::lists::{out_length, Source};
use crate::common::sets::{
    parts, published_trees, rows_of_few_layers, set, set_of_layers, sets_to, small_sets, value,
    Kind, COUNTS, HIGH, KINDS,
};
use crate::common::values::{filled, library_value, GREATEST, LEAST};
use crate::common::writes::{
    compare_call, compare_call_with, expect_outcome, expect_refusal, expect_refusal_with,
    expect_table, written, Call,
};
use crate::common::{hexadecimal, Random};
use independent::{layer, pages, sha256, table, Set, Value};
use mijdegen::{check, join, merge, put, remove, Head, Refusal};
use std::collections::HashSet;

const VALUE: Value = Value::dag_cbor([0x11; 32]);

/// Gives the head of the set from what it is made of.
fn by_hand(set: &Set) -> Head {
    let layers = set.keys().map(|key| u32::from(layer(key)));
    Head {
        count: set.len() as u32,
        layer: layers.max().unwrap_or(0),
        digest: sha256(&pages(set)[0]),
    }
}

/// Gives the four calls that take a head, each with something that changes the set, in which this
/// key is present.
fn calls_on(set: &Set, key: &[u8]) -> [Call; 4] {
    let mut value = set[key];
    value.digest[0] ^= 0x80;
    let second = Set::from([(b"zz/zz".to_vec(), VALUE)]);
    [
        Call::put(key, &value),
        Call::join(b"zz/zz", &VALUE),
        Call::remove(key),
        Call::merge(&table(&second)),
    ]
}

#[test]
fn registers_of_the_scope() {
    let head = check(&EMPTY).expect("the empty register");
    assert_eq!((head.count, head.layer), (0, 0));
    assert_eq!(head.digest, sha256(&EMPTY));
    // `a/b1` has layer 0.
    let head = check(&one_record()).expect("the register of one record");
    assert_eq!((head.count, head.layer), (1, 0));
    assert_eq!(head.digest, sha256(&one_record()));

    // The digests of the published trees' roots are known from elsewhere.
    for (set, root) in published_trees() {
        let head = check(&table(&set)).expect("an accepted register");
        assert_eq!(hexadecimal(&head.digest), root);
        assert_eq!(head, by_hand(&set));
    }
}

/// Every kind of keys with every count, by another writer of the root page as well.
#[test]
fn all_kinds_and_counts() {
    let mut cases = 0;
    let small = small_sets().into_iter().map(|set| (Kind::Ordinary, set));
    for (kind, set) in sets_to(4_096).into_iter().chain(small) {
        let head = compare_check(&table(&set)).expect("an accepted register");
        assert_eq!(head, by_hand(&set), "{kind:?}");
        assert_eq!(head.digest, Page::of_set(&set).written().digest, "{kind:?}");
        cases += 1;
    }
    assert_eq!(cases, KINDS.len() * COUNTS.len() + 10);
}

/// The layer is the highest of the row, wherever in the row it stands.
#[test]
fn all_rows_of_few_layers() {
    let mut cases = 0;
    for row in rows_of_few_layers() {
        let set = set_of_layers(&row);
        let head = compare_check(&table(&set)).expect("an accepted register");
        assert_eq!(head.layer, u32::from(*row.iter().max().expect("a row")));
        assert_eq!(head, by_hand(&set), "{row:?}");
        cases += 1;
    }
    assert_eq!(cases, 513);
}

/// No two of the sets that have records of one set have the same head.
#[test]
fn each_set_has_its_own_head() {
    let all = set(Kind::Ordinary, 10);
    let heads: HashSet<Head> = parts(&all)
        .iter()
        .map(|part| check(&table(part)).expect("an accepted register"))
        .collect();
    assert_eq!(heads.len(), 1 << 10);
}

/// Whatever number is due, the head is zero: neither what it was before nor that of the pages as
/// far as they are right.
#[test]
fn zero_where_the_register_is_refused() {
    for (number, register) in (1..).zip(faulty_registers()) {
        let (answer, head) = raw_check(&mut register.to_vec());
        assert_eq!((answer, head), (number, ZEROS));
    }

    let mut counts = [0; 11];
    for set in small_sets() {
        let register = table(&set);
        for length in 0..register.len() {
            assert_eq!(compare_check(&register[..length]), Err(2));
        }
        let mut damaged = register.clone();
        for bit in 0..8 * register.len() {
            damaged[bit / 8] ^= 1 << (bit % 8);
            let number = compare_check(&damaged).err().unwrap_or(0);
            counts[usize::from(number)] += 1;
            damaged[bit / 8] ^= 1 << (bit % 8);
        }
    }
    // Other values in the root page are accepted, with another digest.
    for number in [0, 2, 3, 6, 7, 8, 9, 10] {
        assert!(counts[number] > 10, "number {number}: {}", counts[number]);
    }
}

/// Each field is untrue in turn, in every bit. Nothing is written and the head stays as it is.
#[test]
fn each_field_in_turn() {
    let mut cases = 0;
    for set in small_sets() {
        let register = table(&set);
        let head = head_of(&set);
        let key = set.keys().next().map_or(&b"a/b1"[..], Vec::as_slice);
        let room = register.len() + 2_000;
        let calls = [
            Call::put(key, &VALUE),
            Call::join(key, &VALUE),
            Call::remove(key),
            Call::merge(&one_record()),
        ];
        let untrue = untrue_heads(&head);
        assert_eq!(untrue.len(), 2 * (32 + 2) + 256);
        for untrue in untrue {
            for call in &calls {
                expect_refusal_with(&register, untrue, call, room, 17);
                cases += 1;
            }
        }
        // All but the removal from the empty register are done with the true head.
        for call in &calls {
            let due = compare_call_with(&register, head, call, room).err();
            let absent = set.is_empty() && *call == Call::remove(key);
            assert_eq!(due, absent.then_some(12), "{call:?}");
        }
    }
    assert_eq!(cases, 10 * 324 * 4);
}

/// The heads of all other registers are refused.
#[test]
fn heads_of_other_registers() {
    let sets: Vec<Set> = small_sets()
        .into_iter()
        .chain(KINDS.map(|kind| set(kind, 100)))
        .collect();
    let mut cases = 0;
    for one in &sets {
        let register = table(one);
        for other in sets.iter().filter(|other| *other != one) {
            let second = table(other);
            // Merge is lent the head of its second register.
            let calls = [
                Call::put(b"zz/zz", &VALUE),
                Call::join(b"zz/zz", &VALUE),
                Call::remove(b"zz/zz"),
                Call::merge(&second),
            ];
            let room = register.len() + second.len() + 1_000;
            for call in &calls {
                expect_refusal_with(&register, head_of(other), call, room, 17);
                cases += 1;
            }
        }
    }
    assert_eq!(cases, 17 * 16 * 4);
}

/// A present key leaves the count and the layer. The same value leaves the whole head, and so does
/// a join with a lesser one.
#[test]
fn present_keys() {
    let mut cases = 0;
    for (kind, set) in sets_to(100) {
        let register = table(&set);
        let head = head_of(&set);
        for (key, value) in set.iter().take(11) {
            let same = [
                Call::put(key, value),
                Call::join(key, value),
                Call::join(key, &LEAST),
                Call::merge(&table(&Set::from([(key.clone(), LEAST)]))),
            ];
            for call in same {
                let (heads, length) = (Heads::stay(head), register.len());
                expect_outcome(&register, &heads, &call, Ok(length), &register);
                cases += 1;
            }

            let mut after = head;
            let mut out = vec![0; register.len()];
            let greatest = library_value(&GREATEST);
            let length = put(&register, &mut after, key, &greatest, &mut out);
            assert_eq!(length, Ok(register.len()), "{kind:?}");
            assert_eq!((after.count, after.layer), (head.count, head.layer));
            assert_ne!(after.digest, head.digest);
            assert_eq!(Ok(after), check(&out), "{kind:?}");
            cases += 1;
        }
    }
    assert_eq!(cases, KINDS.len() * (1 + 2 + 3 + 10 + 11) * 5);
}

/// Keys of rising layers come and go, and one head goes along: with the last key of its layer the
/// root falls, by one layer or by many, and with the last record to the empty register's head.
#[test]
fn the_root_rises_and_falls() {
    let set = set(Kind::Chains, 34);
    let mut keys: Vec<&Vec<u8>> = set.keys().collect();
    keys.sort_by_key(|key| layer(key));
    let (mut register, mut grown) = (EMPTY.to_vec(), Set::new());
    let mut head = head_for(&EMPTY);
    let mut heads = vec![head];
    let mut layers = HashSet::new();
    let mut out = vec![0; 100_000];
    for key in &keys {
        let value = library_value(&set[*key]);
        let length = put(&register, &mut head, key, &value, &mut out).expect("room");
        register = out[..length].to_vec();
        grown.insert(key.to_vec(), set[*key]);
        assert_eq!(head, by_hand(&grown));
        assert_eq!(head.layer, u32::from(layer(key)));
        layers.insert(head.layer);
        heads.push(head);
    }
    // Layers 0 and 8 to 16.
    assert_eq!(layers.len(), 10);
    for key in keys.iter().rev() {
        assert_eq!(heads.pop(), Some(head));
        let length = remove(&register, &mut head, key, &mut out).expect("room");
        register = out[..length].to_vec();
    }
    assert_eq!(heads, [head]);
    assert_eq!(register, EMPTY);
    assert_eq!(head, head_for(&EMPTY));
}

/// One key of each high layer above records of layer 0: its removal lets the root fall to the
/// bottom, and that of another record leaves it.
#[test]
fn the_last_key_of_the_top_layer() {
    let low = set_of_layers(&[0; 5]);
    let mut cases = 0;
    for key in HIGH {
        let mut with = low.clone();
        with.insert(key.as_bytes().to_vec(), VALUE);
        let register = table(&with);
        let highest = u32::from(layer(key.as_bytes()));
        for removed in with.keys() {
            let (mut head, mut out) = (by_hand(&with), vec![0; register.len()]);
            assert_eq!((head.count, head.layer), (6, highest));
            remove(&register, &mut head, removed, &mut out).expect("room");
            let left = if *removed == key.as_bytes() {
                0
            } else {
                highest
            };
            assert_eq!((head.count, head.layer), (5, left), "{key}");
            cases += 1;
        }
        // It is put again, and the root rises.
        let (mut head, mut out) = (by_hand(&low), vec![0; register.len()]);
        let value = library_value(&VALUE);
        put(&table(&low), &mut head, key.as_bytes(), &value, &mut out).expect("room");
        assert_eq!(head, by_hand(&with), "{key}");
    }
    assert_eq!(cases, HIGH.len() * 6);
}

/// The only record leaves the head of the empty register, whatever its layer was.
#[test]
fn the_last_record() {
    let empty = check(&EMPTY).expect("the empty register");
    let keys = KINDS.map(|kind| set(kind, 1)).into_iter().flatten();
    let keys = keys.map(|(key, _)| key);
    let high = HIGH.map(|key| key.as_bytes().to_vec());
    let mut cases = 0;
    for key in keys.chain(high) {
        let set = Set::from([(key.clone(), VALUE)]);
        let (mut head, mut out) = (head_of(&set), [0xaa; 10]);
        let length = remove(&table(&set), &mut head, &key, &mut out);
        assert_eq!((length, head), (Ok(7), empty));
        expect_table(&table(&set), &Call::remove(&key), 7, &EMPTY);
        cases += 1;
    }
    assert_eq!(cases, KINDS.len() + HIGH.len());
}

/// Merge's head is that of its first register. Whichever of the two is the first, the same head is
/// left.
#[test]
fn merges() {
    let sets = sets_to(10);
    let mut cases = 0;
    for (_, one) in &sets {
        for (_, other) in &sets {
            let (first, second) = (table(one), table(other));
            let mut out = vec![0; first.len() + second.len() + 3_000];
            let mut head = head_of(one);
            let length = merge(&first, &mut head, &second, &mut out).expect("room");
            let merged = independent::merge_in(one.clone(), other);
            assert_eq!(head, by_hand(&merged));
            assert_eq!(Ok(head), check(&out[..length]));

            let mut other_way = head_of(other);
            merge(&second, &mut other_way, &first, &mut out).expect("room");
            assert_eq!(other_way, head);
            // The head of the second is not taken, unless the two are the same.
            let mut lent = head_of(other);
            let refused = merge(&first, &mut lent, &second, &mut out);
            match one == other {
                true => assert_eq!(lent, head_of(one)),
                false => assert_eq!((refused, lent), (Err(Refusal::UntrueHead), head_of(other))),
            }
            cases += 1;
        }
    }
    assert_eq!(cases, (KINDS.len() * 5) * (KINDS.len() * 5));
}

/// The head around 4,096 records. A record too many leaves it as it is.
#[test]
fn full_registers() {
    let all = set(Kind::Ordinary, 4_096);
    let (last, value) = all.last_key_value().expect("there are records");
    let mut others = all.clone();
    others.remove(last);
    let (whole, without) = (table(&all), table(&others));
    expect_table(&without, &Call::put(last, value), whole.len(), &whole);
    assert_eq!(head_for(&whole).count, 4_096);
    for call in [
        Call::put(b"a/b1", &VALUE),
        Call::join(b"a/b1", &VALUE),
        Call::merge(&one_record()),
    ] {
        expect_refusal(&whole, &call, whole.len() + 1_000, 5);
    }
    expect_table(&whole, &Call::remove(last), without.len(), &without);
}

/// A register with its head, which the calls of one side move.
struct Held {
    register: Vec<u8>,
    head: Head,
}

impl Held {
    /// Holds what was written, where the call was done.
    fn take(&mut self, result: Result<usize, u8>, out: &[u8]) {
        if let Ok(length) = result {
            self.register = out[..length].to_vec();
        }
    }
}

/// Lists in which the library is lent the head that its own calls have left, beside the independent
/// crate with a head of its own. Now and then both are lent another head for one call.
#[test]
fn lists_that_carry_the_head() {
    let mut random = Random::new(171);
    let mut counts = [0; 18];
    for kind in KINDS {
        let source = Source::new(set(kind, 40).into_keys());
        for _ in 0..5 {
            let start = source.set(&mut random, 20);
            let [mut library, mut other] = [0; 2].map(|_| Held {
                register: table(&start),
                head: head_of(&start),
            });
            let mut earlier = UNTRUE;
            for _ in 0..100 {
                let set = independent::set_of(&other.register).expect("accepted");
                let call = drawn_call(&mut random, &source, &set);
                let room = out_length(&mut random, other.register.len() + 200);
                let (mut out, mut other_out) = (vec![0xaa; room], vec![0x55; room]);

                let untrue = match random.below(8) {
                    0 => Some(draw_untrue(&mut random, &other.head, &earlier)),
                    _ => None,
                };
                let mut lent = untrue.unwrap_or(library.head);
                let found = call.safe(&library.register, &mut lent, &mut out);
                let mut other_lent = untrue.unwrap_or(other.head);
                let expected = call.independent(&other.register, &mut other_lent, &mut other_out);
                assert_eq!(found, expected, "{kind:?} {call:?}");
                assert_eq!(lent, other_lent, "{kind:?} {call:?}");
                assert!(out == other_out, "{kind:?} {call:?}");

                if untrue.is_none() {
                    if found.is_ok() {
                        earlier = other.head;
                    }
                    (library.head, other.head) = (lent, other_lent);
                }
                library.take(found, &out);
                other.take(expected, &other_out);
                // The head is always that of the register which is held.
                assert_eq!(check(&library.register), Ok(library.head));
                counts[usize::from(found.err().unwrap_or(0))] += 1;
            }
            assert!(library.register == other.register);
        }
    }
    assert_eq!(counts.iter().sum::<usize>(), KINDS.len() * 5 * 100);
    assert!(counts[17] > 300, "{}", counts[17]);
    assert!(counts[0] > 1_000, "{}", counts[0]);
    for number in [7, 12, 13] {
        assert!(counts[number] > 50, "number {number}: {}", counts[number]);
    }
}

/// Draws a put, a join, a removal or a merge that the safe functions can be handed.
fn drawn_call(random: &mut Random, source: &Source, set: &Set) -> Call {
    let key = source.key(random, set);
    let value = value(random);
    match random.below(4) {
        0 => Call::put(&key, &value),
        1 => Call::join(&key, &value),
        2 => Call::remove(&key),
        _ => Call::merge(&source.second(random, set)),
    }
}

/// After each call the head is the one that check gives for the register written.
#[test]
fn the_head_is_that_of_the_register_written() {
    let mut cases = 0;
    for (kind, set) in sets_to(300) {
        let register = table(&set);
        let Some(key) = set.keys().nth(set.len() / 2) else {
            continue;
        };
        for call in calls_on(&set, key) {
            let room = register.len() + 10_000;
            let length = compare_call(&register, &call, room).expect("room");
            let result = written(&register, &call);
            assert_eq!(result.len(), length, "{kind:?}");
            assert_ne!(head_for(&result), head_of(&set), "{kind:?}");
            cases += 1;
        }
    }
    assert_eq!(cases, KINDS.len() * 5 * 4);
}

/// The head at each address that 4 divides: its 40 bytes are read and written and no others, by
/// calls that are done and by refused ones.
#[test]
fn only_the_forty_bytes_are_touched() {
    let mut cases = 0;
    for set in small_sets().iter().filter(|set| !set.is_empty()) {
        let (register, head) = (table(set), head_of(set));
        let key = set.keys().next().expect("there are records");
        for call in calls_on(set, key) {
            let result = call.result(set.clone()).expect("there is room");
            // The length of the output also decides the address of the head.
            for more in 0..4 {
                let length = result.len() + more;
                let found = call.raw(&register, &head, length);
                let mut output = result.clone();
                output.resize(length, 0);
                let answer = 256 * result.len() as u64;
                assert_eq!(found, (answer, output, head_for(&result)), "{call:?}");
                for (lent, number) in [(UNTRUE, 17), (ZEROS, 17)] {
                    let found = call.raw(&register, &lent, length);
                    assert_eq!(found, (number, vec![0; length], lent), "{call:?}");
                }
                let short = result.len() - 1 - more;
                let found = call.raw(&register, &head, short);
                assert_eq!(found, (13, vec![0; short], head), "{call:?}");
                cases += 4;
            }
        }
        // So does the length of the register, for check.
        for more in 0..4 {
            let found = raw_check(&mut register[..register.len() - more].to_vec());
            let expected = match more {
                0 => (0, head),
                _ => (2, ZEROS),
            };
            assert_eq!(found, expected);
        }
    }
    assert_eq!(cases, 9 * 4 * 4 * 4);
}

/// A caller keeps the head in a record of its own, and nothing beside it is changed.
#[test]
fn a_head_in_a_record_of_the_caller() {
    struct Drawer {
        number: u16,
        head: Head,
        name: [u8; 3],
    }
    let (mut out, mut next) = ([0; 64], [0; 64]);
    let mut drawer = Drawer {
        number: 0xaaaa,
        head: check(&EMPTY).expect("the empty register"),
        name: [0xbb; 3],
    };
    let [value, greater] = [VALUE, filled(0x22)].map(|value| library_value(&value));
    assert_eq!(
        put(&EMPTY, &mut drawer.head, b"a/b1", &value, &mut out),
        Ok(64)
    );
    assert_eq!(
        join(&out, &mut drawer.head, b"a/b1", &greater, &mut next),
        Ok(64)
    );
    assert_eq!(check(&next), Ok(drawer.head));
    assert_eq!((drawer.number, drawer.name), (0xaaaa, [0xbb; 3]));
}

#[test]
fn display() {
    let mut head = Head {
        count: 0,
        layer: 128,
        digest: [0; 32],
    };
    head.digest[0] = 0x0f;
    head.digest[31] = 0xa0;
    let root = format!("0f{}a0", "0".repeat(60));
    for (count, records) in [
        (0, "0 records"),
        (1, "1 record"),
        (2, "2 records"),
        (4_096, "4096 records"),
    ] {
        head.count = count;
        assert_eq!(
            head.to_string(),
            format!("{records}, layer 128, root {root}")
        );
    }
}
