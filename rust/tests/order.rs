//! The order in which the numbers are judged: with several faults at once the first one is
//! answered. A head that is lent stays as it is then.

use crate::common::forge::{faulty_registers, one_record, EMPTY};
use crate::common::heads::{head_for, three_untrue, Heads, ZEROS};
use crate::common::neighbours::{expect_neighbour, Neighbour, NEIGHBOURS};
use crate::common::sets::{set, Kind};
use crate::common::values::wrong_values;
use crate::common::writes::{
    expect_refusal, expect_refusal_with, expect_table_and, expect_table_with, Call,
};
use independent::{table, Set, Value};
use mijdegen::Head;

const VALUE: Value = Value::dag_cbor([0x11; 32]);

/// Expects the first number that is due, or the table where there is none. Gives the number, or 0.
fn expect_first(
    register: &[u8],
    call: &Call,
    out_length: usize,
    due: &[Option<u8>],
    table: &[u8],
) -> u8 {
    expect_first_and(register, call, out_length, due, table, 0)
}

/// Expects the first number that is due, or the table and the second number of the answer where
/// there is none. Gives the number, or 0.
fn expect_first_and(
    register: &[u8],
    call: &Call,
    out_length: usize,
    due: &[Option<u8>],
    table: &[u8],
    second: usize,
) -> u8 {
    match due.iter().flatten().next() {
        Some(number) => {
            expect_refusal(register, call, out_length, *number);
            *number
        }
        None => {
            expect_table_and(register, call, out_length, table, second);
            0
        }
    }
}

/// Expects the first number that is due, or the table and its head where there is none, of a call
/// that is lent this head. Gives the number, or 0.
fn expect_first_with(
    register: &[u8],
    lent: Head,
    call: &Call,
    out_length: usize,
    due: &[Option<u8>],
    table: &[u8],
) -> u8 {
    match due.iter().flatten().next() {
        Some(number) => {
            expect_refusal_with(register, lent, call, out_length, *number);
            *number
        }
        None => {
            let after = head_for(table);
            expect_table_with(register, &Heads { lent, after }, call, out_length, table);
            0
        }
    }
}

/// Gives the register's head and four that are untrue of it, that of zeros among them, each with
/// the number that is due. A register that is refused has no head, and its own number comes first.
fn heads(register: &[u8]) -> [(Head, Option<u8>); 5] {
    let head = head_for(register);
    let [count, layer, digest] = three_untrue(&head).map(|head| (head, Some(17)));
    [(head, None), count, layer, digest, (ZEROS, Some(17))]
}

/// Gives the scope's example of each number and registers that are accepted, each with the number
/// that is due.
fn registers(accepted: &[Vec<u8>]) -> Vec<(Vec<u8>, Option<u8>)> {
    let faulty = faulty_registers().into_iter().zip((1..).map(Some));
    let mut registers: Vec<_> = faulty.collect();
    registers.extend(accepted.iter().map(|register| (register.clone(), None)));
    registers
}

/// A register of 4,096 records.
fn full() -> Set {
    set(Kind::Ordinary, 4_096)
}

/// A register of 4,096 records, of which `a/b1` with its value is the first.
fn full_with_a_first() -> Set {
    let mut full = full();
    full.pop_first();
    full.insert(b"a/b1".to_vec(), VALUE);
    full
}

/// Register, key, absence, output: all combinations of faults.
#[test]
fn at_or_after_and_before() {
    let accepted = [one_record(), table(&full_with_a_first())];
    let mut cases = 0;
    for (register, number) in registers(&accepted) {
        for call in NEIGHBOURS {
            // Two keys beside `a/b1`, and one beside which no record lies.
            let [one, other, beside_none]: [&[u8]; 3] = match call {
                Neighbour::AtOrAfter => [b"a/b1", b"a/b0", b"~/~"],
                Neighbour::Before => [b"a/b10", b"a/b2", b"a/b1"],
            };
            for (key, due_on_key) in [
                (one, None),
                (other, None),
                (beside_none, Some(12)),
                (b"ab", Some(7)),
                (b"a/..", Some(7)),
                (b"", Some(7)),
            ] {
                for (out_length, no_room) in [(4, None), (9, None), (3, Some(13)), (0, Some(13))] {
                    let due = [number, due_on_key, no_room];
                    let (mut output, mut value) = (vec![0; out_length], [0; 33]);
                    let expected = match due.iter().flatten().next() {
                        Some(number) => Err(*number),
                        None => {
                            output[..4].copy_from_slice(b"a/b1");
                            value = VALUE.bytes();
                            Ok(4)
                        }
                    };
                    expect_neighbour(&register, call, key, expected, &output, &value);
                    cases += 1;
                }
            }
        }
    }
    assert_eq!(cases, (10 + 2) * 2 * 6 * 4);
}

/// Register, first key, last key, their order, output: all combinations of faults. No run has more
/// records than the register, so number 5 is due on lent registers alone.
#[test]
fn run() {
    let accepted = [one_record(), table(&full_with_a_first())];
    // Between lawful keys lies `a/b1` alone, where the first is not greater than the last.
    let first_keys = [
        (&b"a/b1"[..], None),
        (b"a/b0", None),
        (b"a/c", None),
        (b"ab", Some(7)),
        (b"a/.", Some(7)),
        (b"", Some(7)),
    ];
    let last_keys = [
        (&b"a/b1"[..], None),
        (b"a/b2", None),
        (b"b", Some(7)),
        (b"/", Some(7)),
        (b"a/..", Some(7)),
        (b"", Some(7)),
    ];
    let (mut cases, mut counts) = (0, [0; 15]);
    for (register, number) in registers(&accepted) {
        for (first, first_fault) in first_keys {
            for (last, last_fault) in last_keys {
                let falling = (first > last).then_some(14);
                for (out_length, no_room) in [(64, None), (63, Some(13)), (0, Some(13))] {
                    let due = [number, first_fault, last_fault, falling, no_room];
                    let call = Call::run(first, last);
                    let number = expect_first(&register, &call, out_length, &due, &one_record());
                    counts[usize::from(number)] += 1;
                    cases += 1;
                }
            }
        }
    }
    assert_eq!(cases, (10 + 2) * 6 * 6 * 3);
    // Each of 1 to 10 is due on one of the registers, and 7 on 30 pairs of keys as well.
    assert!((1..=10).all(|number| counts[number] >= 6 * 6 * 3));
    assert_eq!(counts[7], 6 * 6 * 3 + 2 * 30 * 3);
    assert_eq!(counts[14], 2 * 2 * 3);
    assert_eq!((counts[0], counts[13]), (2 * 4, 2 * 4 * 2));
}

/// Register, head, key, value, count, output: all combinations of faults.
#[test]
fn put_and_join() {
    let full = table(&full());
    let (mut cases, mut counts) = (0, [0; 18]);
    for (register, number) in registers(&[EMPTY.to_vec(), full.clone()]) {
        // A new key is one too many where there are 4,096 records.
        let count = (register == full).then_some(5);
        for (head, untrue) in heads(&register) {
            for (key, unlawful) in [
                (&b"a/b1"[..], None),
                (b"ab", Some(7)),
                (b"a/.", Some(7)),
                (b"", Some(7)),
            ] {
                for (value, wrong) in [
                    (&VALUE.bytes()[..], None),
                    (&VALUE.bytes()[..32], Some(11)),
                    (&[0x71; 34], Some(11)),
                    (&[0x54; 33], Some(11)),
                    (b"", Some(11)),
                ] {
                    for (length, no_room) in [(64, None), (63, Some(13)), (0, Some(13))] {
                        let due = [number, untrue, unlawful, wrong, count, no_room];
                        for call in [Call::put_bytes(key, value), Call::join_bytes(key, value)] {
                            let one = one_record();
                            let found =
                                expect_first_with(&register, head, &call, length, &due, &one);
                            counts[usize::from(found)] += 1;
                            cases += 1;
                        }
                    }
                }
            }
        }
    }
    assert_eq!(cases, (10 + 2) * 5 * 4 * 5 * 3 * 2);
    // Four heads of the two accepted registers are untrue, whatever else is handed over.
    assert_eq!(counts[17], 2 * 4 * 4 * 5 * 3 * 2);
    // Of these registers a lawful key with one of four wrong values.
    assert_eq!(counts[11], 2 * 4 * 3 * 2);
    assert_eq!((counts[0], counts[13]), (2, 2 * 2));
}

/// Register, head, key, absence, output: all combinations of faults. A register of 4,096 records
/// has no number 5, whether the key is there or not.
#[test]
fn remove() {
    let mut full = full_with_a_first();
    let full_table = table(&full);
    full.remove(&b"a/b1"[..]);
    let without = table(&full);

    let (mut cases, mut counts) = (0, [0; 18]);
    for (register, number) in registers(&[one_record(), full_table.clone()]) {
        let expected = match register == full_table {
            true => &without[..],
            false => &EMPTY,
        };
        let whole = expected.len();
        for (head, untrue) in heads(&register) {
            for (key, due_on_key) in [
                (&b"a/b1"[..], None),
                (b"a/b3", Some(12)),
                (b"ab", Some(7)),
                (b"a/..", Some(7)),
                (b"", Some(7)),
            ] {
                for (length, no_room) in [(whole, None), (whole - 1, Some(13)), (0, Some(13))] {
                    let due = [number, untrue, due_on_key, no_room];
                    let call = Call::remove(key);
                    let found = expect_first_with(&register, head, &call, length, &due, expected);
                    counts[usize::from(found)] += 1;
                    cases += 1;
                }
            }
        }
    }
    assert_eq!(cases, (10 + 2) * 5 * 5 * 3);
    assert_eq!(counts[17], 2 * 4 * 5 * 3);
    assert_eq!((counts[0], counts[13]), (2, 2 * 2));
}

/// First register, its head, second register, count, output: all combinations of faults. The head
/// of the second register is one more that is untrue of the first.
#[test]
fn merge() {
    let full = table(&full());
    let (mut cases, mut counts) = (0, [0; 18]);
    for (first, first_number) in registers(&[EMPTY.to_vec(), full.clone()]) {
        let heads = heads(&first);
        for (second, second_number) in registers(&[one_record()]) {
            let count = (first == full).then_some(5);
            for (head, untrue) in heads.into_iter().chain([(head_for(&second), Some(17))]) {
                for (length, no_room) in [(64, None), (63, Some(13)), (0, Some(13))] {
                    let due = [first_number, untrue, second_number, count, no_room];
                    let (call, one) = (Call::merge(&second), one_record());
                    let found = expect_first_with(&first, head, &call, length, &due, &one);
                    counts[usize::from(found)] += 1;
                    cases += 1;
                }
            }
        }
    }
    assert_eq!(cases, (10 + 2) * (10 + 1) * 6 * 3);
    assert_eq!(counts[17], 2 * (10 + 1) * 5 * 3);
    assert_eq!((counts[0], counts[13]), (1, 2));

    // The second register is the full one.
    let mut cases = 0;
    for (first, number) in registers(&[one_record()]) {
        for out_length in [0, 64, full.len() + 100] {
            let call = Call::merge(&full);
            expect_refusal(&first, &call, out_length, number.unwrap_or(5));
            cases += 1;
        }
    }
    assert_eq!(cases, (10 + 1) * 3);
}

/// First register, second register, output: all combinations of faults. No difference has more
/// records than the second register, so number 5 is due on lent registers alone.
#[test]
fn difference() {
    let full = table(&full());
    let mut cases = 0;
    for (first, first_number) in registers(&[EMPTY.to_vec(), full.clone()]) {
        for (second, second_number) in registers(&[one_record()]) {
            for (out_length, no_room) in [(64, None), (63, Some(13)), (0, Some(13))] {
                let due = [first_number, second_number, no_room];
                let call = Call::difference(&second);
                expect_first_and(&first, &call, out_length, &due, &one_record(), 1);
                cases += 1;
            }
        }
    }
    assert_eq!(cases, (10 + 2) * (10 + 1) * 3);
}

/// Register, collection, number of the screen, output: all combinations of faults. No screen has
/// more records than the register, so number 5 is due on lent registers alone.
#[test]
fn screen() {
    let accepted = [one_record(), table(&full_with_a_first())];
    // The collection `a` has one record, and the others that are lawful have none.
    let collections = [
        (&b"a"[..], None, one_record()),
        (b"ab", None, EMPTY.to_vec()),
        (b".", None, EMPTY.to_vec()),
        (b"", Some(7), Vec::new()),
        (b"a/", Some(7), Vec::new()),
        (b"a/b1", Some(7), Vec::new()),
        (&[b'a'; 255], Some(7), Vec::new()),
    ];
    let numbers = [
        (0, None),
        (1, Some(15)),
        (1 << 32, Some(15)),
        (1 << 61, Some(15)),
        (u64::MAX, Some(15)),
    ];
    let (mut cases, mut counts) = (0, [0; 16]);
    for (register, number) in registers(&accepted) {
        for (collection, unlawful, shown) in &collections {
            for (n, past) in numbers {
                for out_length in [
                    shown.len() + 9,
                    shown.len(),
                    shown.len().saturating_sub(1),
                    0,
                ] {
                    let no_room = (out_length < shown.len()).then_some(13);
                    let due = [number, *unlawful, past, no_room];
                    let call = Call::screen(collection, n);
                    let number = expect_first_and(&register, &call, out_length, &due, shown, 1);
                    counts[usize::from(number)] += 1;
                    cases += 1;
                }
            }
        }
    }
    assert_eq!(cases, (10 + 2) * 7 * 5 * 4);
    // Each of 1 to 10 is due on one of the registers, and 7 on 4 collections as well.
    assert!((1..=10).all(|number| counts[number] >= 7 * 5 * 4));
    assert_eq!(counts[7], 7 * 5 * 4 + 2 * 4 * 5 * 4);
    assert_eq!(counts[15], 2 * 3 * 4 * 4);
    assert_eq!((counts[0], counts[13]), (2 * 3 * 2, 2 * 3 * 2));
}

/// Register, key, output: all combinations of faults. The order of verify stands with its tests.
#[test]
fn path() {
    let accepted = [one_record(), table(&full_with_a_first())];
    let mut cases = 0;
    for (register, number) in registers(&accepted) {
        let held = independent::set_of(&register).unwrap_or_default();
        for (key, unlawful) in [
            (&b"a/b1"[..], None),
            (b"a/b0", None),
            (b"~/~", None),
            (b"ab", Some(7)),
            (b"a/..", Some(7)),
            (b"", Some(7)),
        ] {
            let call = Call::path(key);
            let path = call.result(held.clone()).unwrap_or_default();
            for out_length in [path.len() + 9, path.len(), path.len().saturating_sub(1), 0] {
                let no_room = (out_length < path.len()).then_some(13);
                let due = [number, unlawful, no_room];
                expect_first(&register, &call, out_length, &due, &path);
                cases += 1;
            }
        }
    }
    assert_eq!(cases, (10 + 2) * 6 * 4);
}

/// The count that results is judged behind what is handed over and before the output.
#[test]
fn the_count_between_its_neighbours() {
    let full_set = full();
    let full = table(&full_set);
    let room = full.len() + 1_000;
    // 11 before 5, and 5 before 13.
    for value in wrong_values() {
        for call in [
            Call::put_bytes(b"a/b1", &value),
            Call::join_bytes(b"a/b1", &value),
        ] {
            expect_refusal(&full, &call, room, 11);
        }
    }
    for call in [Call::put(b"a/b1", &VALUE), Call::join(b"a/b1", &VALUE)] {
        expect_refusal(&full, &call, room, 5);
        expect_refusal(&full, &call, 0, 5);
    }
    // 12 where a put of the same key would have 5.
    expect_refusal(&full, &Call::remove(b"a/b1"), room, 12);
    expect_refusal(&full, &Call::remove(b"a/b1"), 0, 12);
    // A present key is not one too many, and the output is judged.
    let key = full_set.keys().next().expect("there are records");
    for call in [Call::put(key, &VALUE), Call::join(key, &VALUE)] {
        expect_refusal(&full, &call, full.len() - 1, 13);
    }
    expect_refusal(&full, &Call::merge(&full), full.len() - 1, 13);
}
