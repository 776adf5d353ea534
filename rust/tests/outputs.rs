//! Outputs of every length, and the buffers of the writing calls at their limits.

use crate::common::calls::{
    mijdegen_difference, mijdegen_join, mijdegen_merge, mijdegen_path, mijdegen_put,
    mijdegen_remove, mijdegen_screen,
};
use crate::common::forge::{one_record, EMPTY};
use crate::common::heads::{head_for, head_of, SurroundedHead, UNTRUE};
use crate::common::neighbours::NEIGHBOURS;
use crate::common::sets::{collection_of, part, screens_of, set, set_of_layers, Kind};
use crate::common::values::library_value;
use crate::common::writes::{expect_refusal, expect_table_and, Call};
use independent::{table, Set, Value, LONGEST};
use mijdegen::{difference, join, merge, path, put, remove, run, screen, Listed, Refusal, Screen};
use std::ptr;

const VALUE: Value = Value::dag_cbor([0x11; 32]);

/// A call with its register, its result and the second number of its answer, 0 where there is none.
type Case = (Vec<u8>, Call, Vec<u8>, usize);

/// Gives seven calls on registers of the set. Where a record is new or goes away, it is the n-th, a
/// run begins there, a path leads there, and the screen is the last of its collection.
fn calls(set: &Set, n: usize) -> [Case; 7] {
    let whole = table(set);
    let others = table(&part(set, |other| other != n));
    let odd = table(&part(set, |n| n % 2 == 1));
    let even = table(&part(set, |n| n % 2 == 0));
    let (key, value) = set.iter().nth(n).expect("n is less than the count");
    let last = set.keys().next_back().expect("there are records");
    let rest = table(&part(set, |other| other >= n));
    let screens = screens_of(set, collection_of(key));
    let shown = table(&screens[screens.len() - 1]);
    let screen = Call::screen(collection_of(key), screens.len() as u64 - 1);
    let path = Call::path(key);
    let opened = path.result(set.clone()).expect("a lawful key");
    [
        (whole.clone(), Call::run(key, last), rest, 0),
        (others.clone(), Call::put(key, value), whole.clone(), 0),
        (others.clone(), Call::join(key, value), whole.clone(), 0),
        (whole.clone(), Call::remove(key), others, 0),
        (odd, Call::merge(&even), whole.clone(), 0),
        (whole.clone(), screen, shown, screens.len()),
        (whole, path, opened, 0),
    ]
}

/// The table is written into what remains of the output after the pages before it: no room is
/// found at any of its pages, and the output is wholly zero.
#[test]
fn every_length_of_the_output() {
    let sets = [
        set_of_layers(&[0]),
        set_of_layers(&[0, 1, 0]),
        set_of_layers(&[0, 2]),
        set_of_layers(&[0, 0, 1, 0, 3, 1]),
        set(Kind::Chains, 3),
        set(Kind::SharedPrefix, 3),
        set(Kind::Ordinary, 10),
    ];
    let (mut cases, mut lengths) = (0, 0);
    for set in &sets {
        for (register, call, result, second) in calls(set, set.len() / 2) {
            for length in 0..result.len() {
                expect_refusal(&register, &call, length, 13);
                cases += 1;
            }
            for length in result.len()..result.len() + 70 {
                expect_table_and(&register, &call, length, &result, second);
                cases += 1;
            }
            lengths += result.len() + 70;
        }
    }
    assert_eq!(cases, lengths);
    assert_eq!(cases, 28_483);
}

/// Outputs around the greatest length of a table and longer ones: all that follows is zero.
#[test]
fn very_long_outputs() {
    let mut cases = 0;
    for set in [set_of_layers(&[0, 1, 0]), set(Kind::Ordinary, 100)] {
        for (register, call, result, second) in calls(&set, 1) {
            for length in [LONGEST - 1, LONGEST, LONGEST + 1, LONGEST + 1_000] {
                expect_table_and(&register, &call, length, &result, second);
                // The same call on the first page alone is refused.
                expect_refusal(&register[..5], &call, length, 2);
                cases += 2;
            }
        }
    }
    assert_eq!(cases, 2 * 7 * 4 * 2);
}

/// The inputs may lie at any address, and other bytes may stand around them.
#[test]
fn any_address() {
    let set = set(Kind::Ordinary, 10);
    let whole = table(&set);
    let others = table(&part(&set, |n| n != 4));
    let alone = table(&part(&set, |n| n == 4));
    let record = |n: usize| set.iter().nth(n).expect("there are 10");
    let ((key, value), previous, next) = (record(4), record(3), record(5));
    let value = library_value(value);
    let collection = collection_of(key);
    let shown = table(&screens_of(&set, collection)[0]);
    let opened = Call::path(key).result(set.clone()).expect("a lawful key");
    let (head_of_others, head_of_whole) = (head_for(&others), head_of(&set));
    let mut cases = 0;
    for offset in 0..16 {
        // 3 bytes that stand around them; the last could be the start of a page.
        for around in [0x00, 0xff, 0xa2] {
            let [register, key, second, collection] = [&others[..], key, &whole, collection]
                .map(|bytes| [&vec![around; offset][..], bytes, &[around; 16]].concat());
            let [register, key, second, collection] = [&register, &key, &second, &collection]
                .map(|buffer| &buffer[offset..buffer.len() - 16]);

            let (mut head, mut out) = (head_of_others, vec![0xaa; whole.len()]);
            let length = put(register, &mut head, key, &value, &mut out);
            assert_eq!((length, head), (Ok(whole.len()), head_of_whole));
            assert!(out == whole, "put at {offset}");
            head = head_of_others;
            let length = join(register, &mut head, key, &value, &mut out);
            assert_eq!((length, head), (Ok(whole.len()), head_of_whole));
            assert!(out == whole, "join at {offset}");
            head = head_of_others;
            let length = merge(register, &mut head, second, &mut out);
            assert_eq!((length, head), (Ok(whole.len()), head_of_whole));
            assert!(out == whole, "merge at {offset}");
            out.truncate(others.len());
            let length = remove(second, &mut head, key, &mut out);
            assert_eq!((length, head), (Ok(others.len()), head_of_others));
            assert!(out == others, "remove at {offset}");
            out.truncate(alone.len());
            assert_eq!(run(second, key..=key, &mut out), Ok(alone.len()));
            assert!(out == alone, "run at {offset}");
            out.resize(shown.len(), 0xaa);
            let found = Screen {
                length: shown.len(),
                screens: 1,
            };
            assert_eq!(screen(second, collection, 0, &mut out), Ok(found));
            assert!(out == shown, "screen at {offset}");
            out.resize(opened.len(), 0xaa);
            assert_eq!(path(second, key, &mut out), Ok(opened.len()));
            assert!(out == opened, "path at {offset}");
            cases += 7;

            // The record beside the key is the one after it where the key is absent.
            for (call, (beside, value)) in NEIGHBOURS.into_iter().zip([next, previous]) {
                let listed = Listed {
                    key_length: beside.len(),
                    value: library_value(value),
                };
                out.resize(beside.len(), 0xaa);
                assert_eq!(call.safe(register, key, &mut out), Ok(listed));
                assert!(out == *beside, "{call:?} at {offset}");
                cases += 1;
            }
        }
    }
    assert_eq!(cases, 16 * 3 * 9);
}

/// Lengths whose low 32 bits alone would be those of what is wanted. Most of the memory is never
/// written, so the system only sets addresses aside.
#[cfg(target_pointer_width = "64")]
#[test]
fn lengths_over_32_bits() {
    let mut long = vec![0; (1 << 32) + 64];
    let (mut out, value) = ([0xaa; 64], library_value(&VALUE));
    let refused = |result: Result<usize, Refusal>, refusal: Refusal, out: &mut [u8; 64]| {
        assert_eq!(result, Err(refusal));
        assert_eq!(*out, [0; 64]);
        out.fill(0xaa);
    };

    // The heads are true where there is an accepted register, and stay as they are.
    let heads = [UNTRUE, head_for(&EMPTY), head_for(&one_record())];
    let [mut of_none, mut of_empty, mut of_one] = heads;

    long[..7].copy_from_slice(&EMPTY);
    let register = &long[..(1 << 32) + 7];
    let too_long = Refusal::TooLong;
    for call in NEIGHBOURS {
        let found = call.safe(register, b"a/b1", &mut out);
        refused(found.map(|found| found.key_length), too_long, &mut out);
    }
    refused(
        run(register, b"a/b1"..=b"a/b1", &mut out),
        too_long,
        &mut out,
    );
    for call in [put, join] {
        let found = call(register, &mut of_none, b"a/b1", &value, &mut out);
        refused(found, too_long, &mut out);
    }
    let found = remove(register, &mut of_none, b"a/b1", &mut out);
    refused(found, too_long, &mut out);
    let found = merge(register, &mut of_none, &EMPTY, &mut out);
    refused(found, too_long, &mut out);
    let found = merge(&EMPTY, &mut of_empty, register, &mut out);
    refused(found, too_long, &mut out);
    for (first, second) in [(register, &EMPTY[..]), (&EMPTY, register)] {
        let found = difference(first, second, &mut out).map(|found| found.length);
        refused(found, too_long, &mut out);
    }
    let found = screen(register, b"a", 0, &mut out).map(|found| found.length);
    refused(found, too_long, &mut out);
    refused(path(register, b"a/b1", &mut out), too_long, &mut out);

    long[..4].copy_from_slice(b"a/b1");
    let key = &long[..(1 << 32) + 4];
    let unlawful = Refusal::UnlawfulKey;
    for call in NEIGHBOURS {
        let found = call.safe(&one_record(), key, &mut out);
        refused(found.map(|found| found.key_length), unlawful, &mut out);
    }
    for (first, last) in [(key, &b"a/b1"[..]), (b"a/b1", key), (key, key)] {
        refused(
            run(&one_record(), first..=last, &mut out),
            unlawful,
            &mut out,
        );
    }
    for call in [put, join] {
        let found = call(&EMPTY, &mut of_empty, key, &value, &mut out);
        refused(found, unlawful, &mut out);
    }
    let found = remove(&one_record(), &mut of_one, key, &mut out);
    refused(found, unlawful, &mut out);
    refused(path(&one_record(), key, &mut out), unlawful, &mut out);
    let collection = &long[..(1 << 32) + 1];
    let found = screen(&one_record(), collection, 0, &mut out).map(|found| found.length);
    refused(found, unlawful, &mut out);

    // Such a value can be handed to the C functions alone.
    long[0] = 0x71;
    let (key, value) = (b"a/b1".as_ptr(), &long[..(1 << 32) + 33]);
    for call in [mijdegen_put, mijdegen_join] {
        let (head, reg, start) = (&mut of_empty, EMPTY.as_ptr(), out.as_mut_ptr());
        // SAFETY: Each pointer has as many bytes as the library is told.
        let answer = unsafe { call(reg, 7, head, key, 4, value.as_ptr(), value.len(), start, 64) };
        assert_eq!((answer, out), (11, [0; 64]));
        out.fill(0xaa);
    }
    assert_eq!([of_none, of_empty, of_one], heads);
}

#[test]
fn raw_calls_do_not_touch_empty_buffers() {
    let register = one_record();
    let (reg, reg_len) = (register.as_ptr(), register.len());
    let value = VALUE.bytes();
    let (key, value) = (b"a/b1".as_ptr(), value.as_ptr());
    let (none, no_out) = (ptr::null(), ptr::null_mut());
    let mut out = [0xaa; 64];
    let lent = head_for(&register);
    let mut surrounded = SurroundedHead::new(&lent, 0);
    let head = surrounded.start();
    // SAFETY: A buffer of length 0 is neither read nor written, and the others are whole.
    unsafe {
        for call in [mijdegen_put, mijdegen_join] {
            assert_eq!(call(none, 0, head, none, 0, none, 0, no_out, 0), 2);
            assert_eq!(call(reg, reg_len, head, none, 0, none, 0, no_out, 0), 7);
            assert_eq!(call(reg, reg_len, head, key, 4, none, 0, no_out, 0), 11);
            assert_eq!(call(reg, reg_len, head, key, 4, value, 33, no_out, 0), 13);
            let (start, length) = (out.as_mut_ptr(), out.len());
            assert_eq!(call(none, 0, head, key, 4, value, 33, start, length), 2);
            assert_eq!(out, [0; 64]);
            out.fill(0xaa);
        }
        let call = mijdegen_remove;
        assert_eq!(call(none, 0, head, none, 0, no_out, 0), 2);
        assert_eq!(call(reg, reg_len, head, none, 0, no_out, 0), 7);
        assert_eq!(call(reg, reg_len, head, key, 4, no_out, 0), 13);
        let call = mijdegen_path;
        assert_eq!(call(none, 0, none, 0, no_out, 0), 2);
        assert_eq!(call(reg, reg_len, none, 0, no_out, 0), 7);
        assert_eq!(call(reg, reg_len, key, 4, no_out, 0), 13);
        let call = mijdegen_merge;
        assert_eq!(call(none, 0, head, none, 0, no_out, 0), 2);
        assert_eq!(call(reg, reg_len, head, none, 0, no_out, 0), 2);
        assert_eq!(call(none, 0, head, reg, reg_len, no_out, 0), 2);
        assert_eq!(call(reg, reg_len, head, reg, reg_len, no_out, 0), 13);
        let call = mijdegen_difference;
        assert_eq!(call(none, 0, none, 0, no_out, 0), 2);
        assert_eq!(call(reg, reg_len, none, 0, no_out, 0), 2);
        assert_eq!(call(none, 0, reg, reg_len, no_out, 0), 2);
        assert_eq!(call(reg, reg_len, reg, reg_len, no_out, 0), 13);
        assert_eq!(mijdegen_screen(none, 0, none, 0, 0, no_out, 0), 2);
        assert_eq!(mijdegen_screen(none, 0, key, 1, 0, no_out, 0), 2);
        assert_eq!(mijdegen_screen(reg, reg_len, none, 0, 0, no_out, 0), 7);
        assert_eq!(mijdegen_screen(reg, reg_len, key, 1, 1, no_out, 0), 15);
        assert_eq!(mijdegen_screen(reg, reg_len, key, 1, 0, no_out, 0), 13);
    }
    assert_eq!(surrounded.contents(), lent);
}
