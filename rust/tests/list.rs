//! `list` against the independent crate and against the sets themselves.

use crate::common::calls::{compare_list, mijdegen_list, raw_list};
use crate::common::forge::EMPTY;
use crate::common::sets::{set, sets_to, Kind, KINDS};
use crate::common::values::library_value;
use independent::table;
use mijdegen::{list, Listed, Refusal, LONGEST, LONGEST_KEY};
use std::ptr;

/// Every record with outputs that are long enough, and with some that are too short.
#[test]
fn each_record() {
    let mut cases = 0;
    for (kind, set) in sets_to(100) {
        let register = table(&set);
        for (n, (key, value)) in set.iter().enumerate() {
            let length = key.len();
            // 5 outputs with room for the key.
            for more in [0, 1, 31, 300 - length, 1_000 - length] {
                let mut expected = key.clone();
                expected.resize(length + more, 0);
                let found = raw_list(&mut register.clone(), n as u64, length + more);
                assert_eq!(found.0, 256 * length as u64, "{kind:?} {n}");
                assert!(found.1 == expected, "{kind:?} {n}");
                assert_eq!(found.2, value.bytes(), "{kind:?} {n}");
                cases += 1;
            }
            // 4 outputs without room.
            for short in [length - 1, length - 2, 1, 0] {
                let found = raw_list(&mut register.clone(), n as u64, short);
                assert_eq!(found, (13, vec![0; short], [0; 33]), "{kind:?} {n}");
                cases += 1;
            }
        }
    }
    assert_eq!(cases, KINDS.len() * (1 + 2 + 3 + 10 + 100) * 9);
}

/// The same calls by the safe function, against the independent crate.
#[test]
fn each_record_by_the_safe_function() {
    let mut cases = 0;
    for (kind, set) in sets_to(10) {
        let register = table(&set);
        for (n, (key, value)) in set.iter().enumerate() {
            let key_length = key.len();
            for length in [key_length, key_length + 1, LONGEST_KEY, 300] {
                let mut out = vec![0xaa; length];
                let expected = Listed {
                    key_length,
                    value: library_value(value),
                };
                assert_eq!(list(&register, n, &mut out), Ok(Some(expected)), "{kind:?}");
                assert_eq!(out[..key_length], **key);
                assert!(out[key_length..].iter().all(|byte| *byte == 0));
                assert_eq!(compare_list(&register, n as u64, length), Ok(key_length));
                cases += 1;
            }
            for length in [key_length - 1, 2, 1, 0] {
                let mut out = vec![0xaa; length];
                let found = list(&register, n, &mut out);
                assert_eq!(found, Err(Refusal::NoRoom), "{kind:?}");
                assert!(out.iter().all(|byte| *byte == 0));
                assert_eq!(compare_list(&register, n as u64, length), Err(13));
                cases += 1;
            }
        }
    }
    assert_eq!(cases, KINDS.len() * (1 + 2 + 3 + 10) * 8);
}

/// Records all over the larger registers, with the first and the last.
#[test]
fn records_of_large_registers() {
    let mut cases = 0;
    for kind in KINDS {
        for (count, step) in [(1_000, 37), (4_096, 585)] {
            let set = set(kind, count);
            let register = table(&set);
            for (n, (key, value)) in set.iter().enumerate() {
                if n % step != 0 && n + 1 != count {
                    continue;
                }
                let mut out = [0xaa; LONGEST_KEY];
                let found = list(&register, n, &mut out);
                let expected = Listed {
                    key_length: key.len(),
                    value: library_value(value),
                };
                assert_eq!(found, Ok(Some(expected)), "{kind:?} {n}");
                assert_eq!(out[..key.len()], **key, "{kind:?} {n}");
                assert!(out[key.len()..].iter().all(|byte| *byte == 0));
                cases += 1;
            }
            compare_list(&register, count as u64 - 1, 256).expect("there is room");
            assert_eq!(compare_list(&register, count as u64, 256), Ok(0));
        }
    }
    // The last record of 1,000 and that of 4,096 stand on a step.
    assert_eq!(cases, KINDS.len() * (28 + 8));
}

/// Lists a register from its first record to past the end, as a caller would.
#[test]
fn all_records_in_turn() {
    for kind in [Kind::Ordinary, Kind::Chains] {
        let set = set(kind, 500);
        let register = table(&set);
        let mut out = [0; LONGEST_KEY];
        let mut records = Vec::new();
        while let Some(listed) = list(&register, records.len(), &mut out).expect("accepted") {
            records.push((out[..listed.key_length].to_vec(), listed.value));
        }
        assert_eq!(records.len(), 500);
        let expected = set.into_iter();
        let expected = expected.map(|(key, value)| (key, library_value(&value)));
        assert!(records.into_iter().eq(expected), "{kind:?}");
    }
}

/// From the count on it is past the end, whatever the length of the output.
#[test]
fn past_the_end() {
    let mut cases = 0;
    for (kind, set) in sets_to(100) {
        let register = table(&set);
        let count = set.len() as u64;
        let numbers = [
            count,
            count + 1,
            count + 255,
            4_095.max(count),
            4_096,
            4_097,
            1 << 16,
            (1 << 32) - 1,
            // The low 32 bits alone would be a record.
            1 << 32,
            (1 << 32) + count / 2,
            1 << 63,
            u64::MAX - 1,
            u64::MAX,
        ];
        for n in numbers {
            for length in [0, 1, 3, 256, 300] {
                let found = raw_list(&mut register.clone(), n, length);
                assert_eq!(found, (0, vec![0; length], [0; 33]), "{kind:?} {n}");
                cases += 1;
            }
        }
        // Two numbers by the safe function.
        for n in [count as usize, usize::MAX] {
            let mut out = [0xaa; 20];
            assert_eq!(list(&register, n, &mut out), Ok(None), "{kind:?}");
            assert_eq!(out, [0; 20]);
            assert_eq!(compare_list(&register, n as u64, 0), Ok(0));
        }
    }
    assert_eq!(cases, KINDS.len() * 6 * 13 * 5);
}

/// The register is judged before the number and the output.
#[test]
fn refused_registers() {
    let ordinary = table(&set(Kind::Ordinary, 10));
    let cut = &ordinary[..ordinary.len() - 1];
    let mut followed = ordinary.clone();
    followed.push(0);
    let mut departed = ordinary.clone();
    *departed.last_mut().expect("there are bytes") ^= 1;
    let too_long = vec![0; LONGEST + 1];
    let mut cases = 0;
    for (register, number) in [
        (cut, 2),
        (&followed, 4),
        (&departed, 3),
        (&too_long, 1),
        (&[], 2),
    ] {
        for n in [0, 9, 10, 4_096, u64::MAX] {
            for length in [0, 3, 256, 300] {
                assert_eq!(compare_list(register, n, length), Err(number));
                let found = raw_list(&mut register.to_vec(), n, length);
                assert_eq!(found, (u64::from(number), vec![0; length], [0; 33]));
                cases += 1;
            }
        }
    }
    assert_eq!(cases, 5 * 5 * 4);
}

/// A length whose low 32 bits alone would be that of an accepted register. Most of the memory is
/// never written, so the system only sets addresses aside.
#[cfg(target_pointer_width = "64")]
#[test]
fn a_length_over_32_bits_is_refused() {
    let mut register = vec![0; (1 << 32) + EMPTY.len()];
    register[..EMPTY.len()].copy_from_slice(&EMPTY);
    let mut out = [0xaa; 10];
    assert_eq!(list(&register, 0, &mut out), Err(Refusal::TooLong));
    assert_eq!(out, [0; 10]);
}

/// An output longer than the longest register has zeros to its end.
#[test]
fn a_very_long_output() {
    let register = table(&set(Kind::Ordinary, 3));
    let length = LONGEST + 1_000;
    // The 3 records, and past the end.
    for n in 0..4 {
        let (_, out, _) = raw_list(&mut register.clone(), n, length);
        let key_length = compare_list(&register, n, length).expect("there is room");
        assert!(out[key_length..].iter().all(|byte| *byte == 0));
        assert_eq!(key_length == 0, n == 3);
    }
    let (answer, out, value) = raw_list(&mut register[1..].to_vec(), 0, length);
    assert_eq!((answer, value), (3, [0; 33]));
    assert!(out.iter().all(|byte| *byte == 0));
}

#[test]
fn raw_call_does_not_touch_empty_buffers() {
    let mut value = [0xaa; 33];
    let register = table(&set(Kind::Ordinary, 1));
    // SAFETY: A buffer of length 0 is neither read nor written, and the others are whole.
    unsafe {
        let answer = mijdegen_list(ptr::null(), 0, 0, ptr::null_mut(), 0, &mut value);
        assert_eq!((answer, value), (2, [0; 33]));

        value.fill(0xaa);
        let lent = register.as_ptr();
        let answer = mijdegen_list(lent, register.len(), 0, ptr::null_mut(), 0, &mut value);
        assert_eq!((answer, value), (13, [0; 33]));

        value.fill(0xaa);
        let answer = mijdegen_list(lent, register.len(), 1, ptr::null_mut(), 0, &mut value);
        assert_eq!((answer, value), (0, [0; 33]));

        value.fill(0xaa);
        let empty = EMPTY.as_ptr();
        let answer = mijdegen_list(empty, EMPTY.len(), 0, ptr::null_mut(), 0, &mut value);
        assert_eq!((answer, value), (0, [0; 33]));
    }
}
