//! `slash` and `split` against the independent crate, against answers that are known from how the
//! keys are made, and against the other calls that take a key.

use crate::common::calls::{
    answer, compare_lookup, compare_slash, mijdegen_slash, number_of, raw_slash, shown,
};
use crate::common::forge::EMPTY;
use crate::common::heads::head_for;
use crate::common::lists::damaged;
use crate::common::neighbours::NEIGHBOURS;
use crate::common::sets::{
    dot_name_keys, dotted_keys, greatest_key, keys_near, keys_with, least_key, set,
    short_unlawful_keys, unlawful_keys, KINDS,
};
use crate::common::values::filled;
use crate::common::writes::Call;
use crate::common::Random;
use independent::{sha256, table, Set, LONGEST_KEY};
use mijdegen::{screen, slash, split, verify, Presence, Refusal, Split, LONGEST};
use std::ptr::{self, NonNull};
use std::time::{Duration, Instant};

/// Compares slash with the independent crate, and with lookup in the empty register, which refuses
/// just what breaks the rule with 7. Gives the number of bytes before the slash.
fn judged(key: &[u8]) -> Result<usize, u8> {
    let found = compare_slash(key);
    let absent = Err(if found.is_ok() { 12 } else { 7 });
    assert_eq!(compare_lookup(&EMPTY, key), absent, "{}", shown(key));
    found
}

/// Gives a key of this length, with a slash at each of the places.
fn key_of(length: usize, slashes: &[usize]) -> Vec<u8> {
    let mut key = vec![b'a'; length];
    slashes.iter().for_each(|place| key[*place] = b'/');
    key
}

/// Keys whose answer is written down here.
#[test]
fn known_keys() {
    let keys: [(&[u8], Result<usize, u8>); 26] = [
        (b"a/b", Ok(1)),
        (b"a/b1", Ok(1)),
        (b"ab/c", Ok(2)),
        (b"app.bsky.feed.post/3jqfcqzm3fo2j", Ok(18)),
        (b"AZaz09.-_:~/~:_-.90zaZA", Ok(11)),
        (b"a/...", Ok(1)),
        (b"./a", Ok(1)),
        (b"../a", Ok(2)),
        (b".../...", Ok(3)),
        (b"a/.b", Ok(1)),
        (b"a/..b", Ok(1)),
        (b"a/b.", Ok(1)),
        (&key_of(256, &[1]), Ok(1)),
        (&key_of(256, &[254]), Ok(254)),
        (&least_key(), Ok(254)),
        (b"a/.", Err(7)),
        (b"a/..", Err(7)),
        (b"../..", Err(7)),
        (b"", Err(7)),
        (b"/", Err(7)),
        (b"ab", Err(7)),
        (b"a/", Err(7)),
        (b"/a", Err(7)),
        (b"a/b/c", Err(7)),
        (b"a/b c", Err(7)),
        (&key_of(257, &[1]), Err(7)),
    ];
    for (key, expected) in keys {
        assert_eq!(judged(key), expected, "{key:?}");
    }
    let parts = Split {
        collection: b"..",
        name: b"a",
    };
    assert_eq!(split(b"../a"), Ok(parts));
}

/// Every string of up to 3 bytes from the edges of what the rule names, and every string of 4 and 5
/// from few of them.
#[test]
fn short_strings() {
    let edges = b"\0\n %,-./09:;?@AZ[^_`az{}~\x7f\x80\xad\xae\xaf\xe1\xff";
    let few = b"-./a\xaf";
    let (mut cases, mut lawful_keys) = (0, 0);
    for (bytes, lengths) in [(&edges[..], 0..=3), (few, 4..=5)] {
        for length in lengths {
            // The digits of the number choose the bytes.
            for number in 0..bytes.len().pow(length) {
                let digit = |place: u32| number / bytes.len().pow(place) % bytes.len();
                let key: Vec<u8> = (0..length).map(|place| bytes[digit(place)]).collect();
                lawful_keys += usize::from(judged(&key).is_ok());
                cases += 1;
            }
        }
    }
    assert_eq!(edges.len(), 32);
    assert_eq!(cases, 1 + 32 + 1_024 + 32_768 + 625 + 3_125);
    // Of the 32 bytes 11 may stand beside the slash, of the 5 three; and no name is `.` or `..`.
    let of_4 = 3 * (9 - 1) + 9 * (3 - 1);
    let of_5 = 3 * 27 + 9 * (9 - 1) + 27 * (3 - 1);
    assert_eq!(lawful_keys, 11 * 10 + of_4 + of_5);
}

/// Any two bytes, alone and with a slash between them.
#[test]
fn pairs_of_bytes() {
    let (mut cases, mut lawful_keys) = (0, 0);
    for first in 0..=255 {
        for second in 0..=255 {
            assert_eq!(slash(&[first, second]), Err(Refusal::UnlawfulKey));
            let found = compare_slash(&[first, b'/', second]);
            assert!(matches!(found, Ok(1) | Err(7)), "{first} {second}");
            lawful_keys += usize::from(found.is_ok());
            cases += 1;
        }
    }
    assert_eq!(cases, 1 << 16);
    // 67 bytes may stand beside the slash, and the dot cannot be a name.
    assert_eq!(lawful_keys, 67 * 66);
}

/// Each byte at each place of keys of several lengths.
#[test]
fn each_byte_at_each_place() {
    let mut keys = vec![
        b"app.bsky.feed.post/3jqfcqzm3fo2j".to_vec(),
        b"a/.b".to_vec(),
        b"../..b".to_vec(),
        key_of(256, &[1]),
        key_of(256, &[128]),
        key_of(256, &[254]),
    ];
    keys.extend(keys_with(b'.').map(|key| key.to_vec()));
    let (mut cases, mut lengths) = (0, 0);
    for key in keys {
        let place = judged(&key).expect("the key is lawful");
        for at in 0..key.len() {
            let mut changed = key.clone();
            for byte in 0..=255 {
                changed[at] = byte;
                let found = compare_slash(&changed);
                // Where the key stays lawful, its slash stays where it was.
                assert!(found == Ok(place) || found == Err(7), "{changed:?}");
                cases += 1;
            }
            // Without its slash, or with another, it is unlawful.
            changed[at] = if at == place { b'a' } else { b'/' };
            assert_eq!(judged(&changed), Err(7), "{changed:?}");
        }
        lengths += key.len();
    }
    assert_eq!(cases, 256 * lengths);
}

/// All lengths to 300 with the slash at every place, and without one.
#[test]
fn each_length_and_each_place() {
    let (mut cases, mut lawful_keys) = (0, 0);
    for length in 0..=300 {
        assert_eq!(judged(&key_of(length, &[])), Err(7), "length {length}");
        for place in 0..length {
            let has_sides = place > 0 && place + 1 < length;
            let expected = match has_sides && length <= LONGEST_KEY {
                true => Ok(place),
                false => Err(7),
            };
            let key = key_of(length, &[place]);
            assert_eq!(judged(&key), expected, "{place} of {length}");
            lawful_keys += usize::from(expected.is_ok());
            cases += 1;
        }
    }
    assert_eq!(cases, 300 * 301 / 2);
    // A key of n bytes has n - 2 places for its slash.
    assert_eq!(lawful_keys, 254 * 255 / 2);
}

/// Slashes at any two places of keys of several lengths.
#[test]
fn two_slashes() {
    let mut cases = 0;
    for length in [2, 3, 4, 5, 32, 255, 256] {
        for second in 0..length {
            for first in 0..second {
                let key = key_of(length, &[first, second]);
                assert_eq!(compare_slash(&key), Err(7), "{key:?}");
                cases += 1;
            }
        }
    }
    assert_eq!(cases, 1 + 3 + 6 + 10 + 496 + 32_385 + 32_640);
}

/// The names `.` and `..`, and dots anywhere else.
#[test]
fn dots() {
    for key in dot_name_keys() {
        assert_eq!(judged(&key), Err(7), "{key:?}");
    }
    for key in dotted_keys() {
        let place = judged(&key).expect("the key is lawful");
        let parts = split(&key).expect("the key is lawful");
        assert_eq!(parts.collection.len(), place);
        assert!(![&b"."[..], b".."].contains(&parts.name), "{key:?}");
    }
}

/// Lawful keys of each kind, and keys that differ little from them.
#[test]
fn random_keys() {
    let mut random = Random::new(71);
    let (mut cases, mut lawful_keys) = (0, 0);
    for kind in KINDS {
        for key in set(kind, 150).into_keys() {
            judged(&key).expect("the key is lawful");
            let mut near = keys_near(&mut random, &key);
            near.extend((0..20).map(|_| damaged(&mut random, key.clone())));
            for key in near {
                lawful_keys += usize::from(compare_slash(&key).is_ok());
                cases += 1;
            }
        }
    }
    assert_eq!(cases, KINDS.len() * 150 * 40);
    assert!(lawful_keys > 5_000, "{lawful_keys}");
    assert!(cases - lawful_keys > 5_000, "{lawful_keys}");
}

/// Strings of few different bytes with up to two slashes, some with a byte that no key has.
#[test]
fn random_strings() {
    let mut random = Random::new(72);
    let mut counts = [0; 2];
    // 20,000 cases of 1 to 300 bytes.
    for _ in 0..20_000 {
        let most = *random.one_of(&[6, 30, 300]);
        let length = 1 + random.below(most);
        let mut key: Vec<u8> = (0..length).map(|_| *random.one_of(b".-a~")).collect();
        for _ in 0..*random.one_of(&[0, 1, 1, 2]) {
            key[random.below(length)] = b'/';
        }
        if random.below(8) == 0 {
            key[random.below(length)] = *random.one_of(b" +\\\0\xae\xaf");
        }
        counts[usize::from(compare_slash(&key).is_ok())] += 1;
    }
    assert!(counts[0] > 5_000 && counts[1] > 5_000, "{counts:?}");
}

/// Unlawful keys of all lengths, up to more bytes than a register may have.
#[test]
fn unlawful_keys_of_any_length() {
    let keys = unlawful_keys();
    assert!(keys.iter().any(|key| key.len() == LONGEST + 1));
    for key in keys {
        assert_eq!(judged(&key), Err(7), "length {}", key.len());
    }
}

/// What is longer than a key is not read: so many calls that read it would not end in 10 seconds.
#[test]
fn long_inputs_are_not_read() {
    let key = key_of(LONGEST + 1, &[1]);
    let start = Instant::now();
    // 100,000 calls.
    for _ in 0..1_000 {
        for _ in 0..100 {
            assert_eq!(slash(&key), Err(Refusal::UnlawfulKey));
        }
        assert!(start.elapsed() < Duration::from_secs(10));
    }
}

/// A length whose low 32 bits alone would be those of a lawful key. Most of the memory is never
/// written, so the system only sets addresses aside.
#[cfg(target_pointer_width = "64")]
#[test]
fn a_length_over_32_bits_is_refused() {
    let mut key = vec![0; (1 << 32) + 4];
    key[..4].copy_from_slice(b"a/b1");
    assert_eq!(slash(&key), Err(Refusal::UnlawfulKey));
    assert_eq!(split(&key), Err(Refusal::UnlawfulKey));
    assert_eq!(slash(&key[..4]), Ok(1));
}

/// The key may lie at any address, and the bytes around it do not matter.
#[test]
fn any_address() {
    let mut cases = 0;
    for offset in 0..16 {
        // Bytes that would make a key longer, change its name, or break the rule.
        for around in [b'a', b'.', b'/', 0, 0xff] {
            for (key, expected) in [
                (&b"a/b1"[..], Ok(1)),
                (b"../a", Ok(2)),
                (b"a/.", Err(7)),
                (b"a/..", Err(7)),
                (b"a/", Err(7)),
                (b"/a", Err(7)),
                (b"ab", Err(7)),
                (&key_of(256, &[254]), Ok(254)),
            ] {
                let mut buffer = [&vec![around; 16 + offset][..], key, &[around; 16]].concat();
                let end = buffer.len() - 16;
                let lent = &mut buffer[16 + offset..end];
                assert_eq!(compare_slash(lent), expected, "{key:?}");
                assert_eq!(raw_slash(lent), answer(expected), "{key:?}");
                cases += 1;
            }
        }
    }
    assert_eq!(cases, 16 * 5 * 8);
}

/// Every call that takes a key refuses it with 7 just where slash does, and so does a register
/// whose only key it is.
#[test]
fn the_other_calls_agree() {
    let mut keys = short_unlawful_keys();
    keys.extend(dotted_keys());
    keys.extend([least_key(), greatest_key()]);
    let (mut cases, mut refused) = (0, 0);
    for key in &keys {
        let due = judged(key).err();
        for call in NEIGHBOURS {
            let found = call.safe(&EMPTY, key, &mut []).map_err(Refusal::number);
            assert_eq!(found.err(), due.or(Some(12)), "{call:?} {key:?}");
        }
        let value = filled(0x11);
        for (call, without_room) in [
            (Call::run(key, key), 13),
            (Call::put(key, &value), 13),
            (Call::join(key, &value), 13),
            (Call::remove(key), 12),
            (Call::path(key), 13),
        ] {
            let found = call.safe(&EMPTY, &mut head_for(&EMPTY), &mut []);
            assert_eq!(found.err(), due.or(Some(without_room)), "{key:?}");
        }
        // The part before the slash of a lawful key is a collection, and the key itself is not.
        if let Ok(parts) = split(key) {
            for (collection, number) in [(parts.collection, 13), (key, 7)] {
                let found = screen(&EMPTY, collection, 0, &mut []).map_err(Refusal::number);
                assert_eq!(found, Err(number), "{key:?}");
            }
        }
        let verdict = verify(&EMPTY, key, &sha256(&EMPTY)).map_err(Refusal::number);
        assert_eq!(verdict, due.map_or(Ok(Presence::Absent), Err), "{key:?}");
        let register = table(&Set::from([(key.clone(), value)]));
        assert_eq!(number_of(&register), due.unwrap_or(0), "{key:?}");
        refused += usize::from(due.is_some());
        cases += 1;
    }
    assert_eq!(refused, short_unlawful_keys().len());
    assert_eq!(cases - refused, dotted_keys().len() + 2);
}

#[test]
fn raw_call_does_not_read_an_empty_input() {
    // 2 pointers that cannot be read.
    for key in [ptr::null(), NonNull::<u8>::dangling().as_ptr().cast_const()] {
        // SAFETY: At length 0 the key is not read.
        let answer = unsafe { mijdegen_slash(key, 0) };
        assert_eq!(answer, 7);
    }
}
