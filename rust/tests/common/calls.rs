//! The C functions with a watch on their buffers, and the comparison of slash, check, lookup and
//! list with the crate `independent`.

use super::forge::{Page, EMPTY};
use super::heads::{in_library, Heads, SurroundedHead, UNTRUE, ZEROS};
use super::neighbours::{expect_record, listed_record, Neighbour, NEIGHBOURS};
use super::paths::{compare_verify, expect_path};
use super::sets::{collection_of, greatest_key, least_key, screens_of};
use super::values::{in_answer, library_value, value_at};
use super::writes::{
    expect_refusal, expect_refusal_with, expect_table, expect_table_and, expect_table_with, Call,
};
use super::{hexadecimal, Random};
use independent::{sha256, table, ValueBytes};
use mijdegen::{check, list, lookup, lookup_place, slash, split, Head, Refusal, LONGEST};
use std::fmt::Debug;

pub use super::c::*;

/// Gives the answer of the C interface: a value times 256, or the number of a refusal.
pub fn answer(result: Result<usize, u8>) -> u64 {
    match result {
        Ok(value) => 256 * value as u64,
        Err(number) => u64::from(number),
    }
}

/// Checks that inputs longer than 4,194,304 bytes are refused, one among them whose length has only
/// its low 32 bits in common with a short one. Its memory is never written, so the system only sets
/// addresses aside.
pub fn expect_long_inputs_refused<T: Debug + PartialEq>(call: fn(&[u8]) -> Result<T, Refusal>) {
    let bytes = Random::new(4).bytes(2 * LONGEST + 64);
    // 5 lengths.
    for more in [1, 2, 64, LONGEST, LONGEST + 64] {
        let input = &bytes[..LONGEST + more];
        assert_eq!(call(input), Err(Refusal::TooLong), "length {}", input.len());
    }
    #[cfg(target_pointer_width = "64")]
    assert_eq!(call(&vec![0; (1 << 32) + 3]), Err(Refusal::TooLong));
}

/// A C function that takes one input and has no output.
type OfOneInput = unsafe extern "C" fn(*const u8, usize) -> u64;

/// Calls the C function and checks that the input stays as it was. Gives the answer.
fn raw_of_one(call: OfOneInput, input: &mut [u8]) -> u64 {
    let before = input.to_vec();
    // The pointer comes from a mutable reference, so that a write would be seen below.
    // SAFETY: The pointer and the length are of one slice.
    let answer = unsafe { call(input.as_mut_ptr().cast_const(), input.len()) };
    assert!(input == before, "the input was changed");
    answer
}

/// Gives the answer of the C function, after a check that the input stayed as it was.
pub fn raw_layer(input: &mut [u8]) -> u64 {
    raw_of_one(mijdegen_layer, input)
}

/// Gives the answer of the C function, after a check that the key stayed as it was.
pub fn raw_slash(key: &mut [u8]) -> u64 {
    raw_of_one(mijdegen_slash, key)
}

/// Calls the C function with a head that is not zero inside a longer buffer. Checks that the bytes
/// around it and the register stay as they were. Gives the answer and the head.
pub fn raw_check(register: &mut [u8]) -> (u64, Head) {
    let before = register.to_vec();
    let mut head = SurroundedHead::new(&UNTRUE, register.len());
    // The pointer to the register comes from a mutable reference, so that a write to it would be
    // seen below.
    // SAFETY: The pointer and the length are of one slice, and the head is in a buffer of its own.
    let answer = unsafe {
        let start = register.as_mut_ptr().cast_const();
        mijdegen_check(start, register.len(), head.start())
    };
    assert!(register == before, "the register was changed");
    (answer, head.contents())
}

/// Gives the count of the register's records.
pub fn count_of(register: &[u8]) -> Result<usize, Refusal> {
    check(register).map(|head| head.count as usize)
}

/// Calls the C function and checks that the inputs stay as they were. Gives the answer.
pub fn raw_lookup(register: &mut [u8], key: &mut [u8]) -> u64 {
    let before = (register.to_vec(), key.to_vec());
    // The pointers come from mutable references, so that a write would be seen below.
    // SAFETY: Each pointer and its length are of one slice.
    let answer = unsafe {
        mijdegen_lookup(
            register.as_mut_ptr().cast_const(),
            register.len(),
            key.as_mut_ptr().cast_const(),
            key.len(),
        )
    };
    assert!(register == before.0, "the register was changed");
    assert!(key == before.1, "the key was changed");
    answer
}

/// Calls the C function with an output of this length and one for the value, both of bytes 0xAA
/// inside longer buffers. Checks that the bytes around the outputs and the register stay as they
/// were. Gives the answer, the output and the value.
pub fn raw_list(register: &mut [u8], n: u64, out_length: usize) -> (u64, Vec<u8>, ValueBytes) {
    let mut out = Surrounded::new(out_length);
    let mut value = Surrounded::new(33);
    let before = register.to_vec();
    // The pointer to the register comes from a mutable reference, so that a write to it would be
    // seen below.
    // SAFETY: Each pointer has as many bytes as the library is told, and the buffers are not
    // the register's.
    let answer = unsafe {
        mijdegen_list(
            register.as_mut_ptr().cast_const(),
            register.len(),
            n,
            out.start(),
            out_length,
            value.start().cast(),
        )
    };
    assert!(register == before, "the register was changed");
    let value = value.contents("the value").try_into().expect("33 bytes");
    (answer, out.contents("the output"), value)
}

/// Bytes 0xAA, with other bytes before and after them.
pub struct Surrounded {
    buffer: Vec<u8>,
    before: Vec<u8>,
    start: usize,
    end: usize,
}

impl Surrounded {
    /// Gives so many bytes. Their number also decides how the first of them is aligned.
    pub fn new(length: usize) -> Surrounded {
        Surrounded::at(length % 16, length)
    }

    /// Gives so many bytes, the first of them moved by the offset.
    pub fn at(offset: usize, length: usize) -> Surrounded {
        const AROUND: usize = 64;
        let start = AROUND + offset;
        let end = start + length;
        let mut buffer: Vec<u8> = (0..end + AROUND).map(|place| place as u8 ^ 0x5c).collect();
        buffer[start..end].fill(0xaa);
        Surrounded {
            before: buffer.clone(),
            buffer,
            start,
            end,
        }
    }

    /// Gives a pointer to the first of the bytes.
    pub fn start(&mut self) -> *mut u8 {
        self.buffer[self.start..].as_mut_ptr()
    }

    /// Gives the bytes, after a check that those around them stayed as they were.
    pub fn contents(self, name: &str) -> Vec<u8> {
        let (start, end) = (self.start, self.end);
        assert!(
            self.buffer[..start] == self.before[..start],
            "bytes before {name} were changed"
        );
        assert!(
            self.buffer[end..] == self.before[end..],
            "bytes after {name} were changed"
        );
        self.buffer[start..end].to_vec()
    }
}

/// Compares check, lookup and list with the independent crate, by the safe and by the C
/// functions. Looks at the other calls that take a register as well, as far as they judge it, and
/// at verify with the same bytes. Gives the number that is due on the register, or 0 where it is
/// accepted.
pub fn number_of(register: &[u8]) -> u8 {
    let expected = compare_check(register);
    // One page is a path by itself, and of several pages the first is not the one due.
    let _ = compare_verify(register, b"a/b1", &sha256(register));

    match expected {
        Err(number) => {
            compare_refused(register, number);
            number
        }
        Ok(head) => {
            compare_accepted(register, head);
            0
        }
    }
}

/// Compares check with the independent crate, by the safe and by the C function: the answer, and
/// every byte of the head, which is zero on refusal. Gives the head.
pub fn compare_check(register: &[u8]) -> Result<Head, u8> {
    let expected = independent::check(register).map(in_library);
    let found = check(register).map_err(Refusal::number);
    assert_eq!(found, expected, "check of {}", shown(register));
    let (found, head) = raw_check(&mut register.to_vec());
    let answer = answer(expected.map(|_| 0));
    assert_eq!(found, answer, "C check of {}", shown(register));
    let after = expected.unwrap_or(ZEROS);
    assert_eq!(head, after, "head by C check of {}", shown(register));
    expected
}

/// All calls refuse the register with the number, whatever else they are given, and the outputs
/// are zero.
fn compare_refused(register: &[u8], number: u8) {
    let refusal = Refusal::from_number(number).expect("a number from 1 to 17");
    assert_eq!(lookup(register, b"a/b1"), Err(refusal), "a lawful key");
    assert_eq!(lookup(register, b"ab"), Err(refusal), "an unlawful key");
    let mut out = [0xaa; 5];
    assert_eq!(list(register, 0, &mut out), Err(refusal));
    assert_eq!(out, [0; 5]);

    let mut lent = register.to_vec();
    let found = raw_lookup(&mut lent, &mut b"a/b1".to_vec());
    assert_eq!(found, u64::from(number));
    for (n, length) in [(0, 0), (5_000, 300)] {
        let zeros = (u64::from(number), vec![0; length], [0; 33]);
        assert_eq!(raw_list(&mut lent, n, length), zeros, "record {n}");
    }

    // The other calls take turns, and each is handed another fault that comes later. A head is lent
    // that is untrue, and that comes later too.
    let turn = NEIGHBOURS[register.len() % 2];
    let key: &[u8] = match register.len() / 2 % 2 {
        0 => b"a/b1",
        _ => b"ab",
    };
    expect_record(register, turn, key, register.len() % 100, Err(number));
    let calls = [
        Call::run(b"b/b1", b"a/b1"),
        Call::put_bytes(b"ab", b""),
        Call::join_bytes(b"a/b1", &[0x54; 33]),
        Call::remove(b"a/b1"),
        Call::merge(b""),
        Call::difference(b""),
        Call::screen(b"a/", u64::MAX),
        Call::path(b"ab"),
    ];
    let turn = &calls[register.len() % calls.len()];
    expect_refusal_with(register, UNTRUE, turn, register.len() % 100, number);
    // As the second register it is judged behind a first one that is accepted.
    let second = match register.len() % 2 {
        0 => Call::merge(register),
        _ => Call::difference(register),
    };
    expect_refusal(&EMPTY, &second, 7, number);
}

/// The last record is found and listed, alone and beside the one before it, in all but large
/// registers also the first and the middle one; and the register is the one of its set and the one
/// that the library writes. By its path the last key is present.
fn compare_accepted(register: &[u8], head: Head) {
    let set = independent::set_of(register).expect("the register is accepted");
    let count = set.len();
    assert_eq!(head.count as usize, count);
    assert!(table(&set) == register, "{}", shown(register));
    let root = Page::of_set(&set);
    let root = root.written();
    assert_eq!(head.digest, root.digest);

    let mut lent = register.to_vec();
    let records: Vec<_> = set.iter().collect();
    let numbers = [count.wrapping_sub(1), 0, count / 2];
    for n in &numbers[..if count < 1_000 { 3 } else { 1 }] {
        let Some((key, value)) = records.get(*n) else {
            continue;
        };
        compare_lookup(register, key).expect("the key is present");
        assert_eq!(lookup(register, key), Ok(library_value(value)));
        let listed = raw_list(&mut lent, *n as u64, key.len());
        let expected = (256 * key.len() as u64, key.to_vec(), value.bytes());
        assert_eq!(listed, expected);
        let record: Result<_, u8> = Ok((key.as_slice(), *value));
        expect_record(register, Neighbour::AtOrAfter, key, key.len(), record);
        let record = Neighbour::Before.by_set(&set, key);
        expect_record(register, Neighbour::Before, key, 256, record);
    }
    assert_eq!(
        raw_list(&mut lent, count as u64, 4),
        (0, vec![0; 4], [0; 33])
    );
    let found = compare_lookup(register, b"a/b1");
    assert_eq!(found.is_ok(), set.contains_key(&b"a/b1"[..]));
    expect_path(register, &set, &root, b"a/b1");
    assert_eq!(compare_lookup(register, b"ab"), Err(7));

    // The run of all keys is written anew.
    let all = Call::run(&least_key(), &greatest_key());
    expect_table(register, &all, register.len(), register);
    // Merged with itself it is written anew, and its head stays. It lacks nothing of itself: no page
    // is opened.
    let (heads, merge) = (Heads::stay(head), Call::merge(register));
    expect_table_with(register, &heads, &merge, register.len(), register);
    expect_table(register, &Call::difference(register), 7, &EMPTY);
    // The last screen of the last collection.
    let last_key = records.last().map_or(&b"a/b1"[..], |(key, _)| key);
    let collection = collection_of(last_key);
    let screens = screens_of(&set, collection);
    let last = table(&screens[screens.len() - 1]);
    let call = Call::screen(collection, screens.len() as u64 - 1);
    expect_table_and(register, &call, last.len(), &last, screens.len());
    // The path of the last key.
    expect_path(register, &set, &root, last_key);
}

/// Compares slash and split with the independent crate, by the safe and by the C functions. Gives
/// the number of bytes before the slash.
pub fn compare_slash(key: &[u8]) -> Result<usize, u8> {
    let expected = independent::slash(key);
    let found = slash(key).map_err(Refusal::number);
    assert_eq!(found, expected, "slash of {}", shown(key));
    let found = raw_slash(&mut key.to_vec());
    assert_eq!(found, answer(expected), "C slash of {}", shown(key));

    let parts = split(key).map_err(Refusal::number);
    match expected {
        Ok(place) => {
            let is_slash = |place: &usize| key[*place] == b'/';
            let places: Vec<usize> = (0..key.len()).filter(is_slash).collect();
            assert_eq!(places, [place], "slashes of {}", shown(key));
            let parts = parts.expect("the key is lawful");
            assert_eq!([parts.collection, b"/", parts.name].concat(), key);
            // They are parts of the lent key and no copies.
            assert_eq!(parts.collection.as_ptr(), key.as_ptr());
            assert_eq!(parts.name.as_ptr(), key[place + 1..].as_ptr());
        }
        Err(number) => assert_eq!(parts, Err(number)),
    }
    expected
}

/// Compares lookup with the independent crate, by the safe and by the C functions. Gives the
/// place of the value's digest.
pub fn compare_lookup(register: &[u8], key: &[u8]) -> Result<usize, u8> {
    let expected = independent::lookup(register, key);
    let found = raw_lookup(&mut register.to_vec(), &mut key.to_vec());
    let answer = answer(expected.map(in_answer));
    assert_eq!(found, answer, "C lookup of {key:?}");

    let value = lookup(register, key).map_err(Refusal::number);
    let expected_value = expected.map(|found| library_value(&value_at(register, found)));
    assert_eq!(value, expected_value, "lookup of {key:?}");
    let place = lookup_place(register, key).map_err(Refusal::number);
    assert_eq!(place, expected.map(|(place, _)| place), "place of {key:?}");
    place
}

/// Compares list with the independent crate for an output of this length, by the safe and by the
/// C functions. Gives the key's length, or 0 past the end.
pub fn compare_list(register: &[u8], n: u64, length: usize) -> Result<usize, u8> {
    let (mut out, mut value) = (vec![0xcc; length], [0xcc; 33]);
    let expected = independent::list(register, n, &mut out, &mut value);
    let found = raw_list(&mut register.to_vec(), n, length);
    assert_eq!(found.0, answer(expected), "record {n}, output {length}");
    assert!(found.1 == out, "record {n}, output {length}");
    assert_eq!(found.2, value, "record {n}, output {length}");

    let mut safe_out = vec![0xaa; length];
    let n = usize::try_from(n).expect("64 bits");
    let found = list(register, n, &mut safe_out).map_err(Refusal::number);
    let record = expected.map(|key_length| match key_length {
        0 => None,
        _ => Some(listed_record(key_length, &value)),
    });
    assert_eq!(found, record, "record {n}, output {length}");
    assert!(safe_out == out, "record {n}, output {length}");
    expected
}

/// Writes a register for a message: a short one whole, of a long one the length and the digest.
pub fn shown(register: &[u8]) -> String {
    if register.len() <= 1_000 {
        return hexadecimal(register);
    }
    let digest = hexadecimal(&sha256(register));
    format!("{} bytes with digest {digest}", register.len())
}
