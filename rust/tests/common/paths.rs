//! What is expected of a register's paths, and the comparison of verify with the crate
//! `independent`.

use super::calls::{answer, mijdegen_verify, shown};
use super::forge::Written;
use super::values::{in_answer, library_value, value_at, Found};
use super::writes::{expect_table, Call};
use independent::{Set, Value};
use mijdegen::{verify, Presence, Refusal};

/// What a path says of a key: where the value is found, or none where the key is absent, or the
/// number that is due.
pub type Verdict = Result<Option<Found>, u8>;

/// Calls the C function and checks that the inputs stay as they were. Gives the answer.
pub fn raw_verify(path: &[u8], key: &[u8], root: &[u8]) -> u64 {
    let mut lent = [path, key, root].map(<[u8]>::to_vec);
    // The pointers come from mutable references, so that a write would be seen below.
    let [(path_start, path_len), (key_start, key_len), (root_start, root_len)] = lent
        .each_mut()
        .map(|bytes| (bytes.as_mut_ptr().cast_const(), bytes.len()));
    // SAFETY: Each pointer has as many bytes as the library is told.
    let answer = unsafe {
        mijdegen_verify(
            path_start, path_len, key_start, key_len, root_start, root_len,
        )
    };
    assert!(lent == [path, key, root], "an input was changed");
    answer
}

/// Expects the verdict, by the safe and by the C function.
pub fn expect_verdict(path: &[u8], key: &[u8], root: &[u8], expected: Verdict) {
    let told = || {
        let (path, root) = (shown(path), shown(root));
        format!("key {}, root {root}, on {path}", shown(key))
    };
    let found = raw_verify(path, key, root);
    let value = expected.map(|verdict| verdict.map_or(0, in_answer));
    assert_eq!(found, answer(value), "C function: {}", told());

    let found = verify(path, key, root).map_err(Refusal::number);
    let presence = expected.map(|verdict| match verdict {
        Some(found) => Presence::Present(library_value(&value_at(path, found))),
        None => Presence::Absent,
    });
    assert_eq!(found, presence, "{}", told());
}

/// Compares verify with the independent crate, by the safe and by the C function. Gives the
/// verdict.
pub fn compare_verify(path: &[u8], key: &[u8], root: &[u8]) -> Verdict {
    let expected = independent::verify(path, key, root);
    expect_verdict(path, key, root, expected);
    expected
}

/// Compares verify with the independent crate, and expects that the key has the value, or is absent
/// where there is none.
pub fn expect_presence(path: &[u8], key: &[u8], root: &[u8], value: Option<&Value>) {
    let verdict = compare_verify(path, key, root);
    let found = verdict.map(|verdict| verdict.map(|found| value_at(path, found)));
    assert_eq!(found, Ok(value.copied()), "{}", shown(path));
}

/// Expects the path of a lawful key by the pages of the set, in an output that is just long enough,
/// and that verify says by it whether the set has the key, and with which value. Gives the path.
pub fn expect_path(register: &[u8], set: &Set, root: &Written, key: &[u8]) -> Vec<u8> {
    let path = root.path(key).concat();
    assert!(path.len() <= register.len(), "{}", shown(key));
    expect_table(register, &Call::path(key), path.len(), &path);
    expect_presence(&path, key, &root.digest, set.get(key));
    path
}
