//! The two calls that give the record beside a key, as one type, and their comparison with the
//! crate `independent`.

use super::calls::{answer, mijdegen_at_or_after, mijdegen_before, shown, Surrounded};
use super::values::library_value;
use independent::{lawful, Set, Value, ValueBytes};
use mijdegen::{at_or_after, before, Listed, Refusal};
use std::ops::Bound::{Excluded, Included, Unbounded};

/// Which record a call gives.
#[derive(Clone, Copy, Debug, PartialEq, Eq)]
pub enum Neighbour {
    /// The first at or after the key.
    AtOrAfter,
    /// The last before the key.
    Before,
}

/// Both calls.
pub const NEIGHBOURS: [Neighbour; 2] = [Neighbour::AtOrAfter, Neighbour::Before];

/// The key and the value of a record in a set.
pub type Record<'a> = (&'a [u8], &'a Value);

impl Neighbour {
    /// Gives the record by the set: 7 for an unlawful key, 12 where there is none.
    pub fn by_set<'a>(self, set: &'a Set, key: &[u8]) -> Result<Record<'a>, u8> {
        if !lawful(key) {
            return Err(7);
        }
        let found = match self {
            Neighbour::AtOrAfter => set.range::<[u8], _>((Included(key), Unbounded)).next(),
            Neighbour::Before => set.range::<[u8], _>((Unbounded, Excluded(key))).next_back(),
        };
        found.map(|(key, value)| (key.as_slice(), value)).ok_or(12)
    }

    /// Calls the safe function.
    pub fn safe(self, register: &[u8], key: &[u8], out: &mut [u8]) -> Result<Listed, Refusal> {
        match self {
            Neighbour::AtOrAfter => at_or_after(register, key, out),
            Neighbour::Before => before(register, key, out),
        }
    }

    /// Calls the C function with an output of this length and one for the value, both of bytes
    /// 0xAA inside longer buffers. Checks that the bytes around the outputs and both inputs stay
    /// as they were. Gives the answer, the output and the value.
    pub fn raw(self, register: &[u8], key: &[u8], out_length: usize) -> (u64, Vec<u8>, ValueBytes) {
        let call = match self {
            Neighbour::AtOrAfter => mijdegen_at_or_after,
            Neighbour::Before => mijdegen_before,
        };
        let mut out = Surrounded::new(out_length);
        let mut value = Surrounded::new(33);
        let (mut lent, mut sought) = (register.to_vec(), key.to_vec());
        // The pointers to the inputs come from mutable references, so that a write to them would
        // be seen below.
        // SAFETY: Each pointer has as many bytes as the library is told, and the outputs are in
        // buffers of their own.
        let answer = unsafe {
            call(
                lent.as_mut_ptr().cast_const(),
                lent.len(),
                sought.as_mut_ptr().cast_const(),
                sought.len(),
                out.start(),
                out_length,
                value.start().cast(),
            )
        };
        assert!(lent == register, "the register was changed");
        assert!(sought == key, "the key was changed");
        let value = value.contents("the value").try_into().expect("33 bytes");
        (answer, out.contents("the output"), value)
    }

    /// Calls the function of the independent crate.
    pub fn independent(
        self,
        register: &[u8],
        key: &[u8],
        out: &mut [u8],
        value: &mut ValueBytes,
    ) -> Result<usize, u8> {
        match self {
            Neighbour::AtOrAfter => independent::at_or_after(register, key, out, value),
            Neighbour::Before => independent::before(register, key, out, value),
        }
    }
}

/// Expects the answer and both outputs whole, by the safe and by the C function. The value is zeros
/// where the call is refused.
pub fn expect_neighbour(
    register: &[u8],
    call: Neighbour,
    key: &[u8],
    expected: Result<usize, u8>,
    output: &[u8],
    value: &ValueBytes,
) {
    let length = output.len();
    let told = || {
        let key = shown(key);
        format!("{call:?} {key}, output {length}, on {}", shown(register))
    };

    let found = call.raw(register, key, length);
    assert_eq!(found.0, answer(expected), "C function: {}", told());
    assert!(found.1 == output, "output of the C function: {}", told());
    assert_eq!(found.2, *value, "value of the C function: {}", told());

    let mut out = vec![0xaa; length];
    let found = call.safe(register, key, &mut out).map_err(Refusal::number);
    let expected = expected.map(|key_length| listed_record(key_length, value));
    assert_eq!(found, expected, "{}", told());
    assert!(out == output, "output: {}", told());
}

/// Gives the record that the safe function gives, from the length of its key and the bytes of its
/// value.
pub fn listed_record(key_length: usize, value: &ValueBytes) -> Listed {
    let value = Value::of_bytes(value).expect("a codec and a digest");
    Listed {
        key_length,
        value: library_value(&value),
    }
}

/// Expects the record, or the number that is due on the register and the key, in an output of
/// this length: 13 where the record's key is longer.
pub fn expect_record(
    register: &[u8],
    call: Neighbour,
    key: &[u8],
    out_length: usize,
    record: Result<Record, u8>,
) {
    let mut output = vec![0; out_length];
    let (expected, value) = match record {
        Err(number) => (Err(number), [0; 33]),
        Ok((found, _)) if found.len() > out_length => (Err(13), [0; 33]),
        Ok((found, value)) => {
            output[..found.len()].copy_from_slice(found);
            (Ok(found.len()), value.bytes())
        }
    };
    expect_neighbour(register, call, key, expected, &output, &value);
}

/// Compares the call with the independent crate for an output of this length: the answer and
/// every byte of both outputs. Gives the length of the record's key.
pub fn compare_neighbour(
    register: &[u8],
    call: Neighbour,
    key: &[u8],
    out_length: usize,
) -> Result<usize, u8> {
    let (mut output, mut value) = (vec![0xcc; out_length], [0xcc; 33]);
    let expected = call.independent(register, key, &mut output, &mut value);
    expect_neighbour(register, call, key, expected, &output, &value);
    expected
}
