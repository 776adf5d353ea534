//! The eight writing calls as one type, and their comparison with the crate `independent`.
//!
//! A call that is done gives the value of its answer: the length of the table, or of the path, and
//! besides 2^24 times the number of opened pages, for difference, or of screens, for screen.
//!
//! Put, join, remove and merge are lent a head. Where a test says nothing of it, it is that of the
//! register, and the head after the call is compared too: that of the register written, or the one
//! that was lent where the call is refused. The other calls leave it alone.

use super::calls::{
    answer, mijdegen_difference, mijdegen_join, mijdegen_merge, mijdegen_path, mijdegen_put,
    mijdegen_remove, mijdegen_run, mijdegen_screen, shown, Surrounded,
};
use super::forge::Page;
use super::heads::{head_for, in_independent, in_library, Heads, SurroundedHead, UNTRUE};
use independent::{lawful, result_table, Set, Value, LONGEST};
use mijdegen::{Head, Refusal};
use std::fmt;

/// A writing call with what it is handed besides the register held and the output.
#[derive(Clone, PartialEq)]
pub enum Call {
    Run { first: Vec<u8>, last: Vec<u8> },
    Put { key: Vec<u8>, value: Vec<u8> },
    Join { key: Vec<u8>, value: Vec<u8> },
    Remove { key: Vec<u8> },
    Merge { second: Vec<u8> },
    Difference { second: Vec<u8> },
    Screen { collection: Vec<u8>, n: u64 },
    Path { key: Vec<u8> },
}

/// Gives the value of an answer from its two numbers. The second is 0 where there is none.
pub fn value_of_two(first: usize, second: usize) -> usize {
    first + (second << 24)
}

/// Gives the length of what is written from the value of an answer. It is less than 2^24.
pub fn length_in(value: usize) -> usize {
    value % (1 << 24)
}

impl Call {
    pub fn run(first: &[u8], last: &[u8]) -> Call {
        Call::Run {
            first: first.to_vec(),
            last: last.to_vec(),
        }
    }

    pub fn put(key: &[u8], value: &Value) -> Call {
        Call::put_bytes(key, &value.bytes())
    }

    /// Puts with any bytes for the value.
    pub fn put_bytes(key: &[u8], value: &[u8]) -> Call {
        Call::Put {
            key: key.to_vec(),
            value: value.to_vec(),
        }
    }

    pub fn join(key: &[u8], value: &Value) -> Call {
        Call::join_bytes(key, &value.bytes())
    }

    /// Joins with any bytes for the value.
    pub fn join_bytes(key: &[u8], value: &[u8]) -> Call {
        Call::Join {
            key: key.to_vec(),
            value: value.to_vec(),
        }
    }

    pub fn remove(key: &[u8]) -> Call {
        Call::Remove { key: key.to_vec() }
    }

    pub fn merge(second: &[u8]) -> Call {
        Call::Merge {
            second: second.to_vec(),
        }
    }

    pub fn difference(second: &[u8]) -> Call {
        Call::Difference {
            second: second.to_vec(),
        }
    }

    pub fn screen(collection: &[u8], n: u64) -> Call {
        Call::Screen {
            collection: collection.to_vec(),
            n,
        }
    }

    pub fn path(key: &[u8]) -> Call {
        Call::Path { key: key.to_vec() }
    }

    /// Says whether the call is lent a head.
    pub fn takes_head(&self) -> bool {
        match self {
            Call::Put { .. } | Call::Join { .. } | Call::Remove { .. } | Call::Merge { .. } => true,
            Call::Run { .. } | Call::Difference { .. } => false,
            Call::Screen { .. } | Call::Path { .. } => false,
        }
    }

    /// Gives the register's head, or any where the call takes none or the register has none.
    pub fn head_for(&self, register: &[u8]) -> Head {
        match self.takes_head() {
            true => head_for(register),
            false => UNTRUE,
        }
    }

    /// Says whether the call is handed bytes that are no value. The safe function cannot be.
    fn has_wrong_value(&self) -> bool {
        match self {
            Call::Put { value, .. } | Call::Join { value, .. } => Value::of_bytes(value).is_none(),
            _ => false,
        }
    }

    /// Calls the safe function.
    pub fn safe(&self, register: &[u8], head: &mut Head, out: &mut [u8]) -> Result<usize, u8> {
        let value = |bytes: &[u8]| mijdegen::Value::try_from(bytes).expect("a codec and a digest");
        let result = match self {
            Call::Run { first, last } => mijdegen::run(register, first..=last, out),
            Call::Put { key, value: bytes } => {
                mijdegen::put(register, head, key, &value(bytes), out)
            }
            Call::Join { key, value: bytes } => {
                mijdegen::join(register, head, key, &value(bytes), out)
            }
            Call::Remove { key } => mijdegen::remove(register, head, key, out),
            Call::Merge { second } => mijdegen::merge(register, head, second, out),
            Call::Difference { second } => mijdegen::difference(register, second, out)
                .map(|found| value_of_two(found.length, found.opened)),
            Call::Screen { collection, n } => {
                let n = usize::try_from(*n).expect("64 bits");
                mijdegen::screen(register, collection, n, out)
                    .map(|found| value_of_two(found.length, found.screens))
            }
            Call::Path { key } => mijdegen::path(register, key, out),
        };
        result.map_err(Refusal::number)
    }

    /// Calls the C function with an output of so many bytes 0xAA inside a longer buffer, and the
    /// head inside another. Checks that the bytes around both and all inputs stay as they were.
    /// Gives the answer, the output and the head after the call.
    pub fn raw(&self, register: &[u8], head: &Head, out_length: usize) -> (u64, Vec<u8>, Head) {
        // The pointers come from mutable references, so that a write would be seen below.
        fn lent(bytes: &mut [u8]) -> *const u8 {
            bytes.as_mut_ptr().cast_const()
        }
        let mut out = Surrounded::new(out_length);
        let mut surrounded = SurroundedHead::new(head, register.len() + out_length);
        let head = surrounded.start();
        let mut copy = register.to_vec();
        let mut handed = self.clone();
        let (reg, reg_len) = (lent(&mut copy), copy.len());
        // SAFETY: Each pointer has as many bytes as the library is told, and the output and the
        // head are in buffers of their own.
        let answer = unsafe {
            match &mut handed {
                Call::Run { first, last } => mijdegen_run(
                    reg,
                    reg_len,
                    lent(first),
                    first.len(),
                    lent(last),
                    last.len(),
                    out.start(),
                    out_length,
                ),
                Call::Put { key, value } => mijdegen_put(
                    reg,
                    reg_len,
                    head,
                    lent(key),
                    key.len(),
                    lent(value),
                    value.len(),
                    out.start(),
                    out_length,
                ),
                Call::Join { key, value } => mijdegen_join(
                    reg,
                    reg_len,
                    head,
                    lent(key),
                    key.len(),
                    lent(value),
                    value.len(),
                    out.start(),
                    out_length,
                ),
                Call::Remove { key } => mijdegen_remove(
                    reg,
                    reg_len,
                    head,
                    lent(key),
                    key.len(),
                    out.start(),
                    out_length,
                ),
                Call::Merge { second } => mijdegen_merge(
                    reg,
                    reg_len,
                    head,
                    lent(second),
                    second.len(),
                    out.start(),
                    out_length,
                ),
                Call::Difference { second } => mijdegen_difference(
                    reg,
                    reg_len,
                    lent(second),
                    second.len(),
                    out.start(),
                    out_length,
                ),
                Call::Screen { collection, n } => mijdegen_screen(
                    reg,
                    reg_len,
                    lent(collection),
                    collection.len(),
                    *n,
                    out.start(),
                    out_length,
                ),
                Call::Path { key } => {
                    mijdegen_path(reg, reg_len, lent(key), key.len(), out.start(), out_length)
                }
            }
        };
        assert!(copy == register, "the register was changed by {self:?}");
        assert!(handed == *self, "an argument was changed by {self:?}");
        (answer, out.contents("the output"), surrounded.contents())
    }

    /// Calls the function of the independent crate.
    pub fn independent(
        &self,
        register: &[u8],
        head: &mut Head,
        out: &mut [u8],
    ) -> Result<usize, u8> {
        let mut moved = in_independent(head);
        let result = match self {
            Call::Run { first, last } => independent::run(register, first, last, out),
            Call::Put { key, value } => independent::put(register, &mut moved, key, value, out),
            Call::Join { key, value } => independent::join(register, &mut moved, key, value, out),
            Call::Remove { key } => independent::remove(register, &mut moved, key, out),
            Call::Merge { second } => independent::merge(register, &mut moved, second, out),
            Call::Difference { second } => independent::difference(register, second, out)
                .map(|(length, opened)| value_of_two(length, opened)),
            Call::Screen { collection, n } => independent::screen(register, collection, *n, out)
                .map(|(length, screens)| value_of_two(length, screens)),
            Call::Path { key } => independent::path(register, key, out),
        };
        *head = in_library(moved);
        result
    }

    /// Does to a plain set what the call does to its register, or gives the number that is due on
    /// what the call is handed. Run gives the records between its keys, and screen those that it
    /// shows. Difference gives the records that the set lacks, which can be told without any pages.
    pub fn change(&self, set: Set) -> Result<Set, u8> {
        match self {
            Call::Run { first, last } => independent::run_of(set, first, last),
            Call::Put { key, value } => independent::put_in(set, key, value),
            Call::Join { key, value } => independent::join_in(set, key, value),
            Call::Remove { key } => independent::remove_from(set, key),
            Call::Merge { second } => {
                let second = independent::set_of(second)?;
                Ok(independent::merge_in(set, &second))
            }
            Call::Difference { second } => {
                let mut second = independent::set_of(second)?;
                second.retain(|key, value| set.get(key) != Some(value));
                Ok(second)
            }
            Call::Screen { collection, n } => {
                let (shown, _) = independent::screen_of(set, collection, *n)?;
                Ok(shown)
            }
            Call::Path { .. } => panic!("a path is no register"),
        }
    }

    /// Gives what the call writes where its register is that of a plain set, or the number that is
    /// due where the output has room.
    pub fn result(&self, set: Set) -> Result<Vec<u8>, u8> {
        match self {
            Call::Path { key } if lawful(key) => {
                Ok(Page::of_set(&set).written().path(key).concat())
            }
            Call::Path { .. } => Err(7),
            _ => result_table(&self.change(set)?, LONGEST).map(|(table, _)| table),
        }
    }
}

/// Keys are written as text, but long ones and other bytes as `shown` writes them.
impl fmt::Debug for Call {
    fn fmt(&self, formatter: &mut fmt::Formatter) -> fmt::Result {
        let text = |key: &[u8]| match key.len() {
            0..=300 => key.escape_ascii().to_string(),
            _ => shown(key),
        };
        match self {
            Call::Run { first, last } => write!(formatter, "run {} {}", text(first), text(last)),
            Call::Put { key, value } => write!(formatter, "put {} {}", text(key), shown(value)),
            Call::Join { key, value } => write!(formatter, "join {} {}", text(key), shown(value)),
            Call::Remove { key } => write!(formatter, "remove {}", text(key)),
            Call::Merge { second } => write!(formatter, "merge {}", shown(second)),
            Call::Difference { second } => write!(formatter, "difference {}", shown(second)),
            Call::Screen { collection, n } => write!(formatter, "screen {} {n}", text(collection)),
            Call::Path { key } => write!(formatter, "path {}", text(key)),
        }
    }
}

/// Expects the answer, the whole output and the head after the call, by the C function and by the
/// safe one, where it can be called. Gives what the library wrote.
pub fn expect_outcome(
    register: &[u8],
    heads: &Heads,
    call: &Call,
    expected: Result<usize, u8>,
    output: &[u8],
) -> Vec<u8> {
    let length = output.len();
    let told = || {
        let (lent, on) = (heads.lent, shown(register));
        format!("{call:?}, output {length}, head of {lent}, on {on}")
    };

    let (found, out, head) = call.raw(register, &heads.lent, length);
    assert_eq!(found, answer(expected), "C function: {}", told());
    assert!(out == output, "output of the C function: {}", told());
    assert_eq!(head, heads.after, "head by the C function: {}", told());
    if call.has_wrong_value() {
        return out;
    }

    let (mut out, mut head) = (vec![0xaa; length], heads.lent);
    let found = call.safe(register, &mut head, &mut out);
    assert_eq!(found, expected, "{}", told());
    assert!(out == output, "output: {}", told());
    assert_eq!(head, heads.after, "head: {}", told());
    out
}

/// Expects the table, or the path, and zeros after it, in an output of this length.
pub fn expect_table(register: &[u8], call: &Call, out_length: usize, table: &[u8]) {
    expect_table_and(register, call, out_length, table, 0);
}

/// Expects the table and zeros after it as `expect_table` does, where the head that is lent and the
/// one that is left are known.
pub fn expect_table_with(
    register: &[u8],
    heads: &Heads,
    call: &Call,
    out_length: usize,
    table: &[u8],
) {
    let mut output = table.to_vec();
    output.resize(out_length, 0);
    expect_outcome(register, heads, call, Ok(table.len()), &output);
}

/// Expects the table and zeros after it, in an output of this length, and the second number of the
/// answer.
pub fn expect_table_and(
    register: &[u8],
    call: &Call,
    out_length: usize,
    table: &[u8],
    second: usize,
) {
    let mut output = table.to_vec();
    output.resize(out_length, 0);
    let value = value_of_two(table.len(), second);
    let heads = Heads {
        lent: call.head_for(register),
        after: call.head_for(table),
    };
    expect_outcome(register, &heads, call, Ok(value), &output);
}

/// Expects the number and zeros alone, in an output of this length.
pub fn expect_refusal(register: &[u8], call: &Call, out_length: usize, number: u8) {
    expect_refusal_with(register, call.head_for(register), call, out_length, number);
}

/// Expects the number and zeros alone, in an output of this length, where this head is lent.
pub fn expect_refusal_with(
    register: &[u8],
    head: Head,
    call: &Call,
    out_length: usize,
    number: u8,
) {
    let output = vec![0; out_length];
    expect_outcome(register, &Heads::stay(head), call, Err(number), &output);
}

/// Compares the call with the independent crate for an output of this length: the answer, every
/// byte of the output and the head, by the safe and by the C function. Gives the value of the
/// answer.
pub fn compare_call(register: &[u8], call: &Call, out_length: usize) -> Result<usize, u8> {
    compare_call_with(register, call.head_for(register), call, out_length)
}

/// Compares the call with the independent crate as `compare_call` does, where this head is lent.
pub fn compare_call_with(
    register: &[u8],
    head: Head,
    call: &Call,
    out_length: usize,
) -> Result<usize, u8> {
    let (mut heads, mut output) = (Heads::stay(head), vec![0x55; out_length]);
    let expected = call.independent(register, &mut heads.after, &mut output);
    expect_outcome(register, &heads, call, expected, &output);
    expected
}

/// Compares the call with the independent crate for outputs that are just long enough, longer,
/// one byte too short and empty. Gives the table, or the path.
pub fn compare_lengths(register: &[u8], call: &Call) -> Result<Vec<u8>, u8> {
    let table = independent::set_of(register).and_then(|set| call.result(set));
    let lent = call.head_for(register);
    match &table {
        Ok(table) => {
            let length = table.len();
            for out_length in [length, length + 1 + length % 90] {
                let (mut heads, mut output) = (Heads::stay(lent), vec![0x55; out_length]);
                let expected = call.independent(register, &mut heads.after, &mut output);
                assert_eq!(expected.map(length_in), Ok(length));
                assert!(output[..length] == *table, "{call:?}");
                expect_outcome(register, &heads, call, expected, &output);
            }
            for short in [length - 1, 0] {
                expect_refusal_with(register, lent, call, short, 13);
            }
        }
        Err(number) => {
            let found = compare_call_with(register, lent, call, 300);
            assert_eq!(found, Err(*number));
            expect_refusal_with(register, lent, call, 0, *number);
        }
    }
    table
}

/// Calls the safe function with an output that has room, and with the head that check gives. Gives
/// the table, or the path. The head is then what check gives for the table.
pub fn written(register: &[u8], call: &Call) -> Vec<u8> {
    let accepted = |register: &[u8]| mijdegen::check(register).expect("an accepted register");
    let mut head = accepted(register);
    // Most results have room where the inputs would stand twice, and the others are tried again.
    let handed = match call {
        Call::Merge { second } | Call::Difference { second } => second.len(),
        Call::Put { key, .. } | Call::Join { key, .. } | Call::Remove { key } => key.len(),
        Call::Run { .. } | Call::Screen { .. } | Call::Path { .. } => 0,
    };
    for room in [2 * (register.len() + handed) + 1_000, LONGEST] {
        let mut out = vec![0xaa; room];
        match call.safe(register, &mut head, &mut out) {
            Ok(value) => {
                let length = length_in(value);
                assert!(out[length..].iter().all(|byte| *byte == 0), "{call:?}");
                out.truncate(length);
                if call.takes_head() {
                    assert_eq!(head, accepted(&out), "head after {call:?}");
                }
                return out;
            }
            Err(number) => assert_eq!(number, 13, "{call:?} on {}", shown(register)),
        }
    }
    panic!("no room for the result of {call:?} on {}", shown(register));
}
