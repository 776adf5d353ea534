//! Values in the library's form and where they are found, and bytes that are no value.

use super::forge::EMPTY;
use super::writes::value_of_two;
use independent::{Codec, Value};

/// Gives a value of the independent crate in the library's form.
pub fn library_value(value: &Value) -> mijdegen::Value {
    match value.codec {
        Codec::Raw => mijdegen::Value::raw(value.digest),
        Codec::DagCbor => mijdegen::Value::dag_cbor(value.digest),
    }
}

/// The least of all values, and the greatest.
pub const LEAST: Value = Value::raw([0; 32]);
pub const GREATEST: Value = Value::dag_cbor([0xff; 32]);

/// Gives a value with this byte alone in its digest. The last bit decides the codec.
pub const fn filled(byte: u8) -> Value {
    match byte % 2 {
        0 => Value::raw([byte; 32]),
        _ => Value::dag_cbor([byte; 32]),
    }
}

/// Gives values of both codecs with digests of one byte each, and with one that looks like a page.
pub fn unusual_values() -> Vec<Value> {
    let mut digests = [[0x00; 32], [0xff; 32], [0xf6; 32], [0xa2; 32], [0; 32]];
    digests[4][..7].copy_from_slice(&EMPTY);
    let of_both = |digest| [Value::raw(digest), Value::dag_cbor(digest)];
    digests.into_iter().flat_map(of_both).collect()
}

/// Gives the value with the same digest and the other codec.
pub fn other_codec(value: &Value) -> Value {
    match value.codec {
        Codec::Raw => Value::dag_cbor(value.digest),
        Codec::DagCbor => Value::raw(value.digest),
    }
}

/// Where lookup or verify finds a value: the place of its digest, and the codec.
pub type Found = (usize, Codec);

/// Gives the value of an answer that says where a value is found.
pub fn in_answer((place, codec): Found) -> usize {
    value_of_two(place, usize::from(codec.byte()))
}

/// Gives the value that is found in the bytes.
pub fn value_at(bytes: &[u8], (place, codec): Found) -> Value {
    // The codec stands three bytes before the digest.
    assert_eq!(bytes[place - 3], codec.byte());
    let digest = bytes[place..place + 32].try_into().expect("32 bytes");
    Value { digest, codec }
}

/// Bytes that are no codec: the least, the greatest, and those beside the two codecs.
pub const NO_CODECS: [u8; 6] = [0x00, 0x54, 0x56, 0x70, 0x72, 0xff];

/// Gives byte strings that are no value: of other lengths, with each codec first, and of the right
/// length, with another byte first.
pub fn wrong_values() -> Vec<Vec<u8>> {
    let starting = |first: u8, length: usize| {
        let mut bytes = vec![0x11; length];
        bytes.iter_mut().take(1).for_each(|byte| *byte = first);
        bytes
    };
    let mut wrong = Vec::new();
    for length in [0, 1, 31, 32, 34, 64, 65] {
        wrong.extend([0x55, 0x71].map(|codec| starting(codec, length)));
    }
    wrong.extend(NO_CODECS.map(|first| starting(first, 33)));
    wrong
}
