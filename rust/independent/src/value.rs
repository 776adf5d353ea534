//! The values of records.

use crate::Digest;

/// What a digest is the digest of. The codec with the lesser byte comes first.
#[derive(Clone, Copy, Debug, PartialEq, Eq, PartialOrd, Ord)]
pub enum Codec {
    /// A raw file.
    Raw,
    /// A record block.
    DagCbor,
}

impl Codec {
    /// Gives the byte that stands for the codec, in a link and in a value argument.
    pub const fn byte(self) -> u8 {
        match self {
            Codec::Raw => 0x55,
            Codec::DagCbor => 0x71,
        }
    }

    /// Gives the codec that the byte stands for, or none.
    pub fn of_byte(byte: u8) -> Option<Codec> {
        let codecs = [Codec::Raw, Codec::DagCbor];
        codecs.into_iter().find(|codec| codec.byte() == byte)
    }
}

/// A value as an argument or an output has it: the codec, then the digest. An output is zero where
/// there is no value.
pub type ValueBytes = [u8; 33];

/// The value of a record: the digest of a block or a file that is kept elsewhere, with its codec.
/// The order is that of the fields: values are compared by digest, and at equal digests by codec.
#[derive(Clone, Copy, Debug, PartialEq, Eq, PartialOrd, Ord)]
pub struct Value {
    /// The digest.
    pub digest: Digest,
    /// The codec.
    pub codec: Codec,
}

impl Value {
    /// Gives the value of a raw file.
    pub const fn raw(digest: Digest) -> Value {
        let codec = Codec::Raw;
        Value { digest, codec }
    }

    /// Gives the value of a record block.
    pub const fn dag_cbor(digest: Digest) -> Value {
        let codec = Codec::DagCbor;
        Value { digest, codec }
    }

    /// Gives the codec and then the digest.
    pub fn bytes(&self) -> ValueBytes {
        let mut bytes = [self.codec.byte(); 33];
        bytes[1..].copy_from_slice(&self.digest);
        bytes
    }

    /// Takes the bytes apart. Gives none where they are not 33 with a codec first.
    pub fn of_bytes(bytes: &[u8]) -> Option<Value> {
        let (first, rest) = bytes.split_first()?;
        Some(Value {
            digest: rest.try_into().ok()?,
            codec: Codec::of_byte(*first)?,
        })
    }
}

#[cfg(test)]
mod tests {
    use super::{Codec, Value};

    #[test]
    fn bytes_of_codecs() {
        let found: Vec<u8> = (0..=255)
            .filter(|byte| Codec::of_byte(*byte).is_some())
            .collect();
        assert_eq!(found, [0x55, 0x71]);
        assert_eq!(Codec::of_byte(0x55), Some(Codec::Raw));
        assert_eq!(Codec::of_byte(0x71), Some(Codec::DagCbor));
    }

    #[test]
    fn bytes_lead_to_values_and_back() {
        for first in 0..=255 {
            for length in 0..40 {
                let mut bytes = vec![0x11; length];
                bytes.iter_mut().take(1).for_each(|byte| *byte = first);
                let expected = match (length, first) {
                    (33, 0x55) => Some(Value::raw([0x11; 32])),
                    (33, 0x71) => Some(Value::dag_cbor([0x11; 32])),
                    _ => None,
                };
                let found = Value::of_bytes(&bytes);
                assert_eq!(found, expected, "{first} and {length} bytes");
                assert!(found.iter().all(|value| value.bytes()[..] == bytes));
            }
        }
    }

    /// The digest goes before the codec.
    #[test]
    fn order_of_values() {
        let [lesser, greater] = [[0x11; 32], [0x12; 32]];
        let rising = [
            Value::raw(lesser),
            Value::dag_cbor(lesser),
            Value::raw(greater),
            Value::dag_cbor(greater),
        ];
        assert!(rising.windows(2).all(|pair| pair[0] < pair[1]));
    }
}
