//! The values of records.

use crate::{Digest, Refusal};

/// The length in bytes of a value as the C functions take and give it: the codec, then the digest.
pub const VALUE_BYTES: usize = 33;

/// What the digest of a [`Value`] is the digest of. Each codec has the byte by which the C
/// functions name it, which stands in the value's link too.
///
/// Codecs are ordered by their bytes: [`Codec::Raw`] is the lesser.
#[derive(Clone, Copy, Debug, PartialEq, Eq, PartialOrd, Ord, Hash)]
#[repr(u8)]
pub enum Codec {
    /// A raw file, such as a drawing.
    Raw = 0x55,
    /// A record block, which is written in DAG-CBOR.
    DagCbor = 0x71,
}

impl Codec {
    /// Gives the byte of the codec, 55 or 71 in hexadecimal.
    pub const fn byte(self) -> u8 {
        self as u8
    }

    /// Gives the codec with this byte, or none where no codec has it.
    pub const fn from_byte(byte: u8) -> Option<Codec> {
        Some(match byte {
            0x55 => Codec::Raw,
            0x71 => Codec::DagCbor,
            _ => return None,
        })
    }
}

/// The value of a record: the SHA-256 digest of a record block or of a raw file, which are kept
/// elsewhere, and the codec that says which of the two it is. Any 32 bytes are taken as the digest.
///
/// Two values with equal digests and unlike codecs are unequal. Values are ordered by their
/// digests, byte by byte from the first, and at equal digests by their codecs. This is the order by
/// which [`join`](crate::join) and [`merge`](crate::merge) keep the greater of two values:
///
/// ```
/// use mijdegen::Value;
///
/// let rising = [
///     Value::raw([0x11; 32]),
///     Value::dag_cbor([0x11; 32]),
///     Value::raw([0x12; 32]),
/// ];
/// assert!(rising.windows(2).all(|pair| pair[0] < pair[1]));
/// assert_ne!(rising[0], rising[1]);
/// ```
// The order of the fields is that in which they are compared.
#[derive(Clone, Copy, Debug, PartialEq, Eq, PartialOrd, Ord, Hash)]
pub struct Value {
    /// The digest.
    pub digest: Digest,
    /// What the digest is the digest of.
    pub codec: Codec,
}

impl Value {
    /// Gives the value of a raw file with this digest.
    pub const fn raw(digest: Digest) -> Value {
        let codec = Codec::Raw;
        Value { digest, codec }
    }

    /// Gives the value of a record block with this digest.
    pub const fn dag_cbor(digest: Digest) -> Value {
        let codec = Codec::DagCbor;
        Value { digest, codec }
    }

    /// Gives the value as the C functions have it: the codec's byte, then the digest.
    ///
    /// ```
    /// use mijdegen::{Refusal, Value};
    ///
    /// let value = Value::raw([0x11; 32]);
    /// let bytes = value.bytes();
    /// assert_eq!(bytes[0], 0x55);
    /// assert_eq!(bytes[1..], [0x11; 32]);
    ///
    /// assert_eq!(Value::try_from(&bytes[..]), Ok(value));
    /// assert_eq!(Value::try_from(&bytes[1..]), Err(Refusal::WrongValue));
    /// assert_eq!(Value::try_from(&[0x11; 33][..]), Err(Refusal::WrongValue));
    /// ```
    pub fn bytes(&self) -> [u8; VALUE_BYTES] {
        let mut bytes = [self.codec.byte(); VALUE_BYTES];
        bytes[1..].copy_from_slice(&self.digest);
        bytes
    }
}

/// Takes bytes as the C functions do: [`Refusal::WrongValue`] where they are not 33, or the first
/// is not the byte of a codec.
impl TryFrom<&[u8]> for Value {
    type Error = Refusal;

    fn try_from(bytes: &[u8]) -> Result<Value, Refusal> {
        let (first, rest) = bytes.split_first().ok_or(Refusal::WrongValue)?;
        Ok(Value {
            digest: rest.try_into().map_err(|_| Refusal::WrongValue)?,
            codec: Codec::from_byte(*first).ok_or(Refusal::WrongValue)?,
        })
    }
}
