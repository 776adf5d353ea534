//! Safe calls into the proved static library `mijdegen`.
//!
//! Each function takes byte slices and gives its result, or a [`Refusal`] that says why the
//! library gives none. The crate allocates nothing and needs no standard library.
//!
//! # Keys
//!
//! The key rule: a key has 3 to 256 bytes, with just one slash and at least one byte on each side
//! of it. The other bytes are ASCII letters, digits, `.`, `-`, `_`, `:` and `~`. The part before the
//! slash is the collection, the part after it the name. The name is neither `.` nor `..`. What
//! breaks the rule, as an argument or in a register, is refused with [`Refusal::UnlawfulKey`], and
//! so is a collection as an argument that stands before the slash in no lawful key.
//!
//! [`slash`] judges a key without a register and says where its slash stands. [`split`] gives the
//! collection and the name as parts of the key:
//!
//! ```
//! use mijdegen::{lookup, slash, split, Refusal};
//!
//! let empty = b"\xa2\x61e\x80\x61l\xf6";
//! for key in ["a/.", "a/..", "a/", "a/b/c"] {
//!     assert_eq!(slash(key.as_bytes()), Err(Refusal::UnlawfulKey));
//!     assert_eq!(lookup(empty, key.as_bytes()), Err(Refusal::UnlawfulKey));
//! }
//! for key in ["a/...", "./a", "a/.b", "a/b"] {
//!     assert_eq!(slash(key.as_bytes()), Ok(1));
//!     assert_eq!(lookup(empty, key.as_bytes()), Err(Refusal::KeyAbsent));
//! }
//!
//! let parts = split(b"app.bsky.feed.post/3jqfcqzm3fo2j")?;
//! assert_eq!(parts.collection, b"app.bsky.feed.post");
//! assert_eq!(parts.name, b"3jqfcqzm3fo2j");
//! # Ok::<(), Refusal>(())
//! ```
//!
//! Keys are ordered byte by byte; a key stands before every longer key that begins with it.
//!
//! # Values
//!
//! A [`Value`] is a SHA-256 digest and a [`Codec`], which says what it is the digest of: a record
//! block, or a raw file such as a drawing. One register may have values of both. Two values with
//! equal digests and unlike codecs are unequal: [`put`] writes one over the other, and
//! [`difference`] lists them. Of two values [`join`] and [`merge`] keep the one with the greater
//! digest and, at equal digests, the one with the greater codec:
//!
//! ```
//! use mijdegen::{check, join, lookup, put, Codec, Refusal, Value};
//!
//! let (block, drawing) = (Value::dag_cbor([0x11; 32]), Value::raw([0x11; 32]));
//! assert!(block > drawing);
//!
//! let empty = b"\xa2\x61e\x80\x61l\xf6";
//! let mut head = check(empty)?;
//! let (mut one, mut next) = ([0; 64], [0; 64]);
//! put(empty, &mut head, b"a/b1", &drawing, &mut one)?;
//! assert_eq!(lookup(&one, b"a/b1")?.codec, Codec::Raw);
//!
//! join(&one, &mut head, b"a/b1", &block, &mut next)?;
//! assert_eq!(lookup(&next, b"a/b1"), Ok(block));
//! join(&next, &mut head, b"a/b1", &drawing, &mut one)?;
//! assert_eq!(one, next);
//! # Ok::<(), Refusal>(())
//! ```
//!
//! # Heads
//!
//! A [`Head`] is one small record that a caller keeps beside a register: the count of its records,
//! the layer of its root and the digest of its root page. [`check`] gives it. [`put`], [`join`],
//! [`remove`] and [`merge`] are lent it: after a call that is not refused it is the head of the
//! register that was written, and after a refused one it is as it was. So it goes along with the
//! register from call to call:
//!
//! ```
//! use mijdegen::{check, put, remove, Refusal, Value};
//!
//! let empty = b"\xa2\x61e\x80\x61l\xf6";
//! let start = check(empty)?;
//! assert_eq!((start.count, start.layer), (0, 0));
//!
//! let mut head = start;
//! let (mut one, mut two, mut left) = ([0; 64], [0; 200], [0; 64]);
//! put(empty, &mut head, b"a/b1", &Value::dag_cbor([0x11; 32]), &mut one)?;
//! assert_eq!((head.count, head.layer), (1, 0));
//!
//! // The key `a/b2` has layer 1, so the root rises.
//! let length = put(&one, &mut head, b"a/b2", &Value::raw([0x22; 32]), &mut two)?;
//! let two = &two[..length];
//! assert_eq!((head.count, head.layer), (2, 1));
//! assert_eq!(check(two), Ok(head));
//!
//! // A refused call leaves the head as it was.
//! let before = head;
//! let refused = remove(two, &mut head, b"a/b3", &mut left);
//! assert_eq!(refused, Err(Refusal::KeyAbsent));
//! assert_eq!(head, before);
//!
//! // With the last key of its layer the root falls again.
//! remove(two, &mut head, b"a/b2", &mut left)?;
//! assert_eq!(left, one);
//! assert_eq!((head.count, head.layer), (1, 0));
//!
//! // The head of another register is refused.
//! let mut other = start;
//! let refused = remove(&one, &mut other, b"a/b1", &mut left);
//! assert_eq!(refused, Err(Refusal::UntrueHead));
//! assert_eq!(other, start);
//! # Ok::<(), Refusal>(())
//! ```
//!
//! # Paths
//!
//! The root digest of a register is the [`digest`] of its root page, the first page of its table;
//! it stands in the register's head. One who holds no more than these 32 bytes can be shown what
//! the register says of a key: [`path`] writes the pages that a search for the key opens, and
//! [`verify`] says by them whether the key is present, and with which value.
//!
//! # Costs
//!
//! Each call that takes a register judges it whole, so its time grows with the register's length:
//! each page and each key is hashed once. Going through a register of n records by [`list`],
//! [`at_or_after`] or [`before`] costs n such judgements, and n calls of [`lookup`] or [`put`] the
//! same. A writing call hashes the pages that it writes as well. A lent head spares no judgement:
//! it is there for its reader, who need not count or hash again. [`screen`] judges the register
//! once and writes at most 8 records: going through a collection by its screens costs one judgement
//! for every 8 records. [`path`] costs one judgement too, and copies the pages that it writes.
//!
//! [`verify`] takes no register. Its time grows with the length of the path, of which each page is
//! hashed once, whatever register the path is from.
//!
//! [`slash`] and [`split`] take time in proportion to the key, of which they read at most 256 bytes.
//!
//! A call uses up to 512 KiB of stack and nothing else; threads may call at the same time.

#![no_std]
#![warn(missing_docs)]
#![deny(unsafe_op_in_unsafe_fn)]
// Unsafe code is allowed in the module `sys` alone.
#![deny(unsafe_code)]

mod c;
mod head;
mod refusal;
#[allow(unsafe_code)]
mod sys;
mod value;

use core::ops::RangeInclusive;

pub use head::Head;
pub use refusal::Refusal;
pub use value::{Codec, Value, VALUE_BYTES};

/// The length in bytes of the longest register, of the longest path, and of the longest input that
/// [`digest`] and [`layer`] take. No call that writes a register or a path needs a longer output.
pub const LONGEST: usize = 4_194_304;

/// The length in bytes of the longest key. An output so long has room for each key that [`list`],
/// [`at_or_after`] and [`before`] give.
pub const LONGEST_KEY: usize = 256;

/// How many records a screen of [`screen`] has at most.
pub const PER_SCREEN: usize = 8;

/// A length in bytes that no screen exceeds: an output so long has room for every screen that
/// [`screen`] gives. This is proved of the library.
pub const LONGEST_SCREEN: usize = 65_536;

/// A SHA-256 digest.
pub type Digest = [u8; 32];

/// Gives the SHA-256 digest of the input.
///
/// Any bytes are taken, also none.
///
/// # Errors
///
/// [`Refusal::TooLong`] where the input is longer than [`LONGEST`] bytes.
///
/// # Examples
///
/// ```
/// let digest = mijdegen::digest(b"abc")?;
/// assert_eq!(digest[..4], [0xba, 0x78, 0x16, 0xbf]);
/// assert_eq!(digest[28..], [0xf2, 0x00, 0x15, 0xad]);
///
/// let longer = vec![0; mijdegen::LONGEST + 1];
/// assert_eq!(mijdegen::digest(&longer), Err(mijdegen::Refusal::TooLong));
/// # Ok::<(), mijdegen::Refusal>(())
/// ```
pub fn digest(input: &[u8]) -> Result<Digest, Refusal> {
    let mut out = [0; 32];
    outcome(sys::digest(input, &mut out))?;
    Ok(out)
}

/// Gives the layer of the input: half the number of leading zero bits of its SHA-256 digest,
/// rounded down. It is from 0 to 128.
///
/// Any bytes are taken, also none.
///
/// # Errors
///
/// [`Refusal::TooLong`] where the input is longer than [`LONGEST`] bytes.
///
/// # Examples
///
/// ```
/// assert_eq!(mijdegen::layer(b"2653ae71"), Ok(0));
/// assert_eq!(mijdegen::layer(b"blue"), Ok(1));
///
/// let longer = vec![0; mijdegen::LONGEST + 1];
/// assert_eq!(mijdegen::layer(&longer), Err(mijdegen::Refusal::TooLong));
/// ```
pub fn layer(input: &[u8]) -> Result<u8, Refusal> {
    let value = outcome(sys::layer(input))?;
    Ok(u8::try_from(value).expect("the library gives layers from 0 to 128"))
}

/// Gives the number of bytes before the slash of the key, which is also the slash's place counted
/// from 0. It is from 1 to 254. The key is judged by the key rule, without a register.
///
/// Any bytes are taken, also none. [`split`] gives the parts of the key on both sides of the slash.
///
/// # Errors
///
/// [`Refusal::UnlawfulKey`] where the bytes break the key rule, however many they are.
///
/// # Examples
///
/// ```
/// use mijdegen::{slash, Refusal, LONGEST};
///
/// let key = b"app.bsky.feed.post/3jqfcqzm3fo2j";
/// assert_eq!(slash(key), Ok(18));
/// assert_eq!(key[..18], *b"app.bsky.feed.post");
///
/// assert_eq!(slash(b"app.bsky.feed.post"), Err(Refusal::UnlawfulKey));
/// assert_eq!(slash(&vec![b'a'; LONGEST + 1]), Err(Refusal::UnlawfulKey));
/// ```
pub fn slash(key: &[u8]) -> Result<usize, Refusal> {
    Ok(count(outcome(sys::slash(key))?))
}

/// The two parts of a key, which [`split`] gives.
#[derive(Clone, Copy, Debug, PartialEq, Eq)]
pub struct Split<'a> {
    /// The part before the slash, from 1 to 254 bytes.
    pub collection: &'a [u8],
    /// The part after the slash, from 1 to 254 bytes.
    pub name: &'a [u8],
}

/// Gives the collection and the name of the key, as parts of the lent key: those before and after
/// the place that [`slash`] gives.
///
/// # Errors
///
/// Those of [`slash`].
///
/// # Examples
///
/// ```
/// use mijdegen::{split, Refusal, Split};
///
/// let parts = Split { collection: b"a", name: b"b1" };
/// assert_eq!(split(b"a/b1"), Ok(parts));
/// assert_eq!(split(b"a/b1/"), Err(Refusal::UnlawfulKey));
/// ```
pub fn split(key: &[u8]) -> Result<Split<'_>, Refusal> {
    let place = slash(key)?;
    Ok(Split {
        collection: &key[..place],
        name: &key[place + 1..],
    })
}

/// Checks the register and gives its head: the count of its records, the layer of its root and the
/// digest of its root page.
///
/// A register is the page table of a set of records: each set has just one, and no other bytes
/// are accepted.
///
/// # Errors
///
/// One of the refusals 1 to 10, from [`Refusal::TooLong`] to [`Refusal::WrongDigest`]: the first
/// that holds for the whole register, in the order of their numbers.
///
/// # Examples
///
/// ```
/// use mijdegen::{check, digest, Refusal};
///
/// // The empty register is one page without entries and without a link. It is its own root page.
/// let mut register = b"\xa2\x61e\x80\x61l\xf6".to_vec();
/// let head = check(&register)?;
/// assert_eq!((head.count, head.layer), (0, 0));
/// assert_eq!(head.digest, digest(&register)?);
///
/// register.push(0xf6);
/// assert_eq!(check(&register), Err(Refusal::BytesFollow));
/// # Ok::<(), Refusal>(())
/// ```
pub fn check(register: &[u8]) -> Result<Head, Refusal> {
    let mut head = Head {
        count: 0,
        layer: 0,
        digest: [0; 32],
    };
    outcome(sys::check(register, &mut head))?;
    Ok(head)
}

/// Gives the value of the key.
///
/// # Errors
///
/// One of the refusals 1 to 10 where [`check`] refuses the register; then
/// [`Refusal::UnlawfulKey`] where the key breaks the key rule, and [`Refusal::KeyAbsent`] where
/// the register has no record with the key.
///
/// # Examples
///
/// ```
/// use mijdegen::{lookup, Refusal, Value};
///
/// // One page with one entry: key `a/b1`, prefix 0, no link, and the value as a link.
/// let mut register = b"\xa2\x61e\x81\xa4\x61k\x44a/b1\x61p\x00\x61t\xf6\x61v".to_vec();
/// register.extend(b"\xd8\x2a\x58\x25\x00\x01\x71\x12\x20");
/// register.extend([0x11; 32]);
/// register.extend(b"\x61l\xf6");
///
/// assert_eq!(lookup(&register, b"a/b1"), Ok(Value::dag_cbor([0x11; 32])));
/// assert_eq!(lookup(&register, b"a/b2"), Err(Refusal::KeyAbsent));
/// assert_eq!(lookup(&register, b"a/"), Err(Refusal::UnlawfulKey));
///
/// // The seventh byte of the link is the codec.
/// register[26] = 0x55;
/// assert_eq!(lookup(&register, b"a/b1"), Ok(Value::raw([0x11; 32])));
/// ```
pub fn lookup(register: &[u8], key: &[u8]) -> Result<Value, Refusal> {
    Ok(value_found(register, outcome(sys::lookup(register, key))?))
}

/// Gives the place in the register, counted from 0, where the 32 digest bytes of the key's value
/// begin.
///
/// # Errors
///
/// Those of [`lookup`].
///
/// # Examples
///
/// ```
/// // One page with one entry: key `a/b1`, prefix 0, no link, and the value as a link.
/// let mut register = b"\xa2\x61e\x81\xa4\x61k\x44a/b1\x61p\x00\x61t\xf6\x61v".to_vec();
/// register.extend(b"\xd8\x2a\x58\x25\x00\x01\x71\x12\x20");
/// register.extend([0x11; 32]);
/// register.extend(b"\x61l\xf6");
///
/// let place = mijdegen::lookup_place(&register, b"a/b1")?;
/// assert_eq!(place, 29);
/// assert_eq!(register[place..place + 32], [0x11; 32]);
/// # Ok::<(), mijdegen::Refusal>(())
/// ```
pub fn lookup_place(register: &[u8], key: &[u8]) -> Result<usize, Refusal> {
    let (place, _) = two_numbers(outcome(sys::lookup(register, key))?);
    Ok(place)
}

/// A record that [`list`], [`at_or_after`] or [`before`] gives. Its key stands at the start of the
/// output.
#[derive(Clone, Copy, Debug, PartialEq, Eq)]
pub struct Listed {
    /// The length of the key, from 3 to [`LONGEST_KEY`].
    pub key_length: usize,
    /// The value of the record.
    pub value: Value,
}

/// Gives the n-th record in key order, counted from 0. Past the end there is none.
///
/// The key is written to the output, with zeros after it. Past the end and on refusal the output
/// is zero.
///
/// Each call judges the whole register again: to go through n records takes n times as long as one
/// [`check`].
///
/// # Errors
///
/// One of the refusals 1 to 10 where [`check`] refuses the register; then [`Refusal::NoRoom`]
/// where the key is longer than the output.
///
/// # Examples
///
/// ```
/// use mijdegen::{list, Refusal, Value, LONGEST_KEY};
///
/// // One page with one entry: key `a/b1`, prefix 0, no link, and the value as a link.
/// let mut register = b"\xa2\x61e\x81\xa4\x61k\x44a/b1\x61p\x00\x61t\xf6\x61v".to_vec();
/// register.extend(b"\xd8\x2a\x58\x25\x00\x01\x71\x12\x20");
/// register.extend([0x11; 32]);
/// register.extend(b"\x61l\xf6");
///
/// let mut out = [0; LONGEST_KEY];
/// let listed = list(&register, 0, &mut out)?.expect("there is one record");
/// assert_eq!(out[..listed.key_length], *b"a/b1");
/// assert_eq!(listed.value, Value::dag_cbor([0x11; 32]));
///
/// assert_eq!(list(&register, 1, &mut out), Ok(None));
/// assert_eq!(out, [0; LONGEST_KEY]);
///
/// assert_eq!(list(&register, 0, &mut out[..3]), Err(Refusal::NoRoom));
/// # Ok::<(), Refusal>(())
/// ```
pub fn list(register: &[u8], n: usize, out: &mut [u8]) -> Result<Option<Listed>, Refusal> {
    let mut value = [0; VALUE_BYTES];
    let key_length = outcome(sys::list(register, n as u64, out, &mut value))?;
    if key_length == 0 {
        return Ok(None);
    }
    Ok(Some(listed(key_length, &value)))
}

/// Gives the first record at or after the key: the key's own record where there is one, and else
/// the one with the next greater key.
///
/// The key may be any lawful key, present or not. The record's key is written to the output, with
/// zeros after it. On refusal the output is zero.
///
/// Each call judges the whole register again, as [`lookup`] does.
///
/// # Errors
///
/// One of the refusals 1 to 10 where [`check`] refuses the register; then
/// [`Refusal::UnlawfulKey`] where the key breaks the key rule, [`Refusal::KeyAbsent`] where no
/// record lies at or after the key, and [`Refusal::NoRoom`] where the record's key is longer than
/// the output.
///
/// # Examples
///
/// ```
/// use mijdegen::{at_or_after, check, put, Refusal, Value, LONGEST_KEY};
///
/// let empty = b"\xa2\x61e\x80\x61l\xf6";
/// let (mut one, mut two) = ([0; 64], [0; 200]);
/// let mut head = check(empty)?;
/// put(empty, &mut head, b"a/b1", &Value::dag_cbor([0x11; 32]), &mut one)?;
/// let length = put(&one, &mut head, b"a/b30", &Value::raw([0x33; 32]), &mut two)?;
/// let register = &two[..length];
///
/// let mut out = [0; LONGEST_KEY];
/// let found = at_or_after(register, b"a/b2", &mut out)?;
/// assert_eq!(out[..found.key_length], *b"a/b30");
/// assert_eq!(found.value, Value::raw([0x33; 32]));
///
/// // A present key is found itself.
/// let found = at_or_after(register, b"a/b1", &mut out)?;
/// assert_eq!(out[..found.key_length], *b"a/b1");
/// assert_eq!(out[found.key_length..], [0; LONGEST_KEY - 4]);
///
/// // A key stands before every longer key that begins with it.
/// let found = at_or_after(register, b"a/b3", &mut out)?;
/// assert_eq!(found.value, Value::raw([0x33; 32]));
/// assert_eq!(at_or_after(register, b"a/b301", &mut out), Err(Refusal::KeyAbsent));
/// assert_eq!(out, [0; LONGEST_KEY]);
///
/// assert_eq!(at_or_after(register, b"a/b2", &mut out[..4]), Err(Refusal::NoRoom));
/// assert_eq!(at_or_after(register, b"a/", &mut out), Err(Refusal::UnlawfulKey));
/// # Ok::<(), Refusal>(())
/// ```
pub fn at_or_after(register: &[u8], key: &[u8], out: &mut [u8]) -> Result<Listed, Refusal> {
    let mut value = [0; VALUE_BYTES];
    let key_length = outcome(sys::at_or_after(register, key, out, &mut value))?;
    Ok(listed(key_length, &value))
}

/// Gives the last record before the key, whether a record has the key itself or not.
///
/// The key may be any lawful key, present or not. The output is written as by [`at_or_after`].
///
/// Each call judges the whole register again, as [`lookup`] does.
///
/// # Errors
///
/// One of the refusals 1 to 10 where [`check`] refuses the register; then
/// [`Refusal::UnlawfulKey`] where the key breaks the key rule, [`Refusal::KeyAbsent`] where no
/// record lies before the key, and [`Refusal::NoRoom`] where the record's key is longer than the
/// output.
///
/// # Examples
///
/// ```
/// use mijdegen::{before, check, put, Refusal, Value, LONGEST_KEY};
///
/// let empty = b"\xa2\x61e\x80\x61l\xf6";
/// let (mut one, mut two) = ([0; 64], [0; 200]);
/// let mut head = check(empty)?;
/// put(empty, &mut head, b"a/b1", &Value::dag_cbor([0x11; 32]), &mut one)?;
/// let length = put(&one, &mut head, b"a/b30", &Value::raw([0x33; 32]), &mut two)?;
/// let register = &two[..length];
///
/// let mut out = [0; LONGEST_KEY];
/// let found = before(register, b"a/b4", &mut out)?;
/// assert_eq!(out[..found.key_length], *b"a/b30");
/// assert_eq!(found.value, Value::raw([0x33; 32]));
///
/// // The record of a present key does not lie before it.
/// let found = before(register, b"a/b30", &mut out)?;
/// assert_eq!(out[..found.key_length], *b"a/b1");
/// assert_eq!(out[found.key_length..], [0; LONGEST_KEY - 4]);
///
/// assert_eq!(before(register, b"a/b1", &mut out), Err(Refusal::KeyAbsent));
/// assert_eq!(out, [0; LONGEST_KEY]);
///
/// assert_eq!(before(register, b"a/b4", &mut out[..4]), Err(Refusal::NoRoom));
/// assert_eq!(before(register, b"a/", &mut out), Err(Refusal::UnlawfulKey));
/// # Ok::<(), Refusal>(())
/// ```
pub fn before(register: &[u8], key: &[u8], out: &mut [u8]) -> Result<Listed, Refusal> {
    let mut value = [0; VALUE_BYTES];
    let key_length = outcome(sys::before(register, key, out, &mut value))?;
    Ok(listed(key_length, &value))
}

/// Writes the register of the records in a range of keys, `first..=last`: from the first key up to
/// and including the last. Gives the length of its table.
///
/// The keys may be any lawful keys, present or not. Equal keys give the register of the key's
/// record alone, and where no record lies in the range the result is the empty register. A range
/// from a greater key to a lesser is refused, not empty. The output is written as by [`put`].
///
/// # Errors
///
/// One of the refusals 1 to 10 where [`check`] refuses the register; then
/// [`Refusal::UnlawfulKey`] where the first key breaks the key rule, then where the last one does;
/// then [`Refusal::FirstAfterLast`] where the first key is greater than the last, and
/// [`Refusal::NoRoom`] where the result's table is longer than the output, or than [`LONGEST`]
/// bytes.
///
/// # Examples
///
/// ```
/// use mijdegen::{check, lookup, put, run, Refusal, Value};
///
/// let empty = b"\xa2\x61e\x80\x61l\xf6";
/// let (mut register, mut next) = (empty.to_vec(), vec![0; 300]);
/// let mut head = check(empty)?;
/// for (key, byte) in [(b"a/b1", 0x11), (b"a/b2", 0x22), (b"a/b3", 0x33)] {
///     let value = Value::dag_cbor([byte; 32]);
///     let length = put(&register, &mut head, key, &value, &mut next)?;
///     register = next[..length].to_vec();
/// }
///
/// // The record of the last key is included.
/// let mut out = [0xaa; 300];
/// let length = run(&register, b"a/b2"..=b"a/b3", &mut out)?;
/// assert_eq!(check(&out[..length])?.count, 2);
/// assert_eq!(lookup(&out[..length], b"a/b3"), Ok(Value::dag_cbor([0x33; 32])));
/// assert!(out[length..].iter().all(|byte| *byte == 0));
///
/// // The keys need not be present.
/// assert_eq!(run(&register, b"a/b11"..=b"a/b20", &mut out), Ok(64));
/// assert_eq!(lookup(&out[..64], b"a/b2"), Ok(Value::dag_cbor([0x22; 32])));
///
/// // No record lies between these keys.
/// assert_eq!(run(&register, b"a/b4"..=b"a/b5", &mut out), Ok(7));
/// assert_eq!(out[..7], *empty);
///
/// let refused = run(&register, b"a/b3"..=b"a/b2", &mut out);
/// assert_eq!(refused, Err(Refusal::FirstAfterLast));
/// assert_eq!(out, [0; 300]);
///
/// let refused = run(&register, b"a/b2"..=b"a/b2", &mut out[..63]);
/// assert_eq!(refused, Err(Refusal::NoRoom));
///
/// // Keys of unlike lengths are handed over as slices, or as text.
/// assert_eq!(run(&register, "a/b1"..="a/b30", &mut out), run(&register, "a/b1"..="a/b3", &mut out));
/// # Ok::<(), Refusal>(())
/// ```
pub fn run<K: AsRef<[u8]>>(
    register: &[u8],
    keys: RangeInclusive<K>,
    out: &mut [u8],
) -> Result<usize, Refusal> {
    let (first, last) = (keys.start().as_ref(), keys.end().as_ref());
    Ok(count(outcome(sys::run(register, first, last, out))?))
}

/// Writes the register in which the key has the value, whether a record has the key already or
/// not. Gives the length of its table.
///
/// The table stands at the start of the output, with zeros after it. On refusal the output is
/// zero.
///
/// The head is that of the register. Afterwards it is that of the register which was written; on
/// refusal it is as it was lent.
///
/// # Errors
///
/// One of the refusals 1 to 10 where [`check`] refuses the register; then [`Refusal::UntrueHead`]
/// where the head is not the one that [`check`] gives, [`Refusal::UnlawfulKey`] where the key
/// breaks the key rule, [`Refusal::TooManyRecords`] where the result has more than 4,096 records,
/// and [`Refusal::NoRoom`] where its table is longer than the output, or than [`LONGEST`] bytes.
/// The C function refuses a wrong value behind the key; a [`Value`] is never wrong.
///
/// # Examples
///
/// ```
/// use mijdegen::{check, put, Refusal, Value};
///
/// // The empty register is one page without entries and without a link. Puts into it reach any
/// // set of records.
/// let empty = b"\xa2\x61e\x80\x61l\xf6";
/// let start = check(empty)?;
/// let value = Value::dag_cbor([0x11; 32]);
/// let (mut head, mut out) = (start, [0; 64]);
/// assert_eq!(put(empty, &mut head, b"a/b1", &value, &mut out), Ok(64));
/// assert_eq!(head.count, 1);
///
/// // One page with one entry: key `a/b1`, prefix 0, no link, and the value as a link.
/// let mut expected = b"\xa2\x61e\x81\xa4\x61k\x44a/b1\x61p\x00\x61t\xf6\x61v".to_vec();
/// expected.extend(b"\xd8\x2a\x58\x25\x00\x01\x71\x12\x20");
/// expected.extend([0x11; 32]);
/// expected.extend(b"\x61l\xf6");
/// assert_eq!(out[..], expected);
///
/// // The head has moved on, and is no longer that of the empty register.
/// let refused = put(empty, &mut head, b"a/b1", &value, &mut out);
/// assert_eq!(refused, Err(Refusal::UntrueHead));
///
/// // 63 bytes are too few.
/// let mut head = start;
/// let refused = put(empty, &mut head, b"a/b1", &value, &mut out[..63]);
/// assert_eq!(refused, Err(Refusal::NoRoom));
/// assert_eq!(out[..63], [0; 63]);
/// assert_eq!(head, start);
/// # Ok::<(), Refusal>(())
/// ```
pub fn put(
    register: &[u8],
    head: &mut Head,
    key: &[u8],
    value: &Value,
    out: &mut [u8],
) -> Result<usize, Refusal> {
    let answer = sys::put(register, head, key, &value.bytes(), out);
    Ok(count(outcome(answer)?))
}

/// Writes the register with the record, where a present key keeps the greater of two values. Gives
/// the length of its table.
///
/// The greater value is the one with the greater digest, compared byte by byte from the first, and
/// at equal digests the one with the greater codec. The output is written, and the head moves on,
/// as by [`put`].
///
/// # Errors
///
/// Those of [`put`].
///
/// # Examples
///
/// ```
/// use mijdegen::{check, join, lookup, Value};
///
/// let [lesser, value, greater] = [0x11, 0x22, 0x33].map(|byte| Value::dag_cbor([byte; 32]));
/// let empty = b"\xa2\x61e\x80\x61l\xf6";
/// let mut head = check(empty)?;
/// let mut first = [0; 64];
/// let mut second = [0; 64];
///
/// assert_eq!(join(empty, &mut head, b"a/b1", &value, &mut first), Ok(64));
/// assert_eq!(join(&first, &mut head, b"a/b1", &lesser, &mut second), Ok(64));
/// assert_eq!(lookup(&second, b"a/b1"), Ok(value));
///
/// assert_eq!(join(&second, &mut head, b"a/b1", &greater, &mut first), Ok(64));
/// assert_eq!(lookup(&first, b"a/b1"), Ok(greater));
/// # Ok::<(), mijdegen::Refusal>(())
/// ```
pub fn join(
    register: &[u8],
    head: &mut Head,
    key: &[u8],
    value: &Value,
    out: &mut [u8],
) -> Result<usize, Refusal> {
    let answer = sys::join(register, head, key, &value.bytes(), out);
    Ok(count(outcome(answer)?))
}

/// Writes the register without the key's record. Gives the length of its table.
///
/// The output is written, and the head moves on, as by [`put`].
///
/// # Errors
///
/// One of the refusals 1 to 10 where [`check`] refuses the register; then [`Refusal::UntrueHead`]
/// where the head is not the one that [`check`] gives, [`Refusal::UnlawfulKey`] where the key
/// breaks the key rule, [`Refusal::KeyAbsent`] where the register has no record with the key, and
/// [`Refusal::NoRoom`] where the result's table is longer than the output, or than [`LONGEST`]
/// bytes.
///
/// # Examples
///
/// ```
/// use mijdegen::{check, put, remove, Refusal, Value};
///
/// let empty = b"\xa2\x61e\x80\x61l\xf6";
/// let mut head = check(empty)?;
/// let mut register = [0; 64];
/// put(empty, &mut head, b"a/b1", &Value::dag_cbor([0x11; 32]), &mut register)?;
///
/// let mut out = [0xaa; 10];
/// assert_eq!(remove(&register, &mut head, b"a/b2", &mut out), Err(Refusal::KeyAbsent));
/// assert_eq!(out, [0; 10]);
///
/// assert_eq!(remove(&register, &mut head, b"a/b1", &mut out), Ok(7));
/// assert_eq!(out[..7], *empty);
/// assert_eq!(out[7..], [0; 3]);
/// assert_eq!(head, check(empty)?);
/// # Ok::<(), Refusal>(())
/// ```
pub fn remove(
    register: &[u8],
    head: &mut Head,
    key: &[u8],
    out: &mut [u8],
) -> Result<usize, Refusal> {
    Ok(count(outcome(sys::remove(register, head, key, out))?))
}

/// Writes the first register with all records of the second joined. Gives the length of its table.
///
/// Each record is joined as by [`join`], so what is written is the same whichever of the two is
/// the first. The head is that of the first register. The output is written, and the head moves on,
/// as by [`put`].
///
/// # Errors
///
/// One of the refusals 1 to 10 where [`check`] refuses the first register, then
/// [`Refusal::UntrueHead`] where the head is not the one that [`check`] gives for the first; then
/// one of 1 to 10 where [`check`] refuses the second register, [`Refusal::TooManyRecords`] where
/// the result has more than 4,096 records, and [`Refusal::NoRoom`] where its table is longer than
/// the output, or than [`LONGEST`] bytes.
///
/// # Examples
///
/// ```
/// use mijdegen::{check, lookup, merge, put, Refusal, Value};
///
/// let (block, drawing) = (Value::dag_cbor([0x11; 32]), Value::raw([0x22; 32]));
/// let empty = b"\xa2\x61e\x80\x61l\xf6";
/// let (mut first, mut second) = ([0; 64], [0; 64]);
/// let mut first_head = check(empty)?;
/// let mut second_head = first_head;
/// put(empty, &mut first_head, b"a/b1", &block, &mut first)?;
/// put(empty, &mut second_head, b"a/b2", &drawing, &mut second)?;
///
/// let mut merged = [0; 200];
/// let length = merge(&first, &mut first_head, &second, &mut merged)?;
/// let merged = &merged[..length];
/// assert_eq!(first_head.count, 2);
/// assert_eq!(lookup(merged, b"a/b1"), Ok(block));
/// assert_eq!(lookup(merged, b"a/b2"), Ok(drawing));
///
/// let mut other_way = [0; 200];
/// assert_eq!(merge(&second, &mut second_head, &first, &mut other_way), Ok(length));
/// assert_eq!(other_way[..length], *merged);
/// assert_eq!(second_head, first_head);
/// # Ok::<(), Refusal>(())
/// ```
pub fn merge(
    first: &[u8],
    head: &mut Head,
    second: &[u8],
    out: &mut [u8],
) -> Result<usize, Refusal> {
    Ok(count(outcome(sys::merge(first, head, second, out))?))
}

/// What [`difference`] gives. The table stands at the start of the output.
#[derive(Clone, Copy, Debug, PartialEq, Eq)]
pub struct Difference {
    /// The length of the table.
    pub length: usize,
    /// The number of opened pages of the second register.
    pub opened: usize,
}

/// Writes the register of what the second register holds and the first does not: all records in
/// opened pages of the second that the first does not hold, key and value. Gives the length of its
/// table and the number of opened pages.
///
/// A page of the second is known when its digest is that of some page of the first, wherever it
/// stands there. It is opened when neither it nor a page above it is known. Equal registers have
/// no opened page, and their difference is the empty register.
///
/// Where no two unequal pages of the two registers share a digest, the result holds exactly those
/// records of the second, key and value, that the first lacks. The output is written as by [`put`].
///
/// # Errors
///
/// One of the refusals 1 to 10 where [`check`] refuses the first register, then where it refuses
/// the second; then [`Refusal::NoRoom`] where the result's table is longer than the output, or
/// than [`LONGEST`] bytes.
///
/// # Examples
///
/// ```
/// use mijdegen::{check, difference, merge, put, Difference, Refusal, Value};
///
/// let (block, drawing) = (Value::dag_cbor([0x11; 32]), Value::raw([0x22; 32]));
/// let empty = b"\xa2\x61e\x80\x61l\xf6";
/// let (mut first, mut only_b2, mut second) = ([0; 64], [0; 64], [0; 200]);
/// put(empty, &mut check(empty)?, b"a/b1", &block, &mut first)?;
/// put(empty, &mut check(empty)?, b"a/b2", &drawing, &mut only_b2)?;
/// let length = put(&first, &mut check(&first)?, b"a/b2", &drawing, &mut second)?;
/// let second = &second[..length];
///
/// // The second has two pages. The lower one is the first register's only page, and known.
/// let mut out = [0xaa; 70];
/// let found = difference(&first, second, &mut out)?;
/// assert_eq!(found, Difference { length: 64, opened: 1 });
/// assert_eq!(out[..64], only_b2);
/// assert_eq!(out[64..], [0; 6]);
///
/// let (mut head, mut merged) = (check(&first)?, [0; 200]);
/// assert_eq!(merge(&first, &mut head, &out[..64], &mut merged), Ok(length));
/// assert_eq!(merged[..length], *second);
/// assert_eq!(head, check(second)?);
///
/// // The other way round nothing is lacking: the only page is known.
/// let found = difference(second, &first, &mut out)?;
/// assert_eq!(found, Difference { length: 7, opened: 0 });
/// assert_eq!(out[..7], *empty);
///
/// assert_eq!(difference(&first, second, &mut out[..63]), Err(Refusal::NoRoom));
/// # Ok::<(), Refusal>(())
/// ```
pub fn difference(first: &[u8], second: &[u8], out: &mut [u8]) -> Result<Difference, Refusal> {
    let (length, opened) = two_numbers(outcome(sys::difference(first, second, out))?);
    Ok(Difference { length, opened })
}

/// What [`screen`] gives. The table stands at the start of the output.
#[derive(Clone, Copy, Debug, PartialEq, Eq)]
pub struct Screen {
    /// The length of the table, at most [`LONGEST_SCREEN`].
    pub length: usize,
    /// The number of screens of the collection, at least 1.
    pub screens: usize,
}

/// Writes the register of the records on one screen of a collection: those that stand from `8 * n`
/// to `8 * n + 7` among the collection's records in key order, counted from 0. Gives the length of
/// its table and the number of the collection's screens.
///
/// The records of a collection are those whose keys have it before the slash. It has one screen for
/// each [`PER_SCREEN`] of them, and one more for those that are left over; so each record stands on
/// just one of its screens. A collection without records has one screen, the empty register.
///
/// The collection may be any that stands before the slash in some lawful key, present or not: from
/// 1 to 254 ASCII letters, digits, `.`, `-`, `_`, `:` and `~`, also `.` and `..`. The output is
/// written as by [`put`]; one of [`LONGEST_SCREEN`] bytes has room for every screen.
///
/// Each call judges the whole register again and writes at most 8 records.
///
/// # Errors
///
/// One of the refusals 1 to 10 where [`check`] refuses the register; then
/// [`Refusal::UnlawfulKey`] where the collection stands before the slash in no lawful key,
/// [`Refusal::NoSuchScreen`] where `n` is at or past the number of screens, and [`Refusal::NoRoom`]
/// where the result's table is longer than the output.
///
/// # Examples
///
/// ```
/// use mijdegen::{check, list, put, screen, Refusal, Screen, Value};
/// use mijdegen::{LONGEST_KEY, LONGEST_SCREEN};
///
/// /// Gives the screens of the collection in turn. It ends behind the last one, or with a refusal.
/// fn screens<'a>(
///     register: &'a [u8],
///     collection: &'a [u8],
/// ) -> impl Iterator<Item = Result<Vec<u8>, Refusal>> + 'a {
///     let (mut out, mut next) = (vec![0; LONGEST_SCREEN], Some(0));
///     std::iter::from_fn(move || {
///         let n = next.take()?;
///         match screen(register, collection, n, &mut out) {
///             Ok(found) => {
///                 next = Some(n + 1);
///                 Some(Ok(out[..found.length].to_vec()))
///             }
///             Err(Refusal::NoSuchScreen) => None,
///             Err(refusal) => Some(Err(refusal)),
///         }
///     })
/// }
///
/// // Ten records of the collection `part`, and records of other collections around them.
/// let empty = b"\xa2\x61e\x80\x61l\xf6";
/// let parts: Vec<String> = (0..10).map(|number| format!("part/b{number}")).collect();
/// let (mut register, mut next) = (empty.to_vec(), vec![0; 3_000]);
/// let (mut head, value) = (check(empty)?, Value::raw([0x11; 32]));
/// for key in parts.iter().map(String::as_str).chain(["part.old/b1", "parts/b1"]) {
///     let length = put(&register, &mut head, key.as_bytes(), &value, &mut next)?;
///     register = next[..length].to_vec();
/// }
///
/// // The screens one after the other are the collection.
/// let (mut counts, mut keys) = (Vec::new(), Vec::new());
/// for screen in screens(&register, b"part") {
///     let screen = screen?;
///     let count = check(&screen)?.count as usize;
///     for n in 0..count {
///         let mut key = [0; LONGEST_KEY];
///         let listed = list(&screen, n, &mut key)?.expect("n is less than the count");
///         keys.push(key[..listed.key_length].to_vec());
///     }
///     counts.push(count);
/// }
/// assert_eq!(counts, [8, 2]);
/// assert!(keys.iter().eq(parts.iter().map(String::as_bytes)));
///
/// // A refusal is given once.
/// assert!(screens(&register, b"part/").eq([Err(Refusal::UnlawfulKey)]));
///
/// // A collection without records has one screen without records.
/// let mut out = [0xaa; 10];
/// let found = screen(&register, b"none", 0, &mut out);
/// assert_eq!(found, Ok(Screen { length: 7, screens: 1 }));
/// assert_eq!(out[..7], *empty);
/// assert_eq!(out[7..], [0; 3]);
///
/// assert_eq!(screen(&register, b"none", 1, &mut out), Err(Refusal::NoSuchScreen));
/// assert_eq!(out, [0; 10]);
/// assert_eq!(screen(&register, b"part", 1, &mut out), Err(Refusal::NoRoom));
/// # Ok::<(), Refusal>(())
/// ```
pub fn screen(
    register: &[u8],
    collection: &[u8],
    n: usize,
    out: &mut [u8],
) -> Result<Screen, Refusal> {
    let answer = sys::screen(register, collection, n as u64, out);
    let (length, screens) = two_numbers(outcome(answer)?);
    Ok(Screen { length, screens })
}

/// Writes the path of the key: the pages that a search for the key opens, one after the other.
/// Gives the length of the path.
///
/// The search opens the root page, goes on by the link of the gap where the key would stand, and
/// ends when the key is an entry or that gap has no link. The key may be any lawful key, present or
/// not: [`verify`] says by the path which of the two it is.
///
/// The path stands at the start of the output, with zeros after it. It is never longer than the
/// register. On refusal the output is zero.
///
/// Each call judges the whole register again, as [`lookup`] does.
///
/// # Errors
///
/// One of the refusals 1 to 10 where [`check`] refuses the register; then
/// [`Refusal::UnlawfulKey`] where the key breaks the key rule, and [`Refusal::NoRoom`] where the
/// path is longer than the output.
///
/// # Examples
///
/// ```
/// use mijdegen::{check, path, put, Refusal, Value};
///
/// let empty = b"\xa2\x61e\x80\x61l\xf6";
/// let (mut one, mut two) = ([0; 64], [0; 200]);
/// let mut head = check(empty)?;
/// put(empty, &mut head, b"a/b1", &Value::dag_cbor([0x11; 32]), &mut one)?;
/// let length = put(&one, &mut head, b"a/b2", &Value::raw([0x22; 32]), &mut two)?;
/// let register = &two[..length];
///
/// // The register has two pages: `a/b2` is an entry of the root page, and `a/b1` stands in the
/// // page of the gap before it. So a search for `a/b1`, or for a lesser key, opens both.
/// let mut out = [0xaa; 200];
/// assert_eq!(path(register, b"a/b1", &mut out), Ok(length));
/// assert_eq!(out[..length], *register);
/// assert_eq!(path(register, b"a/b0", &mut out), Ok(length));
///
/// // A search for `a/b2` ends in the root page. So does one for a greater key, since the gap after
/// // the entry has no link.
/// let root = length - one.len();
/// for key in [b"a/b2", b"a/b3"] {
///     assert_eq!(path(register, key, &mut out), Ok(root));
///     assert_eq!(out[..root], register[..root]);
///     assert!(out[root..].iter().all(|byte| *byte == 0));
/// }
///
/// let refused = path(register, b"a/b1", &mut out[..length - 1]);
/// assert_eq!(refused, Err(Refusal::NoRoom));
/// assert!(out[..length - 1].iter().all(|byte| *byte == 0));
/// assert_eq!(path(register, b"a/", &mut out), Err(Refusal::UnlawfulKey));
/// # Ok::<(), Refusal>(())
/// ```
pub fn path(register: &[u8], key: &[u8], out: &mut [u8]) -> Result<usize, Refusal> {
    Ok(count(outcome(sys::path(register, key, out))?))
}

/// What a path says of a key, as [`verify`] gives it.
#[derive(Clone, Copy, Debug, PartialEq, Eq)]
pub enum Presence {
    /// The key is present with this value.
    Present(Value),
    /// The key is absent.
    Absent,
}

/// Says by the pages of a path whether the key is present in the register of a root digest, and
/// with which value. No register is needed.
///
/// The path holds just the pages that a search for the key opens, as [`path`] writes them. The root
/// digest comes from one who has the register, before or apart from any path: it stands in the
/// register's [`Head`], and is the [`digest`] of the root page, which is the first page of the
/// register and of every path from it.
///
/// The verdict agrees with [`lookup`] in every register of that root digest, provided no two
/// unequal pages of the path and the register share a digest. With its key and its register's root
/// digest, every path that [`path`] writes is accepted. Both are proved of the library. A path need
/// not be from an accepted register: layers of keys and the count of records are not judged.
///
/// # Errors
///
/// [`Refusal::TooLong`] where the path is longer than [`LONGEST`] bytes; then
/// [`Refusal::UnlawfulKey`] where the key breaks the key rule, and [`Refusal::WrongValue`] where
/// the root digest is not 32 bytes.
///
/// Then each page in turn is judged: [`Refusal::EndsEarly`] where the path ends while a byte of the
/// page is due, or [`Refusal::Departs`] where a byte departs from the page form, whichever comes
/// first; then [`Refusal::WrongPrefix`], [`Refusal::UnlawfulKey`] and [`Refusal::KeysNotRising`] by
/// the keys of the page; and last [`Refusal::PageNotDue`] where the page's digest is not the one
/// due. Only then does the search say whether another page is due. Of a 130th page the first byte
/// departs.
///
/// [`Refusal::BytesFollow`] where bytes are left when the search ends.
///
/// # Examples
///
/// ```
/// use mijdegen::{check, digest, path, put, verify, Presence, Refusal, Value};
///
/// // One who has the register has the root digest in its head.
/// let empty = b"\xa2\x61e\x80\x61l\xf6";
/// let (mut one, mut two) = ([0; 64], [0; 200]);
/// let mut head = check(empty)?;
/// let value = Value::raw([0x11; 32]);
/// put(empty, &mut head, b"a/b1", &value, &mut one)?;
/// let length = put(&one, &mut head, b"a/b2", &Value::dag_cbor([0x22; 32]), &mut two)?;
/// let register = &two[..length];
/// let root = head.digest;
///
/// // One who holds the root digest alone is sent the path of a key.
/// let mut out = [0; 200];
/// let length = path(register, b"a/b1", &mut out)?;
/// let sent = &out[..length];
/// assert_eq!(verify(sent, b"a/b1", &root), Ok(Presence::Present(value)));
///
/// // The same pages say that a lesser key is absent. They say nothing of a key behind `a/b2`: the
/// // search for it ends in the root page, and bytes are left.
/// assert_eq!(verify(sent, b"a/b0", &root), Ok(Presence::Absent));
/// assert_eq!(verify(sent, b"a/b3", &root), Err(Refusal::BytesFollow));
///
/// // Another value cannot be passed off. The last page ends in the value and 3 bytes more, and the
/// // codec stands 3 bytes before the digest.
/// let mut forged = sent.to_vec();
/// forged[length - 4] ^= 1;
/// assert_eq!(verify(&forged, b"a/b1", &root), Err(Refusal::PageNotDue));
/// let mut forged = sent.to_vec();
/// forged[length - 38] = 0x71;
/// assert_eq!(verify(&forged, b"a/b1", &root), Err(Refusal::PageNotDue));
///
/// // A register of one page is the path of every key, and its digest is the root digest.
/// let root = digest(&one)?;
/// assert_eq!(verify(&one, b"a/b1", &root), Ok(Presence::Present(value)));
/// assert_eq!(verify(&one, b"a/b2", &root), Ok(Presence::Absent));
/// # Ok::<(), Refusal>(())
/// ```
pub fn verify(path: &[u8], key: &[u8], root: &[u8]) -> Result<Presence, Refusal> {
    Ok(match outcome(sys::verify(path, key, root))? {
        // No codec is 0.
        0 => Presence::Absent,
        found => Presence::Present(value_found(path, found)),
    })
}

/// Gives the value that the library found in what it was lent. What it answers holds the place of
/// the digest, and the codec.
fn value_found(lent: &[u8], answered: u64) -> Value {
    let (place, codec) = two_numbers(answered);
    let digest = lent.get(place..).and_then(|rest| rest.first_chunk());
    let codec = u8::try_from(codec).ok().and_then(Codec::from_byte);
    Value {
        digest: *digest.expect("the library gives a place with 32 bytes of what it is lent"),
        codec: codec.expect("the library gives the codec of a value"),
    }
}

/// Gives the record whose key has this length and whose value the library wrote.
fn listed(key_length: u64, value: &[u8]) -> Listed {
    Listed {
        key_length: count(key_length),
        value: Value::try_from(value).expect("the library writes a codec and a digest"),
    }
}

/// Gives a value of the library that counts bytes, records or pages of a slice.
fn count(value: u64) -> usize {
    usize::try_from(value).expect("the library counts no more than a slice holds")
}

/// Takes a value of the library apart that holds two numbers: the first plus 2^24 times the second.
fn two_numbers(value: u64) -> (usize, usize) {
    (count(value % (1 << 24)), count(value >> 24))
}

/// Takes an answer of the library apart. An answer is a number plus 256 times a value: number 0
/// comes with a value, and each other number is that of a refusal.
fn outcome(answer: u64) -> Result<u64, Refusal> {
    let number = (answer % 256) as u8;
    if number == 0 {
        return Ok(answer / 256);
    }
    match Refusal::from_number(number) {
        Some(refusal) => Err(refusal),
        None => panic!("the library answered with the unknown number {number}"),
    }
}

#[cfg(test)]
mod tests {
    use super::{outcome, two_numbers, Refusal};

    #[test]
    fn number_zero_gives_the_value() {
        for value in [0, 1, 4, 128, 255, 256, 4_194_304, u64::MAX / 256] {
            assert_eq!(outcome(256 * value), Ok(value));
        }
    }

    #[test]
    fn a_value_comes_apart_into_two_numbers() {
        for first in [0, 1, 7, 4_194_304, (1 << 24) - 1] {
            for second in [0, 1, 512, (1 << 32) - 1] {
                assert_eq!(
                    two_numbers(first + (second << 24)),
                    (first as usize, second as usize)
                );
            }
        }
    }

    #[test]
    fn numbers_1_to_17_give_the_refusal() {
        let refusals = [
            Refusal::TooLong,
            Refusal::EndsEarly,
            Refusal::Departs,
            Refusal::BytesFollow,
            Refusal::TooManyRecords,
            Refusal::WrongPrefix,
            Refusal::UnlawfulKey,
            Refusal::KeysNotRising,
            Refusal::WrongTree,
            Refusal::WrongDigest,
            Refusal::WrongValue,
            Refusal::KeyAbsent,
            Refusal::NoRoom,
            Refusal::FirstAfterLast,
            Refusal::NoSuchScreen,
            Refusal::PageNotDue,
            Refusal::UntrueHead,
        ];
        for (answer, refusal) in (1..=17).zip(refusals) {
            assert_eq!(outcome(answer), Err(refusal));
        }
    }

    #[test]
    #[should_panic(expected = "the library answered with the unknown number 18")]
    fn number_18_panics() {
        let _ = outcome(18);
    }

    #[test]
    #[should_panic(expected = "the library answered with the unknown number 255")]
    fn number_255_panics() {
        let _ = outcome(255);
    }
}
