//! The rules of `mijdegen` written a second time, from their published descriptions.
//!
//! The tests and benches of `mijdegen` compare the library with this crate, so it shares no code
//! with the library and does not link it. It is written to be read, not to be fast.
//!
//! A refused call gives its number, from 1 to 17; [`number`] names them.

#![forbid(unsafe_code)]
#![warn(missing_docs)]

mod calls;
mod head;
mod key;
pub mod number;
mod reader;
mod sha256;
mod table;
pub mod tree;
mod value;

pub use calls::{
    at_or_after, before, check, difference, join, join_in, list, lookup, merge, merge_in, path,
    put, put_in, remove, remove_from, result_table, run, run_of, screen, screen_of, set_of, verify,
};
pub use head::{head_of, Head};
pub use key::{lawful, layer, slash, LONGEST_KEY};
pub use sha256::sha256;
pub use table::{pages, table, tree_of};
pub use value::{Codec, Value, ValueBytes};

use std::collections::BTreeMap;

/// A SHA-256 digest.
pub type Digest = [u8; 32];

/// A set of records: the value of each key, in key order. Keys are ordered byte by byte, and a
/// key stands before every longer key that begins with it.
pub type Set = BTreeMap<Vec<u8>, Value>;

/// The length in bytes of the longest register or path.
pub const LONGEST: usize = 4_194_304;

/// How many records a register holds at most.
pub const MOST_RECORDS: usize = 4_096;

/// How many records a screen has at most.
pub const PER_SCREEN: usize = 8;
