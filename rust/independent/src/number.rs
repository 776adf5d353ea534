//! The numbers that say why a call is refused, after the scope's table.

/// A lent register or path, or the input of a digest, is longer than 4,194,304 bytes.
pub const TOO_LONG: u8 = 1;
/// Each byte fits the page form, but the input ends while a byte or linked page is due.
pub const ENDS_EARLY: u8 = 2;
/// A byte departs from the page form.
pub const DEPARTS: u8 = 3;
/// Bytes follow the last linked page; in a path, the page where the search ends.
pub const BYTES_FOLLOW: u8 = 4;
/// There are more than 4,096 records, given or resulting.
pub const TOO_MANY_RECORDS: u8 = 5;
/// A prefix length is not the shared count.
pub const WRONG_PREFIX: u8 = 6;
/// A key in a register, path or argument breaks the key rule, or a collection argument is the part
/// before the slash in no lawful key.
pub const UNLAWFUL_KEY: u8 = 7;
/// A key is not greater than the key before it in tree order; in a path, within its page.
pub const KEYS_NOT_RISING: u8 = 8;
/// The pages, their entries and their linked gaps are not those that the rules give for the same
/// keys.
pub const WRONG_TREE: u8 = 9;
/// A link's digest is not that of its page.
pub const WRONG_DIGEST: u8 = 10;
/// A value argument is not 33 bytes with a codec first, or a root digest is not 32 bytes.
pub const WRONG_VALUE: u8 = 11;
/// The key is absent, for lookup and remove; no record lies at or after the key, or before it.
pub const KEY_ABSENT: u8 = 12;
/// The result (a table, a path, or the key where a record is given) is longer than the output, or
/// than 4,194,304 bytes.
pub const NO_ROOM: u8 = 13;
/// The first key is greater than the last.
pub const FIRST_AFTER_LAST: u8 = 14;
/// A screen number is at or past the number of screens.
pub const NO_SUCH_SCREEN: u8 = 15;
/// The digest of a path's page is not the one due.
pub const PAGE_NOT_DUE: u8 = 16;
/// A lent head is untrue of its register.
pub const UNTRUE_HEAD: u8 = 17;
