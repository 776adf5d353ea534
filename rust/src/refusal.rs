//! The reasons for which the library refuses an input.

use core::fmt;

/// Why the library refused a call. Each refusal has the number by which the C functions name it.
#[derive(Clone, Copy, Debug, PartialEq, Eq, Hash)]
#[repr(u8)]
pub enum Refusal {
    /// A lent register or path, or the input of `digest` or `layer`, is longer than 4,194,304
    /// bytes.
    TooLong = 1,
    /// Each byte fits the page form, but the input ends while a byte or linked page is due.
    EndsEarly = 2,
    /// A byte departs from the page form.
    Departs = 3,
    /// Bytes follow the last linked page; in a path, the page where the search ends.
    BytesFollow = 4,
    /// There are more than 4,096 records, given or resulting.
    TooManyRecords = 5,
    /// A prefix length is not the shared count.
    WrongPrefix = 6,
    /// A key in a register, path or argument breaks the key rule, or a collection argument is the
    /// part before the slash in no lawful key.
    UnlawfulKey = 7,
    /// A key is not greater than the key before it in tree order; in a path, within its page.
    KeysNotRising = 8,
    /// The pages, their entries and their linked gaps are not those that the rules give for the
    /// same keys.
    WrongTree = 9,
    /// A link's digest is not that of its page.
    WrongDigest = 10,
    /// A value argument is not 33 bytes with codec 55 or 71 first, or a root digest is not 32
    /// bytes.
    WrongValue = 11,
    /// The key is absent, for `lookup` and `remove`; no record lies at or after the key, for
    /// `at_or_after`, or before it, for `before`.
    KeyAbsent = 12,
    /// The result is longer than the output, or than 4,194,304 bytes.
    NoRoom = 13,
    /// The first key is greater than the last.
    FirstAfterLast = 14,
    /// A screen number is at or past the number of screens.
    NoSuchScreen = 15,
    /// The digest of a path's page is not the one due: that of the root, or that in the link by
    /// which the search goes on.
    PageNotDue = 16,
    /// A lent head is untrue of its register, in its count, its layer or its digest.
    UntrueHead = 17,
}

impl Refusal {
    /// Gives the number of the refusal, from 1 to 17.
    pub const fn number(self) -> u8 {
        self as u8
    }

    /// Gives the refusal with this number, or none where the number is not from 1 to 17.
    pub const fn from_number(number: u8) -> Option<Refusal> {
        Some(match number {
            1 => Refusal::TooLong,
            2 => Refusal::EndsEarly,
            3 => Refusal::Departs,
            4 => Refusal::BytesFollow,
            5 => Refusal::TooManyRecords,
            6 => Refusal::WrongPrefix,
            7 => Refusal::UnlawfulKey,
            8 => Refusal::KeysNotRising,
            9 => Refusal::WrongTree,
            10 => Refusal::WrongDigest,
            11 => Refusal::WrongValue,
            12 => Refusal::KeyAbsent,
            13 => Refusal::NoRoom,
            14 => Refusal::FirstAfterLast,
            15 => Refusal::NoSuchScreen,
            16 => Refusal::PageNotDue,
            17 => Refusal::UntrueHead,
            _ => return None,
        })
    }
}

impl fmt::Display for Refusal {
    fn fmt(&self, formatter: &mut fmt::Formatter<'_>) -> fmt::Result {
        formatter.write_str(match self {
            Refusal::TooLong => "the input is longer than 4,194,304 bytes",
            Refusal::EndsEarly => "the input ends while a byte or linked page is due",
            Refusal::Departs => "a byte departs from the page form",
            Refusal::BytesFollow => {
                "bytes follow the last linked page, or the page where a search ends"
            }
            Refusal::TooManyRecords => "there are more than 4,096 records",
            Refusal::WrongPrefix => "a prefix length is not the shared count",
            Refusal::UnlawfulKey => {
                "a key breaks the key rule, or no lawful key has the collection before its slash"
            }
            Refusal::KeysNotRising => "a key is not greater than the key before it",
            Refusal::WrongTree => "the pages are not those that the rules give for the same keys",
            Refusal::WrongDigest => "a link's digest is not that of its page",
            Refusal::WrongValue => {
                "a value is not 33 bytes with codec 55 or 71 first, or a root digest not 32 bytes"
            }
            Refusal::KeyAbsent => {
                "the key is absent, or no record lies at or after it, or before it"
            }
            Refusal::NoRoom => "the result is longer than the output, or than 4,194,304 bytes",
            Refusal::FirstAfterLast => "the first key is greater than the last",
            Refusal::NoSuchScreen => "a screen number is at or past the number of screens",
            Refusal::PageNotDue => "the digest of a path's page is not the one due",
            Refusal::UntrueHead => "the head is not that of the register it is lent with",
        })
    }
}

impl core::error::Error for Refusal {}
