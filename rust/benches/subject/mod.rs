//! Registers and paths with the times they cannot do without, for the benches of all calls but
//! digest.

// Each bench is compiled with its own copy of this module and may not use all of it.
#![allow(dead_code)]

use crate::common::calls::mijdegen_digest;
use crate::common::forge::Page;
use crate::common::heads::{head_for, head_of};
use crate::common::sets::{set, under, Kind};
use independent::{Set, Value};
use std::hint::black_box;

/// A register, with its set and its pages.
pub struct Subject {
    pub name: &'static str,
    pub kind: Kind,
    pub set: Set,
    pub register: Vec<u8>,
    /// Where each page ends in the register.
    page_ends: Vec<usize>,
    /// The keys, one after the other, and where each ends.
    keys: Vec<u8>,
    key_ends: Vec<usize>,
}

/// Gives the set with all values under the codec of record blocks, which all times are of.
pub fn blocks(set: Set) -> Set {
    under(Value::dag_cbor, set)
}

/// Calls the library's digest as C does for each of these pieces, which end at these places.
fn hash_pieces(bytes: &[u8], ends: &[usize]) {
    let mut digest = [0; 32];
    let mut start = 0;
    for end in ends {
        let piece = black_box(&bytes[start..*end]);
        // SAFETY: The piece has as many bytes as the library is told, and the digest 32.
        black_box(unsafe { mijdegen_digest(piece.as_ptr(), piece.len(), &mut digest) });
        start = *end;
    }
    black_box(digest);
}

impl Subject {
    /// Gives registers of 4,096 records that the calls are timed on. The first is the one that the
    /// others are compared with.
    pub fn all() -> [Subject; 3] {
        [
            Subject::new("ordinary records", Kind::Ordinary, 4_096),
            Subject::new("one page of 4,096 entries", Kind::OnePage, 4_096),
            Subject::new("2,048 entries with a page each", Kind::Alternating, 4_096),
        ]
    }

    /// Gives the register of so many records.
    pub fn new(name: &'static str, kind: Kind, count: usize) -> Subject {
        Subject::of_set(name, kind, blocks(set(kind, count)))
    }

    /// Gives the register of the set.
    pub fn of_set(name: &'static str, kind: Kind, set: Set) -> Subject {
        let mut register = Vec::new();
        let mut page_ends = Vec::new();
        for page in independent::pages(&set) {
            register.extend(page);
            page_ends.push(register.len());
        }
        assert_eq!(mijdegen::check(&register), Ok(head_of(&set)));
        assert_eq!(head_for(&register), head_of(&set));
        let mut keys = Vec::new();
        let mut key_ends = Vec::new();
        for key in set.keys() {
            keys.extend(key);
            key_ends.push(keys.len());
        }
        Subject {
            name,
            kind,
            set,
            register,
            page_ends,
            keys,
            key_ends,
        }
    }

    /// Counts the bytes that are hashed: those of the pages and of the keys.
    pub fn hashed(&self) -> usize {
        self.register.len() + self.keys.len()
    }

    /// Counts the pages.
    pub fn pages(&self) -> usize {
        self.page_ends.len()
    }

    /// Gives the key in the middle.
    pub fn middle_key(&self) -> &[u8] {
        let middle = self.set.len() / 2;
        self.set.keys().nth(middle).expect("there are records")
    }

    /// The library's own digest over each page and over each key, once each, in a bare loop.
    pub fn hash_once(&self) {
        hash_pieces(&self.register, &self.page_ends);
        self.hash_keys();
    }

    /// The library's own digest over each key, once each, in a bare loop.
    pub fn hash_keys(&self) {
        hash_pieces(&self.keys, &self.key_ends);
    }

    /// Calls with each key. The keys stand one behind the other, so that memory is no part of the
    /// time of whichever comes first.
    pub fn for_each_key<T>(&self, call: impl Fn(&[u8]) -> T) {
        let mut start = 0;
        for end in &self.key_ends {
            black_box(call(black_box(&self.keys[start..*end])));
            start = *end;
        }
    }
}

/// The paths of some keys of a register.
pub struct Paths {
    root: [u8; 32],
    sent: Vec<Sent>,
}

/// A path, with its key.
struct Sent {
    key: Vec<u8>,
    path: Vec<u8>,
    /// Where each page ends in the path.
    page_ends: Vec<usize>,
}

impl Paths {
    /// Gives the paths of at most so many keys, which stand all over the set.
    pub fn of_set(set: &Set, most: usize) -> Paths {
        let root = Page::of_set(set);
        let root = root.written();
        let step = set.len().div_ceil(most);
        let sent = set.keys().step_by(step).map(|key| {
            let mut sent = Sent {
                key: key.clone(),
                path: Vec::new(),
                page_ends: Vec::new(),
            };
            for page in root.path(key) {
                sent.path.extend(page);
                sent.page_ends.push(sent.path.len());
            }
            assert!(mijdegen::verify(&sent.path, key, &root.digest).is_ok());
            sent
        });
        Paths {
            sent: sent.collect(),
            root: root.digest,
        }
    }

    /// Counts the paths.
    pub fn count(&self) -> usize {
        self.sent.len()
    }

    /// Counts the bytes of all paths.
    pub fn bytes(&self) -> usize {
        self.sent.iter().map(|sent| sent.path.len()).sum()
    }

    /// Judges each path by the library.
    pub fn verify(&self) {
        for sent in &self.sent {
            let (path, key) = (black_box(&sent.path), black_box(&sent.key));
            black_box(mijdegen::verify(path, key, &self.root)).expect("a right path");
        }
    }

    /// Judges each path by the independent crate.
    pub fn independent_verify(&self) {
        for sent in &self.sent {
            let (path, key) = (black_box(&sent.path), black_box(&sent.key));
            black_box(independent::verify(path, key, &self.root)).expect("a right path");
        }
    }

    /// The library's own digest over each page of each path, once each, in a bare loop.
    pub fn hash_pages(&self) {
        for sent in &self.sent {
            hash_pieces(&sent.path, &sent.page_ends);
        }
    }
}
