//! The head of a set.

use crate::table::table_and_head;
use crate::{Digest, Set};

/// What a caller keeps beside the register of a set.
#[derive(Clone, Copy, Debug, PartialEq, Eq)]
pub struct Head {
    /// The count of the records.
    pub count: u32,
    /// The layer of the root: the highest of any key, and 0 for the empty set.
    pub layer: u32,
    /// The digest of the root page.
    pub digest: Digest,
}

impl Head {
    /// Gives the head of so many records with a root at this layer.
    pub(crate) fn new(count: usize, layer: u8, digest: Digest) -> Head {
        Head {
            count: u32::try_from(count).expect("a set is smaller"),
            layer: u32::from(layer),
            digest,
        }
    }
}

/// Gives the head of the set.
pub fn head_of(set: &Set) -> Head {
    let (_, head) = table_and_head(set);
    head
}
