//! The bytes of pages, and the page table of a set.

use crate::key::layer;
use crate::tree::{build, top_layer, Gap, Page};
use crate::{sha256, Digest, Head, Set, Value};

/// The bytes of a link before its codec, and those between the codec and the digest.
pub(crate) const BEFORE_CODEC: [u8; 6] = [0xd8, 0x2a, 0x58, 0x25, 0x00, 0x01];
pub(crate) const AFTER_CODEC: [u8; 2] = [0x12, 0x20];

/// The byte that stands where a gap has no link.
pub(crate) const NULL: u8 = 0xf6;

/// The highest three bits of a number's first byte: a plain number, the length of a byte string,
/// the count of an array.
pub(crate) const NUMBER: u8 = 0x00;
pub(crate) const BYTE_STRING: u8 = 0x40;
pub(crate) const ARRAY: u8 = 0x80;

/// Gives the page table of the set: all its pages, one after the other.
pub fn table(set: &Set) -> Vec<u8> {
    pages(set).concat()
}

/// Gives the bytes of the set's pages in table order: a page, then its left subtree, then the
/// subtree after each entry in turn.
pub fn pages(set: &Set) -> Vec<Vec<u8>> {
    let mut pages = Vec::new();
    add_page(&tree_of(set), &mut pages);
    pages
}

/// Gives the page table of the set, and its head.
pub(crate) fn table_and_head(set: &Set) -> (Vec<u8>, Head) {
    let row = row_of(set);
    let mut pages = Vec::new();
    let digest = add_page(&build(&row), &mut pages);
    let head = Head::new(set.len(), top_layer(&row), digest);
    (pages.concat(), head)
}

/// Builds the tree of the set's records.
pub fn tree_of(set: &Set) -> Page<(&[u8], &Value)> {
    build(&row_of(set))
}

/// Gives the set's records in key order, each with its key's layer.
fn row_of(set: &Set) -> Vec<(u8, (&[u8], &Value))> {
    let records = set.iter();
    records
        .map(|(key, value)| (layer(key), (key.as_slice(), value)))
        .collect()
}

/// Adds the bytes of the page and of all pages below it. Gives the page's digest.
fn add_page(page: &Page<(&[u8], &Value)>, pages: &mut Vec<Vec<u8>>) -> Digest {
    // The page stands before the pages below it, but its bytes hold their digests.
    let place = pages.len();
    pages.push(Vec::new());
    let left = add_gap(&page.left, pages);
    let after: Vec<Option<Digest>> = page
        .entries
        .iter()
        .map(|(_, gap)| add_gap(gap, pages))
        .collect();

    let mut bytes = Vec::new();
    bytes.extend(b"\xa2\x61e");
    push_number(&mut bytes, ARRAY, page.entries.len());
    let mut key_before: &[u8] = b"";
    for (((key, value), _), link) in page.entries.iter().zip(&after) {
        let prefix = shared_count(key_before, key);
        let remainder = &key[prefix..];
        bytes.extend(b"\xa4\x61k");
        push_number(&mut bytes, BYTE_STRING, remainder.len());
        bytes.extend(remainder);
        bytes.extend(b"\x61p");
        push_number(&mut bytes, NUMBER, prefix);
        bytes.extend(b"\x61t");
        push_gap(&mut bytes, *link);
        bytes.extend(b"\x61v");
        push_link(&mut bytes, value);
        key_before = key;
    }
    bytes.extend(b"\x61l");
    push_gap(&mut bytes, left);

    let digest = sha256(&bytes);
    pages[place] = bytes;
    digest
}

/// Adds the pages of a gap. Gives the digest for its link, or none where it is empty.
fn add_gap(gap: &Gap<(&[u8], &Value)>, pages: &mut Vec<Vec<u8>>) -> Option<Digest> {
    gap.as_ref().map(|page| add_page(page, pages))
}

/// Counts the leading bytes that the keys share.
pub(crate) fn shared_count(one: &[u8], other: &[u8]) -> usize {
    one.iter().zip(other).take_while(|(a, b)| a == b).count()
}

/// Writes a number in its shortest form. It is at most 65,535.
fn push_number(bytes: &mut Vec<u8>, kind: u8, number: usize) {
    let [.., high, low] = number.to_be_bytes();
    match number {
        0..=23 => bytes.push(kind | low),
        24..=255 => bytes.extend([kind | 24, low]),
        256..=65_535 => bytes.extend([kind | 25, high, low]),
        _ => panic!("{number} is not written in a page"),
    }
}

/// Writes the link of a gap, or null where there is none. A page is a block, so its link has that
/// codec.
fn push_gap(bytes: &mut Vec<u8>, digest: Option<Digest>) {
    match digest {
        Some(digest) => push_link(bytes, &Value::dag_cbor(digest)),
        None => bytes.push(NULL),
    }
}

/// Writes a link.
fn push_link(bytes: &mut Vec<u8>, value: &Value) {
    bytes.extend(BEFORE_CODEC);
    bytes.push(value.codec.byte());
    bytes.extend(AFTER_CODEC);
    bytes.extend(value.digest);
}

#[cfg(test)]
mod tests {
    use super::{push_number, shared_count, ARRAY, BYTE_STRING, NUMBER};

    #[test]
    fn shortest_forms() {
        let rows: [(u8, usize, &[u8]); 12] = [
            (NUMBER, 0, &[0x00]),
            (NUMBER, 23, &[0x17]),
            (NUMBER, 24, &[0x18, 0x18]),
            (NUMBER, 255, &[0x18, 0xff]),
            (NUMBER, 256, &[0x19, 0x01, 0x00]),
            (NUMBER, 65_535, &[0x19, 0xff, 0xff]),
            (BYTE_STRING, 4, &[0x44]),
            (BYTE_STRING, 200, &[0x58, 0xc8]),
            (BYTE_STRING, 256, &[0x59, 0x01, 0x00]),
            (ARRAY, 0, &[0x80]),
            (ARRAY, 24, &[0x98, 0x18]),
            (ARRAY, 4_096, &[0x99, 0x10, 0x00]),
        ];
        for (kind, number, expected) in rows {
            let mut bytes = Vec::new();
            push_number(&mut bytes, kind, number);
            assert_eq!(bytes, expected, "{number}");
        }
    }

    #[test]
    fn shared_counts() {
        assert_eq!(shared_count(b"", b"a/b1"), 0);
        assert_eq!(shared_count(b"a/b1", b"a/b2"), 3);
        assert_eq!(shared_count(b"a/b1", b"a/b1"), 4);
        assert_eq!(shared_count(b"a/b1", b"a/b12"), 4);
        assert_eq!(shared_count(b"a/b12", b"a/b1"), 4);
        assert_eq!(shared_count(b"b/b1", b"a/b1"), 0);
    }
}
