//! Pairs of registers on which a careless reader is slow: many pages, deep pages, keys that share
//! most of their bytes. Also paths of this kind.

use crate::common::forge::{link_to, right_chain, widest_page, Entry, Page};
use crate::common::sets::{numbered_keys, set, set_of_layers, Kind};
use crate::subject::blocks;
use independent::{pages, sha256, table, Codec, Set};

/// Two registers that the calls are timed on.
pub struct Hard {
    pub name: &'static str,
    pub registers: [Vec<u8>; 2],
    /// How many bytes of each are hashed where nothing is wrong: those of its pages and its keys.
    pub hashed: [usize; 2],
}

impl Hard {
    /// Gives all of them.
    pub fn all() -> [Hard; 5] {
        [
            many_pages(),
            shared_bytes(),
            linked_pages(),
            long_chains(),
            deep_pages(),
        ]
    }

    /// Gives the pair of the page's register with itself, which check refuses with the number.
    fn refused(name: &'static str, page: &Page, number: u8) -> Hard {
        let register = page.table();
        assert_eq!(independent::check(&register), Err(number), "{name}");
        let hashed = register.len() + key_bytes(page);
        Hard {
            name,
            registers: [register.clone(), register],
            hashed: [hashed; 2],
        }
    }
}

/// Counts the bytes of the keys in the page and in all pages below it.
fn key_bytes(page: &Page) -> usize {
    let links = page.entries.iter().map(|entry| &entry.after);
    let below = links.chain([&page.left]).flatten();
    let below: usize = below.map(|link| key_bytes(&link.page)).sum();
    below + page.keys().iter().map(Vec::len).sum::<usize>()
}

/// 2,047 keys of layer 6, and keys of layer 0 before, between and after them: 12,289 pages. The
/// values of the second register are others, so that the two share no page.
fn many_pages() -> Hard {
    let layers: Vec<u8> = (0..4_095).map(|n| if n % 2 == 1 { 6 } else { 0 }).collect();
    let first = blocks(set_of_layers(&layers));
    assert_eq!(pages(&first).len(), 12_289);
    let mut second = first.clone();
    for value in second.values_mut() {
        value.digest[0] ^= 1;
    }
    let keys: usize = first.keys().map(Vec::len).sum();
    let tables = [first, second].map(|set: Set| table(&set));
    Hard {
        name: "12,289 pages",
        hashed: tables.each_ref().map(|table| table.len() + keys),
        registers: tables,
    }
}

/// One page of 60,000 keys of 256 bytes, of which each shares 252 or more with the one before.
fn shared_bytes() -> Hard {
    let start = [&[b'a'; 100][..], b"/", &[b'b'; 151]].concat();
    let page = Page::of_all(&numbered_keys(&start, 60_000));
    Hard::refused("60,000 keys that share 252 bytes", &page, 5)
}

/// 27,000 entries, each with a page of one entry below it. Their keys are empty, so that they fit.
fn linked_pages() -> Hard {
    let entry = Entry {
        after: link_to(Page::of_keys(&[b""])),
        ..Entry::new(b"")
    };
    let page = Page {
        left: None,
        entries: vec![entry; 27_000],
    };
    Hard::refused("27,000 linked pages", &page, 5)
}

/// 600 entries, and below each a chain of 128 pages with one record.
fn long_chains() -> Hard {
    let keys: Vec<String> = (0..600).map(|n| format!("chain/{n:03}")).collect();
    let mut page = Page::of_keys(&keys.iter().map(String::as_bytes).collect::<Vec<_>>());
    for (entry, key) in page.entries.iter_mut().zip(&keys) {
        let last = Page::of_keys(&[format!("{key}.1").as_bytes()]);
        entry.after = link_to((1..128).fold(last, |page, _| Page::above(page)));
    }
    Hard::refused("600 chains of 128 pages", &page, 9)
}

/// Keys of layers 0 and 1 in turn, in pages 41 and 40 levels below a root that has one entry: all
/// layers are right but that of the last key.
fn deep_pages() -> Hard {
    let layers: Vec<u8> = (0..4_095).map(|n| n % 2).map(|n| n as u8).collect();
    let below = Page::of_set(&blocks(set_of_layers(&layers)));
    let mut root = Page::of_keys(&[b"b/b1"]);
    root.left = link_to((1..40).fold(below, |page, _| Page::above(page)));
    Hard::refused("4,095 keys in pages 40 levels deep", &root, 9)
}

/// A path that verify is timed on.
pub struct HardPath {
    pub name: &'static str,
    pub path: Vec<u8>,
    pub key: Vec<u8>,
    pub root: [u8; 32],
}

impl HardPath {
    /// Gives all of them.
    pub fn all() -> [HardPath; 7] {
        [
            HardPath::of(
                "129 pages of one entry",
                &right_chain(129, 1),
                b"chain/128.000",
            ),
            HardPath::of("one page of 65,535 entries", &widest_page(), b"a/1eke"),
            wrong_last_prefix(),
            long_keys(),
            longest_keys(),
            damaged_last_page(),
            damaged_last_byte(),
        ]
    }

    /// Gives the path of a key that is present.
    fn of(name: &'static str, root: &Page, key: &[u8]) -> HardPath {
        let root = root.written();
        let path = root.path(key).concat();
        HardPath {
            name,
            path,
            key: key.to_vec(),
            root: root.digest,
        }
        .judged(None)
    }

    /// Gives the path of one page, which verify refuses with the number.
    fn refused(name: &'static str, page: &Page, number: u8) -> HardPath {
        let path = page.table();
        HardPath {
            name,
            root: sha256(&path),
            path,
            key: b"a/b1".to_vec(),
        }
        .judged(Some(number))
    }

    /// Checks that the number is due, or that the key is present where there is none.
    fn judged(self, number: Option<u8>) -> HardPath {
        let verdict = independent::verify(&self.path, &self.key, &self.root);
        assert_eq!(verdict.err(), number, "{}", self.name);
        assert_ne!(verdict, Ok(None), "{}", self.name);
        self
    }
}

/// The last of 65,535 entries has a wrong prefix.
fn wrong_last_prefix() -> HardPath {
    let mut page = widest_page();
    page.write_whole(65_534);
    HardPath::refused("65,535 entries, last prefix wrong", &page, 6)
}

/// 60,000 keys of 300 bytes, of which each shares 296 or more with the one before.
fn long_keys() -> HardPath {
    let start = [&[b'a'; 100][..], b"/", &[b'b'; 195]].concat();
    let page = Page::of_all(&numbered_keys(&start, 60_000));
    HardPath::refused("60,000 keys of 300 bytes", &page, 7)
}

/// 60,000 keys that differ in the last of 65,535 bytes: the prefixes spell 4 gigabytes.
fn longest_keys() -> HardPath {
    let entry = |n: usize| Entry {
        prefix: 65_534,
        ..Entry::new(&[b'a' + (n % 2) as u8])
    };
    let mut page = Page::of_keys(&[&[b'k'; 65_535]]);
    page.entries.extend((0..60_000).map(entry));
    HardPath::refused("60,000 keys of 65,535 bytes", &page, 7)
}

/// An ordinary path, with another value in its last page.
fn damaged_last_page() -> HardPath {
    let set = blocks(set(Kind::Ordinary, 4_096));
    let root = Page::of_set(&set);
    let root = root.written();
    // The longest path to the last entry of a page, which stands before three bytes.
    let paths = set.keys().map(|key| (root.path(key).concat(), key));
    let is_last = |(path, key): &(Vec<u8>, &Vec<u8>)| {
        let verdict = independent::verify(path, key, &root.digest);
        verdict == Ok(Some((path.len() - 35, Codec::DagCbor)))
    };
    let longest = paths.filter(is_last).max_by_key(|(path, _)| path.len());
    let (mut path, key) = longest.expect("there are such pages");
    let end = path.len();
    path[end - 4] ^= 1;
    HardPath {
        name: "a damaged last page",
        path,
        key: key.clone(),
        root: root.digest,
    }
    .judged(Some(16))
}

/// One page of 65,535 entries, of which the last byte departs.
fn damaged_last_byte() -> HardPath {
    let mut path = widest_page().table();
    *path.last_mut().expect("there are bytes") ^= 1;
    HardPath {
        name: "65,535 entries and a damaged byte",
        root: sha256(&path),
        path,
        key: b"a/b1".to_vec(),
    }
    .judged(Some(3))
}
