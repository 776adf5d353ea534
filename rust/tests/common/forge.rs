//! Page tables and paths of any content, lawful or not.
//!
//! The bytes are written here another way than in the crate `independent`, and the tests compare
//! the two on lawful sets.

use super::sets::{numbered_keys, set, set_of_layers, Kind};
use independent::{sha256, table, tree, tree_of, Set, Value, LONGEST};
use std::cell::OnceCell;

/// The empty register.
pub const EMPTY: [u8; 7] = [0xa2, 0x61, 0x65, 0x80, 0x61, 0x6c, 0xf6];

/// The register of `a/b1` with a value of 32 bytes `11`, as the scope writes it.
pub fn one_record() -> Vec<u8> {
    let mut register = vec![
        0xa2, 0x61, 0x65, 0x81, 0xa4, 0x61, 0x6b, 0x44, 0x61, 0x2f, 0x62, 0x31, 0x61, 0x70, 0x00,
        0x61, 0x74, 0xf6, 0x61, 0x76, 0xd8, 0x2a, 0x58, 0x25, 0x00, 0x01, 0x71, 0x12, 0x20,
    ];
    register.extend([0x11; 32]);
    register.extend([0x61, 0x6c, 0xf6]);
    register
}

/// The same register with the codec of a raw file.
pub fn one_drawing() -> Vec<u8> {
    let mut register = one_record();
    register[26] = 0x55;
    register
}

/// The scope's small examples of the numbers 1 to 10, in this order.
pub fn faulty_registers() -> [Vec<u8>; 10] {
    let mut wrong_prefix = Page::of_keys(&[b"a/b1"]);
    wrong_prefix.entries[0].prefix = 1;
    let mut wrong_digest = Page::of_set(&set_of_layers(&[0, 1]));
    wrong_digest.left.as_mut().expect("a link").flip[0] = 0x80;
    [
        vec![0; LONGEST + 1],
        EMPTY[..6].to_vec(),
        vec![0xa2, 0x61, 0x6c],
        [&EMPTY[..], &[0xf6]].concat(),
        table(&set(Kind::Ordinary, 4_097)),
        wrong_prefix.table(),
        Page::of_keys(&[b"ab"]).table(),
        Page::of_keys(&[b"a/b2", b"a/b1"]).table(),
        Page::above(Page::of_keys(&[b"a/b1"])).table(),
        wrong_digest.table(),
    ]
}

/// A page, with the pages below it.
#[derive(Clone, Default)]
pub struct Page {
    pub left: Option<Link>,
    pub entries: Vec<Entry>,
}

/// An entry of a page.
#[derive(Clone)]
pub struct Entry {
    pub prefix: usize,
    pub remainder: Vec<u8>,
    pub after: Option<Link>,
    pub value: Value,
}

/// A link to a page.
#[derive(Clone)]
pub struct Link {
    pub page: Box<Page>,
    /// What is changed in the page's digest before it is written into the link.
    pub flip: [u8; 32],
}

/// Links to the page with its digest.
pub fn link_to(page: Page) -> Option<Link> {
    Some(Link {
        page: Box::new(page),
        flip: [0; 32],
    })
}

impl Page {
    /// Gives a page of these keys with right prefixes and without links. The keys may be in any
    /// order and break the key rule.
    pub fn of_keys(keys: &[&[u8]]) -> Page {
        Page::of_all(&keys.iter().map(|key| key.to_vec()).collect::<Vec<_>>())
    }

    /// As `of_keys`, of keys that were made one by one.
    pub fn of_all(keys: &[Vec<u8>]) -> Page {
        let mut page = Page::default();
        for key in keys {
            page.entries.push(Entry::new(key));
        }
        page.spell(keys);
        page
    }

    /// Gives a page without entries and with a left link.
    pub fn above(page: Page) -> Page {
        Page {
            left: link_to(page),
            entries: Vec::new(),
        }
    }

    /// Gives the pages of the set.
    pub fn of_set(set: &Set) -> Page {
        fn convert(page: &tree::Page<(&[u8], &Value)>) -> Page {
            let gap = |gap: &tree::Gap<(&[u8], &Value)>| {
                let page = gap.as_ref()?;
                link_to(convert(page))
            };
            let mut made = Page::default();
            let mut keys = Vec::new();
            made.left = gap(&page.left);
            for ((key, value), after) in &page.entries {
                keys.push(key.to_vec());
                made.entries.push(Entry {
                    after: gap(after),
                    value: **value,
                    ..Entry::new(key)
                });
            }
            made.spell(&keys);
            made
        }
        convert(&tree_of(set))
    }

    /// Gives the keys of the page alone. A prefix longer than the key before takes all of it.
    pub fn keys(&self) -> Vec<Vec<u8>> {
        let mut keys: Vec<Vec<u8>> = Vec::new();
        for entry in &self.entries {
            let mut key = keys.last().cloned().unwrap_or_default();
            key.truncate(entry.prefix);
            key.extend(&entry.remainder);
            keys.push(key);
        }
        keys
    }

    /// Gives the entries these keys, with right prefixes.
    pub fn spell(&mut self, keys: &[Vec<u8>]) {
        assert_eq!(keys.len(), self.entries.len());
        let mut before: &[u8] = b"";
        for (entry, key) in self.entries.iter_mut().zip(keys) {
            // A longer prefix has no form.
            entry.prefix = shared(before, key).min(65_535);
            entry.remainder = key[entry.prefix..].to_vec();
            before = key;
        }
    }

    /// Writes one entry with its whole key as the remainder. The prefix is then wrong where the key
    /// shares bytes with the one before it.
    pub fn write_whole(&mut self, place: usize) {
        let key = self.keys().swap_remove(place);
        let entry = &mut self.entries[place];
        (entry.prefix, entry.remainder) = (0, key);
    }

    /// Changes the key of one entry. All prefixes of the page are right afterwards.
    pub fn change_key(&mut self, place: usize, change: impl FnOnce(&mut Vec<u8>)) {
        let mut keys = self.keys();
        change(&mut keys[place]);
        self.spell(&keys);
    }

    /// Counts the page and all pages below it.
    pub fn pages(&self) -> usize {
        let after = self.entries.iter().map(|entry| &entry.after);
        let links = after.chain([&self.left]).flatten();
        1 + links.map(|link| link.page.pages()).sum::<usize>()
    }

    /// Gives the n-th page in table order, the page itself being number 0.
    pub fn page_mut(&mut self, n: usize) -> &mut Page {
        fn visit<'p>(page: &'p mut Page, n: &mut usize) -> Option<&'p mut Page> {
            if *n == 0 {
                return Some(page);
            }
            *n -= 1;
            let after = page.entries.iter_mut().map(|entry| &mut entry.after);
            let links = [&mut page.left].into_iter().chain(after).flatten();
            links
                .map(|link| link.page.as_mut())
                .find_map(|page| visit(page, n))
        }
        let mut left = n;
        visit(self, &mut left).expect("there are more pages than n")
    }

    /// Gives the links of the page alone: the left one, then the one after each entry.
    pub fn links_mut(&mut self) -> Vec<&mut Option<Link>> {
        let after = self.entries.iter_mut().map(|entry| &mut entry.after);
        [&mut self.left].into_iter().chain(after).collect()
    }

    /// Gives the page table.
    pub fn table(&self) -> Vec<u8> {
        let mut table = Vec::new();
        self.written().add_to(&mut table);
        table
    }

    /// Writes the page and all pages below it.
    pub fn written(&self) -> Written<'_> {
        let (page, left) = written_gap(&self.left);
        let mut gaps = vec![page];
        let mut entries = Vec::new();
        for entry in &self.entries {
            let (page, after) = written_gap(&entry.after);
            gaps.push(page);
            entries.extend(entry_bytes(
                &head(0x40, entry.remainder.len()),
                &entry.remainder,
                &head(0x00, entry.prefix),
                &after,
                &link_with(entry.value.codec.byte(), &entry.value.digest),
            ));
        }
        let bytes = page_bytes(&head(0x80, self.entries.len()), &entries, &left);
        Written {
            page: self,
            keys: OnceCell::new(),
            digest: sha256(&bytes),
            bytes,
            gaps,
        }
    }
}

/// Writes the pages of a gap. Gives its link as bytes as well.
fn written_gap(link: &Option<Link>) -> (Option<Written<'_>>, Vec<u8>) {
    match link {
        Some(link) => {
            let page = link.page.written();
            let mut digest = page.digest;
            for (byte, flip) in digest.iter_mut().zip(link.flip) {
                *byte ^= flip;
            }
            (Some(page), link_bytes(&digest))
        }
        None => (None, vec![0xf6]),
    }
}

/// A page with its bytes, and the pages below it. Many paths can be taken from it.
pub struct Written<'p> {
    page: &'p Page,
    /// The keys of the page alone, once they are asked for.
    keys: OnceCell<Vec<Vec<u8>>>,
    bytes: Vec<u8>,
    /// The digest of the bytes: the root digest, where the page is the root.
    pub digest: [u8; 32],
    /// The gap before the first entry, then the one after each entry.
    gaps: Vec<Option<Written<'p>>>,
}

impl Written<'_> {
    /// Gives the bytes of the pages that a search for the key opens, each page alone.
    pub fn path(&self, key: &[u8]) -> Vec<&[u8]> {
        let keys = self.keys.get_or_init(|| self.page.keys());
        let lesser = keys.iter().take_while(|own| own.as_slice() < key).count();
        let is_entry = keys.get(lesser).is_some_and(|own| own == key);
        let mut opened = vec![&self.bytes[..]];
        if let Some(page) = self.gaps[lesser].as_ref().filter(|_| !is_entry) {
            opened.extend(page.path(key));
        }
        opened
    }

    /// Adds the table of the page and of all pages below it.
    fn add_to(&self, table: &mut Vec<u8>) {
        table.extend(&self.bytes);
        for page in self.gaps.iter().flatten() {
            page.add_to(table);
        }
    }
}

impl Entry {
    /// Gives an entry with the key as its remainder and without a link.
    pub fn new(key: &[u8]) -> Entry {
        Entry {
            prefix: 0,
            remainder: key.to_vec(),
            after: None,
            value: Value::dag_cbor([0x11; 32]),
        }
    }
}

/// Counts the leading bytes that the keys share.
pub fn shared(one: &[u8], other: &[u8]) -> usize {
    let mut count = 0;
    while count < one.len() && count < other.len() && one[count] == other[count] {
        count += 1;
    }
    count
}

/// Writes a number in its shortest form: 0x00 for a plain number, 0x40 for the length of a byte
/// string, 0x80 for the count of an array.
pub fn head(kind: u8, number: usize) -> Vec<u8> {
    if number > 0xff {
        assert!(number <= 0xffff);
        vec![kind + 25, (number >> 8) as u8, number as u8]
    } else if number > 23 {
        vec![kind + 24, number as u8]
    } else {
        vec![kind + number as u8]
    }
}

/// Writes a link to a page, or to a record block.
pub fn link_bytes(digest: &[u8; 32]) -> Vec<u8> {
    link_with(0x71, digest)
}

/// Writes a link with this byte in the place of the codec.
pub fn link_with(codec: u8, digest: &[u8; 32]) -> Vec<u8> {
    [
        b"\xd8\x2a\x58\x25\x00\x01",
        &[codec][..],
        b"\x12\x20",
        digest,
    ]
    .concat()
}

/// Gives the places of the codecs in all links of a register or a path: to pages and of values.
pub fn codec_places(bytes: &[u8]) -> Vec<usize> {
    let is_link = |part: &[u8]| part.starts_with(b"\xd8\x2a\x58\x25\x00\x01");
    let links = bytes.windows(7).enumerate();
    let links = links.filter(|(_, part)| is_link(part));
    links.map(|(place, _)| place + 6).collect()
}

/// Writes an entry. The numbers, the link of the gap after it and that of the value are given as
/// bytes.
pub fn entry_bytes(
    length: &[u8],
    remainder: &[u8],
    prefix: &[u8],
    after: &[u8],
    value: &[u8],
) -> Vec<u8> {
    [
        b"\xa4\x61k",
        length,
        remainder,
        b"\x61p",
        prefix,
        b"\x61t",
        after,
        b"\x61v",
        value,
    ]
    .concat()
}

/// Writes a page. The count of its entries, the entries and the left link are given as bytes.
pub fn page_bytes(count: &[u8], entries: &[u8], left: &[u8]) -> Vec<u8> {
    [b"\xa2\x61e", count, entries, b"\x61l", left].concat()
}

/// One key of layer 0 below pages without entries, so many pages in all.
pub fn left_chain(pages: usize) -> Page {
    (1..pages).fold(Page::of_keys(&[b"a/b1"]), |page, _| Page::above(page))
}

/// Pages of some entries, each linked after the last entry of the page above. The keys are lawful
/// and rise.
pub fn right_chain(pages: usize, entries: usize) -> Page {
    let mut below = None;
    for number in (0..pages).rev() {
        let keys: Vec<_> = (0..entries)
            .map(|entry| format!("chain/{number:03}.{entry:03}").into_bytes())
            .collect();
        let mut page = Page::of_all(&keys);
        let last = page.entries.last_mut().expect("there are entries");
        last.after = below.and_then(link_to);
        below = Some(page);
    }
    below.expect("there are pages")
}

/// A page with as many entries as a page can have. The keys are lawful and rise.
pub fn widest_page() -> Page {
    Page::of_all(&numbered_keys(b"a/", 65_535))
}

/// A page with so many keys, all too long to be lawful, and a left link to an empty page: a table
/// of the greatest length. The prefixes are 0, though the keys share bytes.
pub fn longest_page(entries: usize) -> Page {
    // An entry has 55 bytes besides its remainder.
    let length = (LONGEST - 200) / entries - 55;
    let mut page = Page::above(Page::default());
    for number in 0..entries {
        let mut key = vec![b'k'; length];
        key[..4].copy_from_slice(format!("{number:04}").as_bytes());
        page.entries.push(Entry::new(&key));
    }
    let rest = LONGEST - page.table().len();
    let last = page.entries.last_mut().expect("there are entries");
    last.remainder.resize(length + rest, b'k');
    page
}
