//! Reading page tables and the pages of a path, with the numbers that are due on them.

use crate::key::{lawful, layer};
use crate::number::{
    BYTES_FOLLOW, DEPARTS, ENDS_EARLY, KEYS_NOT_RISING, PAGE_NOT_DUE, TOO_LONG, TOO_MANY_RECORDS,
    UNLAWFUL_KEY, WRONG_DIGEST, WRONG_PREFIX, WRONG_TREE,
};
use crate::table::{AFTER_CODEC, ARRAY, BEFORE_CODEC, BYTE_STRING, NULL, NUMBER};
use crate::tree::{build, top_layer, Page};
use crate::{sha256, Codec, Digest, Head, Set, Value, LONGEST, MOST_RECORDS};

/// How many pages may follow one another by links, from the root down and itself included.
const DEEPEST: usize = 129;

/// A register on which none of 1 to 10 is due.
pub(crate) struct Accepted<'a> {
    /// The root, with all pages below it.
    pub root: ReadPage<'a>,
    /// The records in key order.
    pub records: Vec<Record>,
    /// The highest layer of any key, and 0 where there is none.
    layer: u8,
}

impl Accepted<'_> {
    /// Gives the head of the register.
    pub fn head(&self) -> Head {
        Head::new(self.records.len(), self.layer, sha256(self.root.bytes))
    }

    /// Gives the set of the records.
    pub fn set(&self) -> Set {
        let records = self.records.iter();
        records
            .map(|record| (record.key.clone(), record.value))
            .collect()
    }
}

/// A record of a register or a path.
#[derive(Clone)]
pub(crate) struct Record {
    pub key: Vec<u8>,
    pub value: Value,
    /// Where the 32 bytes of the value's digest begin in the input, counted from 0.
    pub place: usize,
}

/// A page as its bytes spell it. A gap is a `Below`, or a `Link` where the page is read alone.
pub(crate) struct ReadPage<'a, Gap = Below<'a>> {
    /// All bytes of the page.
    pub bytes: &'a [u8],
    /// The digest in the link that leads to the page. The root of a register has none, and that of
    /// a path has the digest that its reader holds.
    pub linked_as: Link<'a>,
    /// The gap before the first entry.
    left: Gap,
    /// The entries, each with the gap after it.
    entries: Vec<(ReadEntry<'a>, Gap)>,
}

/// A gap with its pages: empty, or linked to a page.
pub(crate) struct Below<'a>(pub Option<Box<ReadPage<'a>>>);

/// The digest in a link, or none where there is no link.
pub(crate) type Link<'a> = Option<&'a Digest>;

/// Where a search for a key leads in one page.
pub(crate) enum Sought<'p, Gap> {
    /// To an entry, with the place of its value's digest and the codec.
    Entry(usize, Codec),
    /// To the gap where the key would stand.
    Gap(&'p Gap),
}

/// An entry as its bytes spell it.
pub(crate) struct ReadEntry<'a> {
    prefix: usize,
    remainder: &'a [u8],
    value: Value,
    /// Where the 32 bytes of the value's digest begin in the input.
    place: usize,
}

/// Judges the register by numbers 1 to 10, each over the whole register and only when those
/// before it hold.
pub(crate) fn judge(register: &[u8]) -> Result<Accepted<'_>, u8> {
    let mut reader = Reader::new(register)?;
    let root = reader.page(1, None)?;
    reader.end()?;

    let pages = root.in_table_order();
    let count: usize = pages.iter().map(|page| page.entries.len()).sum();
    due(count > MOST_RECORDS, TOO_MANY_RECORDS)?;
    due(!pages.iter().all(|page| page.prefixes_hold()), WRONG_PREFIX)?;
    due(!pages.iter().all(|page| page.keys_hold()), UNLAWFUL_KEY)?;

    let mut records = Vec::with_capacity(count);
    root.add_records(&mut records);
    due(!rising(&records), KEYS_NOT_RISING)?;

    let row: Vec<(u8, &[u8])> = records
        .iter()
        .map(|record| (layer(&record.key), record.key.as_slice()))
        .collect();
    let mut keys = row.iter().map(|(_, key)| *key);
    due(root.tree(&mut keys) != build(&row), WRONG_TREE)?;
    due(!pages.iter().all(|page| page.digest_holds()), WRONG_DIGEST)?;
    let layer = top_layer(&row);
    Ok(Accepted {
        root,
        records,
        layer,
    })
}

/// Says whether each key is greater than the one before it.
fn rising(records: &[Record]) -> bool {
    records.windows(2).all(|pair| pair[0].key < pair[1].key)
}

/// Gives the number where something is wrong.
fn due(wrong: bool, number: u8) -> Result<(), u8> {
    if wrong {
        Err(number)
    } else {
        Ok(())
    }
}

/// Follows the bytes of a register or a path from left to right.
pub(crate) struct Reader<'a> {
    input: &'a [u8],
    /// Where the next byte stands.
    place: usize,
}

impl<'a> Reader<'a> {
    /// Starts at the first byte. Number 1 is judged before any byte.
    pub fn new(input: &'a [u8]) -> Result<Reader<'a>, u8> {
        due(input.len() > LONGEST, TOO_LONG)?;
        Ok(Reader { input, place: 0 })
    }

    /// Number 4: no byte is left.
    pub fn end(&self) -> Result<(), u8> {
        due(self.place < self.input.len(), BYTES_FOLLOW)
    }

    /// Reads a page and then the pages below it: its left subtree, then the subtree after each
    /// entry in turn. The root has depth 1.
    fn page(&mut self, depth: usize, linked_as: Link<'a>) -> Result<ReadPage<'a>, u8> {
        let page = self.page_alone(depth, linked_as)?;
        let left = self.below(depth, page.left)?;
        let entries: Result<Vec<_>, u8> = page
            .entries
            .into_iter()
            .map(|(entry, after)| Ok((entry, self.below(depth, after)?)))
            .collect();
        Ok(ReadPage {
            bytes: page.bytes,
            linked_as,
            left,
            entries: entries?,
        })
    }

    /// Reads the pages of a gap of a page at this depth.
    fn below(&mut self, depth: usize, link: Link<'a>) -> Result<Below<'a>, u8> {
        match link {
            Some(_) => Ok(Below(Some(Box::new(self.page(depth + 1, link)?)))),
            None => Ok(Below(None)),
        }
    }

    /// Reads a page and none below it. The root has depth 1.
    pub fn page_alone(
        &mut self,
        depth: usize,
        linked_as: Link<'a>,
    ) -> Result<ReadPage<'a, Link<'a>>, u8> {
        if depth > DEEPEST {
            // The first byte of a page so deep departs; where there is none, the page is due.
            self.byte()?;
            return Err(DEPARTS);
        }
        let start = self.place;
        self.fixed(b"\xa2\x61e")?;
        let count = self.number(ARRAY)?;
        let mut entries = Vec::new();
        for _ in 0..count {
            entries.push(self.entry()?);
        }
        self.fixed(b"\x61l")?;
        let left = self.link_or_null()?;
        Ok(ReadPage {
            bytes: &self.input[start..self.place],
            linked_as,
            left,
            entries,
        })
    }

    /// Reads an entry, with the link of the gap after it.
    fn entry(&mut self) -> Result<(ReadEntry<'a>, Link<'a>), u8> {
        self.fixed(b"\xa4\x61k")?;
        let length = self.number(BYTE_STRING)?;
        let remainder = self.free(length)?;
        self.fixed(b"\x61p")?;
        let prefix = self.number(NUMBER)?;
        self.fixed(b"\x61t")?;
        let after = self.link_or_null()?;
        self.fixed(b"\x61v")?;
        self.fixed(&BEFORE_CODEC)?;
        let codec = Codec::of_byte(self.byte()?).ok_or(DEPARTS)?;
        self.fixed(&AFTER_CODEC)?;
        let place = self.place;
        let digest = *self.digest()?;
        let value = Value { digest, codec };
        let entry = ReadEntry {
            prefix,
            remainder,
            value,
            place,
        };
        Ok((entry, after))
    }

    /// Reads a link to a page and gives its digest, or reads null.
    fn link_or_null(&mut self) -> Result<Link<'a>, u8> {
        let first = self.byte()?;
        if first == NULL {
            return Ok(None);
        }
        if first != BEFORE_CODEC[0] {
            return Err(DEPARTS);
        }
        self.fixed(&BEFORE_CODEC[1..])?;
        self.fixed(&[Codec::DagCbor.byte()])?;
        self.fixed(&AFTER_CODEC)?;
        Ok(Some(self.digest()?))
    }

    /// Reads a number of this kind, which takes its shortest form.
    fn number(&mut self, kind: u8) -> Result<usize, u8> {
        let first = self.byte()?;
        if first & 0xe0 != kind {
            return Err(DEPARTS);
        }
        match first & 0x1f {
            small @ 0..=23 => Ok(usize::from(small)),
            24 => {
                let number = self.byte()?;
                if number < 24 {
                    return Err(DEPARTS);
                }
                Ok(usize::from(number))
            }
            25 => {
                let high = self.byte()?;
                if high == 0 {
                    return Err(DEPARTS);
                }
                let low = self.byte()?;
                Ok(256 * usize::from(high) + usize::from(low))
            }
            _ => Err(DEPARTS),
        }
    }

    /// Reads 32 bytes of any kind.
    fn digest(&mut self) -> Result<&'a Digest, u8> {
        let bytes = self.free(32)?;
        Ok(bytes.try_into().expect("32 bytes were read"))
    }

    /// Reads so many bytes of any kind.
    fn free(&mut self, length: usize) -> Result<&'a [u8], u8> {
        let rest = &self.input[self.place..];
        let bytes = rest.get(..length).ok_or(ENDS_EARLY)?;
        self.place += length;
        Ok(bytes)
    }

    /// Reads these bytes and no others.
    fn fixed(&mut self, bytes: &[u8]) -> Result<(), u8> {
        for expected in bytes {
            if self.byte()? != *expected {
                return Err(DEPARTS);
            }
        }
        Ok(())
    }

    /// Reads the next byte.
    fn byte(&mut self) -> Result<u8, u8> {
        let byte = self.input.get(self.place).ok_or(ENDS_EARLY)?;
        self.place += 1;
        Ok(*byte)
    }
}

impl<'a> ReadPage<'a> {
    /// Gives the page and all pages below it, in table order.
    pub fn in_table_order(&self) -> Vec<&ReadPage<'a>> {
        let mut pages = Vec::new();
        self.add_pages(&mut pages);
        pages
    }

    fn add_pages<'p>(&'p self, pages: &mut Vec<&'p ReadPage<'a>>) {
        pages.push(self);
        for page in self.children() {
            page.add_pages(pages);
        }
    }

    /// Gives the linked pages: the left one, then the one after each entry in turn.
    pub fn children(&self) -> impl Iterator<Item = &ReadPage<'a>> {
        let after = self.entries.iter().filter_map(|(_, gap)| gap.page());
        self.left.page().into_iter().chain(after)
    }

    /// Adds the records of the page and of all pages below it, in tree order.
    fn add_records(&self, records: &mut Vec<Record>) {
        if let Some(page) = self.left.page() {
            page.add_records(records);
        }
        let mut key = Vec::new();
        for (entry, gap) in &self.entries {
            entry.change(&mut key);
            records.push(entry.record(&key));
            if let Some(page) = gap.page() {
                page.add_records(records);
            }
        }
    }

    /// Gives the pages as a tree of keys. The keys come in tree order.
    fn tree<'k>(&self, keys: &mut dyn Iterator<Item = &'k [u8]>) -> Page<&'k [u8]> {
        let left = self.left.page().map(|page| Box::new(page.tree(keys)));
        let mut entries = Vec::with_capacity(self.entries.len());
        for (_, gap) in &self.entries {
            let key = keys.next().expect("each entry has a key");
            let after = gap.page().map(|page| Box::new(page.tree(keys)));
            entries.push((key, after));
        }
        Page { left, entries }
    }
}

impl<'a, Gap> ReadPage<'a, Gap> {
    /// Number 6: each prefix length is the count of all leading bytes that the key shares with
    /// the key before it in the page.
    fn prefixes_hold(&self) -> bool {
        let mut key = Vec::new();
        self.entries.iter().all(|(entry, _)| {
            let holds = entry.prefix_holds(&key);
            entry.change(&mut key);
            holds
        })
    }

    /// Number 7: each key of the page is lawful.
    fn keys_hold(&self) -> bool {
        let mut key = Vec::new();
        self.entries.iter().all(|(entry, _)| {
            entry.change(&mut key);
            lawful(&key)
        })
    }

    /// Number 10, and 16 in a path: the digest in the link to the page is that of the page.
    fn digest_holds(&self) -> bool {
        match self.linked_as {
            Some(digest) => *digest == sha256(self.bytes),
            None => true,
        }
    }

    /// Gives the records of the page alone.
    pub fn own_records(&self) -> Vec<Record> {
        let mut key = Vec::new();
        let entries = self.entries.iter();
        entries
            .map(|(entry, _)| {
                entry.change(&mut key);
                entry.record(&key)
            })
            .collect()
    }

    /// Numbers 6, 7 and 8 within the page, and 16 for a digest that is not the one due.
    pub fn judge_alone(&self) -> Result<(), u8> {
        due(!self.prefixes_hold(), WRONG_PREFIX)?;
        due(!self.keys_hold(), UNLAWFUL_KEY)?;
        due(!rising(&self.own_records()), KEYS_NOT_RISING)?;
        due(!self.digest_holds(), PAGE_NOT_DUE)
    }

    /// Looks for the key among those of the page, which rise.
    pub fn search(&self, key: &[u8]) -> Sought<'_, Gap> {
        let records = self.own_records();
        let lesser = records.partition_point(|record| record.key.as_slice() < key);
        match records.get(lesser) {
            Some(record) if record.key == key => Sought::Entry(record.place, record.value.codec),
            _ if lesser == 0 => Sought::Gap(&self.left),
            _ => Sought::Gap(&self.entries[lesser - 1].1),
        }
    }
}

impl<'a> Below<'a> {
    /// Gives the linked page.
    fn page(&self) -> Option<&ReadPage<'a>> {
        self.0.as_deref()
    }
}

impl ReadEntry<'_> {
    /// Says whether the prefix length is the count of all leading bytes shared with the key
    /// before. The first bytes are the same by the way a key is spelt, so only the next byte can
    /// be shared beyond the prefix.
    fn prefix_holds(&self, key_before: &[u8]) -> bool {
        match key_before.get(self.prefix..) {
            Some(rest) => rest.is_empty() || rest.first() != self.remainder.first(),
            None => false,
        }
    }

    /// Changes the key before into the key of this entry. A prefix longer than the key before
    /// takes all of it.
    fn change(&self, key: &mut Vec<u8>) {
        key.truncate(self.prefix);
        key.extend(self.remainder);
    }

    fn record(&self, key: &[u8]) -> Record {
        Record {
            key: key.to_vec(),
            value: self.value,
            place: self.place,
        }
    }
}
