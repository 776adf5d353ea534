//! `verify` on paths with faults: which number is due, and that no other verdict is given.
//!
//! `compare_verify` compares the call with the independent crate. Where the number is known
//! beforehand it is written here as well.

use crate::common::calls::mijdegen_verify;
use crate::common::forge::{
    left_chain, link_bytes, link_to, longest_page, one_record, page_bytes, right_chain, shared,
    widest_page, Entry, Page, EMPTY,
};
use crate::common::paths::{compare_verify, expect_presence, expect_verdict, Verdict};
use crate::common::sets::{
    just_after, just_before, keys_and_neighbours, numbered_keys, set, set_of_layers,
    short_unlawful_keys, small_sets, unlawful_keys, Kind, KINDS,
};
use crate::common::values::{filled, library_value};
use crate::common::Random;
use independent::{lawful, sha256, Codec, Set, Value};
use mijdegen::{verify, Presence, Refusal, LONGEST};
use std::ptr;

/// The value of every entry in pages that are forged from keys alone.
const VALUE: Value = Value::dag_cbor([0x11; 32]);

/// A path as it is sent, with the key that is sought and the root digest.
struct Sent {
    key: Vec<u8>,
    pages: Vec<Vec<u8>>,
    root: [u8; 32],
}

impl Sent {
    /// Takes the path of the key from the pages, whatever they hold.
    fn from(root: &Page, key: &[u8]) -> Sent {
        let root = root.written();
        Sent {
            key: key.to_vec(),
            pages: root.path(key).into_iter().map(<[u8]>::to_vec).collect(),
            root: root.digest,
        }
    }

    fn path(&self) -> Vec<u8> {
        self.pages.concat()
    }

    /// Compares with other bytes in the place of the path.
    fn judged(&self, path: &[u8]) -> Verdict {
        compare_verify(path, &self.key, &self.root)
    }

    /// Compares with other pages in the place of the path.
    fn judged_pages(&self, pages: &[Vec<u8>]) -> Verdict {
        self.judged(&pages.concat())
    }
}

/// Paths of one page and of several, for some keys and gaps of each of the small sets.
fn small_paths() -> Vec<Sent> {
    let mut paths = Vec::new();
    for set in small_sets() {
        let keys = keys_and_neighbours(&set);
        let root = Page::of_set(&set);
        for key in keys.iter().step_by(1 + keys.len() / 4) {
            paths.push(Sent::from(&root, key));
        }
    }
    paths
}

/// A root page and the page on its left, with the key of that page.
fn two_pages() -> (Page, Vec<u8>) {
    let set = set_of_layers(&[0, 1]);
    let key = set.keys().next().expect("there are two").clone();
    (Page::of_set(&set), key)
}

// ---- damaged paths

#[test]
fn cut_at_every_byte() {
    let mut cases = 0;
    for sent in small_paths() {
        let path = sent.path();
        assert!(sent.judged(&path).is_ok());
        for length in 0..path.len() {
            assert_eq!(sent.judged(&path[..length]), Err(2), "length {length}");
            cases += 1;
        }
    }
    assert!(cases > 10_000, "{cases}");
}

#[test]
fn every_bit_changed() {
    let mut counts = [0; 17];
    for sent in small_paths() {
        let mut path = sent.path();
        for bit in 0..8 * path.len() {
            path[bit / 8] ^= 1 << (bit % 8);
            let number = sent.judged(&path).expect_err("a page was changed");
            counts[usize::from(number)] += 1;
            path[bit / 8] ^= 1 << (bit % 8);
        }
    }
    // Single bits reach all numbers that they can.
    for (number, count) in counts.iter().enumerate() {
        let reached = [2, 3, 6, 7, 8, 16].contains(&number);
        assert_eq!(*count > 0, reached, "number {number}");
    }
}

/// Every byte of two paths with all other bytes in its place.
#[test]
fn every_byte_with_every_byte() {
    let (two_pages, key) = two_pages();
    let sent = [
        Sent::from(&Page::of_keys(&[b"a/b1"]), b"a/b1"),
        Sent::from(&two_pages, &key),
    ];
    let mut cases = 0;
    for sent in sent {
        let path = sent.path();
        for place in 0..path.len() {
            let mut damaged = path.clone();
            for byte in 0..=255 {
                damaged[place] = byte;
                assert_eq!(sent.judged(&damaged).is_ok(), damaged == path);
                cases += 1;
            }
        }
    }
    assert!(cases > 256 * 200, "{cases}");
}

/// Bytes left out, doubled, moved or drawn anew.
#[test]
fn random_changes() {
    let mut random = Random::new(141);
    let mut counts = [0; 17];
    for sent in small_paths() {
        let path = sent.path();
        for _ in 0..200 {
            let mut damaged = path.clone();
            let from = random.below(path.len());
            let to = from + random.below(path.len() - from + 1);
            match random.below(5) {
                0 => drop(damaged.drain(from..to)),
                1 => {
                    let part = damaged[from..to].to_vec();
                    damaged.splice(to..to, part);
                }
                2 => damaged[from..].rotate_left((to - from).min(path.len() - from)),
                3 => damaged[from..to].copy_from_slice(&random.bytes(to - from)),
                _ => damaged.push(random.next() as u8),
            }
            match sent.judged(&damaged) {
                Ok(_) => assert!(damaged == path),
                Err(number) => counts[usize::from(number)] += 1,
            }
        }
    }
    for number in [2, 3, 4, 16] {
        assert!(counts[number] > 0, "number {number}");
    }
}

// ---- other pages

/// Pages left out, doubled, exchanged and added, and pages of another register.
#[test]
fn other_pages() {
    let mut cases = 0;
    for kind in KINDS {
        let set = set(kind, 100);
        let mut other = set.clone();
        other.values_mut().for_each(|value| value.digest[31] ^= 1);
        let (root, other) = (Page::of_set(&set), Page::of_set(&other));
        for key in keys_and_neighbours(&set).iter().step_by(23) {
            let sent = Sent::from(&root, key);
            let others = Sent::from(&other, key);
            cases += changed_pages(&sent, &others.pages);
        }
    }
    assert!(cases > 400, "{cases}");
}

/// Judges the path with changed pages, and with some of the others, which are as many and none of
/// which is a page of the path. Gives the number of pages.
fn changed_pages(sent: &Sent, others: &[Vec<u8>]) -> usize {
    let pages = &sent.pages;
    let (count, last) = (pages.len(), pages.len() - 1);
    assert_eq!(others.len(), count);
    assert!(sent.judged_pages(pages).is_ok());
    assert_eq!(sent.judged_pages(others), Err(16));
    let with = |change: &dyn Fn(&mut Vec<Vec<u8>>)| {
        let mut changed = pages.clone();
        change(&mut changed);
        sent.judged_pages(&changed)
    };
    for n in 0..count {
        assert_eq!(with(&|pages| pages[n].clone_from(&others[n])), Err(16));
        assert_eq!(with(&|pages| pages.truncate(n)), Err(2));
        let without = if n == last { 2 } else { 16 };
        assert_eq!(with(&|pages| drop(pages.remove(n))), Err(without));
        let twice = if n == last { 4 } else { 16 };
        assert_eq!(with(&|pages| pages.insert(n, pages[n].clone())), Err(twice));
        for m in 0..n {
            assert_eq!(with(&|pages| pages.swap(n, m)), Err(16));
        }
        // One page more before the page, or behind the last one.
        assert_eq!(with(&|pages| pages.insert(n, EMPTY.to_vec())), Err(16));
        assert_eq!(with(&|pages| pages.push(others[n].clone())), Err(4));
    }
    count
}

/// A whole register is a path only where the search opens all of its pages.
#[test]
fn whole_registers() {
    let (mut whole, mut more) = (0, 0);
    for set in small_sets() {
        let root = Page::of_set(&set);
        let table = root.table();
        for key in keys_and_neighbours(&set) {
            let sent = Sent::from(&root, &key);
            let verdict = sent.judged(&table);
            if sent.pages.len() == root.pages() {
                assert!(verdict.is_ok());
                whole += 1;
            } else {
                // Pages beside the way stand before or behind those on it.
                assert!([Err(4), Err(16)].contains(&verdict), "{verdict:?}");
                more += 1;
            }
        }
    }
    assert!(whole > 10 && more > 10);
}

/// What the path of one key says of every other key: the truth, or nothing.
#[test]
fn other_keys() {
    let (mut said, mut refused) = (0, 0);
    for set in small_sets() {
        let root = Page::of_set(&set);
        let keys = keys_and_neighbours(&set);
        for sent in keys.iter().map(|key| Sent::from(&root, key)) {
            let path = sent.path();
            for other in &keys {
                match compare_verify(&path, other, &sent.root) {
                    Ok(_) => {
                        assert_eq!(Sent::from(&root, other).pages, sent.pages);
                        expect_presence(&path, other, &sent.root, set.get(other));
                        said += 1;
                    }
                    Err(number) => {
                        assert!([2, 4, 16].contains(&number), "number {number}");
                        refused += 1;
                    }
                }
            }
        }
    }
    assert!(said > 500 && refused > 500);
}

/// The path of a key in one register says nothing to one who holds the root digest of another.
#[test]
fn other_roots() {
    let sets = small_sets();
    let (mut same, mut others) = (0, 0);
    for (n, set) in sets.iter().enumerate() {
        for (m, other) in sets.iter().enumerate() {
            let other = Page::of_set(other);
            for key in keys_and_neighbours(set) {
                let path = Sent::from(&Page::of_set(set), &key).path();
                let verdict = compare_verify(&path, &key, &other.written().digest);
                assert_eq!(verdict.is_ok(), n == m);
                same += usize::from(n == m);
                others += usize::from(verdict == Err(16));
            }
        }
    }
    assert_eq!(others, 9 * same);
}

// ---- the arguments

/// Root digests of other lengths draw 11, and another digest draws 16.
#[test]
fn root_digests() {
    for sent in small_paths() {
        let path = sent.path();
        let long: Vec<u8> = sent.root.iter().copied().cycle().take(100).collect();
        for length in (0..=100).filter(|length| *length != 32) {
            let verdict = compare_verify(&path, &sent.key, &long[..length]);
            assert_eq!(verdict, Err(11), "length {length}");
        }
        for bit in 0..256 {
            let mut root = sent.root;
            root[bit / 8] ^= 1 << (bit % 8);
            assert_eq!(compare_verify(&path, &sent.key, &root), Err(16));
        }
    }
}

#[test]
fn unlawful_keys_are_refused() {
    for sent in small_paths() {
        for key in unlawful_keys() {
            expect_verdict(&sent.path(), &key, &sent.root, Err(7));
        }
    }
}

/// Length of the path, key, root digest, pages: all combinations of faults.
#[test]
fn arguments_before_pages() {
    let register = one_record();
    let root = sha256(&register);
    let flipped: Vec<u8> = root.iter().map(|byte| byte ^ 1).collect();
    let faulty = |number: u8| faulty_path([&[number], &[], &[]], false).path();
    let paths = [
        (register.clone(), None, None),
        (vec![0; LONGEST + 1], Some(1), None),
        (vec![0; LONGEST], None, Some(3)),
        (Vec::new(), None, Some(2)),
        (register[..63].to_vec(), None, Some(2)),
        ([&register[..], &[0]].concat(), None, Some(4)),
        (faulty(3), None, Some(3)),
        (faulty(6), None, Some(6)),
        (faulty(7), None, Some(7)),
        (faulty(8), None, Some(8)),
        (faulty(16), None, Some(16)),
    ];
    let too_long = [&b"a/"[..], &[b'b'; 255]].concat();
    let keys = [
        (&b"a/b1"[..], None),
        (b"ab", Some(7)),
        (b"a/..", Some(7)),
        (b"", Some(7)),
        (&too_long, Some(7)),
    ];
    let roots = [
        (&root[..], None, None),
        (&flipped, None, Some(16)),
        (b"", Some(11), None),
        (&root[..31], Some(11), None),
        (&[7; 33], Some(11), None),
        (&[0; 64], Some(11), None),
    ];
    let (mut cases, mut counts) = (0, [0; 17]);
    for (path, long, pages) in &paths {
        for (key, unlawful) in keys {
            for (root, other_length, not_due) in roots {
                // Bytes that follow come behind the digest, all other numbers of a page before it.
                let pages = if *pages == Some(4) {
                    not_due.or(*pages)
                } else {
                    pages.or(not_due)
                };
                let due = [*long, unlawful, other_length, pages];
                let expected = match due.iter().flatten().next() {
                    Some(number) => Err(*number),
                    None => Ok(Some((29, Codec::DagCbor))),
                };
                assert_eq!(compare_verify(path, key, root), expected);
                counts[usize::from(expected.err().unwrap_or(0))] += 1;
                cases += 1;
            }
        }
    }
    assert_eq!(cases, 11 * 5 * 6);
    // 1 is due on one path, 7 on 4 keys and on a page, 11 on 4 root digests.
    assert_eq!(
        (counts[1], counts[7], counts[11]),
        (5 * 6, 10 * 4 * 6 + 2, 10 * 4)
    );
    assert!([0, 2, 3, 4, 6, 8, 16]
        .iter()
        .all(|number| counts[*number] > 0));
}

// ---- the order of the numbers

/// What can be wrong with a page, in the order in which it is judged.
const FAULTS: [u8; 5] = [3, 6, 7, 8, 16];

/// Gives all parts of the faults, none and all of them among these.
fn parts_of_faults() -> Vec<Vec<u8>> {
    let all = FAULTS.iter().enumerate();
    (0..1_usize << FAULTS.len())
        .map(|mask| {
            let wanted = all.clone().filter(|(n, _)| mask >> n & 1 == 1);
            wanted.map(|(_, number)| *number).collect()
        })
        .collect()
}

/// Gives a page of six keys with these faults. A fault of a lesser number stands behind those of
/// greater ones, or before them where they are turned.
fn faulty_page(faults: &[u8], turned: bool) -> Page {
    let [prefix, unlawful, falling] = if turned { [1, 2, 4] } else { [5, 3, 0] };
    let mut keys = numbered_keys(b"a/", 6);
    if faults.contains(&8) {
        keys.swap(falling, falling + 1);
    }
    if faults.contains(&7) {
        keys[unlawful].push(b' ');
    }
    let mut page = Page::of_all(&keys);
    if faults.contains(&6) {
        page.write_whole(prefix);
    }
    page
}

/// Gives the place of a fixed byte in a page that may have the left link and has no other: behind
/// all entries, or among the first bytes where the faults are turned.
fn fixed_place(page: &[u8], linked: bool, turned: bool) -> usize {
    match (turned, linked) {
        (true, false) => 2,
        (true, true) => 1,
        (false, false) => page.len() - 2,
        (false, true) => page.len() - 42,
    }
}

/// Gives a path of three pages for `-/-`, which stands before all of their keys, with these faults
/// in each page.
fn faulty_path(faults: [&[u8]; 3], turned: bool) -> Sent {
    let mut below = None;
    for numbers in faults.iter().rev() {
        let mut page = faulty_page(numbers, turned);
        page.left = below;
        below = link_to(page);
        if numbers.contains(&16) {
            below.as_mut().expect("a link").flip[31] = 0x80;
        }
    }
    let link = below.expect("there are pages");
    let mut sent = Sent::from(&link.page, b"-/-");
    for (n, (page, numbers)) in sent.pages.iter_mut().zip(faults).enumerate() {
        if numbers.contains(&3) {
            let place = fixed_place(page, n < 2, turned);
            page[place] ^= 1;
        }
    }
    for (byte, flip) in sent.root.iter_mut().zip(link.flip) {
        *byte ^= flip;
    }
    sent
}

/// Any faults in two of three pages, with and without bytes behind the last: an earlier page goes
/// before a later one, in a page the lesser number goes first, and 4 comes last.
#[test]
fn faults_in_two_pages() {
    let parts = parts_of_faults();
    let (mut cases, mut counts) = (0, [0; 17]);
    for turned in [false, true] {
        for sound in 0..3 {
            for one in &parts {
                for other in &parts {
                    let mut faults: Vec<&[u8]> = vec![one, other];
                    faults.insert(sound, &[]);
                    let faults = faults.try_into().expect("three pages");
                    let sent = faulty_path(faults, turned);
                    let mut path = sent.path();
                    let first = one.first().or(other.first());
                    for follows in [None, Some(4)] {
                        path.extend(follows);
                        let expected = first.copied().or(follows).map_or(Ok(None), Err);
                        assert_eq!(sent.judged(&path), expected, "{one:?} {other:?}");
                        counts[usize::from(expected.err().unwrap_or(0))] += 1;
                        cases += 1;
                    }
                }
            }
        }
    }
    assert_eq!(cases, 2 * 3 * 32 * 32 * 2);
    assert!([0, 3, 4, 6, 7, 8, 16]
        .iter()
        .all(|number| counts[*number] > 0));
}

/// A path with a fault, cut at every byte: a page that is whole is judged before the next, and one
/// that is cut draws 2, or 3 where a byte departed before.
#[test]
fn a_fault_and_an_end() {
    let mut counts = [0; 17];
    for turned in [false, true] {
        for number in FAULTS {
            for place in 0..3 {
                let mut faults: [&[u8]; 3] = [&[]; 3];
                let fault = [number];
                faults[place] = &fault;
                let sent = faulty_path(faults, turned);
                let page = &sent.pages[place];
                // The fault is seen at a byte of its page, or when the page is whole.
                let seen = match number {
                    3 => 1 + fixed_place(page, place < 2, turned),
                    _ => page.len(),
                };
                let seen = seen + sent.pages[..place].concat().len();
                let path = sent.path();
                for length in 0..=path.len() {
                    let expected = if length < seen { 2 } else { number };
                    let verdict = sent.judged(&path[..length]);
                    assert_eq!(verdict, Err(expected), "{faults:?}, length {length}");
                    counts[usize::from(expected)] += 1;
                }
            }
        }
    }
    assert!([2, 3, 6, 7, 8, 16]
        .iter()
        .all(|number| counts[*number] > 10));
}

// ---- deep paths

/// At most 129 pages follow one another, by links of both kinds.
#[test]
fn depth() {
    let mut cases = 0;
    for depth in [1, 2, 3, 127, 128, 129, 130, 131, 200] {
        let last = format!("chain/{:03}.000", depth - 1).into_bytes();
        for (chain, key, value) in [
            (left_chain(depth), &b"a/b1"[..], Some(VALUE)),
            (left_chain(depth), b"a/b0", None),
            (left_chain(depth), b"a/b2", None),
            (right_chain(depth, 1), &last, Some(VALUE)),
            (right_chain(depth, 3), &last, Some(VALUE)),
            (right_chain(depth, 3), b"d/b", None),
        ] {
            let sent = Sent::from(&chain, key);
            assert_eq!(sent.pages.len(), depth);
            if depth <= 129 {
                expect_presence(&sent.path(), key, &sent.root, value.as_ref());
                assert_eq!(sent.judged(&[sent.path(), vec![0xa2]].concat()), Err(4));
            } else {
                assert_eq!(sent.judged(&sent.path()), Err(3), "{depth} pages");
            }
            cases += 1;
        }
    }
    assert_eq!(cases, 9 * 6);
}

/// The path ends where a 130th page is due: 2, since no byte departs. Every byte there departs.
#[test]
fn depth_where_the_path_ends() {
    for (chain, key) in [
        (left_chain(130), &b"a/b1"[..]),
        (right_chain(130, 2), b"chain/999"),
    ] {
        let sent = Sent::from(&chain, key);
        assert_eq!(sent.pages.len(), 130);
        let path = sent.pages[..129].concat();
        assert_eq!(sent.judged(&path), Err(2));
        for byte in 0..=255 {
            assert_eq!(sent.judged(&[&path[..], &[byte]].concat()), Err(3));
        }
        // However the page goes on.
        assert_eq!(sent.judged_pages(&sent.pages), Err(3));
        assert_eq!(sent.judged(&[&path[..], &EMPTY].concat()), Err(3));
    }
}

/// Faults in the deepest page of a path, and in the one before it.
#[test]
fn faults_in_the_deepest_pages() {
    let mut cases = 0;
    for (above, below) in [(128, None), (127, link_to(Page::default()))] {
        for number in FAULTS {
            let mut page = faulty_page(&[number], false);
            page.left.clone_from(&below);
            let mut root = Page::above(page);
            if number == 16 {
                root.left.as_mut().expect("a link").flip[0] = 1;
            }
            let root = (1..above).fold(root, |page, _| Page::above(page));
            let mut sent = Sent::from(&root, b"-/-");
            assert_eq!(sent.pages.len(), 129);
            if number == 3 {
                sent.pages[above][0] ^= 1;
            }
            assert_eq!(sent.judged(&sent.path()), Err(number), "{above} above");
            cases += 1;
        }
    }
    assert_eq!(cases, 2 * 5);
}

// ---- the keys of a page

/// Gives the number that is due on the keys of a page, or none.
fn due_on_keys(page: &Page) -> Option<u8> {
    let keys = page.keys();
    let mut before: &[u8] = b"";
    let mut right = true;
    for (entry, key) in page.entries.iter().zip(&keys) {
        right &= entry.prefix == shared(before, key);
        before = key;
    }
    let faults = [
        (!right, 6),
        (!keys.iter().all(|key| lawful(key)), 7),
        (!keys.windows(2).all(|pair| pair[0] < pair[1]), 8),
    ];
    let due = faults.iter().find(|(wrong, _)| *wrong);
    due.map(|(_, number)| *number)
}

/// Judges the page as the root and as the page below it, with its right digest and with another.
/// Gives the number that is due on its keys, or 0.
fn number_on_keys(page: &Page) -> u8 {
    let due = due_on_keys(page);
    let key = page.keys().pop().filter(|key| lawful(key));
    let key = key.unwrap_or(b"a/b1".to_vec());
    for root in [page, &Page::above(page.clone())] {
        let sent = Sent::from(root, &key);
        let verdict = sent.judged(&sent.path());
        assert_eq!(verdict.err(), due);
        let other = compare_verify(&sent.path(), &key, &[0; 32]);
        let expected = if root.entries.is_empty() { None } else { due };
        assert_eq!(other, Err(expected.unwrap_or(16)));
    }
    due.unwrap_or(0)
}

#[test]
fn unlawful_keys_in_pages() {
    let mut cases = 0;
    for key in short_unlawful_keys() {
        for keys in [
            &[&key[..]][..],
            &[&key, b"~/b1"],
            &[b"-/b1", &key],
            &[b"-/b1", &key, b"~/b1"],
        ] {
            assert_eq!(number_on_keys(&Page::of_keys(keys)), 7, "{key:?}");
            cases += 1;
        }
    }
    assert_eq!(cases, 4 * short_unlawful_keys().len());
}

/// Keys that do not rise within a page.
#[test]
fn falling_keys() {
    for keys in [
        &[&b"a/b2"[..], b"a/b1"][..],
        &[b"a/b1", b"a/b1"],
        &[b"a/b12", b"a/b1"],
        &[b"a/b1", b"a/b2", b"a/b2"],
        &[b"a/b1", b"a/b3", b"a/b2", b"a/b4"],
        &[b"b/b", b"a/b"],
    ] {
        assert_eq!(number_on_keys(&Page::of_keys(keys)), 8, "{keys:?}");
    }
    for keys in [&[&b"a/b1"[..], b"a/b12"][..], &[b"a/b", b"b/a"]] {
        assert_eq!(number_on_keys(&Page::of_keys(keys)), 0, "{keys:?}");
    }
}

/// Two keys of every pair of lengths around the longest one, with every prefix near their lengths,
/// and a third key: prefixes are compared with the whole key before, however long it is.
#[test]
fn long_keys() {
    let mut counts = [0; 9];
    for length in [3, 255, 256, 257, 258, 300, 1_000] {
        let first = [&b"a/"[..], &vec![b'k'; length - 2]].concat();
        let mut prefixes = vec![0, 1, 254, 255, 256, 257, 258, 299];
        prefixes.extend([length - 1, length, length + 1, 65_535]);
        for prefix in prefixes {
            for remainder in [&b""[..], b"k", b"j", b"z", b"kk", b"zk", &[b'z'; 300]] {
                let mut page = Page::of_keys(&[&first]);
                page.entries.push(Entry {
                    prefix,
                    ..Entry::new(remainder)
                });
                counts[usize::from(number_on_keys(&page))] += 1;
                // A third key with prefixes that are mostly right, and some that are mostly wrong.
                let second = page.keys()[1].len();
                page.entries.push(Entry::new(b"z/z"));
                for prefix in [0, 1, 256, 257, second] {
                    page.entries[2].prefix = prefix;
                    counts[usize::from(number_on_keys(&page))] += 1;
                }
            }
        }
    }
    assert_eq!(counts.iter().sum::<usize>(), 7 * 12 * 7 * 6);
    assert!(
        [0, 6, 7, 8].iter().all(|number| counts[*number] > 0),
        "{counts:?}"
    );
}

/// A wrong prefix and a long key, each before and behind the other and far apart, and a prefix that
/// is wrong beyond the first 256 bytes alone.
#[test]
fn long_keys_far_apart() {
    let long = |byte: u8| [&b"a/"[..], &[b'k'; 400], &[byte]].concat();
    let mut keys = numbered_keys(b"b/", 300);
    assert_eq!(number_on_keys(&Page::of_all(&keys)), 0);
    for place in [0, 150, 299] {
        let mut with = keys.clone();
        with.insert(place, long(b'm'));
        with.insert(place + 1, long(b'n'));
        let page = Page::of_all(&with);
        assert_eq!(page.entries[place + 1].prefix, 402);
        assert_eq!(number_on_keys(&page), 7, "place {place}");
        // The prefix is shorter by some bytes and the remainder longer: the key stays.
        for less in [1, 100, 146, 147, 402] {
            let mut wrong = page.clone();
            let entry = &mut wrong.entries[place + 1];
            entry.prefix = 402 - less;
            entry.remainder = long(b'n')[402 - less..].to_vec();
            assert_eq!(wrong.keys(), page.keys());
            assert_eq!(number_on_keys(&wrong), 6, "place {place}, {less} less");
        }
        for other in [10, 75, 290] {
            let mut wrong = page.clone();
            wrong.write_whole(other);
            assert_eq!(number_on_keys(&wrong), 6, "places {place} and {other}");
        }
    }
    // 8 and 7, each before the other.
    keys.swap(5, 6);
    assert_eq!(number_on_keys(&Page::of_all(&keys)), 8);
    for place in [0, 299] {
        let mut with = keys.clone();
        with.insert(place, long(b'm'));
        assert_eq!(number_on_keys(&Page::of_all(&with)), 7);
    }
}

/// A key of more than 65,535 bytes shares more with the next than a prefix can say.
#[test]
fn prefixes_at_their_limit() {
    let first = vec![b'k'; 65_535];
    let page = Page::of_keys(&[&first, &vec![b'k'; 65_545]]);
    assert_eq!(number_on_keys(&page), 7);
    for (remainder, expected) in [(&b"kkkz"[..], 6), (b"zkkk", 7), (b"", 7)] {
        let mut third = page.clone();
        third.entries.push(Entry {
            prefix: 65_535,
            ..Entry::new(remainder)
        });
        assert_eq!(number_on_keys(&third), expected);
    }
    // The key before is shorter than the longest prefix by one byte.
    let mut short = Page::of_keys(&[&first[1..], b"z/z"]);
    short.entries[1].prefix = 65_535;
    assert_eq!(number_on_keys(&short), 6);
}

/// A prefix is never taken over from the page before.
#[test]
fn prefixes_start_anew_in_each_page() {
    let below = Page {
        left: None,
        entries: vec![Entry {
            prefix: 3,
            ..Entry::new(b"1")
        }],
    };
    assert_eq!(number_on_keys(&below), 6);
    let mut root = Page::of_keys(&[b"a/b2"]);
    root.left = link_to(below);
    let sent = Sent::from(&root, b"a/b1");
    assert_eq!(sent.judged(&sent.path()), Err(6));
}

// ---- what is not judged

/// Layers of keys, links to pages without records, and keys that do not rise from page to page.
#[test]
fn trees_of_other_keys() {
    let mut flat = Page::of_keys(&[b"a/b1", b"a/b2"]);
    flat.left = link_to(Page::default());
    let mut crossed = Page::of_keys(&[b"a/b5"]);
    crossed.left = link_to(Page::of_keys(&[b"a/b1", b"a/b9"]));
    crossed.entries[0].after = link_to(Page::of_keys(&[b"a/b3", b"a/b7"]));
    for (root, key, pages, present) in [
        (&flat, b"a/b1", 1, true),
        (&flat, b"a/b0", 2, false),
        (&flat, b"a/b3", 1, false),
        (&crossed, b"a/b1", 2, true),
        (&crossed, b"a/b7", 2, true),
        // They stand in the page of another gap.
        (&crossed, b"a/b9", 2, false),
        (&crossed, b"a/b3", 2, false),
        (&Page::above(flat.clone()), b"a/b2", 2, true),
    ] {
        let sent = Sent::from(root, key);
        assert_eq!(sent.pages.len(), pages);
        let value = present.then_some(&VALUE);
        expect_presence(&sent.path(), key, &sent.root, value);
    }
    // A link that leads to no page matters only on the way.
    let mut open = Page::of_keys(&[b"a/b1", b"a/b2"]);
    open.entries[1].after = link_to(Page::default());
    open.entries[1].after.as_mut().expect("a link").flip[0] = 1;
    let sent = Sent::from(&open, b"a/b2");
    expect_presence(&sent.path(), b"a/b2", &sent.root, Some(&VALUE));
    let sent = Sent::from(&open, b"a/b3");
    assert_eq!(sent.judged(&sent.path()), Err(16));
}

// ---- the largest paths

/// One page of 65,535 entries, with a fault in its last entries.
#[test]
fn the_widest_page() {
    let page = widest_page();
    let keys = page.keys();
    let last = keys.len() - 1;
    assert_eq!(last, 65_534);
    let root = page.written();
    for n in [0, 1, 4_096, 30_000, last] {
        let after = just_after(&keys[n]).expect("a short key");
        for (key, value) in [(&keys[n], Some(&VALUE)), (&after, None)] {
            let path = root.path(key).concat();
            expect_presence(&path, key, &root.digest, value);
            let followed = [&path[..], &[0]].concat();
            expect_verdict(&followed, key, &root.digest, Err(4));
            expect_verdict(&path[..path.len() - 1], key, &root.digest, Err(2));
            expect_verdict(&path, key, &[0; 32], Err(16));
        }
    }
    let before = just_before(&keys[0]).expect("a lesser key");
    expect_presence(&root.path(&before).concat(), &before, &root.digest, None);

    for (number, place) in [(6, last), (7, last), (8, last - 1), (6, 1), (7, 0), (8, 0)] {
        let mut changed = keys.clone();
        match number {
            7 => changed[place].push(b'/'),
            8 => changed.swap(place, place + 1),
            _ => {}
        }
        let mut page = Page::of_all(&changed);
        if number == 6 {
            page.write_whole(place);
        }
        let sent = Sent::from(&page, &keys[1_000]);
        expect_verdict(&sent.path(), &sent.key, &sent.root, Err(number));
    }
}

/// Paths of the greatest length and of one byte more.
#[test]
fn the_longest_paths() {
    // Bytes behind the digits make each key longer, and the next one shares none of them.
    let mut keys = numbered_keys(b"a/", 65_535);
    let more = LONGEST - widest_page().table().len();
    for (n, key) in keys.iter_mut().enumerate() {
        let more = more / 65_535 + usize::from(n < more % 65_535);
        key.resize(key.len() + more, b'~');
    }
    let sent = Sent::from(&Page::of_all(&keys), &keys[40_000]);
    let path = sent.path();
    assert_eq!(path.len(), LONGEST);
    expect_presence(&path, &sent.key, &sent.root, Some(&VALUE));
    expect_presence(&path, b"a/b1", &sent.root, None);
    expect_verdict(&[&path[..], &[0]].concat(), &sent.key, &sent.root, Err(1));

    // Long keys, whose prefixes are wrong or right.
    for entries in [65, 4_096] {
        let mut page = longest_page(entries);
        for expected in [6, 7] {
            let path = page.table();
            assert!(path.len() <= LONGEST);
            assert_eq!(compare_verify(&path, b"a/b1", &[0; 32]), Err(expected));
            page.spell(&page.keys());
        }
    }
    // One entry with the longest remainder, and bytes behind the page.
    let long = Page::of_keys(&[&[b'k'; 65_535]]);
    assert_eq!(number_on_keys(&long), 7);
    let mut followed = one_record();
    followed.resize(LONGEST, 0);
    let root = sha256(&one_record());
    expect_verdict(&followed, b"a/b1", &root, Err(4));
    followed.push(0);
    expect_verdict(&followed, b"a/b1", &root, Err(1));
}

// ---- the form of a page

/// Counts and lengths that promise more than is left, and such as do not take their shortest form,
/// in the first page and in the second.
#[test]
fn numbers_in_pages() {
    let above = page_bytes(&[0x80], b"", &link_bytes(&[7; 32]));
    for (page, expected) in [
        (&b"\xa2\x61e\x99\xff\xff"[..], 2),
        (b"\xa2\x61e\x99\xff\xff\xa4\x61k\x59\xff\xff", 2),
        (b"\xa2\x61e\x99\xff\xff\x61", 3),
        (b"\xa2\x61e\x98", 2),
        (b"\xa2\x61e\x98\x17", 3),
        (b"\xa2\x61e\x98\x18", 2),
        (b"\xa2\x61e\x99", 2),
        (b"\xa2\x61e\x99\x00", 3),
        (b"\xa2\x61e\x99\x01", 2),
        (b"\xa2\x61e\x9a", 3),
        (b"\xa2\x61e\x9f", 3),
    ] {
        let verdict = compare_verify(page, b"a/b1", &[0; 32]);
        assert_eq!(verdict, Err(expected), "{page:?}");
        let second = [&above[..], page].concat();
        let verdict = compare_verify(&second, b"a/b1", &sha256(&above));
        assert_eq!(verdict, Err(expected), "{page:?}");
    }
}

// ---- buffers

/// The key and the root digest may be parts of the path, since all are only read.
#[test]
fn the_arguments_may_lie_in_the_path() {
    let register = one_record();
    let root = sha256(&register);
    let value = library_value(&VALUE);
    let found = verify(&register, &register[8..12], &root);
    assert_eq!(found, Ok(Presence::Present(value)));
    let found = verify(&register, &register[8..11], &root);
    assert_eq!(found, Ok(Presence::Absent));
    // The left link's digest is that of the page behind it, which is a path by itself.
    let (two_pages, key) = two_pages();
    let table = two_pages.table();
    let below = Sent::from(&two_pages, &key).pages[0].len();
    let found = verify(&table[below..], &key, &table[below - 32..below]);
    assert!(matches!(found, Ok(Presence::Present(_))));
}

/// The inputs may lie at any address, and other bytes may stand around them.
#[test]
fn any_address() {
    let set = set(Kind::Ordinary, 10);
    let root = Page::of_set(&set);
    for (key, value) in &set {
        let sent = Sent::from(&root, key);
        for offset in 0..16 {
            for around in [0x00, 0xff, 0xa2] {
                let [path, key, root] = [&sent.path(), &sent.key, &sent.root[..]]
                    .map(|bytes| [&vec![around; offset][..], bytes, &[around; 16]].concat());
                let [path, key, root] =
                    [&path, &key, &root].map(|buffer| &buffer[offset..buffer.len() - 16]);
                let present = Presence::Present(library_value(value));
                assert_eq!(verify(path, key, root), Ok(present));
            }
        }
    }
}

/// Lengths whose low 32 bits alone would be those of what is wanted. Most of the memory is never
/// written, so the system only sets addresses aside.
#[cfg(target_pointer_width = "64")]
#[test]
fn lengths_over_32_bits() {
    let register = one_record();
    let root = sha256(&register);
    let mut long = vec![0; (1 << 32) + 64];
    long[..64].copy_from_slice(&register);
    assert_eq!(verify(&long, b"a/b1", &root), Err(Refusal::TooLong));
    long[..4].copy_from_slice(b"a/b1");
    let key = &long[..(1 << 32) + 4];
    assert_eq!(verify(&register, key, &root), Err(Refusal::UnlawfulKey));
    long[..32].copy_from_slice(&root);
    let root = &long[..(1 << 32) + 32];
    assert_eq!(verify(&register, b"a/b1", root), Err(Refusal::WrongValue));
}

#[test]
fn raw_call_does_not_read_empty_inputs() {
    let (register, none) = (one_record(), ptr::null());
    let (path, path_len) = (register.as_ptr(), register.len());
    let (key, root) = (b"a/b1".as_ptr(), sha256(&register));
    // SAFETY: An input of length 0 is not read, and the others are whole.
    unsafe {
        assert_eq!(mijdegen_verify(none, 0, none, 0, none, 0), 7);
        assert_eq!(mijdegen_verify(path, path_len, none, 0, none, 0), 7);
        assert_eq!(mijdegen_verify(none, 0, key, 4, none, 0), 11);
        assert_eq!(mijdegen_verify(path, path_len, key, 4, none, 0), 11);
        assert_eq!(mijdegen_verify(none, 0, key, 4, root.as_ptr(), 32), 2);
        let found = mijdegen_verify(path, path_len, key, 4, root.as_ptr(), 32);
        assert_eq!(found, 256 * (29 + (0x71 << 24)));
    }
}

/// Of several values that are the same, the place is the one of the key.
#[test]
fn equal_values() {
    let mut set: Set = set(Kind::OnePage, 100);
    set.values_mut().for_each(|value| *value = filled(0x22));
    let root = Page::of_set(&set);
    let mut places: Vec<usize> = set
        .keys()
        .map(|key| {
            let sent = Sent::from(&root, key);
            let verdict = sent.judged(&sent.path()).expect("accepted");
            let (place, _) = verdict.expect("the key is present");
            place
        })
        .collect();
    places.sort();
    places.dedup();
    assert_eq!(places.len(), 100);
}
