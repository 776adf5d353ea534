//! Registers with faults: what the calls refuse, and with which number.
//!
//! `number_of` compares the calls with the independent crate. Where the number is known beforehand
//! it is written here as well.

use crate::common::calls::number_of;
use crate::common::forge::{
    codec_places, entry_bytes, faulty_registers, left_chain, link_bytes, link_to, longest_page,
    one_record, page_bytes, right_chain, Entry, Link, Page, EMPTY,
};
use crate::common::sets::{set, set_of_layers, short_unlawful_keys, small_sets, Kind, KINDS};
use crate::common::values::{filled, NO_CODECS};
use crate::common::Random;
use independent::{lawful, layer, pages, sha256, table, Set};
use mijdegen::LONGEST;

/// The digest of a value.
const DIGEST: [u8; 32] = [0x11; 32];

const NULL: &[u8] = &[0xf6];

/// Small registers of one page and of several.
fn small_registers() -> Vec<Vec<u8>> {
    small_sets().iter().map(table).collect()
}

#[test]
fn cut_at_every_byte() {
    let mut cases = 0;
    for register in small_registers() {
        for length in 0..register.len() {
            assert_eq!(number_of(&register[..length]), 2, "length {length}");
            cases += 1;
        }
        assert_eq!(number_of(&register), 0);
    }
    // As many as the registers have bytes.
    assert_eq!(cases, 6_584);
}

#[test]
fn large_registers_cut_anywhere() {
    let mut random = Random::new(31);
    let mut cases = 0;
    for kind in KINDS {
        let register = table(&set(kind, 1_000));
        let mut lengths = vec![1, register.len() - 1, register.len() - 41];
        lengths.extend((0..20).map(|_| random.below(register.len())));
        for length in lengths {
            assert_eq!(number_of(&register[..length]), 2, "{kind:?} {length}");
            cases += 1;
        }
    }
    assert_eq!(cases, KINDS.len() * 23);
}

/// Every byte with a few changes.
#[test]
fn every_byte_changed() {
    let mut random = Random::new(32);
    let (mut cases, mut counts) = (0, [0; 14]);
    for register in small_registers() {
        for place in 0..register.len() {
            for flip in [0x01, 0x20, 0x80, 0xff, 1 + random.below(255) as u8] {
                let mut damaged = register.clone();
                damaged[place] ^= flip;
                counts[usize::from(number_of(&damaged))] += 1;
                cases += 1;
            }
        }
    }
    assert_eq!(cases, 5 * 6_584);
    // Single bytes reach all numbers that they can, and values of root pages are free.
    for number in [0, 2, 3, 6, 7, 8, 9, 10] {
        assert!(counts[number] > 0, "number {number}");
    }
}

/// Every byte of three registers with all other bytes in its place.
#[test]
fn every_byte_with_every_byte() {
    let mut cases = 0;
    for register in &small_registers()[..3] {
        for place in 0..register.len() {
            let mut damaged = register.clone();
            for byte in 0..=255 {
                damaged[place] = byte;
                let number = number_of(&damaged);
                assert!(damaged != *register || number == 0);
                cases += 1;
            }
        }
    }
    // The registers have 7, 64 and 148 bytes.
    assert_eq!(cases, 256 * 219);
}

/// A changed byte of the form departs just there: with the bytes up to it the input is refused
/// with 3, and with those before it with 2.
#[test]
fn each_fixed_byte() {
    let below = page_bytes(&[0x80], &[], NULL);
    let link = link_bytes(&sha256(&below));
    let entry = entry_bytes(&[0x44], b"a/b2", &[0x00], &link, &link_bytes(&DIGEST));
    let register = [page_bytes(&[0x81], &entry, &link), below.clone(), below].concat();
    // The form fits, but the linked pages have no records.
    assert_eq!(number_of(&register), 9);

    // The remainder, the three digests, the numbers and the first bytes of links or null.
    let free = |place| matches!(place, 8..12 | 26..58 | 69..101 | 112..144);
    let numbers = [3, 7, 14, 147, 154];
    let nulls = [17, 103, 150, 157];
    // The value has one of two codecs, and a page has one.
    let codec = 66;
    let mut cases = 0;
    for place in 0..register.len() {
        if free(place) || numbers.contains(&place) {
            continue;
        }
        let mut damaged = register[..=place].to_vec();
        for byte in 0..=255 {
            let fits = byte == register[place]
                || nulls.contains(&place) && (byte == 0xf6 || byte == 0xd8)
                || place == codec && byte == 0x55;
            damaged[place] = byte;
            cases += 1;
            // With null as its last byte the register is whole.
            if damaged != register {
                let expected = if fits { 2 } else { 3 };
                assert_eq!(number_of(&damaged), expected, "{place} {byte}");
            }
        }
        assert_eq!(number_of(&register[..place]), 2, "{place}");
    }
    assert_eq!(register.len(), 158);
    assert_eq!(cases, (158 - 4 - 3 * 32 - 5) * 256);
}

/// Each part of the bytes from their start is refused with 2 up to the place, and with 3 from
/// the byte at the place on. Gives the number of parts.
fn departs_at(bytes: &[u8], place: usize) -> usize {
    for length in 0..=bytes.len() {
        let expected = if length <= place { 2 } else { 3 };
        let number = number_of(&bytes[..length]);
        assert_eq!(number, expected, "{bytes:02x?} cut to {length}");
    }
    bytes.len() + 1
}

/// Other bytes in the place of a codec: in the link of a value 55 and 71 fit, in a link to a page
/// 71 alone. The byte departs before the input ends behind it.
#[test]
fn codecs_of_links() {
    let below = page_bytes(&[0x80], &[], NULL);
    let (link, value) = (link_bytes(&sha256(&below)), link_bytes(&DIGEST));
    let mut cases = [0; 2];
    // The gaps of both entries and the left one are empty, or all are linked.
    for (gap, pages) in [(NULL, 0), (&link, 3)] {
        let entries = [
            entry_bytes(&[0x44], b"a/b1", &[0x00], gap, &value),
            entry_bytes(&[0x41], b"2", &[0x03], gap, &value),
        ];
        let root = page_bytes(&[0x82], &entries.concat(), gap);
        let register = [root, below.repeat(pages)].concat();
        for place in codec_places(&register) {
            // The name of the part stands before the six bytes of the link.
            let is_value = register[place - 7] == b'v';
            for byte in NO_CODECS.into_iter().chain([0x55]) {
                let mut changed = register.clone();
                changed[place] = byte;
                if is_value && byte == 0x55 {
                    // The form fits, but the two keys have unlike layers.
                    assert_eq!(number_of(&changed), 9);
                } else {
                    departs_at(&changed, place);
                }
                cases[usize::from(is_value)] += 1;
            }
        }
    }
    assert_eq!(cases, [3 * 7, (2 + 2) * 7]);
}

/// A page of one entry, with these bytes for the count, the remainder's length and the prefix.
fn one_entry(count: &[u8], length: &[u8], prefix: &[u8]) -> Vec<u8> {
    let entry = entry_bytes(length, b"a/b1", prefix, NULL, &link_bytes(&DIGEST));
    page_bytes(count, &entry, NULL)
}

/// Numbers that do not take their shortest form, and first bytes that no number has. The count
/// stands at place 3, the length at place 7 and the prefix at place 14.
#[test]
fn other_forms_of_numbers() {
    assert_eq!(one_entry(&[0x81], &[0x44], &[0x00]), one_record());
    let mut cases = 0;
    for (first, number) in [(0x18, 0_u8), (0x58, 4), (0x98, 1)] {
        // The same number in longer forms, with the byte of the form that departs. Where the
        // number has more than two bytes, or no length, that is already the first.
        let mut forms = vec![
            (vec![first, number], 1),
            (vec![first + 1, 0, number], 1),
            (vec![first + 2, 0, 0, 0, number], 0),
            (vec![first + 3, 0, 0, 0, 0, 0, 0, 0, number], 0),
        ];
        for reserved in first + 4..=first + 7 {
            forms.push((vec![reserved], 0));
            forms.push((vec![reserved, number], 0));
        }
        // The greatest number of a form that is one byte too long.
        forms.push((vec![first, 23], 1));
        forms.push((vec![first + 1, 0, 255], 1));
        forms.push((vec![first + 2, 0, 1, 0, 0], 0));
        forms.push((vec![first + 2, 0xff, 0xff, 0xff, 0xff], 0));
        forms.push((
            vec![first + 3, 0xff, 0xff, 0xff, 0xff, 0xff, 0xff, 0xff, 0xff],
            0,
        ));
        // Other kinds of items: every other highest three bits, with the number in them.
        for kind in (0..8).map(|kind| kind << 5) {
            if kind != first & 0xe0 {
                forms.push((vec![kind + number], 0));
            }
        }
        assert_eq!(forms.len(), 4 + 8 + 5 + 7);

        for (form, byte) in forms {
            let (bytes, place) = match first {
                0x18 => (one_entry(&[0x81], &[0x44], &form), 14),
                0x58 => (one_entry(&[0x81], &form, &[0x00]), 7),
                _ => (one_entry(&form, &[0x44], &[0x00]), 3),
            };
            departs_at(&bytes, place + byte);
            cases += 1;
        }
    }
    assert_eq!(cases, 3 * 24);
}

/// Numbers at the edges of the forms, all of them shortest.
#[test]
fn shortest_forms_at_their_edges() {
    let mut cases = 0;
    // Counts: a page of so many keys of layer 0, with its bytes.
    let all: Vec<_> = set(Kind::OnePage, 257).into_iter().collect();
    for (count, form) in [
        (23, &[0x97][..]),
        (24, &[0x98, 0x18]),
        (255, &[0x98, 0xff]),
        (256, &[0x99, 0x01, 0x00]),
        (257, &[0x99, 0x01, 0x01]),
    ] {
        let set: Set = all[..count].iter().cloned().collect();
        let register = table(&set);
        assert_eq!(register[3..3 + form.len()], *form);
        assert_eq!(number_of(&register), 0, "count {count}");
        cases += 1;
    }
    // Lengths of the remainder and, in a second entry, of the prefix.
    for (length, form, prefix) in [
        (23, &[0x57][..], &[0x17][..]),
        (24, &[0x58, 0x18], &[0x18, 0x18]),
        (255, &[0x58, 0xff], &[0x18, 0xff]),
        (256, &[0x59, 0x01, 0x00], &[0x19, 0x01, 0x00]),
    ] {
        let mut key = vec![b'k'; length];
        key[1] = b'/';
        let register = Page::of_keys(&[&key]).table();
        assert_eq!(register[7..7 + form.len()], *form);
        assert_eq!(number_of(&register), 0, "length {length}");

        // The second key is the first and more bytes. The digest of its page decides no number
        // before 9, and the length decides 7.
        let longer = [&key[..], b"k"].concat();
        let register = Page::of_keys(&[&key, &longer]).table();
        let spelt = [b"\x41k\x61p", prefix, b"\x61t"].concat();
        assert!(register.windows(spelt.len()).any(|part| part == spelt));
        let expected = if length == 256 {
            7
        } else if layer(&key) == layer(&longer) {
            0
        } else {
            9
        };
        assert_eq!(number_of(&register), expected, "length {length}");
        cases += 2;
    }
    assert_eq!(cases, 5 + 8);
}

/// A count or a length that promises more than is left is not judged ahead: the first byte that
/// departs decides, and else the end.
#[test]
fn promises_beyond_the_end() {
    let start = |count: &[u8], more: &[u8]| [b"\xa2\x61e", count, more].concat();
    let counts: [&[u8]; 6] = [
        &[0x81],
        &[0x97],
        &[0x98, 0xff],
        &[0x99, 0x10, 0x00],
        &[0x99, 0x10, 0x01],
        &[0x99, 0xff, 0xff],
    ];
    let mut cases = 0;
    for count in counts {
        assert_eq!(number_of(&start(count, b"")), 2);
        assert_eq!(number_of(&start(count, b"\xa4\x61k")), 2);
        assert_eq!(number_of(&start(count, b"\xa4\x61k\x59\xff\xff")), 2);
        assert_eq!(number_of(&start(count, b"\xa4\x61k\x59\xff\xffa/b1")), 2);
        // The page ends in place of the entry.
        assert_eq!(number_of(&start(count, b"\x61l\xf6")), 3);
        assert_eq!(number_of(&start(count, b"\xa3")), 3);
        assert_eq!(number_of(&start(count, b"\xa4\x61k\x5a")), 3);
        cases += 7;
    }
    // One entry of many is there, whole.
    let entry = entry_bytes(&[0x44], b"a/b1", &[0x00], NULL, &link_bytes(&DIGEST));
    for count in &counts[1..] {
        assert_eq!(number_of(&start(count, &entry)), 2);
        assert_eq!(number_of(&page_bytes(count, &entry, NULL)), 3);
        cases += 2;
    }
    assert_eq!(cases, 6 * 7 + 5 * 2);
}

/// At most 129 pages follow one another, by links of both kinds.
#[test]
fn depth() {
    let mut cases = 0;
    for (depth, expected) in [(127, 9), (128, 9), (129, 9), (130, 3), (131, 3), (200, 3)] {
        for chain in [
            left_chain(depth),
            right_chain(depth, 1),
            right_chain(depth, 3),
            right_chain(depth, 30),
        ] {
            assert_eq!(chain.pages(), depth);
            assert_eq!(number_of(&chain.table()), expected, "{depth} pages");
            cases += 1;
        }
    }
    assert_eq!(cases, 6 * 4);
}

/// The input ends at the link to a page that would be too deep: 2, since no byte departs. Every
/// byte in its place departs.
#[test]
fn depth_where_the_input_ends() {
    let mut cases = 0;
    for chain in [left_chain(130), right_chain(130, 1), right_chain(130, 3)] {
        let register = chain.table();
        let mut last = chain;
        let last = last.page_mut(129).table().len();
        let cut = &register[..register.len() - last];
        assert_eq!(number_of(cut), 2);
        // All parts that end in the last link.
        for length in cut.len() - 41..cut.len() {
            assert_eq!(number_of(&cut[..length]), 2);
            cases += 1;
        }
        let mut more = cut.to_vec();
        more.push(0);
        for byte in 0..=255 {
            *more.last_mut().expect("there are bytes") = byte;
            assert_eq!(number_of(&more), 3, "{byte}");
            cases += 1;
        }
    }
    assert_eq!(cases, 3 * (41 + 256));
}

/// The depth is that of the page and not the number of pages before it: two deep chains stand
/// side by side.
#[test]
fn depth_of_a_second_chain() {
    let mut cases = 0;
    for (first, second, expected) in [
        (128, 128, 9),
        (128, 1, 9),
        (1, 128, 9),
        (129, 1, 3),
        (1, 129, 3),
        (128, 129, 3),
        (129, 128, 3),
    ] {
        // A left link and the link after the only entry.
        let mut root = Page::of_keys(&[b"b/b1"]);
        root.left = link_to(left_chain(first));
        root.entries[0].after = link_to(right_chain(second, 1));
        assert_eq!(number_of(&root.table()), expected, "{first} {second}");
        // The links after two entries.
        let mut root = Page::of_keys(&[b"b/b1", b"b/b2"]);
        root.entries[0].after = link_to(right_chain(first, 2));
        root.entries[1].after = link_to(left_chain(second));
        // The keys of the second chain fall behind those of the root.
        let expected = if expected == 9 { 8 } else { 3 };
        assert_eq!(number_of(&root.table()), expected, "{first} {second}");
        cases += 2;
    }
    assert_eq!(cases, 14);
}

/// A fault in the deepest page, where the form allows it.
#[test]
fn faults_in_the_deepest_page() {
    let mut cases = 0;
    for chain in [left_chain(129), right_chain(129, 2)] {
        let deepest = |change: fn(&mut Page)| {
            let mut damaged = chain.clone();
            change(damaged.page_mut(128));
            number_of(&damaged.table())
        };
        assert_eq!(deepest(|page| page.entries[0].prefix = 1), 6);
        assert_eq!(deepest(|page| page.change_key(0, Vec::clear)), 7);
        assert_eq!(deepest(|page| page.left = link_to(Page::default())), 3);
        let again = |page: &mut Page| {
            page.entries.push(Entry::new(b""));
            let mut keys = page.keys();
            let key = keys[0].clone();
            *keys.last_mut().expect("there are keys") = key;
            page.spell(&keys);
        };
        assert_eq!(deepest(again), 8);
        let table = chain.table();
        assert_eq!(number_of(&[&table[..], &[0]].concat()), 4);
        assert_eq!(number_of(&table[..table.len() - 1]), 2);
        cases += 6;
    }
    assert_eq!(cases, 12);
}

/// Keys longer than 256 bytes break the key rule, but only where all prefixes are right, and
/// prefixes are compared with the whole key before.
#[test]
fn long_keys() {
    let mut cases = 0;
    for length in [257, 258, 300, 1_000, 65_535] {
        let mut key = vec![b'k'; length];
        key[1] = b'/';
        assert_eq!(number_of(&Page::of_keys(&[&key]).table()), 7);
        cases += 1;
    }
    for shared in [100, 254, 255, 256, 257, 258, 300, 1_000, 65_534] {
        let mut first = vec![b'k'; shared];
        first[1] = b'/';
        let (mut one, mut other) = (first.clone(), first);
        one.extend(b"m");
        other.extend(b"n");
        // The last key is as long as a lawful one and stands after the long ones.
        let page = Page::of_keys(&[&one, &other, b"z/z"]);
        let expected = if shared >= 256 { 7 } else { 9 };
        let number = number_of(&page.table());
        assert!(number == expected || number == 0 && expected == 9);
        assert_eq!(page.entries[1].prefix, shared);

        // The prefix is too short by one byte, and by all bytes: the keys stay the same.
        for less in [1, shared / 2, shared] {
            let mut damaged = page.clone();
            let entry = &mut damaged.entries[1];
            entry.prefix -= less;
            entry.remainder = other[shared - less..].to_vec();
            assert_eq!(number_of(&damaged.table()), 6, "{shared} {less}");
            cases += 1;
        }
        // The prefix is longer than the key before.
        for more in [2, 3, 100] {
            let mut damaged = page.clone();
            damaged.entries[1].prefix = (shared + more).min(65_535);
            let number = number_of(&damaged.table());
            assert_eq!(number, if shared + more > 65_535 { 7 } else { 6 });
            cases += 1;
        }
        // The whole key before is the prefix, with one byte more and with none.
        for remainder in [&b"n"[..], b""] {
            let mut damaged = page.clone();
            damaged.entries[1].prefix = shared + 1;
            damaged.entries[1].remainder = remainder.to_vec();
            let number = number_of(&damaged.table());
            if shared + 1 + remainder.len() > 256 {
                assert_eq!(number, 7, "{shared}");
            }
            assert_ne!(number, 6, "{shared}");
            cases += 1;
        }
    }
    assert_eq!(cases, 5 + 9 * (3 + 3 + 2));
}

/// A key of more than 65,535 bytes shares more with the next than a prefix can say.
#[test]
fn prefixes_at_their_limit() {
    let first = vec![b'k'; 65_535];
    let second = vec![b'k'; 65_545];
    let page = Page::of_keys(&[&first, &second]);
    assert_eq!(page.entries[1].prefix, 65_535);
    assert_eq!(number_of(&page.table()), 7);

    // The third key is spelt with the longest prefix.
    let mut third = page.clone();
    third.entries.push(Entry {
        prefix: 65_535,
        ..Entry::new(b"kkkz")
    });
    assert_eq!(number_of(&third.table()), 6);
    third.entries[2].remainder = b"zkkk".to_vec();
    assert_eq!(number_of(&third.table()), 7);
    third.entries[2].remainder.clear();
    assert_eq!(number_of(&third.table()), 7);
    // The key before is shorter than the longest prefix by one byte.
    let mut short = Page::of_keys(&[&first[1..], b"z/z"]);
    short.entries[1].prefix = 65_535;
    assert_eq!(number_of(&short.table()), 6);
}

/// Wrong prefixes beyond the first 256 bytes, in another page than the long keys, and before and
/// after other faults.
#[test]
fn long_keys_in_several_pages() {
    let long = [&b"a/"[..], &[b'k'; 400]].concat();
    let longer = [&long[..], b"k"].concat();
    let mut cases = 0;
    // The page with the wrong prefix is the root, its left page or the page after its entry.
    for wrong in 0..3 {
        let mut root = Page::of_keys(&[&long, &longer]);
        root.left = link_to(Page::of_keys(&[&long, &longer]));
        root.entries[1].after = link_to(Page::of_keys(&[&long, &longer]));
        assert_eq!(number_of(&root.table()), 7);
        let entry = &mut root.page_mut(wrong).entries[1];
        assert_eq!(entry.prefix, 402);
        entry.prefix = 401;
        entry.remainder = b"kk".to_vec();
        assert_eq!(number_of(&root.table()), 6, "page {wrong}");
        cases += 1;
    }
    assert_eq!(cases, 3);
}

/// An empty remainder fits the form, and its prefix is right up to the length of the key before.
#[test]
fn empty_remainders() {
    let mut cases = 0;
    // The first key of a page is empty: 7. As the second it is less than the first, but the key
    // rule is judged first.
    assert_eq!(number_of(&Page::of_keys(&[b""]).table()), 7);
    assert_eq!(number_of(&Page::of_keys(&[b"", b"a/b1"]).table()), 7);
    for (prefix, expected) in [
        (0, 7),
        (1, 7),
        (2, 7),
        (3, 8),
        (4, 8),
        (5, 8),
        (6, 6),
        (7, 6),
    ] {
        let mut page = Page::of_keys(&[b"a/b12", b"a/b12"]);
        assert_eq!(
            (page.entries[1].prefix, page.entries[1].remainder.len()),
            (5, 0)
        );
        page.entries[1].prefix = prefix;
        assert_eq!(number_of(&page.table()), expected, "prefix {prefix}");
        cases += 1;
    }
    assert_eq!(cases, 8);
    // The first entry has nothing before it in its page.
    let mut below = Page::of_keys(&[b"a/b1"]);
    below.entries[0] = Entry {
        prefix: 4,
        ..Entry::new(b"")
    };
    let mut root = Page::of_keys(&[b"a/b1"]);
    root.entries[0].after = link_to(below);
    assert_eq!(number_of(&root.table()), 6);
}

/// The prefix is taken from the entry before in the same page, and never from another page.
#[test]
fn prefixes_start_anew_in_each_page() {
    let base = Page::of_set(&set_of_layers(&[0, 0, 1, 0, 0, 1, 0]));
    assert_eq!(base.pages(), 4);
    assert_eq!(number_of(&base.table()), 0);
    // The first entry of each page with every prefix from 1 to 31, where the key of the entry
    // above would share so many bytes.
    let mut cases = 0;
    for page in 0..4 {
        for prefix in 1..32 {
            let mut damaged = base.clone();
            let entry = &mut damaged.page_mut(page).entries[0];
            entry.prefix = prefix;
            entry.remainder.drain(..prefix);
            assert_eq!(number_of(&damaged.table()), 6, "{page} {prefix}");
            cases += 1;
        }
    }
    assert_eq!(cases, 4 * 31);
}

#[test]
fn too_many_records() {
    let mut cases = 0;
    for kind in KINDS {
        for count in [4_097, 4_098, 5_000] {
            let register = table(&set(kind, count));
            assert_eq!(number_of(&register), 5, "{kind:?} {count}");
            cases += 1;
        }
    }
    assert_eq!(cases, KINDS.len() * 3);

    // Entries of every kind are counted: here all keys are empty.
    for (count, expected) in [(4_096, 7), (4_097, 5), (65_535, 5)] {
        let page = Page {
            left: None,
            entries: vec![Entry::new(b""); count],
        };
        let register = page.table();
        assert_eq!(number_of(&register), expected, "{count}");
        // 2, 3 and 4 win, also behind record 4,097.
        assert_eq!(number_of(&register[..register.len() - 1]), 2);
        assert_eq!(number_of(&[&register[..], NULL].concat()), 4);
        let mut departed = register;
        *departed.last_mut().expect("there are bytes") = 0xf5;
        assert_eq!(number_of(&departed), 3);
    }
    // No page has more than 4,096 entries, but all together do.
    let mut root = Page::of_keys(&[b"b/b1", b"b/b2"]);
    for link in root.links_mut() {
        *link = link_to(Page {
            left: None,
            entries: vec![Entry::new(b""); 1_365],
        });
    }
    assert_eq!(number_of(&root.table()), 5);
    root.left.as_mut().expect("a link").page.entries.pop();
    assert_eq!(number_of(&root.table()), 7);
}

#[test]
fn bytes_after_the_last_page() {
    let mut cases = 0;
    for register in small_registers() {
        for byte in 0..=255 {
            let followed = [&register[..], &[byte]].concat();
            assert_eq!(number_of(&followed), 4, "{byte}");
            cases += 1;
        }
        // A page, the register once more, and many zeros.
        for more in [&EMPTY[..], &register, &vec![0; 1_000]] {
            let followed = [&register[..], more].concat();
            assert_eq!(number_of(&followed), 4);
            cases += 1;
        }
    }
    assert_eq!(cases, 10 * (256 + 3));
    for kind in KINDS {
        let followed = [table(&set(kind, 4_096)), vec![0xf6]].concat();
        assert_eq!(number_of(&followed), 4, "{kind:?}");
    }
}

/// Keys of every form that breaks the rule, as the only key of a register.
#[test]
fn unlawful_keys() {
    let mut cases = 0;
    for key in short_unlawful_keys() {
        assert_eq!(number_of(&Page::of_keys(&[&key]).table()), 7, "{key:?}");
        cases += 1;
    }
    // All bytes at both sides of the slash.
    let mut accepted = 0;
    for byte in 0..=255_u8 {
        for key in [[byte, b'/', b'b'], [b'a', b'/', byte]] {
            let expected = if lawful(&key) { 0 } else { 7 };
            let number = number_of(&Page::of_keys(&[&key]).table());
            assert_eq!(number, expected, "{key:?}");
            accepted += usize::from(number == 0);
            cases += 1;
        }
    }
    // 256 bytes at 2 places; a dot alone is a collection and no name.
    assert_eq!(accepted, 2 * 67 - 1);
    assert_eq!(cases, short_unlawful_keys().len() + 256 * 2);
}

/// Keys that do not rise, within a page and from one page to another.
#[test]
fn falling_keys() {
    let two: [(&[u8], &[u8]); 9] = [
        (b"a/b2", b"a/b1"),
        (b"a/b1", b"a/b1"),
        (b"a/b12", b"a/b1"),
        (b"b/a", b"a/a"),
        (b"b/a", b"a/aaaa"),
        (b"a/b", b"a/B"),
        (b"a/~", b"a/-"),
        (b"aa/b", b"a/b"),
        (b"a/b", b"a.b/c"),
    ];
    let mut cases = 0;
    for (first, second) in two {
        let one_page = Page::of_keys(&[first, second]);
        assert_eq!(number_of(&one_page.table()), 8, "{first:?}");
        let mut left = Page::of_keys(&[second]);
        left.left = link_to(Page::of_keys(&[first]));
        assert_eq!(number_of(&left.table()), 8, "{first:?}");
        let mut right = Page::of_keys(&[first]);
        right.entries[0].after = link_to(Page::of_keys(&[second]));
        assert_eq!(number_of(&right.table()), 8, "{first:?}");
        // From one gap to the next entry, and over an empty page.
        let mut between = Page::of_keys(&[b"-/-", second]);
        between.entries[0].after = link_to(Page::of_keys(&[first]));
        assert_eq!(number_of(&between.table()), 8, "{first:?}");
        let mut deep = Page::of_keys(&[first]);
        deep.entries[0].after = link_to(Page::above(Page::of_keys(&[second])));
        assert_eq!(number_of(&deep.table()), 8, "{first:?}");
        // The other way round the keys rise.
        if first != second {
            let rising = Page::of_keys(&[second, first]);
            assert_ne!(number_of(&rising.table()), 8, "{first:?}");
        }
        cases += 5;
    }
    assert_eq!(cases, 9 * 5);
}

/// Right keys in pages that are not those of their set.
#[test]
fn wrong_trees() {
    let mut cases = 0;
    let sets = [
        set_of_layers(&[]),
        set_of_layers(&[0]),
        set_of_layers(&[3]),
        set_of_layers(&[0, 0, 0]),
        set_of_layers(&[0, 1, 0]),
        set_of_layers(&[0, 2]),
        set_of_layers(&[2, 0]),
        set_of_layers(&[1, 1, 3, 0, 1, 2, 0]),
        set(Kind::Ordinary, 10),
        set(Kind::Chains, 3),
    ];
    for set in &sets {
        let right = Page::of_set(set);
        assert_eq!(number_of(&right.table()), 0);
        // Pages without entries above the root.
        let mut above = right.clone();
        for _ in 0..3 {
            above = Page::above(above);
            assert_eq!(number_of(&above.table()), 9);
            cases += 1;
        }
        for n in 0..right.pages() {
            let gaps = right.clone().page_mut(n).entries.len() + 1;
            for gap in 0..gaps {
                let change = |change: &dyn Fn(&mut Option<Link>)| {
                    let mut damaged = right.clone();
                    change(damaged.page_mut(n).links_mut()[gap]);
                    number_of(&damaged.table())
                };
                let linked = right.clone().page_mut(n).links_mut()[gap].is_some();
                if linked {
                    // A page without entries is put in between, or left out.
                    let number = change(&|link| {
                        let page = link.take().expect("a link").page;
                        *link = link_to(Page::above(*page));
                    });
                    assert_eq!(number, 9, "page {n}, gap {gap}");
                    // The page is left out, and its left page or an empty one stands for it.
                    let number = change(&|link| {
                        let below = link.as_mut().expect("a link").page.left.take();
                        *link = below.or_else(|| link_to(Page::default()));
                    });
                    assert_eq!(number, 9, "page {n}, gap {gap}");
                    cases += 2;
                } else {
                    // A page without records, also below others.
                    let number = change(&|link| *link = link_to(Page::default()));
                    assert_eq!(number, 9, "page {n}, gap {gap}");
                    let number = change(&|link| *link = link_to(Page::above(Page::default())));
                    assert_eq!(number, 9, "page {n}, gap {gap}");
                    cases += 2;
                }
            }
        }
    }
    // 3 pages above each root, and 2 changes of each gap.
    let gaps: usize = sets.iter().map(|set| set.len() + pages(set).len()).sum();
    assert_eq!(cases, 3 * 10 + 2 * gaps);
    assert_eq!(gaps, 76);
}

/// Keys in a page of another layer, though all gaps are filled.
#[test]
fn wrong_layers() {
    // Keys of layers 0 and 1, and of 0 alone, as one page and as several.
    let set = set_of_layers(&[0, 0, 1, 0]);
    let keys: Vec<&[u8]> = set.keys().map(Vec::as_slice).collect();
    let flat = Page::of_keys(&keys);
    let mut cases = 0;
    let mut refused = |page: &Page| {
        assert_eq!(number_of(&page.table()), 9);
        cases += 1;
    };
    refused(&flat);

    // Each key as the root, with those before it and after it below.
    for root in [0, 1, 3] {
        let mut page = Page::of_keys(&keys[root..=root]);
        if root > 0 {
            page.left = link_to(Page::of_keys(&keys[..root]));
        }
        if root < 3 {
            page.entries[0].after = link_to(Page::of_keys(&keys[root + 1..]));
        }
        refused(&page);
    }
    // A run of layer 0 in two pages, one below the other.
    let mut page = Page::of_keys(&keys[2..3]);
    let mut left = Page::of_keys(&keys[1..2]);
    left.left = link_to(Page::of_keys(&keys[..1]));
    page.left = link_to(left);
    page.entries[0].after = link_to(Page::of_keys(&keys[3..]));
    refused(&page);
    // A run of layer 0 without the key that parts it.
    let mut page = Page::of_keys(&keys[..1]);
    page.entries[0].after = link_to(Page::of_keys(&keys[1..2]));
    refused(&page);
    // The key of layer 1 below one of layer 0.
    let mut page = Page::of_keys(&keys[..2]);
    page.entries[1].after = link_to(Page::of_keys(&keys[2..3]));
    refused(&page);
    assert_eq!(cases, 7);

    // The scope's row of two keys in one page: 118 bytes, and 9 as a register.
    let row = Page::of_keys(&[b"a/b1", b"a/b2"]).table();
    assert_eq!(row.len(), 118);
    assert_eq!(number_of(&row), 9);
}

/// Every bit of every link's digest, and the digests of other pages.
#[test]
fn wrong_digests() {
    let mut cases = 0;
    let base = Page::of_set(&set_of_layers(&[0, 2, 0, 1]));
    for n in 0..base.pages() {
        for gap in 0..base.clone().page_mut(n).entries.len() + 1 {
            if base.clone().page_mut(n).links_mut()[gap].is_none() {
                continue;
            }
            for bit in 0..256 {
                let mut damaged = base.clone();
                let link = damaged.page_mut(n).links_mut().remove(gap);
                link.as_mut().expect("a link").flip[bit / 8] = 1 << (bit % 8);
                assert_eq!(number_of(&damaged.table()), 10, "{n} {gap} {bit}");
                cases += 1;
            }
        }
    }
    // Each page but the root has a link.
    assert_eq!(cases, (base.pages() - 1) * 256);
    assert_eq!(base.pages(), 5);

    // In larger registers one bit of each link in turn.
    let mut random = Random::new(33);
    let mut cases = 0;
    for kind in [Kind::Ordinary, Kind::Chains, Kind::Alternating, Kind::Mixed] {
        let pages = pages(&set(kind, 100));
        let register = pages.concat();
        for page in &pages[1..] {
            let digest = sha256(page);
            let mut places = register.windows(32);
            let place = places.position(|part| part == digest).expect("a link");
            let mut damaged = register.clone();
            damaged[place + random.below(32)] ^= 1 << random.below(8);
            assert_eq!(number_of(&damaged), 10, "{kind:?}");
            cases += 1;
        }
    }
    assert_eq!(cases, 271);

    // A value below the root is covered by a digest, one in the root by none.
    let pages = pages(&set_of_layers(&[0, 1]));
    let mut register = pages.concat();
    register[pages[0].len() - 60] ^= 1;
    assert_eq!(number_of(&register), 0);
    register[pages[0].len() + pages[1].len() - 10] ^= 1;
    assert_eq!(number_of(&register), 10);
}

/// The digests of two links in each other's place.
#[test]
fn swapped_digests() {
    let pages = pages(&set_of_layers(&[0, 1, 0]));
    let digests = [sha256(&pages[1]), sha256(&pages[2])];
    let mut register = pages.concat();
    let place = |register: &[u8], digest: &[u8; 32]| {
        let mut parts = register.windows(32);
        parts.position(|part| part == digest).expect("a link")
    };
    let places = digests.map(|digest| place(&register, &digest));
    register[places[0]..places[0] + 32].copy_from_slice(&digests[1]);
    assert_eq!(number_of(&register), 10);
    register[places[1]..places[1] + 32].copy_from_slice(&digests[0]);
    assert_eq!(number_of(&register), 10);
    // The pages below change places too: the digests are right, but the keys fall.
    let swapped = [&register[..pages[0].len()], &pages[2][..], &pages[1][..]].concat();
    assert_eq!(number_of(&swapped), 8);
}

/// A root of two keys of layer 1, and below it one page of three keys of layer 0 on the left and
/// one on the right. The page on the right can have more keys.
fn base(right: usize) -> Page {
    let layers = [&[0, 0, 0, 1, 1][..], &vec![0; right]].concat();
    let page = Page::of_set(&set_of_layers(&layers));
    assert_eq!(page.pages(), 3);
    page
}

/// Puts one fault of numbers 6 to 10 into page 1 or 2, at the entries from `place` on.
fn add_fault(root: &mut Page, number: u8, page: usize, place: usize) {
    if number == 10 {
        let link = match page {
            1 => root.left.as_mut(),
            _ => root.entries[1].after.as_mut(),
        };
        link.expect("a link").flip[31] = 1;
        return;
    }
    let page = root.page_mut(page);
    let mut keys = page.keys();
    match number {
        // The prefix is shorter by one and the remainder longer: the key stays.
        6 => {
            let entry = &mut page.entries[place + 1];
            entry.prefix -= 1;
            entry.remainder.insert(0, keys[place][entry.prefix]);
        }
        // The key gets a byte that is unlawful, and keeps its layer and its place.
        7 => {
            let wanted = layer(&keys[place + 2]);
            keys[place + 2].push(0);
            let last = keys[place + 2].len() - 1;
            while layer(&keys[place + 2]) != wanted {
                keys[place + 2][last] += 1;
            }
            assert!(keys[place + 2][last] < b'-');
            page.spell(&keys);
        }
        // Two keys of one layer change places.
        8 => {
            keys.swap(place, place + 1);
            page.spell(&keys);
        }
        // The key gets a byte with which it has another layer, and keeps its place.
        9 => {
            let before = layer(&keys[place + 1]);
            keys[place + 1].push(b'0');
            let last = keys[place + 1].len() - 1;
            while layer(&keys[place + 1]) == before {
                keys[place + 1][last] += 1;
            }
            assert!(keys[place + 1][last] <= b'9');
            page.spell(&keys);
        }
        _ => panic!("number {number}"),
    }
}

/// Each number alone, in each page, and the scope's small example of it.
#[test]
fn each_number_alone() {
    for (number, register) in (1..).zip(faulty_registers()) {
        assert_eq!(number_of(&register), number);
    }
    assert_eq!(number_of(&[]), 2);
    assert_eq!(number_of(&Page::of_keys(&[b"a/"]).table()), 7);

    let mut cases = 0;
    for page in [1, 2] {
        for number in 6..=10 {
            let mut root = base(3);
            assert_eq!(number_of(&root.table()), 0);
            add_fault(&mut root, number, page, 0);
            assert_eq!(number_of(&root.table()), number, "page {page}");
            cases += 1;
        }
    }
    assert_eq!(cases, 10);
}

/// Two faults of numbers 6 to 10 in all pairs of pages: the smaller number wins.
#[test]
fn two_faults_of_the_pages() {
    let mut cases = 0;
    for first in 6..=10 {
        for second in first + 1..=10 {
            for (one, other) in [(1, 2), (2, 1), (1, 1), (2, 2)] {
                let mut root = base(3);
                // The greater first, since each of 7 to 9 makes all prefixes right.
                add_fault(&mut root, second, other, 0);
                add_fault(&mut root, first, one, 0);
                assert_eq!(number_of(&root.table()), first, "{first} {second}");
                cases += 1;
            }
        }
    }
    assert_eq!(cases, 10 * 4);
}

/// The faults of numbers 6 to 10 all at once, then without the smallest, and so on.
#[test]
fn many_faults_of_the_pages() {
    let mut cases = 0;
    for first in 6..=10 {
        for pages in [[1; 5], [2; 5], [1, 2, 1, 2, 1], [2, 1, 2, 1, 2]] {
            let mut root = base(3);
            for (number, page) in (first..=10).rev().zip(pages) {
                add_fault(&mut root, number, page, 0);
            }
            assert_eq!(number_of(&root.table()), first, "{pages:?}");
            cases += 1;
        }
    }
    assert_eq!(cases, 5 * 4);
}

/// More than 4,096 records with another fault before, among and behind the first 4,096.
#[test]
fn too_many_records_and_another_fault() {
    let crowded = base(4_100);
    assert_eq!(number_of(&crowded.table()), 5);
    // One record less than too many: the other number is due.
    let full = base(4_091);
    assert_eq!(number_of(&full.table()), 0);
    let mut cases = 0;
    for number in 6..=10 {
        for (page, place) in [(1, 0), (2, 0), (2, 2_000), (2, 4_088), (2, 4_097)] {
            let mut root = crowded.clone();
            add_fault(&mut root, number, page, place);
            assert_eq!(number_of(&root.table()), 5, "{number} {place}");
            cases += 1;
            if place < 4_089 {
                let mut root = full.clone();
                add_fault(&mut root, number, page, place);
                assert_eq!(number_of(&root.table()), number, "{number} {place}");
                cases += 1;
            }
        }
    }
    assert_eq!(cases, 5 * (5 + 4));
}

/// A fault of the bytes and another: 1, then 2 or 3, then 4 go before all numbers of the pages.
#[test]
fn a_fault_of_the_bytes_and_another() {
    let mut registers = vec![base(3).table(), base(4_100).table()];
    for number in 6..=10 {
        for page in [1, 2] {
            let mut root = base(3);
            add_fault(&mut root, number, page, 0);
            registers.push(root.table());
        }
    }
    assert_eq!(registers.len(), 12);

    let mut cases = 0;
    for register in &registers {
        let last = register.len() - 1;
        let changed = |place: usize| {
            let mut bytes = register.clone();
            bytes[place] ^= 1;
            bytes
        };
        // 4 with what comes after it.
        for more in [&[0xf6][..], &EMPTY, &[0; 50]] {
            assert_eq!(number_of(&[register, more].concat()), 4);
            cases += 1;
        }
        // 3 at the first, at the last and at another byte of the form, also with 4.
        for place in [0, last, last - 1, 2] {
            assert_eq!(number_of(&changed(place)), 3);
            let followed = [changed(place), vec![0xf6]].concat();
            assert_eq!(number_of(&followed), 3);
            cases += 2;
        }
        // 2 with what comes after it.
        for length in [last, last - 1, last - 30] {
            assert_eq!(number_of(&register[..length]), 2);
            cases += 1;
        }
        // 2 and 3: the end before the byte that departs, and behind it.
        assert_eq!(number_of(&changed(last)[..last]), 2);
        assert_eq!(number_of(&changed(last - 1)[..last]), 3);
        assert_eq!(number_of(&changed(0)[..1]), 3);
        cases += 3;
        // 1 with all of them.
        for mut bytes in [register.clone(), changed(0), changed(last)] {
            bytes.resize(LONGEST + 1, 0);
            assert_eq!(number_of(&bytes), 1);
            cases += 1;
        }
    }
    assert_eq!(cases, 12 * (3 + 8 + 3 + 3 + 3));
}

/// A fault at the first and at the last place of registers of 4,096 records.
#[test]
fn faults_in_the_largest_registers() {
    let mut cases = 0;
    for kind in [
        Kind::Ordinary,
        Kind::OnePage,
        Kind::Alternating,
        Kind::Longest,
    ] {
        let right = Page::of_set(&set(kind, 4_096));
        let last = right.pages() - 1;
        let in_pages = |page: usize, change: &dyn Fn(&mut Page)| {
            let mut damaged = right.clone();
            change(damaged.page_mut(page));
            number_of(&damaged.table())
        };
        for page in [0, last] {
            assert_eq!(in_pages(page, &|page| page.entries[0].prefix += 1), 6);
            let unlawful = |page: &mut Page| {
                let place = page.entries.len() - 1;
                page.change_key(place, |key| key.extend([b'/'; 2]));
            };
            assert_eq!(in_pages(page, &unlawful), 7);
            // The least key stands last in the page, behind others of it or of a page before.
            let falling = |page: &mut Page| {
                let place = page.entries.len() - 1;
                page.change_key(place, |key| *key = b"-/-".to_vec());
            };
            assert_eq!(in_pages(page, &falling), 8);
            cases += 3;
        }
        let empty = |page: &mut Page| {
            let free = page.links_mut().into_iter().find(|link| link.is_none());
            *free.expect("a gap without a link") = link_to(Page::default());
        };
        assert_eq!(in_pages(last, &empty), 9);
        cases += 1;
        if kind != Kind::OnePage {
            let pages = pages(&set(kind, 4_096));
            let mut register = pages.concat();
            let digest = sha256(&pages[pages.len() - 1]);
            let mut parts = register.windows(32);
            let place = parts.position(|part| part == digest).expect("a link");
            register[place] ^= 1;
            assert_eq!(number_of(&register), 10, "{kind:?}");
            cases += 1;
        }
    }
    assert_eq!(cases, 4 * 7 + 3);
}

/// Inputs of the greatest length: with long keys, with too many records, and with each number of
/// the bytes at the last byte.
#[test]
fn the_longest_inputs() {
    let mut cases = 0;
    for entries in [65, 4_096, 4_097] {
        let page = longest_page(entries);
        let table = page.table();
        assert_eq!(table.len(), LONGEST);
        // The numbers share leading digits, so prefixes of 0 are wrong.
        let expected = if entries == 4_097 { 5 } else { 6 };
        assert_eq!(number_of(&table), expected, "{entries}");
        assert_eq!(number_of(&table[..LONGEST - 1]), 2);
        let mut departed = table.clone();
        departed[LONGEST - 1] = 0xf5;
        assert_eq!(number_of(&departed), 3);
        assert_eq!(number_of(&[&table[..], NULL].concat()), 1);
        // Without the left link more bytes follow the only page.
        let mut alone = page.clone();
        alone.left = None;
        let mut followed = alone.table();
        followed.resize(LONGEST, 0);
        assert_eq!(number_of(&followed), 4);
        // With right prefixes the long keys are due.
        let mut spelt = page.clone();
        spelt.spell(&page.keys());
        let expected = if entries == 4_097 { 5 } else { 7 };
        assert_eq!(number_of(&spelt.table()), expected);
        cases += 6;
    }
    assert_eq!(cases, 3 * 6);

    // Many empty pages side by side: as many as the longest input holds.
    let mut root = Page::default();
    for _ in 0..40_000 {
        root.entries.push(Entry {
            after: link_to(Page::default()),
            ..Entry::new(b"")
        });
    }
    let table = root.table();
    assert!(table.len() < LONGEST && table.len() > LONGEST - 200_000);
    assert_eq!(number_of(&table), 5);
}

/// Makes one change to a random page of the tree.
fn change_at_random(random: &mut Random, root: &mut Page) {
    let n = random.below(root.pages());
    let page = root.page_mut(n);
    let count = page.entries.len();
    let gap = random.below(count + 1);
    let change = random.below(16);
    if change < 9 && count == 0 {
        return;
    }
    let place = random.below(count.max(1));
    match change {
        0 => page.entries[place].prefix = random.below(40),
        1 => page.entries[place].prefix += 1,
        2 => {
            let entry = &mut page.entries[place];
            entry.prefix = entry.prefix.saturating_sub(1);
        }
        3 => page.entries[place].remainder.clear(),
        4 => page.change_key(place, |key| {
            key.pop();
        }),
        5 => {
            let byte = random.next() as u8;
            page.change_key(place, |key| *key.last_mut().unwrap_or(&mut 0) = byte);
        }
        6 => {
            let byte = *random.one_of(b"-09azAZ~/");
            let times = 1 + random.below(2) * random.below(300);
            page.change_key(place, |key| key.extend(vec![byte; times]));
        }
        7 => {
            let other = random.below(count);
            let mut keys = page.keys();
            keys.swap(place, other);
            page.spell(&keys);
        }
        8 => {
            let mut keys = page.keys();
            if random.below(2) == 0 {
                page.entries.remove(place);
                keys.remove(place);
            } else {
                page.entries.insert(place, page.entries[place].clone());
                keys.insert(place, keys[place].clone());
            }
            page.spell(&keys);
        }
        9 => *page.links_mut()[gap] = None,
        10 => *page.links_mut()[gap] = link_to(Page::default()),
        11 => {
            let link = page.links_mut().remove(gap).take();
            let other = random.below(count + 1);
            *page.links_mut()[other] = link;
        }
        12 => {
            let link = page.links_mut().remove(gap);
            if let Some(below) = link.take() {
                *link = link_to(Page::above(*below.page));
            }
        }
        13 => {
            if let Some(link) = page.links_mut().remove(gap) {
                link.flip[random.below(32)] = 1 << random.below(8);
            }
        }
        14 => *root = Page::above(root.clone()),
        _ => {
            // A value changes, and nothing is wrong.
            if count > 0 {
                page.entries[place].value = filled(random.next() as u8);
            }
        }
    }
}

/// Random changes of the pages, all written again with right digests.
#[test]
fn random_changes_of_pages() {
    let mut random = Random::new(34);
    let bases: Vec<Page> = [
        set_of_layers(&[0, 1, 0]),
        set_of_layers(&[0, 0, 2, 1, 0, 0]),
        set_of_layers(&[1, 1, 0, 0, 0, 3]),
        set(Kind::Ordinary, 10),
        set(Kind::SharedPrefix, 10),
        set(Kind::Chains, 5),
        set(Kind::Alternating, 10),
    ]
    .iter()
    .map(Page::of_set)
    .collect();
    let mut counts = [0; 14];
    for _ in 0..12_000 {
        let mut damaged = random.one_of(&bases).clone();
        for _ in 0..1 + random.below(3) {
            change_at_random(&mut random, &mut damaged);
        }
        counts[usize::from(number_of(&damaged.table()))] += 1;
    }
    assert_eq!(counts.iter().sum::<u32>(), 12_000);
    for number in [0, 6, 7, 8, 9, 10] {
        assert!(counts[number] > 300, "number {number}: {}", counts[number]);
    }
}

/// Random changes of the bytes: parts left out, doubled, moved, and other bytes.
#[test]
fn random_changes_of_bytes() {
    let mut random = Random::new(35);
    let registers = small_registers();
    let mut counts = [0; 14];
    for _ in 0..20_000 {
        let mut bytes = random.one_of(&registers).clone();
        for _ in 0..1 + random.below(2) {
            if bytes.is_empty() {
                break;
            }
            let start = random.below(bytes.len());
            let end = (start + 1 + random.below(64)).min(bytes.len());
            match random.below(6) {
                0 => {
                    bytes.drain(start..end);
                }
                1 => {
                    let part = bytes[start..end].to_vec();
                    bytes.splice(start..start, part);
                }
                2 => {
                    let part: Vec<u8> = bytes.drain(start..end).collect();
                    let place = random.below(bytes.len() + 1);
                    bytes.splice(place..place, part);
                }
                3 => {
                    let part = random.bytes(end - start);
                    bytes[start..end].copy_from_slice(&part);
                }
                4 => {
                    // A part of another register.
                    let other = random.one_of(&registers);
                    let from = random.below(other.len());
                    let to = (from + 1 + random.below(64)).min(other.len());
                    bytes.splice(start..end, other[from..to].iter().copied());
                }
                _ => {
                    let usual = [0x00, 0xf6, 0xd8, 0xa4, 0x61, 0x80, 0x81, 0x55, 0x71];
                    bytes[start] = *random.one_of(&usual);
                }
            }
        }
        counts[usize::from(number_of(&bytes))] += 1;
    }
    assert_eq!(counts.iter().sum::<u32>(), 20_000);
    for number in [2, 3] {
        assert!(counts[number] > 300, "number {number}: {}", counts[number]);
    }
}

/// Bytes from any place of one register, followed by those of another: two that fit may meet.
#[test]
fn two_registers_put_together() {
    let registers = small_registers();
    let mut cases = 0;
    for one in &registers[..6] {
        for other in &registers[..6] {
            for place in (0..one.len()).step_by(7) {
                let from = place.min(other.len());
                let number = number_of(&[&one[..place], &other[from..]].concat());
                assert!(number <= 10);
                cases += 1;
            }
        }
    }
    assert_eq!(cases, 1_410);
}

/// Each head stands for a number in its shortest form only: 65,536 two-byte numbers.
#[test]
fn all_two_byte_counts() {
    let mut cases = 0;
    for number in 0..=65_535_u16 {
        let [high, low] = number.to_be_bytes();
        let bytes = [b"\xa2\x61e\x99", &[high, low][..]].concat();
        let expected = if high == 0 { 3 } else { 2 };
        assert_eq!(independent::check(&bytes), Err(expected));
        let found = mijdegen::check(&bytes).map_err(mijdegen::Refusal::number);
        assert_eq!(found, Err(expected), "{number}");
        cases += 1;
    }
    assert_eq!(cases, 65_536);
}
