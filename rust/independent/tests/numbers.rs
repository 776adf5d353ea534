//! The scope's small example of each number, and how numbers go before one another.

use independent::{
    at_or_after, before, difference, list, lookup, path, run, screen, sha256, slash, table, verify,
    Codec, Head, Set, Value, ValueBytes, LONGEST, MOST_RECORDS,
};

const EMPTY: [u8; 7] = [0xa2, 0x61, 0x65, 0x80, 0x61, 0x6c, 0xf6];

const VALUE: Value = Value::dag_cbor([0x11; 32]);

/// Gives the count of the register's records.
fn check(register: &[u8]) -> Result<usize, u8> {
    independent::check(register).map(|head| head.count as usize)
}

/// Gives the head of the register, or one of zeros where it is refused.
fn head(register: &[u8]) -> Head {
    independent::check(register).unwrap_or(Head {
        count: 0,
        layer: 0,
        digest: [0; 32],
    })
}

// The writing calls with the register's head.

fn put(register: &[u8], key: &[u8], value: &[u8], out: &mut [u8]) -> Result<usize, u8> {
    independent::put(register, &mut head(register), key, value, out)
}

fn put_value(register: &[u8], key: &[u8], out: &mut [u8]) -> Result<usize, u8> {
    put(register, key, &VALUE.bytes(), out)
}

fn join(register: &[u8], key: &[u8], value: &[u8], out: &mut [u8]) -> Result<usize, u8> {
    independent::join(register, &mut head(register), key, value, out)
}

fn remove(register: &[u8], key: &[u8], out: &mut [u8]) -> Result<usize, u8> {
    independent::remove(register, &mut head(register), key, out)
}

fn merge(first: &[u8], second: &[u8], out: &mut [u8]) -> Result<usize, u8> {
    independent::merge(first, &mut head(first), second, out)
}

/// A call that gives a record beside a key.
type Beside = fn(&[u8], &[u8], &mut [u8], &mut ValueBytes) -> Result<usize, u8>;

/// Writes a link, or null.
fn link(digest: Option<[u8; 32]>) -> Vec<u8> {
    match digest {
        Some(digest) => [&b"\xd8\x2a\x58\x25\x00\x01\x71\x12\x20"[..], &digest].concat(),
        None => vec![0xf6],
    }
}

/// Writes an entry with a remainder and a prefix of less than 24, and no link.
fn entry(prefix: u8, remainder: &[u8]) -> Vec<u8> {
    linked_entry(prefix, remainder, None)
}

fn linked_entry(prefix: u8, remainder: &[u8], after: Option<[u8; 32]>) -> Vec<u8> {
    assert!(prefix < 24 && remainder.len() < 24);
    let mut bytes = b"\xa4\x61k".to_vec();
    bytes.push(0x40 + remainder.len() as u8);
    bytes.extend(remainder);
    bytes.extend([0x61, b'p', prefix, 0x61, b't']);
    bytes.extend(link(after));
    bytes.extend([0x61, b'v']);
    bytes.extend(link(Some(VALUE.digest)));
    bytes
}

/// Writes a page of less than 24 entries.
fn page(entries: &[Vec<u8>], left: Option<[u8; 32]>) -> Vec<u8> {
    assert!(entries.len() < 24);
    let mut bytes = b"\xa2\x61e".to_vec();
    bytes.push(0x80 + entries.len() as u8);
    bytes.extend(entries.concat());
    bytes.extend([0x61, b'l']);
    bytes.extend(link(left));
    bytes
}

/// A register of two pages: `a/b1` of layer 0 stands before `a/b2` of layer 1.
fn two_pages() -> Vec<u8> {
    let below = page(&[entry(0, b"a/b1")], None);
    let root = page(&[entry(0, b"a/b2")], Some(sha256(&below)));
    [root, below].concat()
}

/// Gives a set of so many records.
fn many(count: usize) -> Set {
    (0..count)
        .map(|number| (format!("many/{number:05}").into_bytes(), VALUE))
        .collect()
}

#[test]
fn number_1() {
    assert_eq!(check(&vec![0; LONGEST + 1]), Err(1));
    // At the limit the first byte departs.
    assert_eq!(check(&vec![0; LONGEST]), Err(3));
}

#[test]
fn number_2() {
    assert_eq!(check(&EMPTY[..6]), Err(2));
    assert_eq!(check(&[]), Err(2));
    // Each part of a register from its start.
    let register = two_pages();
    for length in 0..register.len() {
        assert_eq!(check(&register[..length]), Err(2), "length {length}");
    }
    assert_eq!(check(&register), Ok(2));
}

#[test]
fn number_3() {
    assert_eq!(check(&[0xa2, 0x61, 0x6c]), Err(3));

    // The seventh byte of the links in a root with a left link, then of those in an entry with a
    // link: a value has one of two codecs, and a page has one.
    let below = page(&[entry(0, b"a/b1")], None);
    let left = page(&[entry(0, b"a/b2")], Some(sha256(&below)));
    let after = page(&[linked_entry(0, b"a/b0", Some(sha256(&below)))], None);
    for (root, page_codec, value_codec) in [(left, 69, 26), (after, 23, 66)] {
        let register = [&root[..], &below].concat();
        for byte in 0..=255 {
            for (place, codecs) in [(page_codec, &[0x71][..]), (value_codec, &[0x55, 0x71])] {
                let mut changed = register.clone();
                assert_eq!(changed[place], 0x71);
                changed[place] = byte;
                let departs = !codecs.contains(&byte);
                assert_eq!(check(&changed) == Err(3), departs, "{place} {byte}");
                // The byte is judged before the end behind it.
                let expected = if departs { Err(3) } else { Err(2) };
                assert_eq!(check(&changed[..=place]), expected, "{place} {byte}");
            }
        }
    }
}

#[test]
fn number_4() {
    assert_eq!(check(&[&EMPTY[..], &[0xf6]].concat()), Err(4));
    assert_eq!(check(&[EMPTY, EMPTY].concat()), Err(4));
    assert_eq!(check(&EMPTY), Ok(0));
}

#[test]
fn number_5() {
    let register = table(&many(MOST_RECORDS));
    assert_eq!(check(&register), Ok(MOST_RECORDS));
    assert_eq!(check(&table(&many(MOST_RECORDS + 1))), Err(5));

    let mut out = vec![0xaa; 2_000_000];
    assert_eq!(put_value(&register, b"a/b1", &mut out), Err(5));
    assert!(out.iter().all(|byte| *byte == 0));
    // A present key is put, as the count stays.
    let length = put_value(&register, b"many/00000", &mut out);
    assert_eq!(length, Ok(register.len()));
}

#[test]
fn number_6() {
    assert_eq!(check(&page(&[entry(1, b"a/b1")], None)), Err(6));
    // A remainder that begins with another byte than the key before has there: the prefix is
    // right up to the length of the key before. The keys are `2`, `a2`, `a/2`, `a/b2`, `a/b12`.
    for (prefix, number) in [(0, 7), (1, 7), (2, 8), (3, 9), (5, 6), (6, 6), (23, 6)] {
        let register = page(&[entry(0, b"a/b1"), entry(prefix, b"2")], None);
        assert_eq!(check(&register), Err(number), "prefix {prefix}");
    }
    let longer = page(&[entry(0, b"a/b1"), entry(4, b"2")], None);
    assert_eq!(check(&longer), Ok(2));
    // The second key shares a byte more.
    let wrong = page(&[entry(0, b"a/b1"), entry(2, b"b2")], None);
    assert_eq!(check(&wrong), Err(6));
}

#[test]
fn number_7() {
    assert_eq!(check(&page(&[entry(0, b"ab")], None)), Err(7));
    assert_eq!(check(&page(&[entry(0, b"a/")], None)), Err(7));
    assert_eq!(check(&page(&[entry(0, b"")], None)), Err(7));
    for key in [&b"ab"[..], b"a/", b"", &[b'/'; 300]] {
        assert_eq!(slash(key), Err(7));
        assert_eq!(lookup(&EMPTY, key), Err(7));
        assert_eq!(put(&EMPTY, key, &[1; 31], &mut [0; 100]), Err(7));
        assert_eq!(join(&EMPTY, key, &[1; 31], &mut [0; 100]), Err(7));
        assert_eq!(remove(&EMPTY, key, &mut []), Err(7));
        assert_eq!(at_or_after(&EMPTY, key, &mut [], &mut [0; 33]), Err(7));
        assert_eq!(before(&EMPTY, key, &mut [], &mut [0; 33]), Err(7));
        assert_eq!(run(&EMPTY, key, b"-/-", &mut []), Err(7));
        assert_eq!(run(&EMPTY, b"~/~", key, &mut []), Err(7));
        assert_eq!(run(&EMPTY, key, key, &mut []), Err(7));
        assert_eq!(path(&EMPTY, key, &mut []), Err(7));
    }
    for collection in [&b""[..], b"/", b"a/", b"a/b1", b"a b", &[b'a'; 255]] {
        assert_eq!(screen(&EMPTY, collection, 0, &mut [0; 100]), Err(7));
    }
    for collection in [&b"a"[..], b".", b"..", &[b'a'; 254]] {
        assert_eq!(screen(&EMPTY, collection, 0, &mut [0; 100]), Ok((7, 1)));
    }
}

#[test]
fn number_7_by_length() {
    // A key of 256 bytes is put, one of 257 is not.
    let mut out = [0; 400];
    let key = [&[b'a'; 100][..], b"/", &[b'b'; 155]].concat();
    assert_eq!(key.len(), 256);
    assert_eq!(slash(&key), Ok(100));
    let length = put_value(&EMPTY, &key, &mut out).expect("the key is lawful");
    // 2 bytes more for the length of the remainder than where it is less than 24.
    assert_eq!(length, 64 + 252 + 2);
    assert_eq!(check(&out[..length]), Ok(1));
    let longer = [&key[..], b"b"].concat();
    assert_eq!(slash(&longer), Err(7));
    assert_eq!(put_value(&EMPTY, &longer, &mut out), Err(7));
}

#[test]
fn number_8() {
    let falling = page(&[entry(0, b"a/b2"), entry(3, b"1")], None);
    assert_eq!(check(&falling), Err(8));
    // The whole key as the prefix and no remainder: the same key again.
    let again = page(&[entry(0, b"a/b2"), entry(4, b"")], None);
    assert_eq!(check(&again), Err(8));
    let shorter = page(&[entry(0, b"a/b12"), entry(4, b"")], None);
    assert_eq!(check(&shorter), Err(8));
    // A key in a page below against one in the page above.
    let below = page(&[entry(0, b"a/b3")], None);
    let root = page(&[entry(0, b"a/b2")], Some(sha256(&below)));
    assert_eq!(check(&[root, below].concat()), Err(8));
}

#[test]
fn number_9() {
    let below = page(&[entry(0, b"a/b1")], None);
    let root = page(&[], Some(sha256(&below)));
    assert_eq!(check(&[root, below].concat()), Err(9));
    // Two layers in one page.
    let flat = page(&[entry(0, b"a/b1"), entry(3, b"2")], None);
    assert_eq!(flat.len(), 118);
    assert_eq!(check(&flat), Err(9));
    // A link to a page without records.
    let root = page(&[linked_entry(0, b"a/b2", Some(sha256(&EMPTY)))], None);
    assert_eq!(check(&[&root[..], &EMPTY].concat()), Err(9));
    let root = page(&[], Some(sha256(&EMPTY)));
    assert_eq!(check(&[&root[..], &EMPTY].concat()), Err(9));
}

#[test]
fn number_10() {
    let register = two_pages();
    assert_eq!(check(&register), Ok(2));
    // The left link ends the root: 256 bits of its digest.
    let root = page(&[entry(0, b"a/b2")], Some([0; 32])).len();
    for bit in 0..256 {
        let mut flipped = register.clone();
        flipped[root - 32 + bit / 8] ^= 1 << (bit % 8);
        assert_eq!(check(&flipped), Err(10), "bit {bit}");
    }
}

#[test]
fn number_11() {
    for length in 0..100 {
        for codec in 0..=255 {
            let mut value = vec![0x11; length];
            value.iter_mut().take(1).for_each(|first| *first = codec);
            let right = length == 33 && (codec == 0x55 || codec == 0x71);
            let expected = if right { Err(13) } else { Err(11) };
            assert_eq!(put(&EMPTY, b"a/b1", &value, &mut []), expected);
            assert_eq!(join(&EMPTY, b"a/b1", &value, &mut []), expected);
        }
    }
}

#[test]
fn number_12() {
    assert_eq!(lookup(&EMPTY, b"a/b1"), Err(12));
    assert_eq!(remove(&EMPTY, b"a/b1", &mut []), Err(12));
    let register = two_pages();
    assert_eq!(lookup(&register, b"a/b3"), Err(12));
    // The value of `a/b2` stands in the root, and the page of `a/b1` ends in its value, two
    // bytes and null.
    let place = register.len() - 3 - 32;
    assert_eq!(lookup(&register, b"a/b1"), Ok((place, Codec::DagCbor)));
    assert_eq!(lookup(&register, b"a/b2"), Ok((29, Codec::DagCbor)));
    assert_eq!(register[29..61], VALUE.digest);

    let mut value = [0xaa; 33];
    for (register, key) in [(&EMPTY[..], &b"a/b1"[..]), (&register, b"a/b3")] {
        assert_eq!(at_or_after(register, key, &mut [], &mut value), Err(12));
        assert_eq!(value, [0; 33]);
    }
    for (register, key) in [(&EMPTY[..], &b"a/b1"[..]), (&register, b"a/b1")] {
        assert_eq!(before(register, key, &mut [], &mut value), Err(12));
    }
}

#[test]
fn number_13() {
    let mut out = [0xaa; 64];
    assert_eq!(put_value(&EMPTY, b"a/b1", &mut out[..63]), Err(13));
    assert!(out[..63].iter().all(|byte| *byte == 0));
    assert_eq!(out[63], 0xaa);
    assert_eq!(put_value(&EMPTY, b"a/b1", &mut out), Ok(64));
    // Also where nothing changes.
    let register = out;
    assert_eq!(put_value(&register, b"a/b1", &mut [0; 63]), Err(13));
    let lesser = Value::raw([0; 32]).bytes();
    assert_eq!(join(&register, b"a/b1", &lesser, &mut [0; 63]), Err(13));
    assert_eq!(merge(&register, &register, &mut [0; 63]), Err(13));
    assert_eq!(remove(&register, b"a/b1", &mut [0; 6]), Err(13));
    assert_eq!(difference(&register, &register, &mut [0; 6]), Err(13));

    let mut value = [0xaa; 33];
    assert_eq!(list(&register, 0, &mut [0; 3], &mut value), Err(13));
    assert_eq!(value, [0; 33]);

    let calls: [(Beside, &[u8]); 2] = [(at_or_after, b"a/b0"), (before, b"a/b2")];
    for (call, key) in calls {
        let (mut out, mut value) = ([0xaa; 4], [0xaa; 33]);
        assert_eq!(call(&register, key, &mut out[..3], &mut value), Err(13));
        assert_eq!((out, value), ([0, 0, 0, 0xaa], [0; 33]));
        assert_eq!(call(&register, key, &mut out, &mut value), Ok(4));
        assert_eq!((out, value), (*b"a/b1", VALUE.bytes()));
    }

    assert_eq!(run(&register, b"a/b1", b"a/b1", &mut out[..63]), Err(13));
    assert!(out[..63].iter().all(|byte| *byte == 0));
    assert_eq!(run(&register, b"a/b1", b"a/b1", &mut out), Ok(64));
    assert_eq!(out, register);
    assert_eq!(run(&register, b"a/b2", b"a/b3", &mut out[..6]), Err(13));
    assert_eq!(run(&register, b"a/b2", b"a/b3", &mut out[..7]), Ok(7));
    assert_eq!(out[..7], EMPTY);

    out.fill(0xaa);
    assert_eq!(screen(&register, b"a", 0, &mut out[..63]), Err(13));
    assert!(out[..63].iter().all(|byte| *byte == 0));
    assert_eq!(screen(&register, b"a", 0, &mut out), Ok((64, 1)));
    assert_eq!(out, register);
    assert_eq!(screen(&register, b"b", 0, &mut out[..6]), Err(13));
    assert_eq!(screen(&register, b"b", 0, &mut out[..7]), Ok((7, 1)));
    assert_eq!(out[..7], EMPTY);

    out.fill(0xaa);
    assert_eq!(path(&register, b"a/b2", &mut out[..63]), Err(13));
    assert!(out[..63].iter().all(|byte| *byte == 0));
    assert_eq!(path(&register, b"a/b2", &mut out), Ok(64));
    assert_eq!(out, register);
}

#[test]
fn number_14() {
    let register = two_pages();
    let mut out = [0xaa; 10];
    assert_eq!(run(&register, b"a/b2", b"a/b1", &mut out), Err(14));
    assert_eq!(out, [0; 10]);
    // A key stands before every longer key that begins with it.
    assert_eq!(run(&register, b"a/b10", b"a/b1", &mut out), Err(14));
    assert_eq!(run(&register, b"a/b2", b"a/b10", &mut out), Err(14));
    assert_eq!(run(&register, b"a/b3", b"a/b30", &mut out), Ok(7));
    assert_eq!(run(&register, b"a/b3", b"a/b3", &mut out), Ok(7));
}

#[test]
fn number_15() {
    let mut out = [0xaa; 300];
    let register = two_pages();
    // One screen of two records, and one of none. With 2^61 as the number, 8 times it is 2^64.
    for collection in [b"a", b"b"] {
        assert!(screen(&register, collection, 0, &mut out).is_ok());
        for n in [1, 2, 1 << 32, 1 << 61, u64::MAX] {
            assert_eq!(screen(&register, collection, n, &mut out), Err(15));
            assert_eq!(out, [0; 300]);
            out.fill(0xaa);
        }
    }
    // The last screen of a full register, and one more.
    let register = table(&many(MOST_RECORDS));
    let (_, screens) = screen(&register, b"many", 511, &mut [0; 2_000]).expect("the last screen");
    assert_eq!(screens, 512);
    assert_eq!(screen(&register, b"many", 512, &mut out), Err(15));
}

/// The verdict that the key is present, with its value's digest at the place.
fn at(place: usize) -> Result<Option<(usize, Codec)>, u8> {
    Ok(Some((place, Codec::DagCbor)))
}

#[test]
fn number_16() {
    let register = two_pages();
    let below = page(&[entry(0, b"a/b1")], None);
    let (root, _) = register.split_at(register.len() - below.len());
    let digest = sha256(root);
    // The value of `a/b1` ends its page but for two bytes and null.
    let place = register.len() - 3 - 32;
    assert_eq!(verify(&register, b"a/b1", &digest), at(place));
    assert_eq!(verify(&register, b"a/b0", &digest), Ok(None));
    assert_eq!(verify(root, b"a/b2", &digest), at(29));
    assert_eq!(verify(root, b"a/b3", &digest), Ok(None));

    // Another root digest, and another page than the one that is linked.
    assert_eq!(verify(&register, b"a/b1", &sha256(&below)), Err(16));
    assert_eq!(verify(&below, b"a/b1", &digest), Err(16));
    let other = [root, &EMPTY].concat();
    assert_eq!(verify(&other, b"a/b1", &digest), Err(16));
    let twice = [root, root].concat();
    assert_eq!(verify(&twice, b"a/b1", &digest), Err(16));
}

/// What a path of one page or two draws besides 16.
#[test]
fn numbers_of_paths() {
    let register = two_pages();
    let below = page(&[entry(0, b"a/b1")], None);
    let (root, _) = register.split_at(register.len() - below.len());
    let digest = sha256(root);

    let long = vec![0; LONGEST + 1];
    assert_eq!(verify(&long, b"a/", b""), Err(1));
    assert_eq!(verify(&long[1..], b"a/", b""), Err(7));
    for length in [0, 1, 31, 33, 64] {
        let other = vec![0; length];
        assert_eq!(verify(&long[1..], b"a/b1", &other), Err(11));
    }
    assert_eq!(verify(&long[1..], b"a/b1", &digest), Err(3));
    for length in 0..register.len() {
        assert_eq!(verify(&register[..length], b"a/b1", &digest), Err(2));
    }
    // The search for these keys ends in the root.
    for key in [b"a/b2", b"a/b3"] {
        assert_eq!(verify(&register, key, &digest), Err(4));
        assert_eq!(verify(&[root, &[0]].concat(), key, &digest), Err(4));
    }
    let followed = [&register[..], &[0xa2]].concat();
    assert_eq!(verify(&followed, b"a/b1", &digest), Err(4));

    // Each fault goes before the next, and 16 comes last; the digest is that of no page.
    let number = |page: Vec<u8>| verify(&page, b"a/b1", &[0; 32]);
    let falling = [entry(0, b"a/b2"), entry(3, b"1")];
    assert_eq!(number(page(&falling, None)), Err(8));
    let unlawful = [&falling[..], &[entry(3, b" ")]].concat();
    assert_eq!(number(page(&unlawful, None)), Err(7));
    let wrong_prefix = [&unlawful[..], &[entry(9, b"1")]].concat();
    assert_eq!(number(page(&wrong_prefix, None)), Err(6));
    assert_eq!(number(EMPTY.to_vec()), Err(16));

    // Layers and the count are not judged.
    let flat = page(&[entry(0, b"a/b1"), entry(3, b"2")], Some([7; 32]));
    assert_eq!(verify(&flat, b"a/b2", &sha256(&flat)), at(83));
    let without = page(&[], Some(sha256(&below)));
    let long_way = [&without[..], &below].concat();
    let found = verify(&long_way, b"a/b1", &sha256(&without));
    assert_eq!(found, at(without.len() + 29));
}

/// A path of one page without entries for each link, and one with an entry.
#[test]
fn depth_of_paths() {
    let mut pages = vec![page(&[entry(0, b"a/b1")], None)];
    for depth in 2..=131 {
        let root = page(&[], Some(sha256(&pages[0])));
        let digest = sha256(&root);
        pages.insert(0, root);
        let path = pages.concat();
        let place = path.len() - 3 - 32;
        let expected = if depth <= 129 { at(place) } else { Err(3) };
        assert_eq!(verify(&path, b"a/b1", &digest), expected, "{depth} pages");

        let last = pages[depth - 1].len();
        let cut = &path[..path.len() - last];
        let expected = if depth <= 130 { Err(2) } else { Err(3) };
        assert_eq!(verify(cut, b"a/b1", &digest), expected, "{depth} pages");
    }
}

/// From the root down, 129 pages may follow one another.
#[test]
fn depth() {
    let mut pages = vec![page(&[entry(0, b"a/b1")], None)];
    for depth in 2..=131 {
        let root = page(&[], Some(sha256(&pages[0])));
        pages.insert(0, root);
        let register = pages.concat();
        let expected = if depth <= 129 { Err(9) } else { Err(3) };
        assert_eq!(check(&register), expected, "{depth} pages");

        // The input ends with the link to the last page: 2, also where it would be too deep.
        let last = pages[depth - 1].len();
        let cut = &register[..register.len() - last];
        let expected = if depth <= 130 { Err(2) } else { Err(3) };
        assert_eq!(check(cut), expected, "{depth} pages, cut");
    }
}

/// The first event in reading order decides between 2 and 3.
#[test]
fn counts_are_not_judged_ahead() {
    // 65,535 entries are promised and none is there.
    assert_eq!(check(b"\xa2\x61e\x99\xff\xff"), Err(2));
    assert_eq!(check(b"\xa2\x61e\x99\xff\xff\xa4\x61k\x59\xff\xff"), Err(2));
    assert_eq!(check(b"\xa2\x61e\x99\xff\xff\x61"), Err(3));
    // The byte that rules the shortest form out departs.
    assert_eq!(check(b"\xa2\x61e\x98"), Err(2));
    assert_eq!(check(b"\xa2\x61e\x98\x17"), Err(3));
    assert_eq!(check(b"\xa2\x61e\x98\x18"), Err(2));
    assert_eq!(check(b"\xa2\x61e\x99"), Err(2));
    assert_eq!(check(b"\xa2\x61e\x99\x00"), Err(3));
    assert_eq!(check(b"\xa2\x61e\x99\x01"), Err(2));
    assert_eq!(check(b"\xa2\x61e\x9a"), Err(3));
    assert_eq!(check(b"\xa2\x61e\x9f"), Err(3));
}

/// Keys longer than 256 bytes are refused with 7, but only where all prefixes are right.
#[test]
fn long_keys_are_compared_whole() {
    let long = |prefix: usize, remainder: &[u8]| {
        let mut bytes = b"\xa4\x61k\x59".to_vec();
        bytes.extend((remainder.len() as u16).to_be_bytes());
        bytes.extend(remainder);
        bytes.extend(b"\x61p\x19");
        bytes.extend((prefix as u16).to_be_bytes());
        bytes.extend(b"\x61t\xf6\x61v");
        bytes.extend(link(Some(VALUE.digest)));
        bytes
    };
    let first = [b'a'; 300];
    let first_entry = {
        let mut bytes = b"\xa4\x61k\x59\x01\x2c".to_vec();
        bytes.extend(first);
        bytes.extend(b"\x61p\x00\x61t\xf6\x61v");
        bytes.extend(link(Some(VALUE.digest)));
        bytes
    };
    let right = long(299, &[b'b'; 256]);
    assert_eq!(check(&page(&[first_entry.clone(), right], None)), Err(7));
    let wrong = long(299, &[b'a'; 256]);
    assert_eq!(check(&page(&[first_entry.clone(), wrong], None)), Err(6));
    let whole = long(300, &[b'a'; 256]);
    assert_eq!(check(&page(&[first_entry.clone(), whole], None)), Err(7));
    let beyond = long(301, &[b'a'; 256]);
    assert_eq!(check(&page(&[first_entry, beyond], None)), Err(6));
}

/// Gives heads that differ from this one in one field each: in every bit of a number or of a byte.
fn untrue_heads(head: &Head) -> Vec<Head> {
    let mut untrue = Vec::new();
    for bit in 0..32 {
        let (mut count, mut layer) = (*head, *head);
        count.count ^= 1 << bit;
        layer.layer ^= 1 << bit;
        untrue.extend([count, layer]);
    }
    for bit in 0..256 {
        let mut digest = *head;
        digest.digest[bit / 8] ^= 1 << (bit % 8);
        untrue.push(digest);
    }
    untrue
}

#[test]
fn number_17() {
    let register = two_pages();
    let right = head(&register);
    assert_eq!((right.count, right.layer), (2, 1));
    // The page of `a/b1` has 64 bytes, and the root stands before it.
    assert_eq!(right.digest, sha256(&register[..register.len() - 64]));
    let empty = head(&EMPTY);
    assert_eq!((empty.count, empty.layer), (0, 0));
    assert_eq!(empty.digest, sha256(&EMPTY));

    for untrue in untrue_heads(&right) {
        let mut lent = untrue;
        // Each argument but the register has a fault.
        let mut out = [0xaa; 10];
        let refused = [
            independent::put(&register, &mut lent, b"ab", b"", &mut out),
            independent::join(&register, &mut lent, b"ab", b"", &mut out),
            independent::remove(&register, &mut lent, b"ab", &mut out),
            independent::merge(&register, &mut lent, b"", &mut out),
        ];
        assert_eq!(refused, [Err(17); 4]);
        assert_eq!(out, [0; 10]);
        assert_eq!(lent, untrue);
        // The register goes before its head.
        let refused = independent::put(&register[1..], &mut lent, b"ab", b"", &mut out);
        assert_eq!(refused, Err(3));
    }
}

/// The head after each call, and that it stays where the call is refused.
#[test]
fn heads_move() {
    let (register, mut out) = (two_pages(), [0; 200]);
    let mut lent = head(&EMPTY);
    let length = independent::put(&EMPTY, &mut lent, b"a/b1", &VALUE.bytes(), &mut out);
    assert_eq!(length, Ok(64));
    assert_eq!((lent.count, lent.layer), (1, 0));
    assert_eq!(lent.digest, sha256(&out[..64]));

    let one = out[..64].to_vec();
    let length = independent::merge(&one, &mut lent, &register, &mut out);
    assert_eq!(length, Ok(register.len()));
    assert_eq!(lent, head(&register));

    assert_eq!(
        independent::remove(&register, &mut lent, b"a/b3", &mut out),
        Err(12)
    );
    let value = VALUE.bytes();
    assert_eq!(
        independent::join(&register, &mut lent, b"a/b3", &value, &mut out[..50]),
        Err(13)
    );
    assert_eq!(lent, head(&register));
    // A value that is not greater changes nothing.
    for lesser in [Value::raw(VALUE.digest), Value::dag_cbor([0; 32])] {
        let lesser = lesser.bytes();
        let length = independent::join(&register, &mut lent, b"a/b1", &lesser, &mut out);
        assert_eq!(length, Ok(register.len()));
        assert_eq!(lent, head(&register));
    }

    let length = independent::remove(&register, &mut lent, b"a/b2", &mut out);
    assert_eq!(length, Ok(64));
    assert_eq!(lent, head(&one));
    let length = independent::remove(&one, &mut lent, b"a/b1", &mut out);
    assert_eq!(length, Ok(7));
    assert_eq!(lent, head(&EMPTY));
}

/// The first register is judged through before the second, and both before the arguments.
#[test]
fn order_over_two_registers() {
    let tenth = {
        let mut register = two_pages();
        let root = register.len() - 64;
        register[root - 1] ^= 1;
        register
    };
    assert_eq!(check(&tenth), Err(10));
    assert_eq!(merge(&tenth, &[], &mut []), Err(10));
    assert_eq!(merge(&[], &tenth, &mut []), Err(2));
    assert_eq!(merge(&EMPTY, &tenth, &mut []), Err(10));
    // The first register's head stands between the two.
    let untrue = &mut head(&two_pages());
    assert_eq!(independent::merge(&tenth, untrue, &[], &mut []), Err(10));
    assert_eq!(independent::merge(&EMPTY, untrue, &tenth, &mut []), Err(17));
    assert_eq!(difference(&tenth, &[], &mut []), Err(10));
    assert_eq!(difference(&EMPTY, &tenth, &mut []), Err(10));
    assert_eq!(put(&tenth, b"ab", b"", &mut []), Err(10));
    assert_eq!(put(&EMPTY, b"ab", b"", &mut []), Err(7));
    assert_eq!(put(&EMPTY, b"a/b1", b"", &mut []), Err(11));
    assert_eq!(put_value(&EMPTY, b"a/b1", &mut []), Err(13));
    assert_eq!(lookup(&tenth, b"ab"), Err(10));
    assert_eq!(list(&tenth, 0, &mut [], &mut [0; 33]), Err(10));
}

/// Register, key, absence, output; register, first key, last key, 14, output; register, collection,
/// 15, output; and register, key, output.
#[test]
fn order_of_keys() {
    let tenth = {
        let mut register = two_pages();
        let root = register.len() - 64;
        register[root - 1] ^= 1;
        register
    };
    for call in [at_or_after, before] {
        let number = |register: &[u8], key: &[u8]| call(register, key, &mut [], &mut [0; 33]);
        assert_eq!(number(&tenth, b"ab"), Err(10));
        assert_eq!(number(&EMPTY, b"ab"), Err(7));
        assert_eq!(number(&EMPTY, b"a/b1"), Err(12));
    }
    let register = two_pages();
    assert_eq!(
        at_or_after(&register, b"a/b2", &mut [], &mut [0; 33]),
        Err(13)
    );
    assert_eq!(before(&register, b"a/b2", &mut [], &mut [0; 33]), Err(13));

    assert_eq!(run(&tenth, b"b/", b"a/", &mut []), Err(10));
    assert_eq!(run(&tenth, b"b/b", b"a/a", &mut []), Err(10));
    assert_eq!(run(&register, b"b/", b"a/a", &mut []), Err(7));
    assert_eq!(run(&register, b"b/b", b"a/", &mut []), Err(7));
    assert_eq!(run(&register, b"b/b", b"a/a", &mut []), Err(14));
    assert_eq!(run(&register, b"a/a", b"b/b", &mut []), Err(13));

    assert_eq!(screen(&tenth, b"a/", 1, &mut []), Err(10));
    assert_eq!(screen(&register, b"a/", 1, &mut []), Err(7));
    assert_eq!(screen(&register, b"a", 1, &mut []), Err(15));
    assert_eq!(screen(&register, b"a", 0, &mut []), Err(13));

    assert_eq!(path(&tenth, b"a/", &mut []), Err(10));
    assert_eq!(path(&register, b"a/", &mut []), Err(7));
    assert_eq!(path(&register, b"a/b1", &mut []), Err(13));
}
