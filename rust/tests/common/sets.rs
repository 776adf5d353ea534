//! Sets of records of several kinds.

use super::Random;
use independent::{lawful, layer, Set, Value, LONGEST, LONGEST_KEY};
use mijdegen::PER_SCREEN;
use std::collections::BTreeSet;

/// The counts of records that the tests try.
pub const COUNTS: [usize; 8] = [0, 1, 2, 3, 10, 100, 1_000, 4_096];

/// What the keys of a set are like.
#[derive(Clone, Copy, Debug, PartialEq, Eq)]
pub enum Kind {
    /// Keys as repositories have them.
    Ordinary,
    /// Keys that share at least 200 leading bytes, some of them the beginning of others.
    SharedPrefix,
    /// Keys of 256 bytes.
    Longest,
    /// Keys of 3 to 256 bytes of all lawful kinds.
    Mixed,
    /// Keys of layer 0: one page.
    OnePage,
    /// Keys of layers 8 to 16 with keys of layer 0 between them: chains of pages without entries.
    Chains,
    /// Keys of layers 1 and 0 in turn: one page, with a page of one record below each entry.
    Alternating,
}

/// All kinds of sets.
pub const KINDS: [Kind; 7] = [
    Kind::Ordinary,
    Kind::SharedPrefix,
    Kind::Longest,
    Kind::Mixed,
    Kind::OnePage,
    Kind::Chains,
    Kind::Alternating,
];

/// The kinds of which the writing calls are tried on full registers, since those take long.
pub const FULL_KINDS: [Kind; 4] = [
    Kind::Ordinary,
    Kind::SharedPrefix,
    Kind::OnePage,
    Kind::Alternating,
];

/// Keys of layers 16 down to 8. They were found by search.
pub const HIGH: [&str; 17] = [
    "depth/6002263208",
    "layer/1714524762",
    "layer/3709325243",
    "layer/0880089582",
    "layer/0337396509",
    "layer/0112470353",
    "layer/0064011101",
    "layer/0069058063",
    "layer/0021486030",
    "layer/0025198807",
    "layer/0000672623",
    "layer/0002548750",
    "layer/0000004696",
    "layer/0000315498",
    "layer/0000909107",
    "layer/0000224576",
    "layer/0000009285",
];

/// Collections that begin with one another, some with a byte behind it that stands beside the slash
/// in the order of bytes.
pub const NEAR_COLLECTIONS: [&[u8]; 6] = [b"a", b"ab", b"a.b", b"a-b", b"a0", b"a~"];

/// The bytes that may stand beside the slash, in their order.
const PLAIN: &[u8] = b"-.0123456789:ABCDEFGHIJKLMNOPQRSTUVWXYZ_abcdefghijklmnopqrstuvwxyz~";

/// Gives a set of so many records of this kind, the same in every run. The values are random and of
/// both codecs, and no two of them are the same.
pub fn set(kind: Kind, count: usize) -> Set {
    let mut random = Random::new(1 + kind as u64);
    let mut set = Set::new();
    let mut number = 0;
    while set.len() < count {
        let key = match kind {
            Kind::Ordinary => ordinary(&mut random),
            Kind::SharedPrefix => shared_prefix(&mut random),
            Kind::Longest => mixed(&mut random, 256),
            Kind::Mixed => {
                let length = 3 + random.below(254);
                mixed(&mut random, length)
            }
            Kind::OnePage => ordinary_of_layer(&mut random, 0),
            Kind::Chains if set.len() < 2 * HIGH.len() && set.len() % 2 == 0 => {
                HIGH[set.len() / 2].as_bytes().to_vec()
            }
            Kind::Chains => find(&mut random, beside_high, 0),
            Kind::Alternating => {
                let wanted = 1 - (set.len() % 2) as u8;
                next_of_layer(&mut number, wanted)
            }
        };
        assert!(lawful(&key));
        set.insert(key, value(&mut random));
    }
    set
}

/// Gives all sets of at most so many records, each with its kind.
pub fn sets_to(most: usize) -> Vec<(Kind, Set)> {
    let mut sets = Vec::new();
    for kind in KINDS {
        for count in COUNTS.into_iter().filter(|count| *count <= most) {
            sets.push((kind, set(kind, count)));
        }
    }
    sets
}

/// Gives the records of the set whose number in key order, from 0, is wanted.
pub fn part(set: &Set, wanted: impl Fn(usize) -> bool) -> Set {
    let records = set.iter().enumerate();
    records
        .filter(|(n, _)| wanted(*n))
        .map(|(_, (key, value))| (key.clone(), *value))
        .collect()
}

/// Gives sets whose registers have one page and several, and few bytes.
pub fn small_sets() -> [Set; 10] {
    [
        Set::new(),
        Set::from([(b"a/b1".to_vec(), Value::dag_cbor([0x11; 32]))]),
        set_of_layers(&[1, 1]),
        set_of_layers(&[0, 2]),
        set_of_layers(&[0, 1, 0]),
        set_of_layers(&[0, 0, 1, 0, 3, 1]),
        set(Kind::Chains, 3),
        set(Kind::SharedPrefix, 3),
        set(Kind::Ordinary, 10),
        set(Kind::Mixed, 10),
    ]
}

/// Gives all parts of the set, none and all of its records among them. The n-th from the end has the
/// records that the n-th has not.
pub fn parts(set: &Set) -> Vec<Set> {
    let masks = 0..1_usize << set.len();
    masks
        .map(|mask| part(set, |n| mask >> n & 1 == 1))
        .collect()
}

/// Gives the records of the set whose keys have the layer.
pub fn of_layer(set: &Set, wanted: u8) -> Set {
    let records = set.iter().filter(|(key, _)| layer(key) == wanted);
    records.map(|(key, value)| (key.clone(), *value)).collect()
}

/// Gives so many records of layer 0 with keys among those of high layers: one page.
pub fn one_page_below_high(count: usize) -> Set {
    let set = of_layer(&set(Kind::Chains, count + 2 * HIGH.len()), 0);
    part(&set, |n| n < count)
}

/// Gives the part of the key before its first slash, or all of it where there is none.
pub fn collection_of(key: &[u8]) -> &[u8] {
    let mut parts = key.split(|byte| *byte == b'/');
    parts.next().expect("there is always a first part")
}

/// Gives so many records of a collection, with short names in turn and random values.
pub fn records_of(random: &mut Random, collection: &[u8], count: usize) -> Set {
    let key = |number: usize| [collection, format!("/b{number}").as_bytes()].concat();
    (0..count)
        .map(|number| (key(number), value(random)))
        .collect()
}

/// Gives the collections of the set's keys, each once.
pub fn collections(set: &Set) -> BTreeSet<&[u8]> {
    set.keys().map(|key| collection_of(key)).collect()
}

/// Gives the screens of a collection in a set: its records in key order, eight to a screen, and one
/// screen without records where it has none.
pub fn screens_of(set: &Set, collection: &[u8]) -> Vec<Set> {
    let mut own = set.clone();
    own.retain(|key, _| collection_of(key) == collection);
    let screens = own.len().div_ceil(PER_SCREEN).max(1);
    (0..screens)
        .map(|screen| part(&own, |n| n / PER_SCREEN == screen))
        .collect()
}

/// Gives the trees that are published with the format, each with the digest of its root page.
pub fn published_trees() -> [(Set, &'static str); 3] {
    let value = Value::dag_cbor([
        0x9d, 0x15, 0x6b, 0xc3, 0xf3, 0xa5, 0x20, 0x06, 0x62, 0x52, 0xc7, 0x08, 0xa9, 0x36, 0x1f,
        0xd3, 0xd0, 0x89, 0x22, 0x38, 0x42, 0x50, 0x0e, 0x37, 0x13, 0xd4, 0x04, 0xfd, 0xcc, 0xb3,
        0x3c, 0xef,
    ]);
    let set = |names: &[&str]| {
        names
            .iter()
            .map(|name| (format!("com.example.record/{name}").into_bytes(), value))
            .collect()
    };
    [
        (
            set(&[]),
            "9dfefe61dd76ea3dcae5023880b08379d57adf20482d6fdbe2759289f647677b",
        ),
        (
            set(&["3jqfcqzm3fo2j"]),
            "29e2e42d820d8d5e77f6ec8b4ae746b1a72d86cfcbb20700b35ed6c1e982791d",
        ),
        (
            set(&[
                "3jqfcqzm3fp2j",
                "3jqfcqzm3fr2j",
                "3jqfcqzm3fs2j",
                "3jqfcqzm3ft2j",
                "3jqfcqzm4fc2j",
            ]),
            "4c01f12871beb16977775a6786f463f9fc33866c7997fbe9f5bf6946610ad0fb",
        ),
    ]
}

/// Gives keys whose name, the part after the slash, is `.` or `..`. They keep the key rule in all
/// else.
pub fn dot_name_keys() -> Vec<Vec<u8>> {
    let collections: [&[u8]; 5] = [b"a", b".", b"..", b"app.bsky.feed.post", &[b'a'; 253]];
    let keys = collections
        .iter()
        .flat_map(|collection| [&b"/."[..], b"/.."].map(|name| [*collection, name].concat()));
    keys.collect()
}

/// Gives lawful keys with dots at the edges of both parts, in key order. Each of these parts is a
/// collection, and each but `.` and `..` a name.
pub fn dotted_keys() -> Vec<Vec<u8>> {
    let parts: [&[u8]; 9] = [
        b".",
        b"..",
        b"...",
        b".a",
        b"..a",
        b"a",
        b"a.",
        b"a..",
        &[b'.'; 127],
    ];
    let mut keys = Vec::new();
    for collection in parts {
        for name in &parts[2..] {
            keys.push([collection, b"/", name].concat());
        }
    }
    keys.sort();
    keys
}

/// Gives keys that break the rule and are short enough for an entry of a page.
pub fn short_unlawful_keys() -> Vec<Vec<u8>> {
    let keys: [&[u8]; 24] = [
        b"",
        b"/",
        b"a",
        b"ab",
        b"a/",
        b"/a",
        b"//",
        b"abc",
        b"ab/",
        b"/ab",
        b"a//b",
        b"a/b/c",
        b"/a/b",
        b"a/b/",
        b"a/b1/",
        b"a/b c",
        b"a b/c",
        b"a/b\0",
        b"\0/a",
        b"a/b1\n",
        b"a\\b",
        b"a/b\xff",
        b"a/\xc3\xa9",
        b"a/b\xc3\xa9",
    ];
    let keys = keys.iter().map(|key| key.to_vec());
    keys.chain(dot_name_keys()).collect()
}

/// Gives keys that break the rule, those among them that are too long.
pub fn unlawful_keys() -> Vec<Vec<u8>> {
    let mut keys = short_unlawful_keys();
    // A key of 256 bytes is the longest.
    for length in [257, 258, 512, 65_536, LONGEST, LONGEST + 1] {
        let mut key = vec![b'a'; length];
        key[1] = b'/';
        keys.push(key);
    }
    keys
}

/// Gives the least of all lawful keys. The dash is the least byte that a key may have, and stands
/// before the slash, so the slash comes as late as it can.
pub fn least_key() -> Vec<u8> {
    [&[b'-'; 254][..], b"/-"].concat()
}

/// Gives the greatest of all lawful keys. The tilde is the greatest byte that a key may have.
pub fn greatest_key() -> Vec<u8> {
    [&[b'~'; 254][..], b"/~"].concat()
}

/// Gives the greatest lawful key that is less than the key: one with a lesser last byte and tildes
/// up to the greatest length. Where no byte is less than the last, it is the key without it; gives
/// none where that would be unlawful.
pub fn just_before(key: &[u8]) -> Option<Vec<u8>> {
    let (last, start) = key.split_last()?;
    let mut found = start.to_vec();
    let lesser = PLAIN.iter().rev().find(|byte| *byte < last);
    if let Some(byte) = lesser {
        found.push(*byte);
        found.resize(LONGEST_KEY, b'~');
    }
    Some(found).filter(|key| lawful(key))
}

/// Gives the least lawful key that is greater than the key: the key with one more byte. Gives none
/// where the key has the greatest length.
pub fn just_after(key: &[u8]) -> Option<Vec<u8>> {
    Some([key, b"-"].concat()).filter(|key| lawful(key))
}

/// Gives the keys of the set, those just before and just after each, and the least and the greatest
/// key of all, in key order.
pub fn keys_and_neighbours(set: &Set) -> Vec<Vec<u8>> {
    let mut keys = vec![least_key(), greatest_key()];
    for key in set.keys() {
        keys.push(key.clone());
        keys.extend(just_before(key));
        keys.extend(just_after(key));
    }
    keys.sort();
    keys.dedup();
    keys
}

/// Gives keys with the byte at each of 4 places beside the slash.
pub fn keys_with(byte: u8) -> [[u8; 4]; 4] {
    [
        [byte, b'/', b'b', b'c'],
        [b'a', byte, b'/', b'b'],
        [b'a', b'/', byte, b'b'],
        [b'a', b'/', b'b', byte],
    ]
}

/// Gives 20 keys that differ little from the key: shorter, longer, and with another byte. Some of
/// them are unlawful.
pub fn keys_near(random: &mut Random, key: &[u8]) -> Vec<Vec<u8>> {
    let mut near = vec![
        key[..key.len() - 1].to_vec(),
        key[1..].to_vec(),
        key[..key.len() / 2].to_vec(),
    ];
    for more in [&b"-"[..], b"~", b"0", b"/", b"\0"] {
        near.push([key, more].concat());
    }
    for place in [0, key.len() / 2, key.len() - 1] {
        for change in [1, 0xff, 0x20, random.below(256) as u8] {
            let mut changed = key.to_vec();
            changed[place] = changed[place].wrapping_add(change);
            near.push(changed);
        }
    }
    near
}

/// Gives all rows of 1 to 5 layers from 0 to 2, and of 2 and 3 layers from 0 to 4: 513 rows.
pub fn rows_of_few_layers() -> Vec<Vec<u8>> {
    fn rows(length: usize, highest: u8) -> Vec<Vec<u8>> {
        let mut rows = vec![vec![]];
        for _ in 0..length {
            let longer = rows.iter().flat_map(|row| {
                (0..=highest).map(move |layer| [row.as_slice(), &[layer]].concat())
            });
            rows = longer.collect();
        }
        rows
    }
    let sizes = [(1, 2), (2, 2), (3, 2), (4, 2), (5, 2), (2, 4), (3, 4)];
    let rows: Vec<_> = sizes
        .into_iter()
        .flat_map(|(length, highest)| rows(length, highest))
        .collect();
    assert_eq!(rows.len(), 3 + 9 + 27 + 81 + 243 + 25 + 125);
    rows
}

/// Gives a random value. The last bit of its digest decides the codec.
pub fn value(random: &mut Random) -> Value {
    let digest: [u8; 32] = random.bytes(32).try_into().expect("32 bytes");
    match digest[31] % 2 {
        0 => Value::raw(digest),
        _ => Value::dag_cbor(digest),
    }
}

/// Gives the set with all values under one codec: `Value::raw` or `Value::dag_cbor` of the digests.
pub fn under(value: fn([u8; 32]) -> Value, mut set: Set) -> Set {
    for kept in set.values_mut() {
        *kept = value(kept.digest);
    }
    set
}

/// Gives keys in order with these layers, all of one length, each with a random value.
pub fn set_of_layers(layers: &[u8]) -> Set {
    let mut random = Random::new(100);
    let mut number = 0;
    layers
        .iter()
        .map(|wanted| (next_of_layer(&mut number, *wanted), value(&mut random)))
        .collect()
}

/// Gives so many keys of 256 bytes in order, with these layers in turn. They share the first 240
/// bytes, and neighbours more.
pub fn long_keys_in_turn(layers: &[u8], count: usize) -> Set {
    let mut random = Random::new(101);
    let start = [&[b'a'; 100][..], b"/", &[b'b'; 139]].concat();
    (0..count)
        .map(|place| {
            let wanted = layers[place % layers.len()];
            let key = (0..)
                .map(|number| [&start[..], format!("{place:08}{number:08}").as_bytes()].concat())
                .find(|key| layer(key) == wanted)
                .expect("there is always a further key");
            assert_eq!(key.len(), 256);
            (key, value(&mut random))
        })
        .collect()
}

/// Gives so many keys in order, each the start and four letters or digits.
pub fn numbered_keys(start: &[u8], count: usize) -> Vec<Vec<u8>> {
    let digit = |n: usize| b"0123456789abcdefghijklmnopqrstuvwxyz"[n % 36];
    (0..count)
        .map(|n| {
            let end = [n / 36 / 36 / 36, n / 36 / 36, n / 36, n].map(digit);
            [start, &end].concat()
        })
        .collect()
}

/// Gives an ordinary key of this layer.
pub fn ordinary_of_layer(random: &mut Random, wanted: u8) -> Vec<u8> {
    find(random, ordinary, wanted)
}

/// Gives the next key of this layer, in key order.
fn next_of_layer(number: &mut u64, wanted: u8) -> Vec<u8> {
    loop {
        let key = format!("app.bsky.feed.post/3jqf{number:09}").into_bytes();
        *number += 1;
        if layer(&key) == wanted {
            return key;
        }
    }
}

/// Draws keys until one has the layer.
fn find(random: &mut Random, draw: fn(&mut Random) -> Vec<u8>, wanted: u8) -> Vec<u8> {
    loop {
        let key = draw(random);
        if layer(&key) == wanted {
            return key;
        }
    }
}

/// A key such as `app.bsky.feed.post/3jqfcqzm3fo2j`.
fn ordinary(random: &mut Random) -> Vec<u8> {
    let collections = [
        "app.bsky.feed.post",
        "app.bsky.feed.like",
        "app.bsky.graph.follow",
        "com.example.record",
    ];
    let mut key = random.one_of(&collections).as_bytes().to_vec();
    key.extend(b"/3jq");
    let letters = b"234567abcdefghijklmnopqrstuvwxyz";
    key.extend((0..10).map(|_| *random.one_of(letters)));
    key
}

/// A key of 200 to 256 bytes, of which the first 200 are always the same.
fn shared_prefix(random: &mut Random) -> Vec<u8> {
    let mut key = [&[b'a'; 100][..], b"/", &[b'b'; 99]].concat();
    // Few letters and many lengths, so that keys share more bytes and begin with one another.
    let more = random.below(57);
    key.extend((0..more).map(|_| *random.one_of(b"bbbc")));
    key
}

/// A key of this length with any lawful bytes.
fn mixed(random: &mut Random, length: usize) -> Vec<u8> {
    loop {
        let mut key: Vec<u8> = (0..length).map(|_| *random.one_of(PLAIN)).collect();
        key[1 + random.below(length - 2)] = b'/';
        // Its name may be one dot or two.
        if lawful(&key) {
            return key;
        }
    }
}

/// A key among those of high layers.
fn beside_high(random: &mut Random) -> Vec<u8> {
    let name = random.one_of(&["depth", "layer"]);
    // Short numbers with zeros before them are as frequent as long ones.
    let limit = 10_usize.pow(5 + random.below(6) as u32);
    format!("{name}/{:010}", random.below(limit)).into_bytes()
}
