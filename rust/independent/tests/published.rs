//! The trees that are published with the format, and the scope's rows to try.

use independent::{check, head_of, layer, pages, sha256, table, tree_of, Set, Value};

/// The alphabet of base32, in lower case.
const BASE_32: &[u8] = b"abcdefghijklmnopqrstuvwxyz234567";

/// The value of every record in the published trees.
const PUBLISHED_VALUE: &str = "bafyreie5cvv4h45feadgeuwhbcutmh6t2ceseocckahdoe6uat64zmz454";

/// Gives the digest of a published link: `b`, then 36 bytes in base32. They are the version, the
/// codec and the kind and length of the digest, 4 bytes in all, and the digest.
fn digest_of_link(link: &str) -> [u8; 32] {
    let (mut bytes, mut bits, mut length) = (Vec::new(), 0, 0);
    for letter in link.strip_prefix('b').expect("base32").bytes() {
        let number = BASE_32.iter().position(|other| *other == letter);
        bits = (bits << 5 | number.expect("a letter of base32")) & 0xfff;
        length += 5;
        if length >= 8 {
            length -= 8;
            bytes.push((bits >> length) as u8);
        }
    }
    assert_eq!(bytes[..4], [0x01, 0x71, 0x12, 0x20]);
    bytes[4..].try_into().expect("32 bytes are left")
}

/// Checks the root's digest of the set of these keys, all with the published value.
fn check_published(keys: &[&str], link: &str) {
    let value = Value::dag_cbor(digest_of_link(PUBLISHED_VALUE));
    let set: Set = keys
        .iter()
        .map(|key| (key.as_bytes().to_vec(), value))
        .collect();
    assert_eq!(set.len(), keys.len());
    assert_eq!(sha256(&pages(&set)[0]), digest_of_link(link));
    let head = head_of(&set);
    assert_eq!(head.digest, digest_of_link(link));
    assert_eq!(head.count as usize, keys.len());
    assert_eq!(check(&table(&set)), Ok(head));
}

/// Gives the count of the register's records.
fn count(register: &[u8]) -> Result<u32, u8> {
    check(register).map(|head| head.count)
}

#[test]
fn empty_tree() {
    check_published(
        &[],
        "bafyreie5737gdxlw5i64vzichcalba3z2v5n6icifvx5xytvske7mr3hpm",
    );
}

#[test]
fn one_record() {
    check_published(
        &["com.example.record/3jqfcqzm3fo2j"],
        "bafyreibj4lsc3aqnrvphp5xmrnfoorvru4wynt6lwidqbm2623a6tatzdu",
    );
}

#[test]
fn five_records() {
    check_published(
        &[
            "com.example.record/3jqfcqzm3fp2j",
            "com.example.record/3jqfcqzm3fr2j",
            "com.example.record/3jqfcqzm3fs2j",
            "com.example.record/3jqfcqzm3ft2j",
            "com.example.record/3jqfcqzm4fc2j",
        ],
        "bafyreicmahysq4n6wfuxo522m6dpiy7z7qzym3dzs756t5n7nfdgccwq7m",
    );
}

/// Gives keys in order with these layers, each with the value of 32 bytes `11`.
fn set_of_layers(layers: &[u8]) -> Set {
    let value = Value::dag_cbor([0x11; 32]);
    let mut keys = (0..).map(|number| format!("a/b{number:06}").into_bytes());
    layers
        .iter()
        .map(|&wanted| {
            let key = keys.find(|key| layer(key) == wanted);
            (key.expect("there is always a further key"), value)
        })
        .collect()
}

#[test]
fn empty_set() {
    let set = Set::new();
    assert_eq!(table(&set), [0xa2, 0x61, 0x65, 0x80, 0x61, 0x6c, 0xf6]);
    assert_eq!(pages(&set).len(), 1);
}

/// The register of the scope's last example, byte for byte, and the same with a raw value.
#[test]
fn one_record_whole() {
    let set = Set::from([(b"a/b1".to_vec(), Value::dag_cbor([0x11; 32]))]);
    let mut expected = vec![
        0xa2, 0x61, 0x65, 0x81, 0xa4, 0x61, 0x6b, 0x44, 0x61, 0x2f, 0x62, 0x31, 0x61, 0x70, 0x00,
        0x61, 0x74, 0xf6, 0x61, 0x76, 0xd8, 0x2a, 0x58, 0x25, 0x00, 0x01, 0x71, 0x12, 0x20,
    ];
    expected.extend([0x11; 32]);
    expected.extend([0x61, 0x6c, 0xf6]);
    assert_eq!(expected.len(), 64);
    assert_eq!(table(&set), expected);
    assert_eq!(count(&expected), Ok(1));

    let set = Set::from([(b"a/b1".to_vec(), Value::raw([0x11; 32]))]);
    expected[26] = 0x55;
    assert_eq!(table(&set), expected);
    assert_eq!(check(&expected), Ok(head_of(&set)));
}

#[test]
fn one_record_of_each_layer() {
    // 5 layers: one page of 69 bytes, as the key has 5 bytes more than `a/b1`.
    for wanted in 0..5 {
        let set = set_of_layers(&[wanted]);
        assert_eq!(pages(&set).len(), 1, "layer {wanted}");
        assert_eq!(table(&set).len(), 64 + 5, "layer {wanted}");
        assert_eq!(head_of(&set).layer, u32::from(wanted));
    }
}

#[test]
fn layers_0_1_0() {
    let set = set_of_layers(&[0, 1, 0]);
    assert_eq!(pages(&set).len(), 3);
    assert_eq!(count(&table(&set)), Ok(3));
}

#[test]
fn layers_0_2() {
    let set = set_of_layers(&[0, 2]);
    let pages = pages(&set);
    assert_eq!(pages.len(), 3);
    // The middle page has no entries and only a left link.
    assert_eq!(pages[1].len(), 47);
    assert_eq!(pages[1][..6], [0xa2, 0x61, 0x65, 0x80, 0x61, 0x6c]);
    assert_eq!(pages[1][15..], sha256(&pages[2]));
    assert_eq!(count(&pages.concat()), Ok(2));
}

#[test]
fn layers_1_1() {
    let set = set_of_layers(&[1, 1]);
    assert_eq!(pages(&set).len(), 1);
    assert_eq!(count(&table(&set)), Ok(2));
}

/// `a/b1` has layer 0 and `a/b2` layer 1, so that they never stand in one page. Two keys of one
/// layer that differ in their last byte have the page that the scope's row describes.
#[test]
fn two_keys_that_share_three_bytes() {
    assert_eq!(layer(b"a/b1"), 0);
    assert_eq!(layer(b"a/b2"), 1);

    let mut keys = (b'0'..=b'z').map(|last| vec![b'a', b'/', b'b', last]);
    let mut of_layer_0 = keys.by_ref().filter(|key| layer(key) == 0);
    let set: Set = of_layer_0
        .by_ref()
        .take(2)
        .map(|key| (key, Value::raw([7; 32])))
        .collect();
    assert_eq!(tree_of(&set).pages(), 1);

    let table = table(&set);
    assert_eq!(table.len(), 118);
    // The second entry begins behind 4 bytes and the first entry's 57: remainder 1, prefix 3.
    assert_eq!(table[61..65], [0xa4, 0x61, 0x6b, 0x41]);
    assert_eq!(table[66..69], [0x61, 0x70, 0x03]);
    assert_eq!(count(&table), Ok(2));
}
