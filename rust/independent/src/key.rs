//! The key rule and the layer of a key.

use crate::number::UNLAWFUL_KEY;
use crate::sha256;

/// The length of the longest lawful key.
pub const LONGEST_KEY: usize = 256;

/// Says whether the key keeps the key rule: 3 to 256 bytes, with just one slash and at least one
/// byte on each side of it; the other bytes are letters, digits, `.`, `-`, `_`, `:` and `~`. The
/// part after the slash is neither `.` nor `..`.
pub fn lawful(key: &[u8]) -> bool {
    collection_of(key).is_some()
}

/// Gives the number of bytes before the slash of a lawful key.
pub fn slash(key: &[u8]) -> Result<usize, u8> {
    let collection = collection_of(key).ok_or(UNLAWFUL_KEY)?;
    Ok(collection.len())
}

/// Gives the part of a lawful key before the slash.
pub(crate) fn collection_of(key: &[u8]) -> Option<&[u8]> {
    if key.len() < 3 || key.len() > LONGEST_KEY {
        return None;
    }
    let mut sides = key.split(|byte| *byte == b'/');
    let (Some(before), Some(after), None) = (sides.next(), sides.next(), sides.next()) else {
        return None;
    };
    let sides_hold = [before, after]
        .iter()
        .all(|side| !side.is_empty() && side.iter().all(|byte| is_plain(*byte)));
    (sides_hold && after != b"." && after != b"..").then_some(before)
}

/// Says whether some lawful key has these bytes before its slash: a slash and one byte must still
/// fit.
pub(crate) fn is_collection(bytes: &[u8]) -> bool {
    (1..=LONGEST_KEY - 2).contains(&bytes.len()) && bytes.iter().all(|byte| is_plain(*byte))
}

/// Says whether the byte may stand beside the slash in a key.
fn is_plain(byte: u8) -> bool {
    byte.is_ascii_alphanumeric() || b".-_:~".contains(&byte)
}

/// Gives the layer of the input: half the number of leading zero bits of its SHA-256 digest,
/// rounded down.
pub fn layer(input: &[u8]) -> u8 {
    (leading_zero_bits(&sha256(input)) / 2) as u8
}

/// Counts the zero bits before the first one bit, from the highest bit of the first byte.
fn leading_zero_bits(digest: &[u8; 32]) -> u32 {
    let mut count = 0;
    for byte in digest {
        for place in (0..8).rev() {
            if (byte >> place) & 1 == 1 {
                return count;
            }
            count += 1;
        }
    }
    count
}

#[cfg(test)]
mod tests {
    use super::{
        collection_of, is_collection, lawful, layer, leading_zero_bits, slash, LONGEST_KEY,
    };

    /// Keys with the number of bytes before their slash.
    #[test]
    fn lawful_keys() {
        let keys: [(&[u8], usize); 13] = [
            (b"a/b", 1),
            (b"a/b1", 1),
            (b"a/...", 1),
            (b"./a", 1),
            (b"../a", 2),
            (b"a/.b", 1),
            (b"a/..b", 1),
            (b"a/b.", 1),
            (b"-/_", 1),
            (b":/~", 1),
            (b"com.example.record/3jqfcqzm3fo2j", 18),
            (b"AZaz09.-_:~/~:_-.90zaZA", 11),
            (&[&[b'a'; 200][..], b"/", &[b'b'; 55]].concat(), 200),
        ];
        for (key, before) in keys {
            assert!(lawful(key), "{key:?}");
            assert_eq!(slash(key), Ok(before), "{key:?}");
        }
    }

    #[test]
    fn unlawful_keys() {
        let keys: [&[u8]; 19] = [
            b"",
            b"/",
            b"a",
            b"ab",
            b"a/",
            b"/a",
            b"//",
            b"abc",
            b"ab/",
            b"/ab",
            b"a//b",
            b"a/b/c",
            b"/a/",
            b"a/b c",
            b"a/.",
            b"a/..",
            b"./.",
            b"../..",
            &[&[b'a'; 200][..], b"/", &[b'b'; 56]].concat(),
        ];
        for key in keys {
            assert!(!lawful(key), "{key:?}");
            assert_eq!(slash(key), Err(7), "{key:?}");
        }
    }

    /// The slash at each place of keys of each length, and of keys that are too short or too long.
    #[test]
    fn each_place_of_the_slash() {
        for length in 1..=LONGEST_KEY + 2 {
            for place in 0..length {
                let mut key = vec![b'a'; length];
                key[place] = b'/';
                let has_sides = place > 0 && place + 1 < length;
                let expected = match has_sides && length <= LONGEST_KEY {
                    true => Ok(place),
                    false => Err(7),
                };
                assert_eq!(slash(&key), expected, "{place} of {length}");
            }
        }
    }

    #[test]
    fn each_byte_beside_the_slash() {
        let plain = b"ABCDEFGHIJKLMNOPQRSTUVWXYZabcdefghijklmnopqrstuvwxyz0123456789.-_:~";
        // 26 + 26 + 10 + 5 bytes.
        assert_eq!(plain.len(), 67);
        // 256 bytes at 4 places.
        for byte in 0..=255 {
            let expected = plain.contains(&byte);
            assert_eq!(lawful(&[byte, b'/', b'b']), expected, "{byte}");
            let name_alone = expected && byte != b'.';
            assert_eq!(lawful(&[b'a', b'/', byte]), name_alone, "{byte}");
            assert_eq!(lawful(&[b'a', byte, b'/', b'b']), expected, "{byte}");
            assert_eq!(lawful(&[b'a', b'/', byte, b'b']), expected, "{byte}");
        }
    }

    /// Of each length, and with each byte alone and at three places: a collection is what some name
    /// makes a lawful key of.
    #[test]
    fn collections() {
        let mut strings: Vec<Vec<u8>> = (0..=300).map(|length| vec![b'a'; length]).collect();
        strings.extend([&b"."[..], b"..", b"...", b"-.-"].map(<[u8]>::to_vec));
        for byte in 0..=255 {
            strings.extend([
                vec![byte],
                vec![byte, b'b', b'c'],
                vec![b'a', byte, b'c'],
                vec![b'a', b'b', byte],
            ]);
        }
        let mut found = 0;
        for bytes in &strings {
            let key = [bytes, &b"/n"[..]].concat();
            assert_eq!(is_collection(bytes), lawful(&key), "{bytes:?}");
            if is_collection(bytes) {
                assert_eq!(collection_of(&key), Some(&bytes[..]));
                found += 1;
            }
        }
        // The lengths 1 to 254, four strings of dots and dashes, and 67 bytes at 4 places.
        assert_eq!(found, 254 + 4 + 67 * 4);
    }

    #[test]
    fn each_number_of_leading_zero_bits() {
        // 256 digests, each with its first one bit at another place, and ones after it.
        for zeros in 0..256 {
            let mut digest = [0xff; 32];
            for place in 0..zeros {
                digest[place / 8] &= !(0x80 >> (place % 8));
            }
            assert_eq!(leading_zero_bits(&digest), zeros as u32);
        }
        assert_eq!(leading_zero_bits(&[0; 32]), 256);
    }

    /// The scope's rows of first digest bytes and layers.
    #[test]
    fn rows_of_digests() {
        let rows: [(&[u8], u32); 5] = [
            (&[0x80], 0),
            (&[0x3f], 1),
            (&[0x1f], 1),
            (&[0x0f], 2),
            (&[0x00, 0x3f], 5),
        ];
        for (first, layer) in rows {
            let mut digest = [0; 32];
            digest[..first.len()].copy_from_slice(first);
            assert_eq!(leading_zero_bits(&digest) / 2, layer, "{first:?}");
        }
        assert_eq!(leading_zero_bits(&[0; 32]) / 2, 128);
    }

    #[test]
    fn published_layers() {
        assert_eq!(layer(b"2653ae71"), 0);
        assert_eq!(layer(b"blue"), 1);
        assert_eq!(layer(b"app.bsky.feed.post/454397e440ec"), 4);
        assert_eq!(layer(b"app.bsky.feed.post/9adeb165882c"), 8);
    }
}
