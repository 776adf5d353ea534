//! `check` of accepted registers, and of inputs that are no register at all.

use crate::common::calls::{count_of, mijdegen_check, number_of, raw_check};
use crate::common::forge::{one_record, Page, EMPTY};
use crate::common::heads::{head_of, UNTRUE, ZEROS};
use crate::common::sets::{
    published_trees, rows_of_few_layers, set, set_of_layers, sets_to, Kind, COUNTS, HIGH, KINDS,
};
use crate::common::values::{filled, unusual_values};
use crate::common::{hexadecimal, Random};
use independent::{layer, pages, sha256, table, tree_of, Set};
use mijdegen::{check, digest, Refusal, LONGEST};
use std::ptr::{self, NonNull};

#[test]
fn registers_of_the_scope() {
    assert_eq!(count_of(&EMPTY), Ok(0));
    assert_eq!(count_of(&one_record()), Ok(1));
    assert_eq!(one_record().len(), 64);
    // 2 registers.
    for register in [EMPTY.to_vec(), one_record()] {
        assert_eq!(number_of(&register), 0);
    }
}

/// Every kind of keys with every count. The sets are what the tests of all calls are about, so
/// their shapes are looked at here.
#[test]
fn all_kinds_and_counts() {
    let mut cases = 0;
    for (kind, set) in sets_to(4_096) {
        let register = table(&set);
        assert_eq!(check(&register), Ok(head_of(&set)), "{kind:?}");
        assert_eq!(number_of(&register), 0, "{kind:?}");
        // Another writer of the same pages.
        assert!(Page::of_set(&set).table() == register, "{kind:?}");
        cases += 1;
    }
    assert_eq!(cases, KINDS.len() * COUNTS.len());
    assert_eq!(cases, 56);
}

#[test]
fn shapes_of_the_kinds() {
    let one_page = set(Kind::OnePage, 4_096);
    assert_eq!(pages(&one_page).len(), 1);

    let alternating = set(Kind::Alternating, 4_096);
    let tree = tree_of(&alternating);
    assert_eq!(tree.entries.len(), 2_048);
    assert_eq!(tree.pages(), 2_049);
    assert!(tree.left.is_none());
    assert!(tree.entries.iter().all(|(_, gap)| gap.is_some()));

    // Two records with 15 pages without entries between them.
    let chain = set(Kind::Chains, 2);
    assert_eq!(pages(&chain).len(), 17);
    for (key, wanted) in HIGH.iter().zip([16, 15, 15, 14, 14, 13, 13, 12, 12]) {
        assert_eq!(layer(key.as_bytes()), wanted, "{key}");
    }

    let longest = set(Kind::Longest, 4_096);
    assert!(longest.keys().all(|key| key.len() == 256));
    let shared = set(Kind::SharedPrefix, 4_096);
    let mut keys = shared.keys();
    let first = keys.next().expect("there are records");
    assert!(keys.all(|key| key[..200] == first[..200]));
    // Ordinary keys of many layers: the root is high.
    let ordinary = set(Kind::Ordinary, 4_096);
    assert!(ordinary.keys().map(|key| layer(key)).max() >= Some(5));
}

/// The published trees, with the digest of their root by the library.
#[test]
fn roots_of_published_trees() {
    // 3 trees.
    for (set, root) in published_trees() {
        let pages = pages(&set);
        let found = digest(&pages[0]).expect("a page is short");
        assert_eq!(hexadecimal(&found), root);
        let head = check(&pages.concat()).expect("an accepted register");
        assert_eq!(hexadecimal(&head.digest), root);
        assert_eq!(head.count as usize, set.len());
    }
}

#[test]
fn all_rows_of_few_layers() {
    let mut cases = 0;
    for row in rows_of_few_layers() {
        let set = set_of_layers(&row);
        assert_eq!(number_of(&table(&set)), 0, "{row:?}");
        cases += 1;
    }
    assert_eq!(cases, 513);
}

#[test]
fn random_sets() {
    let mut random = Random::new(11);
    let sources: Vec<Vec<_>> = KINDS
        .iter()
        .map(|kind| set(*kind, 1_000).into_iter().collect())
        .collect();
    let mut cases = 0;
    // Sets of 0 to 40 records, drawn from one or two kinds.
    for _ in 0..500 {
        let mut set = Set::new();
        for _ in 0..2 {
            let source = random.one_of(&sources);
            for _ in 0..random.below(21) {
                let (key, value) = random.one_of(source).clone();
                set.insert(key, value);
            }
        }
        let register = table(&set);
        assert_eq!(check(&register), Ok(head_of(&set)));
        assert_eq!(number_of(&register), 0);
        cases += 1;
    }
    assert_eq!(cases, 500);
}

/// A key of each length alone, and all of them together.
#[test]
fn each_length_of_keys() {
    let mut all = Set::new();
    for length in 3..=256 {
        let mut key = vec![b'k'; length];
        key[1] = b'/';
        let set = Set::from([(key.clone(), filled(length as u8))]);
        assert_eq!(number_of(&table(&set)), 0, "length {length}");
        all.insert(key, filled(length as u8));
    }
    assert_eq!(count_of(&table(&all)), Ok(254));
    assert_eq!(number_of(&table(&all)), 0);
}

/// The places of a count's one-byte and two-byte forms: 23, 24, 255 and 256 entries in a page.
#[test]
fn each_count_of_entries() {
    let all: Vec<_> = set(Kind::OnePage, 300).into_iter().collect();
    let mut cases = 0;
    for count in 0..=300 {
        let set: Set = all[..count].iter().cloned().collect();
        let register = table(&set);
        assert_eq!(pages(&set).len(), 1);
        assert_eq!(check(&register), Ok(head_of(&set)));
        cases += 1;
    }
    assert_eq!(cases, 301);
}

#[test]
fn every_value_is_taken() {
    for value in unusual_values() {
        let set: Set = set_of_layers(&[0, 1, 0, 2])
            .into_keys()
            .map(|key| (key, value))
            .collect();
        assert_eq!(number_of(&table(&set)), 0, "{value:?}");
    }
}

/// The register may lie at any address, and other bytes may stand around it.
#[test]
fn any_address() {
    let set = set(Kind::Ordinary, 10);
    let register = table(&set);
    let mut cases = 0;
    for offset in 0..16 {
        // 3 bytes that stand around it; the last could be the start of a page.
        for around in [0x00, 0xff, 0xa2] {
            let mut buffer = vec![around; offset];
            buffer.extend(&register);
            buffer.extend([around; 16]);
            let lent = &mut buffer[offset..offset + register.len()];
            assert_eq!(check(lent), Ok(head_of(&set)), "offset {offset}");
            assert_eq!(raw_check(lent), (0, head_of(&set)), "offset {offset}");
            cases += 1;
        }
    }
    assert_eq!(cases, 16 * 3);
}

#[test]
fn lengths_around_the_longest() {
    let zeros = vec![0; LONGEST + 64];
    // 3 lengths at which the first byte departs from the form, and 3 that are too long.
    for length in [LONGEST - 1, LONGEST, 1] {
        assert_eq!(check(&zeros[..length]), Err(Refusal::Departs), "{length}");
    }
    for length in [LONGEST + 1, LONGEST + 2, LONGEST + 64] {
        assert_eq!(check(&zeros[..length]), Err(Refusal::TooLong), "{length}");
    }
    assert_eq!(number_of(&zeros[..LONGEST + 1]), 1);
    assert_eq!(number_of(&zeros[..LONGEST]), 3);
}

/// A length whose low 32 bits alone would be that of an accepted register. Most of the memory is
/// never written, so the system only sets addresses aside.
#[cfg(target_pointer_width = "64")]
#[test]
fn a_length_over_32_bits_is_refused() {
    let mut register = vec![0; (1 << 32) + EMPTY.len()];
    register[..EMPTY.len()].copy_from_slice(&EMPTY);
    assert_eq!(check(&register), Err(Refusal::TooLong));
}

#[test]
fn raw_call_does_not_read_an_empty_register() {
    // 2 pointers that cannot be read.
    for register in [ptr::null(), NonNull::<u8>::dangling().as_ptr().cast_const()] {
        let mut head = UNTRUE;
        // SAFETY: At length 0 the register is not read.
        let answer = unsafe { mijdegen_check(register, 0, &mut head) };
        assert_eq!(answer, 2);
        assert_eq!(head, ZEROS);
    }
}

#[test]
fn random_bytes_are_refused() {
    let mut random = Random::new(12);
    let mut counts = [0; 14];
    // 20,000 inputs of 0 to 99 bytes. Most of them depart at once, so half begin like a page.
    for case in 0..20_000 {
        let length = random.below(100);
        let mut bytes = random.bytes(length);
        let start = random.below(EMPTY.len());
        if case % 2 == 0 && length >= start {
            bytes[..start].copy_from_slice(&EMPTY[..start]);
        }
        counts[usize::from(number_of(&bytes))] += 1;
    }
    assert_eq!(counts.iter().sum::<u32>(), 20_000);
    assert!(counts[2] > 100 && counts[3] > 10_000);
}

/// Pages that are as good as they can be, except that two sets' pages are mixed up.
#[test]
fn parts_of_other_registers() {
    let mut cases = 0;
    let sets = [
        set_of_layers(&[0, 1, 0]),
        set_of_layers(&[0, 2]),
        set(Kind::Ordinary, 10),
        set(Kind::Chains, 3),
    ];
    for one in &sets {
        for other in &sets {
            let (one, other) = (pages(one), pages(other));
            for (n, page) in one.iter().enumerate() {
                for replacement in &other {
                    let mut mixed = one.clone();
                    mixed[n] = replacement.clone();
                    let number = number_of(&mixed.concat());
                    assert_eq!(number == 0, mixed == one || mixed == other, "page {n}");
                    assert!(page != replacement || number == 0);
                    cases += 1;
                }
            }
        }
    }
    // The sum of pages, squared.
    let pages: usize = sets.iter().map(|set| pages(set).len()).sum();
    assert_eq!(cases, pages * pages);
}

/// The digest of each page stands in the link to it, so each page but the root can be found.
#[test]
fn links_hold_the_digests() {
    let pages = pages(&set(Kind::Ordinary, 100));
    let all = pages.concat();
    for page in &pages[1..] {
        let digest = sha256(page);
        assert!(all.windows(32).any(|part| part == digest));
        assert_eq!(mijdegen::digest(page), Ok(digest));
    }
}
