//! The writing calls and the reading calls against plain work on sets.

use independent::{
    at_or_after, before, check, difference, head_of, join, layer, list, lookup, merge, pages, path,
    put, remove, run, screen, set_of, sha256, table, tree, tree_of, verify, Codec, Digest, Set,
    Value, ValueBytes,
};
use std::collections::BTreeSet;

/// A generator of numbers, the same in every run.
struct Random(u64);

impl Random {
    fn below(&mut self, limit: usize) -> usize {
        self.0 = self.0.wrapping_mul(6_364_136_223_846_793_005);
        self.0 = self.0.wrapping_add(1_442_695_040_888_963_407);
        (self.0 >> 33) as usize % limit
    }

    /// One of few values, so that two records often have the same, or the same digest alone.
    fn value(&mut self) -> Value {
        let mut digest = [0; 32];
        digest[31] = self.below(3) as u8;
        digest[0] = self.below(2) as u8;
        match self.below(2) {
            0 => Value::raw(digest),
            _ => Value::dag_cbor(digest),
        }
    }

    /// One of few keys.
    fn key(&mut self) -> Vec<u8> {
        format!("few/{}", self.below(60)).into_bytes()
    }

    fn set(&mut self, most: usize) -> Set {
        let count = self.below(most + 1);
        (0..count).map(|_| (self.key(), self.value())).collect()
    }
}

/// Gives the value whose digest stands at the place.
fn value_at(bytes: &[u8], (place, codec): (usize, Codec)) -> Value {
    // The codec stands three bytes before the digest.
    assert_eq!(bytes[place - 3], codec.byte());
    let digest = bytes[place..place + 32].try_into().expect("32 bytes");
    Value { digest, codec }
}

/// Calls with an output of 20,000 bytes. Gives what was written, after a check that zeros follow.
fn written(call: impl FnOnce(&mut [u8]) -> Result<usize, u8>) -> Result<Vec<u8>, u8> {
    let mut out = vec![0xaa; 20_000];
    let length = call(&mut out);
    let rest = *length.as_ref().unwrap_or(&0);
    assert!(out[rest..].iter().all(|byte| *byte == 0));
    out.truncate(rest);
    length.map(|_| out)
}

#[test]
fn what_is_written_is_read_back() {
    let mut random = Random(1);
    for _ in 0..500 {
        let set = random.set(60);
        let register = table(&set);
        assert_eq!(set_of(&register), Ok(set.clone()));
        assert_eq!(check(&register), Ok(head_of(&set)));
        assert_eq!(pages(&set).len(), tree_of(&set).pages());
    }
}

#[test]
fn lookup_and_list() {
    let mut random = Random(2);
    for _ in 0..100 {
        let set = random.set(60);
        let register = table(&set);
        for (n, (key, value)) in set.iter().enumerate() {
            let found = lookup(&register, key).expect("the key is present");
            assert_eq!(value_at(&register, found), *value);

            let (mut out, mut listed) = ([0xaa; 10], [0xaa; 33]);
            let length = list(&register, n as u64, &mut out, &mut listed);
            assert_eq!(length, Ok(key.len()));
            assert_eq!(out[..key.len()], **key);
            assert!(out[key.len()..].iter().all(|byte| *byte == 0));
            assert_eq!(listed, value.bytes());
        }
        for n in [set.len() as u64, set.len() as u64 + 1, u64::MAX] {
            let (mut out, mut listed) = ([0xaa; 10], [0xaa; 33]);
            assert_eq!(list(&register, n, &mut out, &mut listed), Ok(0));
            assert_eq!((out, listed), ([0; 10], [0; 33]));
            assert_eq!(list(&register, n, &mut [], &mut listed), Ok(0));
        }
    }
}

/// Calls with an output of 10 bytes for the key. Gives the record, after a check that zeros follow
/// the key, or that all is zero where the call is refused.
fn given(
    call: impl FnOnce(&mut [u8], &mut ValueBytes) -> Result<usize, u8>,
) -> Result<(Vec<u8>, Value), u8> {
    let (mut out, mut value) = ([0xaa; 10], [0xaa; 33]);
    let length = call(&mut out, &mut value);
    let end = *length.as_ref().unwrap_or(&0);
    assert!(out[end..].iter().all(|byte| *byte == 0));
    assert!(length.is_ok() || value == [0; 33]);
    let length = length?;
    let value = Value::of_bytes(&value).expect("a codec and a digest");
    Ok((out[..length].to_vec(), value))
}

/// The records beside a key, by the number of lesser keys in the set.
#[test]
fn records_at_or_after_and_before() {
    let mut random = Random(6);
    let (mut found, mut absent) = (0, 0);
    for _ in 0..100 {
        let set = random.set(30);
        let register = table(&set);
        let records: Vec<(Vec<u8>, Value)> = set.clone().into_iter().collect();
        // 60 keys, present and not.
        for number in 0..60 {
            let key = format!("few/{number}").into_bytes();
            let lesser = records.iter().filter(|(other, _)| *other < key).count();
            let next = records.get(lesser).cloned().ok_or(12);
            let last = lesser.checked_sub(1).map(|n| records[n].clone()).ok_or(12);
            for expected in [&next, &last] {
                found += usize::from(expected.is_ok());
                absent += usize::from(expected.is_err());
            }

            let result = given(|out, value| at_or_after(&register, &key, out, value));
            assert_eq!(result, next);
            let result = given(|out, value| before(&register, &key, out, value));
            assert_eq!(result, last);
        }
    }
    assert_eq!(found + absent, 100 * 60 * 2);
    assert!(absent > 500);
}

/// Runs between any two keys, built record by record.
#[test]
fn runs_of_records() {
    let mut random = Random(7);
    let (mut done, mut refused) = (0, 0);
    for _ in 0..1_000 {
        let set = random.set(60);
        let register = table(&set);
        let (first, last) = (random.key(), random.key());
        let result = written(|out| run(&register, &first, &last, out));
        if first > last {
            assert_eq!(result, Err(14));
            refused += 1;
            continue;
        }
        let mut between = Set::new();
        for (key, value) in &set {
            if *key >= first && *key <= last {
                between.insert(key.clone(), *value);
            }
        }
        assert_eq!(result, Ok(table(&between)));
        done += 1;
    }
    assert!(done > 300 && refused > 300);
}

/// The screens of collections of which one begins with another, built record by record.
#[test]
fn screens_of_collections() {
    let mut random = Random(8);
    let names = ["a", "ab", "a.b", "a-b", "a0", "."];
    let (mut shown, mut full, mut empty) = (0, 0, 0);
    for _ in 0..200 {
        let mut set = Set::new();
        for _ in 0..random.below(80) {
            let collection = names[random.below(names.len())];
            let key = format!("{collection}/{}", random.below(60));
            set.insert(key.into_bytes(), random.value());
        }
        let register = table(&set);
        for name in names {
            let start = format!("{name}/").into_bytes();
            let mut expected: Vec<Set> = vec![Set::new()];
            for (key, value) in &set {
                if !key.starts_with(&start) {
                    continue;
                }
                if expected[expected.len() - 1].len() == 8 {
                    expected.push(Set::new());
                }
                let last = expected.last_mut().expect("there is always one");
                last.insert(key.clone(), *value);
            }
            for (n, set) in expected.iter().enumerate() {
                let mut screens = 0;
                let result = written(|out| {
                    let (length, count) = screen(&register, name.as_bytes(), n as u64, out)?;
                    screens = count;
                    Ok(length)
                });
                assert_eq!(result, Ok(table(set)));
                assert_eq!(screens, expected.len());
                full += usize::from(set.len() == 8);
                empty += usize::from(set.is_empty());
                shown += 1;
            }
            let past = expected.len() as u64;
            let result = screen(&register, name.as_bytes(), past, &mut [0; 10]);
            assert_eq!(result, Err(15));
        }
    }
    assert!(full > 300 && empty > 10 && shown > full + empty);
}

/// Gives the pages that a search for the key opens, by the tree and the pages in table order.
fn opened_for(set: &Set, key: &[u8]) -> Vec<u8> {
    let (tree, pages) = (tree_of(set), pages(set));
    let (mut page, mut place, mut path) = (&tree, 0, Vec::new());
    loop {
        path.extend(&pages[place]);
        let own = || page.entries.iter().map(|((own, _), _)| *own);
        let after = page.entries.iter().map(|(_, gap)| gap);
        let mut gaps = [&page.left].into_iter().chain(after);
        // The pages of the gaps before that of the key stand before its own.
        let lesser = own().filter(|own| *own < key).count();
        let before = gaps.by_ref().take(lesser).flatten();
        place += 1 + before.map(|page| page.pages()).sum::<usize>();
        match gaps.next().and_then(Option::as_ref) {
            Some(next) if own().all(|own| own != key) => page = next,
            _ => return path,
        }
    }
}

/// The path of each of 60 keys, present and not, and what it says of the key. What it says of
/// another key is refused or true as well.
#[test]
fn paths_and_verdicts() {
    let mut random = Random(9);
    let (mut present, mut absent, mut refused, mut others) = (0, 0, 0, 0);
    for _ in 0..100 {
        let set = random.set(60);
        let register = table(&set);
        let root = sha256(&pages(&set)[0]);
        for number in 0..60 {
            let key = format!("few/{number}").into_bytes();
            let found = written(|out| path(&register, &key, out)).expect("the register is short");
            assert_eq!(found, opened_for(&set, &key));
            assert!(found.len() <= register.len());
            let value = |place| value_at(&found, place);
            let verdict = verify(&found, &key, &root).expect("the path is right");
            assert_eq!(verdict.map(value), set.get(&key).copied());
            present += usize::from(verdict.is_some());
            absent += usize::from(verdict.is_none());

            let other = random.key();
            match verify(&found, &other, &root) {
                Ok(verdict) => {
                    assert_eq!(verdict.map(value), set.get(&other).copied());
                    others += 1;
                }
                // The search for the other key ends before, or goes on to another page.
                Err(number) => {
                    assert!([2, 4, 16].contains(&number), "{number}");
                    refused += 1;
                }
            }
        }
    }
    assert!(present > 1_000 && absent > 1_000);
    assert!(refused > 1_000 && others > 1_000);
}

/// Every bit of a path flipped and every length of it: there is no other verdict.
#[test]
fn damaged_paths() {
    let few = (0..60).filter(|number| number % 3 != 0);
    let set: Set = few
        .map(|number| {
            let key = format!("few/{number}").into_bytes();
            (key, Value::raw([number; 32]))
        })
        .collect();
    assert!(pages(&set).len() > 10);
    let (register, root) = (table(&set), sha256(&pages(&set)[0]));
    let mut counts = [0; 17];
    for number in (0..60).step_by(5) {
        let key = format!("few/{number}").into_bytes();
        let mut found = written(|out| path(&register, &key, out)).expect("room");
        for length in 0..found.len() {
            assert_eq!(verify(&found[..length], &key, &root), Err(2));
        }
        for bit in 0..8 * found.len() {
            found[bit / 8] ^= 1 << (bit % 8);
            let number = verify(&found, &key, &root).expect_err("a page was changed");
            counts[usize::from(number)] += 1;
            found[bit / 8] ^= 1 << (bit % 8);
        }
    }
    for number in [3, 6, 7, 8, 16] {
        assert!(counts[number] > 0, "number {number}");
    }
}

/// Random calls one after the other, against a set that is changed by hand. The head goes along.
#[test]
fn a_list_of_calls() {
    let mut random = Random(3);
    let mut set = Set::new();
    let mut register = table(&set);
    let mut head = head_of(&set);
    for _ in 0..2_000 {
        let (key, value) = (random.key(), random.value());
        let result = match random.below(4) {
            0 => {
                set.insert(key.clone(), value);
                written(|out| put(&register, &mut head, &key, &value.bytes(), out))
            }
            1 => {
                let expected = set.remove(&key).ok_or(12);
                let result = written(|out| remove(&register, &mut head, &key, out));
                assert_eq!(result.as_ref().err(), expected.as_ref().err());
                if result.is_err() {
                    continue;
                }
                result
            }
            2 => {
                // None is less than every value.
                if set.get(&key) < Some(&value) {
                    set.insert(key.clone(), value);
                }
                written(|out| join(&register, &mut head, &key, &value.bytes(), out))
            }
            _ => {
                let second = random.set(5);
                for (key, value) in &second {
                    if set.get(key) < Some(value) {
                        set.insert(key.clone(), *value);
                    }
                }
                written(|out| merge(&register, &mut head, &table(&second), out))
            }
        };
        assert_eq!(result, Ok(table(&set)));
        register = table(&set);
        // Count, layer and digest by hand.
        let highest = set.keys().map(|key| layer(key)).max();
        assert_eq!(head.count as usize, set.len());
        assert_eq!(head.layer, u32::from(highest.unwrap_or(0)));
        assert_eq!(head.digest, sha256(&pages(&set)[0]));
    }
    assert!(set.len() > 20);
}

#[test]
fn merge_laws() {
    let mut random = Random(4);
    for _ in 0..200 {
        let [a, b, c] = [0; 3].map(|_| table(&random.set(30)));
        let merged = |first: &[u8], second: &[u8]| {
            let mut head = check(first).expect("an accepted register");
            written(|out| merge(first, &mut head, second, out)).expect("the sets are small")
        };
        assert_eq!(merged(&a, &b), merged(&b, &a));
        assert_eq!(merged(&merged(&a, &b), &c), merged(&a, &merged(&b, &c)));
        assert_eq!(merged(&a, &a), a);
    }
}

/// Counts the opened pages by the definition: neither the page nor one above it is known.
fn opened_pages(first: &Set, second: &Set) -> usize {
    let known: BTreeSet<Digest> = pages(first).iter().map(|page| sha256(page)).collect();
    // The tree tells how many pages stand below each page, and the table order where they are.
    fn visit(
        tree: &tree::Page<(&[u8], &Value)>,
        rest: &mut std::slice::Iter<Vec<u8>>,
        above: bool,
        known: &BTreeSet<Digest>,
    ) -> usize {
        let page = rest.next().expect("each page has its bytes");
        let above = above || known.contains(&sha256(page));
        let mut opened = usize::from(!above);
        let after = tree.entries.iter().map(|(_, gap)| gap);
        for gap in [&tree.left].into_iter().chain(after).flatten() {
            opened += visit(gap, rest, above, known);
        }
        opened
    }
    let pages = pages(second);
    visit(&tree_of(second), &mut pages.iter(), false, &known)
}

#[test]
fn differences() {
    let mut random = Random(5);
    let mut opened_in_all = 0;
    for case in 0..400 {
        let first = random.set(60);
        // Half of the second sets are near the first.
        let second = if case % 2 == 0 {
            let mut near = first.clone();
            near.insert(random.key(), random.value());
            near.remove(&random.key());
            near
        } else {
            random.set(60)
        };
        let lacking: Set = second
            .iter()
            .filter(|(key, value)| first.get(*key) != Some(value))
            .map(|(key, value)| (key.clone(), *value))
            .collect();

        let mut opened = 0;
        let result = written(|out| {
            let (length, count) = difference(&table(&first), &table(&second), out)?;
            opened = count;
            Ok(length)
        });
        assert_eq!(result, Ok(table(&lacking)));
        assert_eq!(opened, opened_pages(&first, &second));
        opened_in_all += opened;
    }
    assert!(opened_in_all > 1_000);
}

#[test]
fn differences_of_empty_registers() {
    let empty = table(&Set::new());
    let full = table(&Set::from([(b"a/b1".to_vec(), Value::raw([1; 32]))]));
    let mut out = [0; 64];
    assert_eq!(difference(&empty, &empty, &mut out), Ok((7, 0)));
    assert_eq!(difference(&full, &full, &mut out), Ok((7, 0)));
    assert_eq!(difference(&full, &empty, &mut out), Ok((7, 1)));
    assert_eq!(difference(&empty, &full, &mut out), Ok((64, 1)));
    assert_eq!(out[..], full);
}

/// Each page holds the keys of its layer, and each key stands in the place that its layer gives.
#[test]
fn layers_in_the_tree() {
    fn visit(page: &tree::Page<(&[u8], &Value)>, wanted: u8) {
        for ((key, _), gap) in &page.entries {
            assert_eq!(layer(key), wanted);
            gap.iter().for_each(|page| visit(page, wanted - 1));
        }
        page.left.iter().for_each(|page| visit(page, wanted - 1));
        assert!(!page.entries.is_empty() || page.left.is_some());
    }
    let set: Set = (0..1_000)
        .map(|number| {
            let key = format!("layers/{number}").into_bytes();
            (key, Value::dag_cbor([0; 32]))
        })
        .collect();
    let highest = set.keys().map(|key| layer(key)).max();
    visit(&tree_of(&set), highest.expect("the set has records"));
}
