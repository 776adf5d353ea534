//! All seventeen calls on random and damaged registers and paths, against the independent crate.
//!
//! The rounds of the gate are always the same. More of them, from another seed:
//!
//!     MIJDEGEN_ROUNDS=1000000 MIJDEGEN_SEED=7 cargo test --release --test all fuzz:: -- --nocapture
//!
//! A round that fails tells the command that runs it alone.

use crate::common::calls::{
    answer, compare_check, compare_list, compare_lookup, compare_slash, mijdegen_digest, raw_layer,
    shown, Surrounded,
};
use crate::common::forge::{link_to, Entry, Page, EMPTY};
use crate::common::heads::{draw_untrue, head_for};
use crate::common::lists::{damaged, drawn_value, out_length, Source};
use crate::common::neighbours::{compare_neighbour, NEIGHBOURS};
use crate::common::paths::compare_verify;
use crate::common::sets::{collection_of, part, records_of, set, Kind, KINDS, NEAR_COLLECTIONS};
use crate::common::values::filled;
use crate::common::writes::{compare_call_with, length_in, Call};
use crate::common::Random;
use independent::{table, Set};
use mijdegen::{digest, layer, Refusal, PER_SCREEN};
use std::env;
use std::thread;

/// The rounds and the seed of the gate.
const ROUNDS: u64 = 5_000;
const SEED: u64 = 1;

#[test]
fn all_calls() {
    let given = |name: &str| {
        let text = env::var(name).ok()?;
        Some(text.parse::<u64>().expect("a number in the environment"))
    };
    let rounds = given("MIJDEGEN_ROUNDS").unwrap_or(ROUNDS);
    let seed = given("MIJDEGEN_SEED").unwrap_or(SEED);
    assert_ne!(seed, 0, "the seed 0 cannot be taken");

    let sources = sources();
    let mut counts = [0; 18];
    for round in 0..rounds {
        // Each round has a seed of its own, so that it can be run alone.
        let told = Told(seed + round);
        let mut random = Random::new(seed + round);
        // The first numbers from neighbouring seeds are alike.
        for _ in 0..8 {
            random.next();
        }
        run(&mut random, &sources, &mut counts);
        drop(told);
        if (round + 1) % 100_000 == 0 {
            println!("{} rounds, answers by number: {counts:?}", round + 1);
        }
    }
    assert_eq!(counts.iter().sum::<u64>(), 17 * rounds);
    println!("{rounds} rounds, answers by number: {counts:?}");
    // Every number is answered, and a good part of the calls are done.
    if rounds >= ROUNDS {
        for (number, count) in counts.iter().enumerate() {
            assert!(*count >= 10, "number {number}: {count}");
        }
        assert!(counts[0] > 5 * rounds, "{}", counts[0]);
    }
}

/// Tells the seed of a round that panics.
struct Told(u64);

impl Drop for Told {
    fn drop(&mut self) {
        if thread::panicking() {
            eprintln!(
                "This round alone: MIJDEGEN_ROUNDS=1 MIJDEGEN_SEED={} \
                 cargo test --release --test all fuzz::",
                self.0
            );
        }
    }
}

/// Gives keys of each kind, keys of all kinds together, few keys, and keys of collections that
/// begin with one another.
fn sources() -> Vec<Source> {
    let mut sources: Vec<Source> = KINDS
        .iter()
        .map(|kind| Source::new(set(*kind, 60).into_keys()))
        .collect();
    let all = KINDS.map(|kind| set(kind, 12)).into_iter().flatten();
    sources.push(Source::new(all.map(|(key, _)| key)));
    sources.push(Source::new(set(Kind::Chains, 6).into_keys()));
    let mut random = Random::new(1);
    let near = NEAR_COLLECTIONS.map(|collection| records_of(&mut random, collection, 20));
    sources.push(Source::new(near.into_iter().flatten().map(|(key, _)| key)));
    sources
}

/// Runs all seventeen calls once and counts the numbers that they answer.
fn run(random: &mut Random, sources: &[Source], counts: &mut [u64; 18]) {
    let source = random.one_of(sources);
    let set = draw_set(random, source);
    let register = draw_register(random, source, &set);
    let mut count = |result: Result<usize, u8>| {
        counts[usize::from(result.err().unwrap_or(0))] += 1;
    };

    // Digest and layer take bytes of any form, so that a register will do as well.
    let input = match random.below(4) {
        0 => register.clone(),
        _ => {
            let length = random.below(300);
            random.bytes(length)
        }
    };
    count(compare_digest(&input));
    count(compare_layer(&input));

    let key = source.key(random, &set);
    let asked = match random.below(4) {
        0 => damaged(random, key.clone()),
        _ => key.clone(),
    };
    count(compare_slash(&asked));

    count(compare_check(&register).map(|_| 0));
    count(compare_lookup(&register, &key));
    let n = match random.below(8) {
        0 => random.next(),
        _ => random.below(set.len() + 2) as u64,
    };
    let length = *random.one_of(&[0, 3, 20, 32, 256, 300]);
    count(compare_list(&register, n, length));
    for call in NEIGHBOURS {
        let key = source.key(random, &set);
        let length = *random.one_of(&[0, 3, 20, 32, 256, 300]);
        count(compare_neighbour(&register, call, &key, length));
    }

    let second = match random.below(3) {
        0 => table(&near(random, source, &set)),
        _ => source.second(random, &set),
    };
    let calls = [
        draw_run(random, source, &set),
        Call::put_bytes(&source.key(random, &set), &drawn_value(random)),
        Call::join_bytes(&source.key(random, &set), &drawn_value(random)),
        Call::remove(&source.key(random, &set)),
        Call::merge(&second),
        Call::difference(&second),
        draw_screen(random, source, &set),
        Call::path(&source.key(random, &set)),
    ];
    for call in &calls {
        count(compare_write(random, &register, call));
    }

    let (path, key, root) = draw_path(random, source, &set);
    let verdict = compare_verify(&path, &key, &root);
    count(verdict.map(|_| 0));
}

/// Draws a path with its key and its root digest. Most are right; in the others pages or bytes are
/// changed, or the key or the root digest is another.
fn draw_path(random: &mut Random, source: &Source, set: &Set) -> (Vec<u8>, Vec<u8>, Vec<u8>) {
    let mut key = source.key(random, set);
    let mut root = Page::of_set(set);
    if random.below(4) == 0 {
        change_page(random, &mut root);
    }
    let root = root.written();
    let (mut pages, mut digest) = (root.path(&key), root.digest.to_vec());
    let n = random.below(pages.len());
    match random.below(20) {
        0 => drop(pages.remove(n)),
        1 => pages.insert(n, pages[random.below(pages.len())]),
        2 => pages.swap(0, n),
        3 => key = source.key(random, set),
        4 => digest[random.below(32)] ^= 1 << random.below(8),
        5 => digest = drawn_value(random).into_iter().skip(1).collect(),
        _ => {}
    }
    let path = pages.concat();
    match random.below(4) {
        0 => (damaged(random, path), key, digest),
        _ => (path, key, digest),
    }
}

/// Draws a run between two keys. The first is seldom greater than the last.
fn draw_run(random: &mut Random, source: &Source, set: &Set) -> Call {
    let mut ends = [source.key(random, set), source.key(random, set)];
    if random.below(8) != 0 {
        ends.sort();
    }
    Call::run(&ends[0], &ends[1])
}

/// Draws a screen of a key's collection, seldom of the key itself, which is no collection. Its
/// number is seldom far past the end.
fn draw_screen(random: &mut Random, source: &Source, set: &Set) -> Call {
    let key = source.key(random, set);
    let collection = match random.below(8) {
        0 => &key,
        _ => collection_of(&key),
    };
    let n = match random.below(8) {
        0 => random.next(),
        1 => random.below(600) as u64,
        _ => random.below(set.len() / PER_SCREEN + 1) as u64,
    };
    Call::screen(collection, n)
}

/// Compares a writing call for an output that has room, or that has none. Seldom the head that is
/// lent is untrue.
fn compare_write(random: &mut Random, register: &[u8], call: &Call) -> Result<usize, u8> {
    let handed = match call {
        Call::Merge { second } | Call::Difference { second } => second.len(),
        _ => 0,
    };
    let mut head = call.head_for(register);
    if random.below(10) == 0 {
        // The second register of a merge has another head.
        let other = match call {
            Call::Merge { second } => head_for(second),
            _ => head_for(&EMPTY),
        };
        head = draw_untrue(random, &head, &other);
    }
    let mut out = vec![0; register.len() + handed + 10_000];
    let length = match call.independent(register, &mut { head }, &mut out) {
        Ok(value) => out_length(random, length_in(value)),
        Err(_) => random.below(200),
    };
    compare_call_with(register, head, call, length)
}

fn compare_digest(input: &[u8]) -> Result<usize, u8> {
    let expected = match input.len() {
        0..=independent::LONGEST => Ok(independent::sha256(input)),
        _ => Err(1),
    };
    let found = digest(input).map_err(Refusal::number);
    assert_eq!(found, expected, "digest of {}", shown(input));

    let mut out = Surrounded::new(32);
    // SAFETY: The pointer and the length are of one slice, and the output has 32 bytes.
    let answer = unsafe { mijdegen_digest(input.as_ptr(), input.len(), out.start().cast()) };
    assert_eq!(answer, u64::from(expected.err().unwrap_or(0)));
    assert_eq!(out.contents("the digest"), expected.unwrap_or([0; 32]));
    expected.map(|_| 0)
}

fn compare_layer(input: &[u8]) -> Result<usize, u8> {
    let expected = match input.len() {
        0..=independent::LONGEST => Ok(independent::layer(input)),
        _ => Err(1),
    };
    let found = layer(input).map_err(Refusal::number);
    assert_eq!(found, expected, "layer of {}", shown(input));

    let expected = expected.map(usize::from);
    let found = raw_layer(&mut input.to_vec());
    let answer = answer(expected);
    assert_eq!(found, answer, "C layer of {}", shown(input));
    expected
}

/// Draws a set: mostly a small one, seldom one of 4,096 records and a little more or less.
fn draw_set(random: &mut Random, source: &Source) -> Set {
    match random.below(400) {
        0 => {
            let kind = *random.one_of(&KINDS);
            set(kind, 4_095 + random.below(2))
        }
        1..=9 => {
            let kind = *random.one_of(&KINDS);
            set(kind, 100 + random.below(300))
        }
        10..=100 => source.set(random, 4),
        _ => source.set(random, 60),
    }
}

/// Draws a set that differs from another in few records.
fn near(random: &mut Random, source: &Source, set: &Set) -> Set {
    let mut near = set.clone();
    near.extend(source.set(random, 3));
    let step = 2 + random.below(30);
    part(&near, |n| n % step != 1)
}

/// Draws the register of the set, or one made from it that is mostly refused.
fn draw_register(random: &mut Random, source: &Source, set: &Set) -> Vec<u8> {
    match random.below(20) {
        0..=11 => table(set),
        // The examples of all numbers are among these.
        12 => source.second(random, set),
        13 => {
            let register = damaged(random, table(set));
            damaged(random, register)
        }
        14 => {
            // The start of one register and the rest of another, from any place on.
            let (one, other) = (table(set), table(&near(random, source, set)));
            let place = random.below(one.len().min(other.len()));
            [&one[..place], &other[place..]].concat()
        }
        15 => {
            let length = random.below(100);
            random.bytes(length)
        }
        _ => {
            let mut root = Page::of_set(set);
            for _ in 0..=random.below(2) {
                change_page(random, &mut root);
            }
            root.table()
        }
    }
}

/// Changes one of the pages in a way that leaves the bytes in the page form, with right digests of
/// all pages but one at most.
fn change_page(random: &mut Random, root: &mut Page) {
    let n = random.below(root.pages());
    if random.below(12) == 0 {
        *root = Page::above(root.clone());
        return;
    }
    let page = root.page_mut(n);
    let mut links = page.links_mut();
    let which = random.below(links.len());
    let link = &mut links[which];
    match random.below(9) {
        0 => **link = None,
        1 => **link = link_to(Page::default()),
        2 => **link = link_to(Page::of_keys(&[b"a/b1"])),
        3 => {
            if let Some(link) = link {
                link.flip[random.below(32)] = 1 << random.below(8);
            }
        }
        _ if page.entries.is_empty() => page.entries.push(Entry::new(b"a/b1")),
        kind => {
            let entry = random.below(page.entries.len());
            match kind {
                4 => page.entries[entry].prefix = random.below(30),
                5 => page.change_key(entry, |key| key.push(b'/')),
                6 => page.change_key(entry, |key| {
                    let place = random.below(key.len());
                    key[place] = random.below(256) as u8;
                }),
                7 => {
                    let mut keys = page.keys();
                    keys.swap(entry, 0);
                    page.spell(&keys);
                }
                _ => page.entries[entry].value = filled(random.below(256) as u8),
            }
        }
    }
}
