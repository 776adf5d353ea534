//! The calls need little stack: they run in a thread that has 512 KiB of it.

use crate::common::forge::{
    left_chain, link_to, longest_page, right_chain, widest_page, Entry, Page, EMPTY,
};
use crate::common::heads::{in_library, Heads};
use crate::common::lists::{full_set, List};
use crate::common::neighbours::{expect_neighbour, listed_record, Neighbour, NEIGHBOURS};
use crate::common::paths::{expect_verdict, Verdict};
use crate::common::sets::{
    collection_of, greatest_key, just_after, just_before, least_key, long_keys_in_turn,
    one_page_below_high, part, screens_of, set, Kind, FULL_KINDS, HIGH, KINDS,
};
use crate::common::values::{filled, library_value, value_at};
use crate::common::writes::{expect_outcome, length_in, Call};
use crate::common::Random;
use independent::table;
use mijdegen::{check, digest, layer, list, lookup, slash, Refusal, LONGEST, PER_SCREEN};
use std::thread;

const STACK: usize = 512 * 1024;

/// Runs the task in a thread with a small stack. A task that needs more ends the whole test run.
fn with_small_stack<T: Send + 'static>(task: impl FnOnce() -> T + Send + 'static) -> T {
    thread::Builder::new()
        .stack_size(STACK)
        .spawn(task)
        .expect("a thread can be started")
        .join()
        .expect("the task ends without a panic")
}

#[test]
fn digest_and_layer() {
    let bytes = Random::new(1).bytes(LONGEST + 1);
    // 9 lengths. The expected results are made outside the small stack.
    for length in [0, 1, 55, 56, 64, 1_000, 65_536, 1_000_000, LONGEST] {
        let input = bytes[..length].to_vec();
        let expected = (
            Ok(independent::sha256(&input)),
            Ok(independent::layer(&input)),
        );
        let found = with_small_stack(move || (digest(&input), layer(&input)));
        assert_eq!(found, expected, "length {length}");
    }

    let found = with_small_stack(move || (digest(&bytes), layer(&bytes)));
    assert_eq!(found, (Err(Refusal::TooLong), Err(Refusal::TooLong)));
}

/// Judges the key, checks the register and looks for the key in it, for its record and for those
/// beside it, on a small stack; then writes with it. Gives the number that is due on the register,
/// or 0.
fn call_with_small_stack(register: Vec<u8>, key: &[u8], n: usize) -> u8 {
    // The expected results are made outside the small stack.
    let before_slash = independent::slash(key);
    let head = independent::check(&register).map(in_library);
    let place = independent::lookup(&register, key);
    let (mut key_out, mut value) = ([0; 256], [0; 33]);
    let length = independent::list(&register, n as u64, &mut key_out, &mut value);

    for call in NEIGHBOURS {
        neighbour_with_small_stack(&register, call, key);
    }
    let room = register.len() + 1_000;
    for first in [key, &least_key()] {
        write_with_small_stack(&register, Call::run(first, &greatest_key()), room);
    }
    write_with_small_stack(&register, Call::put(key, &filled(0x76)), room);
    write_with_small_stack(&register, Call::join(key, &filled(0x77)), room);
    write_with_small_stack(&register, Call::remove(key), room);
    write_with_small_stack(&register, Call::merge(&register), room);
    write_with_small_stack(&EMPTY, Call::merge(&register), room);
    write_with_small_stack(&EMPTY, Call::difference(&register), room);
    write_with_small_stack(&register, Call::difference(&EMPTY), room);
    // The first screen, a later one where there are so many, and one that there is not.
    for n in [0, 100, u64::MAX] {
        write_with_small_stack(&register, Call::screen(collection_of(key), n), room);
    }
    let path = write_with_small_stack(&register, Call::path(key), room);
    // The path, where there is one, and the register's bytes in its place.
    let root = match head {
        Ok(head) => head.digest,
        Err(_) => independent::sha256(&register),
    };
    let verdict = verify_with_small_stack(&path, key, &root);
    assert_eq!(verdict.is_ok(), head.is_ok() && before_slash.is_ok());
    let _ = verify_with_small_stack(&register, key, &root);

    let key = key.to_vec();
    let found = with_small_stack(move || {
        let mut out = [0xaa; 256];
        let before_slash = slash(&key).map_err(Refusal::number);
        let head = check(&register).map_err(Refusal::number);
        let found = lookup(&register, &key).map_err(Refusal::number);
        let listed = list(&register, n, &mut out).map_err(Refusal::number);
        (before_slash, head, found, listed, out, register)
    });
    let (found_before_slash, found_head, found, listed, out, register) = found;
    assert_eq!(found_before_slash, before_slash);
    assert_eq!(found_head, head);
    let expected = place.map(|place| library_value(&value_at(&register, place)));
    assert_eq!(found, expected);
    let expected = length.map(|length| (length > 0).then(|| listed_record(length, &value)));
    assert_eq!(listed, expected);
    assert_eq!(out, key_out);
    head.err().unwrap_or(0)
}

/// Gives the record beside the key on a small stack.
fn neighbour_with_small_stack(register: &[u8], call: Neighbour, key: &[u8]) {
    // The expected result is made outside the small stack.
    let (mut output, mut value) = ([0; 256], [0; 33]);
    let expected = call.independent(register, key, &mut output, &mut value);
    let (register, key) = (register.to_vec(), key.to_vec());
    with_small_stack(move || {
        expect_neighbour(&register, call, &key, expected, &output, &value);
    });
}

/// Runs the writing call on a small stack. Gives what it writes.
fn write_with_small_stack(register: &[u8], call: Call, out_length: usize) -> Vec<u8> {
    // The expected result is made outside the small stack.
    let mut output = vec![0; out_length];
    let mut heads = Heads::stay(call.head_for(register));
    let expected = call.independent(register, &mut heads.after, &mut output);
    let register = register.to_vec();
    let mut written =
        with_small_stack(move || expect_outcome(&register, &heads, &call, expected, &output));
    written.truncate(expected.map_or(0, length_in));
    written
}

/// Judges the path on a small stack. Gives the verdict.
fn verify_with_small_stack(path: &[u8], key: &[u8], root: &[u8; 32]) -> Verdict {
    // The expected verdict is made outside the small stack.
    let expected = independent::verify(path, key, root);
    let (path, key, root) = (path.to_vec(), key.to_vec(), *root);
    with_small_stack(move || expect_verdict(&path, &key, &root, expected));
    expected
}

/// Registers of 4,096 records. Chains of layers are the deepest that are accepted.
#[test]
fn the_largest_registers() {
    for kind in KINDS {
        for count in [2, 4_096] {
            let set = set(kind, count);
            let last = set.keys().next_back().expect("there are records");
            let number = call_with_small_stack(table(&set), last, count - 1);
            assert_eq!(number, 0, "{kind:?}");
        }
    }
}

/// Pages that follow one another as far as the form allows, and further.
#[test]
fn the_deepest_inputs() {
    let mut cases = 0;
    for (depth, expected) in [(129, 9), (130, 3), (200, 3)] {
        for chain in [
            left_chain(depth),
            right_chain(depth, 1),
            right_chain(depth, 31),
        ] {
            let register = chain.table();
            // 129 pages of 31 entries are 3,999 records; more do not matter, since 3 goes first.
            assert_eq!(call_with_small_stack(register, b"a/b1", 0), expected);
            cases += 1;
        }
    }
    assert_eq!(cases, 3 * 3);

    // Two deep chains side by side.
    let mut root = Page::of_keys(&[b"b/b1"]);
    root.left = link_to(left_chain(128));
    root.entries[0].after = link_to(right_chain(128, 31));
    assert_eq!(call_with_small_stack(root.table(), b"b/b1", 1), 9);

    // A chain whose keys are as long as lawful keys can be.
    let mut long = right_chain(129, 31);
    for n in 0..129 {
        let page = long.page_mut(n);
        let mut keys = page.keys();
        for key in &mut keys {
            key.resize(256, b'k');
        }
        page.spell(&keys);
    }
    assert_eq!(call_with_small_stack(long.table(), b"b/b1", 1), 9);
    // A page linked as deep as can be, with a digest that is wrong.
    let mut wrong = left_chain(129);
    wrong.left.as_mut().expect("a link").flip[0] = 1;
    assert_eq!(call_with_small_stack(wrong.table(), b"b/b1", 1), 9);
}

/// Paths of as many pages as can follow one another, of as many entries as a page can have, and of
/// keys that are long.
#[test]
fn the_largest_paths() {
    for (chain, key) in [
        (left_chain(129), &b"a/b1"[..]),
        (right_chain(129, 31), b"chain/128.030"),
        (widest_page(), b"a/1eke"),
    ] {
        let root = chain.written();
        let path = root.path(key).concat();
        let verdict = verify_with_small_stack(&path, key, &root.digest);
        assert!(matches!(verdict, Ok(Some(_))), "{verdict:?}");
    }
    // One page too many; and prefixes as long as they can be, behind a root page without entries.
    let long = [vec![b'k'; 65_535], vec![b'k'; 65_545]];
    let right = Page::of_keys(&[&long[0], &long[1], b"z/z"]);
    let mut wrong = Page::of_keys(&[&long[0], &long[1], b"k/z"]);
    wrong.write_whole(2);
    for (root, expected) in [
        (left_chain(130), 3),
        (Page::above(right), 7),
        (Page::above(wrong), 6),
    ] {
        let root = root.written();
        let path = root.path(b"a/b1").concat();
        let verdict = verify_with_small_stack(&path, b"a/b1", &root.digest);
        assert_eq!(verdict, Err(expected));
    }
}

/// Inputs of the greatest length.
#[test]
fn the_longest_inputs() {
    assert_eq!(call_with_small_stack(vec![0; LONGEST], b"a/b1", 0), 3);
    assert_eq!(call_with_small_stack(vec![0; LONGEST + 1], b"a/b1", 0), 1);
    for (entries, expected) in [(65, 6), (4_096, 6), (4_097, 5)] {
        let register = longest_page(entries).table();
        assert_eq!(register.len(), LONGEST);
        assert_eq!(call_with_small_stack(register, b"a/b1", 0), expected);
    }
    // Right prefixes of keys that are too long.
    let mut page = longest_page(4_096);
    page.spell(&page.keys());
    assert_eq!(call_with_small_stack(page.table(), b"a/b1", 0), 7);
    // As many entries as a page can have, and many pages side by side.
    let mut page = Page {
        left: None,
        entries: vec![Entry::new(b"a/b1"); 65_535],
    };
    assert_eq!(call_with_small_stack(page.table(), b"a/b1", 0), 5);
    page.entries.truncate(40_000);
    for entry in &mut page.entries {
        entry.after = link_to(Page::default());
    }
    assert_eq!(call_with_small_stack(page.table(), b"a/b1", 0), 5);
    // The key argument is long.
    let register = table(&set(KINDS[0], 10));
    assert_eq!(call_with_small_stack(register, &vec![b'a'; LONGEST], 0), 0);
}

/// Merges that give 4,096 records, of halves and of every second record, with the keys of the
/// highest layers in one part, in both, or in none. The differences of the same registers too.
#[test]
fn the_largest_merges_and_differences() {
    let mut cases = 0;
    for kind in KINDS {
        let set = set(kind, 4_096);
        let parts = [
            (part(&set, |n| n < 2_048), part(&set, |n| n >= 2_048)),
            (part(&set, |n| n % 2 == 0), part(&set, |n| n % 2 == 1)),
        ];
        let whole = table(&set);
        for (one, other) in &parts {
            let (first, second) = (table(one), table(other));
            for second in [&whole, &second] {
                write_with_small_stack(&first, Call::difference(second), whole.len());
            }
            let merged = write_with_small_stack(&first, Call::merge(&second), whole.len());
            assert!(merged == whole, "{kind:?}");
            cases += 3;
        }
    }
    assert_eq!(cases, KINDS.len() * 2 * 3);

    // One page of long keys in which each key comes into a page of its own, below two others.
    let set = long_keys_in_turn(&[3, 0], 2_000);
    let whole = table(&set);
    let first = table(&part(&set, |n| n % 2 == 1));
    let call = Call::merge(&table(&part(&set, |n| n % 2 == 0)));
    assert!(write_with_small_stack(&first, call, whole.len()) == whole);
}

/// The highest key that is known comes into one page of 4,095 keys of layer 0: 16 pages follow one
/// another below the root. No deeper tree can be written, since no key of a higher layer is known.
#[test]
fn the_deepest_results() {
    let low = one_page_below_high(4_095);
    let one_page = table(&low);

    let key = HIGH[0].as_bytes();
    let mut with = low;
    with.insert(key.to_vec(), filled(0x77));
    let parted = table(&with);
    // The runs on both sides of the key are one page each, and those with it have 17.
    let (before, after) = (just_before(key), just_after(key));
    let (before, after) = (before.expect("a lesser key"), after.expect("a short key"));
    for (first, last) in [
        (&least_key()[..], &before[..]),
        (&least_key(), key),
        (key, &greatest_key()),
        (&after, &greatest_key()),
    ] {
        write_with_small_stack(&parted, Call::run(first, last), parted.len());
    }
    for call in NEIGHBOURS {
        neighbour_with_small_stack(&parted, call, key);
    }
    // The path of a key beside it has all 17 pages.
    let root = Page::of_set(&with);
    let root = root.written();
    for (sought, pages) in [(key, 1), (&before, 17), (&after, 17)] {
        let path = write_with_small_stack(&parted, Call::path(sought), parted.len());
        assert!(path == root.path(sought).concat());
        assert_eq!(root.path(sought).len(), pages);
        let verdict = verify_with_small_stack(&path, sought, &root.digest);
        assert_eq!(verdict.map(|place| place.is_some()), Ok(sought == key));
    }
    // The key's screen has 17 pages one below the other, and those beside it are one page each.
    let collection = collection_of(key);
    let screens = screens_of(&with, collection);
    let own = screens.iter().position(|screen| screen.contains_key(key));
    let own = own.expect("the key stands on one of the screens") as u64;
    for n in [own - 1, own, own + 1] {
        write_with_small_stack(&parted, Call::screen(collection, n), parted.len());
    }
    let put = Call::put(key, &filled(0x77));
    assert!(write_with_small_stack(&one_page, put, parted.len()) == parted);
    assert!(write_with_small_stack(&parted, Call::remove(key), one_page.len()) == one_page);
}

/// Runs that begin or end inside one page of long keys: of layers 3 and 0 in turn, so that below
/// each entry of the root stands a chain of pages. Screens of these keys too.
#[test]
fn runs_and_screens_of_long_keys() {
    let set = long_keys_in_turn(&[3, 0], 2_000);
    let register = table(&set);
    let keys: Vec<_> = set.keys().collect();
    let mut cases = 0;
    for (from, to) in [(0, 1_999), (1, 1_998), (1_000, 1_001), (501, 1_500)] {
        let call = Call::run(keys[from], keys[to]);
        write_with_small_stack(&register, call, register.len());
        for call in NEIGHBOURS {
            neighbour_with_small_stack(&register, call, keys[from]);
        }
        let call = Call::screen(collection_of(keys[from]), (from / PER_SCREEN) as u64);
        write_with_small_stack(&register, call, register.len());
        cases += 4;
    }
    assert_eq!(cases, 4 * 4);
}

/// A deep register that is refused, as the second of a merge or difference, behind a full one.
#[test]
fn a_full_register_and_a_deep_one() {
    let full = table(&set(Kind::Ordinary, 4_096));
    let mut cases = 0;
    for chain in [left_chain(129), right_chain(129, 31), left_chain(130)] {
        for call in [Call::merge, Call::difference] {
            write_with_small_stack(&full, call(&chain.table()), full.len());
            cases += 1;
        }
    }
    assert_eq!(cases, 3 * 2);
}

/// Lists of calls on full registers: what the plain map answers is known before they run.
#[test]
fn lists_of_calls() {
    let mut random = Random::new(2);
    let mut cases = 0;
    for kind in FULL_KINDS {
        let (start, source) = full_set(kind);
        let list = List::draw(&mut random, &source, &start, 15);
        let counts = with_small_stack(move || list.run());
        cases += counts.iter().sum::<usize>();
    }
    assert_eq!(cases, 4 * 15);
}
