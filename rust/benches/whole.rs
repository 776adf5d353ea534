//! The times of all seventeen calls on ordinary records, beside the independent crate and beside
//! what the calls cannot do without: hashing each page and each key of the lent registers once, or
//! each page of a lent path. Also the difference of two full registers that are nearly the same,
//! and of two with nothing in common, and the calls on registers and paths that a careless reader
//! is slow on. Targets stand beside.

#[path = "../tests/common/mod.rs"]
mod common;
mod hard;
mod subject;
mod timing;

use common::heads::{head_for, head_of};
use common::neighbours::Neighbour;
use common::sets::{collection_of, part, screens_of, set, Kind};
use common::values::{filled, GREATEST};
use common::writes::{length_in, Call};
use hard::{Hard, HardPath};
use independent::Set;
use std::hint::black_box;
use std::time::Duration;
use subject::{blocks, Paths, Subject};
use timing::best_times_within;

/// The time for the samples of one task. The whole run takes about three minutes.
const EACH: Duration = Duration::from_millis(600);

/// How many paths of one register are judged at most.
const MOST_PATHS: usize = 256;

/// A call, by the library and by the independent crate, and the hashing it cannot do without.
struct Case<'a> {
    name: &'static str,
    /// How many calls one run of the tasks is counted as.
    calls: usize,
    library: Box<dyn FnMut() + 'a>,
    independent: Box<dyn FnMut() + 'a>,
    hash_once: Box<dyn FnMut() + 'a>,
}

/// The times of the three for one call, in seconds.
struct Times {
    library: f64,
    independent: f64,
    hash_once: f64,
}

impl<'a> Case<'a> {
    fn new<A, B>(
        name: &'static str,
        mut library: impl FnMut() -> A + 'a,
        mut independent: impl FnMut() -> B + 'a,
        hash_once: impl FnMut() + 'a,
    ) -> Case<'a> {
        Case {
            name,
            calls: 1,
            library: Box::new(move || {
                black_box(library());
            }),
            independent: Box::new(move || {
                black_box(independent());
            }),
            hash_once: Box::new(hash_once),
        }
    }

    /// A writing call with an output that is just long enough. The second register is among the
    /// lent ones where there is one. Each call is lent the same head, which was taken beforehand.
    fn write(name: &'static str, lent: &'a [&'a Subject], call: Call) -> Case<'a> {
        let register = &lent[0].register;
        let head = head_of(&lent[0].set);
        let mut expected = vec![0; 2 * register.len() + 10_000];
        let mut expected_head = head;
        let value = call.independent(register, &mut expected_head, &mut expected);
        expected.truncate(length_in(value.expect("room")));
        let (mut out, mut moved) = (vec![0; expected.len()], head);
        assert_eq!(call.safe(register, &mut moved, &mut out), value);
        assert!(out == expected && moved == expected_head, "{name}");

        let mut other_out = out.clone();
        let other_call = call.clone();
        Case::new(
            name,
            move || {
                let mut lent = black_box(head);
                let value = call.safe(black_box(register), &mut lent, &mut out);
                (value, lent)
            },
            move || {
                let mut lent = black_box(head);
                let value = other_call.independent(black_box(register), &mut lent, &mut other_out);
                (value, lent)
            },
            || lent.iter().for_each(|subject| subject.hash_once()),
        )
    }
}

/// Times all cases in turn.
fn times(cases: &mut [Case]) -> Vec<Times> {
    let calls: Vec<f64> = cases.iter().map(|case| case.calls as f64).collect();
    let mut tasks: Vec<&mut dyn FnMut()> = Vec::new();
    for case in cases {
        tasks.push(&mut case.library);
        tasks.push(&mut case.independent);
        tasks.push(&mut case.hash_once);
    }
    let times = best_times_within(EACH, &mut tasks);
    let times = times.chunks(3).zip(calls).map(|(times, calls)| Times {
        library: times[0] / calls,
        independent: times[1] / calls,
        hash_once: times[2] / calls,
    });
    times.collect()
}

/// Registers of so many records, for all calls.
struct Lent {
    whole: Subject,
    /// The whole without its middle record.
    without: Subject,
    /// Every second record of the whole, and the others.
    parts: [Subject; 2],
    /// The paths of keys of the whole.
    paths: Paths,
}

impl Lent {
    fn new(count: usize) -> Lent {
        let whole = blocks(set(Kind::Ordinary, count));
        let subject = |set: Set| Subject::of_set("ordinary records", Kind::Ordinary, set);
        Lent {
            without: subject(part(&whole, |n| n != count / 2)),
            parts: [0, 1].map(|which| subject(part(&whole, |n| n % 2 == which))),
            paths: Paths::of_set(&whole, MOST_PATHS),
            whole: subject(whole),
        }
    }
}

/// All seventeen calls. Put is lent the register without the middle record, merge two of half as
/// many records, difference the one without the middle record and the whole one, the others the
/// whole. A run is of all records, and of 8 around the middle one. The screen is the middle one of
/// the middle record's collection, which is one of four. The path is that of the middle key. Slash
/// is asked of each key; it hashes nothing, and the digest of each key stands beside it. Verify is
/// asked of the paths of keys all over the register, beside the digests of their pages.
fn all_calls<'a>(
    whole: &'a Subject,
    paths: &'a Paths,
    lent: &'a [[&'a Subject; 2]; 4],
) -> Vec<Case<'a>> {
    let register = &whole.register[..];
    let key = whole.middle_key();
    let value = &whole.set[key];
    let middle = whole.set.len() / 2;
    let hash_once = || whole.hash_once();
    let hash_input = || {
        black_box(mijdegen::digest(black_box(register))).expect("a register is short");
    };
    let (mut key_out, mut other_key_out, mut value_out) = ([0; 256], [0; 256], [0; 33]);
    let [put, one, merge, difference] = lent;
    let second = |pair: &[&Subject; 2]| pair[1].register.clone();
    let keys: Vec<&[u8]> = whole.set.keys().map(Vec::as_slice).collect();
    let run = |from: usize, to: usize| Call::run(keys[from], keys[to]);
    let collection = collection_of(key);
    let screens = screens_of(&whole.set, collection).len() as u64;
    vec![
        Case::new(
            "digest",
            || mijdegen::digest(black_box(register)),
            || independent::sha256(black_box(register)),
            hash_input,
        ),
        Case::new(
            "layer",
            || mijdegen::layer(black_box(register)),
            || independent::layer(black_box(register)),
            hash_input,
        ),
        Case::new(
            "slash of each key",
            || whole.for_each_key(mijdegen::slash),
            || whole.for_each_key(independent::slash),
            || whole.hash_keys(),
        ),
        Case::new(
            "check",
            || mijdegen::check(black_box(register)),
            || independent::check(black_box(register)),
            hash_once,
        ),
        Case::new(
            "lookup",
            || mijdegen::lookup_place(black_box(register), black_box(key)),
            || independent::lookup(black_box(register), black_box(key)),
            hash_once,
        ),
        Case::new(
            "list",
            move || mijdegen::list(black_box(register), middle, &mut key_out),
            move || {
                let n = middle as u64;
                independent::list(black_box(register), n, &mut other_key_out, &mut value_out)
            },
            hash_once,
        ),
        beside("at_or_after", Neighbour::AtOrAfter, whole),
        beside("before", Neighbour::Before, whole),
        Case::write("run of all", &one[..1], run(0, whole.set.len() - 1)),
        Case::write("run of 8 records", &one[..1], run(middle - 4, middle + 3)),
        Case::write("put", &put[..1], Call::put(key, value)),
        Case::write("join", &one[..1], Call::join(key, &GREATEST)),
        Case::write("remove", &one[..1], Call::remove(key)),
        Case::write("merge", merge, Call::merge(&second(merge))),
        Case::write(
            "difference",
            difference,
            Call::difference(&second(difference)),
        ),
        Case::write("screen", &one[..1], Call::screen(collection, screens / 2)),
        Case::write("path", &one[..1], Call::path(key)),
        Case {
            calls: paths.count(),
            ..Case::new(
                "verify",
                || paths.verify(),
                || paths.independent_verify(),
                || paths.hash_pages(),
            )
        },
    ]
}

/// The call that gives the record beside the middle key.
fn beside<'a>(name: &'static str, call: Neighbour, whole: &'a Subject) -> Case<'a> {
    let (register, key) = (&whole.register[..], whole.middle_key());
    let (mut out, mut other_out, mut value) = ([0; 256], [0; 256], [0; 33]);
    Case::new(
        name,
        move || call.safe(black_box(register), black_box(key), &mut out),
        move || {
            let (register, key) = (black_box(register), black_box(key));
            call.independent(register, key, &mut other_out, &mut value)
        },
        || whole.hash_once(),
    )
}

/// Gives two sets of 4,096 records each: with all but 10 in common, and with none.
fn full_pairs() -> [(&'static str, [Subject; 2]); 2] {
    let all = blocks(set(Kind::Ordinary, 8_192));
    let subject = |set: Set| {
        assert_eq!(set.len(), 4_096);
        Subject::of_set("ordinary records", Kind::Ordinary, set)
    };
    // Of 4,106 records 10 stand in the first alone, and 10 others in the second alone.
    let apart = |n: usize| n % 410 == 7 || n % 410 == 207;
    let near = [7, 207].map(|place| {
        let wanted = |n: usize| n < 4_106 && (!apart(n) || n % 410 == place);
        subject(part(&all, wanted))
    });
    let far = [0, 1].map(|which| subject(part(&all, |n| n % 2 == which)));
    [
        ("difference, 10 apart", near),
        ("difference, nothing shared", far),
    ]
}

/// The most that a call may take beside hash-once, at 4,096 records; for verify, at any count.
fn most_beside_hash_once(count: usize, name: &str) -> Option<f64> {
    match (name, count) {
        ("verify", _) => Some(1.5),
        ("check", 4_096) => Some(1.2),
        ("put" | "join" | "remove", 4_096) => Some(1.5),
        ("merge", 4_096) => Some(2.2),
        ("screen" | "path", 4_096) => Some(1.3),
        ("difference, 10 apart", 4_096) => Some(1.3),
        ("difference, nothing shared", 4_096) => Some(1.78),
        _ => None,
    }
}

/// The most that a call may take at any count, beside the independent crate.
const MOST_BESIDE_INDEPENDENT: f64 = 0.95;

/// The most that a call may take for each byte hashed, beside the same call on ordinary records.
const MOST_BESIDE_ORDINARY: f64 = 2.0;

/// Says which targets the ratios miss.
fn missed(ratios: &[(f64, Option<f64>)]) -> String {
    let mut text = String::new();
    for (ratio, most) in ratios {
        if let Some(most) = most.filter(|most| ratio > most) {
            text += &format!("  over {most}");
        }
    }
    text
}

/// Writes a row of the table.
fn row(count: usize, name: &str, times: &Times) -> String {
    let beside_hash_once = times.library / times.hash_once;
    let beside_independent = times.library / times.independent;
    let most = most_beside_hash_once(count, name);
    format!(
        "{count:>7}  {name:<27} {:>9.2} {:>9.2} {:>12.2} {:>10.2} {:>12.2}{}",
        times.library * 1e6,
        times.hash_once * 1e6,
        times.independent * 1e6,
        beside_hash_once,
        beside_independent,
        missed(&[
            (beside_hash_once, most),
            (beside_independent, Some(MOST_BESIDE_INDEPENDENT)),
        ])
    )
}

/// Times the calls at so many records, and the differences of these pairs, and writes their rows.
fn print_all_calls(count: usize, pairs: &[(&'static str, [Subject; 2])]) {
    let made = Lent::new(count);
    let lent = [
        [&made.without; 2],
        [&made.whole; 2],
        [&made.parts[0], &made.parts[1]],
        [&made.without, &made.whole],
    ];
    let pairs: Vec<_> = pairs
        .iter()
        .map(|(name, [first, second])| (*name, [first, second]))
        .collect();
    let mut cases = all_calls(&made.whole, &made.paths, &lent);
    for (name, lent) in &pairs {
        let call = Call::difference(&lent[1].register);
        cases.push(Case::write(name, lent, call));
    }
    for (times, case) in times(&mut cases).iter().zip(&cases) {
        println!("{}", row(count, case.name, times));
    }
    println!();
}

/// Six calls on a pair of registers: check, put, screen and path are lent the first, merge and
/// difference both. An output is just long enough, or as long as the first register where the call
/// is refused. The head is that of the first register, where it is accepted. The screen is of a
/// collection that both the ordinary registers and the accepted hard ones have, and the path leads
/// into the midst of it.
fn calls_on_pair<'a>([first, second]: [&'a [u8]; 2]) -> [Box<dyn FnMut() + 'a>; 6] {
    let head = head_for(first);
    let write = |call: Call| -> Box<dyn FnMut() + 'a> {
        let mut out = vec![0; first.len() + second.len()];
        let value = call.safe(first, &mut { head }, &mut out);
        out.truncate(value.map_or(first.len(), length_in));
        Box::new(move || {
            let mut lent = black_box(head);
            let _ = black_box(call.safe(black_box(first), &mut lent, &mut out));
            black_box(lent);
        })
    };
    [
        Box::new(move || {
            let _ = black_box(mijdegen::check(black_box(first)));
        }),
        write(Call::put(b"a/b1", &filled(0x77))),
        write(Call::merge(second)),
        write(Call::difference(second)),
        write(Call::screen(b"app.bsky.feed.post", 20)),
        write(Call::path(b"app.bsky.feed.post/3jqf000002000")),
    ]
}

/// Times the six calls on hard registers beside ordinary ones and writes the ratios of the times
/// for each byte hashed.
fn print_hard_calls(ordinary: &[Subject; 2]) {
    println!("{:<36} {:>12}  {}", "registers", "bytes hashed", HARD_CALLS);
    for hard in Hard::all() {
        let pairs = [
            (
                ordinary.each_ref().map(|subject| &subject.register[..]),
                ordinary.each_ref().map(Subject::hashed),
            ),
            (hard.registers.each_ref().map(Vec::as_slice), hard.hashed),
        ];
        let mut owned: Vec<_> = pairs
            .iter()
            .flat_map(|(pair, _)| calls_on_pair(*pair))
            .collect();
        let mut tasks: Vec<&mut dyn FnMut()> = Vec::new();
        for task in &mut owned {
            tasks.push(task.as_mut());
        }
        let times = best_times_within(EACH, &mut tasks);
        // Check, put, screen and path hash the first register, merge and difference both.
        let [usual, all] = pairs.map(|(_, [first, second])| {
            let both = first + second;
            [first, first, both, both, first, first].map(|bytes| bytes as f64)
        });
        let ratios: Vec<f64> = (0..6)
            .map(|n| (times[6 + n] / all[n]) / (times[n] / usual[n]))
            .collect();
        let shown: String = ratios
            .iter()
            .map(|ratio| format!("{ratio:>12.2}"))
            .collect();
        let targets: Vec<_> = ratios
            .iter()
            .map(|ratio| (*ratio, Some(MOST_BESIDE_ORDINARY)))
            .collect();
        println!(
            "{:<36} {:>12}  {shown}{}",
            hard.name,
            hard.hashed[0],
            missed(&targets)
        );
    }
}

/// Times verify on hard paths beside ordinary ones and writes the ratios of the times for each
/// byte.
fn print_hard_paths(ordinary: &Paths) {
    println!("{:<36} {:>12}  {:>12}", "path", "bytes", "verify");
    for hard in HardPath::all() {
        let (path, key) = (&hard.path[..], &hard.key[..]);
        let times = best_times_within(
            EACH,
            &mut [&mut || ordinary.verify(), &mut || {
                let _ = black_box(mijdegen::verify(black_box(path), key, &hard.root));
            }],
        );
        let ratio = (times[1] / path.len() as f64) / (times[0] / ordinary.bytes() as f64);
        println!(
            "{:<36} {:>12}  {ratio:>12.2}{}",
            hard.name,
            path.len(),
            missed(&[(ratio, Some(MOST_BESIDE_ORDINARY))])
        );
    }
}

/// The heads of the columns of the six calls.
const HARD_CALLS: &str = "       check         put       merge  difference      screen        path";

fn main() {
    println!("Times of one call in microseconds, best of many samples, all of one count taken in");
    println!(
        "turn. Hash-once is the library's digest of each page and each key, once each, of the"
    );
    println!(
        "lent registers, called as C does in a bare loop; for digest and layer, of the input,"
    );
    println!(
        "which is the register. Put gives so many records and merge joins two halves of them."
    );
    println!(
        "Difference is of the register without one record and the whole one; the last two are"
    );
    println!(
        "of two registers of 4,096 records. At_or_after and before are of the middle key, and the"
    );
    println!(
        "screen is the middle one of its collection. The path is that of the middle key. Slash is"
    );
    println!(
        "one call for each key, beside the digest of each key. Verify is one call on average, over"
    );
    println!(
        "the paths of {MOST_PATHS} keys or fewer, beside the digests of the path's pages. Outputs are"
    );
    println!(
        "just long enough, and heads are taken beforehand. What is over its target is marked.\n"
    );
    println!(
        "{:>7}  {:<27} {:>9} {:>9} {:>12} {:>10} {:>12}",
        "records", "call", "library", "hash-once", "independent", "/hash-once", "/independent"
    );
    for count in [10, 100, 1_000] {
        print_all_calls(count, &[]);
    }
    print_all_calls(4_096, &full_pairs());

    println!("Time for each byte hashed, pages and keys, beside that of the same call on two");
    println!("registers of 2,048 ordinary records with nothing in common:\n");
    let made = Lent::new(4_096);
    print_hard_calls(&made.parts);

    println!("\nTime for each byte of a path, beside that of the paths of {MOST_PATHS} keys in a");
    println!("register of 4,096 ordinary records:\n");
    print_hard_paths(&made.paths);
}
