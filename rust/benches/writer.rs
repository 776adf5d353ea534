//! The times of the writing calls beside what they cannot do without: hashing each page and each
//! key once. Also beside the independent crate, in one run.

#[path = "../tests/common/mod.rs"]
mod common;
mod subject;
mod timing;

use common::heads::head_of;
use common::sets::{greatest_key, least_key, of_layer, part, Kind};
use common::values::GREATEST;
use common::writes::Call;
use independent::{table, Set};
use mijdegen::Head;
use std::hint::black_box;
use subject::Subject;
use timing::best_times;

/// A call on a register, with the number of the subject whose register it gives or is lent.
struct Case {
    subject: usize,
    name: &'static str,
    register: Vec<u8>,
    /// The register's head, which each call is lent.
    head: Head,
    call: Call,
    /// The length of the result, and of the output.
    length: usize,
}

impl Case {
    fn new(subject: usize, name: &'static str, set: &Set, call: Call, result: &Set) -> Case {
        let (register, expected) = (table(set), table(result));
        let (head, length) = (head_of(set), Ok(expected.len()));
        let mut out = vec![0; expected.len()];
        assert_eq!(call.safe(&register, &mut { head }, &mut out), length);
        assert!(out == expected);
        assert_eq!(call.independent(&register, &mut { head }, &mut out), length);
        assert!(out == expected);
        Case {
            subject,
            name,
            register,
            head,
            call,
            length: expected.len(),
        }
    }

    /// Calls the library. The head is lent as it was taken beforehand.
    fn write(&self, out: &mut [u8]) {
        let mut head = black_box(self.head);
        black_box(self.call.safe(black_box(&self.register), &mut head, out)).expect("room");
        black_box(head);
    }

    /// Calls the independent crate.
    fn independent_write(&self, out: &mut [u8]) {
        let (register, mut head) = (black_box(&self.register), black_box(self.head));
        black_box(self.call.independent(register, &mut head, out)).expect("room");
        black_box(head);
    }

    /// Five calls, all but remove with the subject as their result.
    fn all(number: usize, subject: &Subject) -> [Case; 5] {
        let set = &subject.set;
        let key = subject.middle_key();
        let mut without = set.clone();
        without.remove(key);
        // The value is greater than each random one.
        let mut greater = set.clone();
        greater.insert(key.to_vec(), GREATEST);
        // Every second record; or every second pair, so that both parts alternate too.
        let wanted: fn(usize) -> bool = match subject.kind {
            Kind::Alternating => |n| n / 2 % 2 == 0,
            _ => |n| n % 2 == 0,
        };
        let (first, second) = (part(set, wanted), part(set, |n| !wanted(n)));
        assert_eq!((first.len(), second.len()), (2_048, 2_048));
        let (least, greatest) = (least_key(), greatest_key());
        [
            Case::new(number, "run", set, Call::run(&least, &greatest), set),
            Case::new(number, "put", &without, Call::put(key, &set[key]), set),
            Case::new(number, "join", set, Call::join(key, &GREATEST), &greater),
            Case::new(number, "remove", set, Call::remove(key), &without),
            Case::new(number, "merge", &first, Call::merge(&table(&second)), set),
        ]
    }
}

fn main() {
    let subjects = Subject::all();
    let mut cases = Vec::new();
    for (number, subject) in subjects.iter().enumerate() {
        cases.extend(Case::all(number, subject));
    }
    // One page of 2,048 keys of layer 0, parted by 2,048 keys of layer 1 between them.
    let parted = &subjects[2].set;
    let (low, high) = (of_layer(parted, 0), of_layer(parted, 1));
    assert_eq!((low.len(), high.len()), (2_048, 2_048));
    let call = Call::merge(&table(&high));
    cases.push(Case::new(
        2,
        "merge that parts one page",
        &low,
        call,
        parted,
    ));

    let mut owned: Vec<Box<dyn FnMut() + '_>> = Vec::new();
    for subject in &subjects {
        owned.push(Box::new(|| subject.hash_once()));
    }
    for case in &cases {
        let mut out = vec![0; case.length];
        owned.push(Box::new(move || case.write(&mut out)));
        let mut out = vec![0; case.length];
        owned.push(Box::new(move || case.independent_write(&mut out)));
    }
    let mut tasks: Vec<&mut dyn FnMut()> = Vec::new();
    for task in &mut owned {
        tasks.push(task.as_mut());
    }
    let times = best_times(&mut tasks);
    let (hash_once, times) = times.split_at(subjects.len());

    println!("Times of one call in microseconds, best of many samples, all taken in turn.");
    println!("Hash-once is the library's digest of each page and each key, once each, of the");
    println!("register of 4,096 records: that which put and merge give, and run, join and remove");
    println!("take. A run is of the whole register. A merge is of two registers of 2,048 records");
    println!("with no key in common. The output is just long enough, and the head is taken");
    println!("beforehand. The last two columns are the library's nanoseconds for each byte of the");
    println!("result, and these beside the same call on ordinary records.\n");
    println!(
        "{:<31} {:<26} {:>7} {:>9} {:>9} {:>12} {:>10} {:>12} {:>8} {:>9}",
        "register",
        "call",
        "bytes",
        "library",
        "hash-once",
        "independent",
        "/hash-once",
        "/independent",
        "per byte",
        "/ordinary"
    );
    let per_byte = |n: usize| times[2 * n] * 1e9 / cases[n].length as f64;
    for (n, case) in cases.iter().enumerate() {
        let (library, independent) = (times[2 * n], times[2 * n + 1]);
        let hash_once = hash_once[case.subject];
        let ordinary = cases
            .iter()
            .position(|other| case.name.starts_with(other.name));
        let ordinary = ordinary.expect("the first cases are the five calls");
        println!(
            "{:<31} {:<26} {:>7} {:>9.1} {:>9.1} {:>12.1} {:>10.2} {:>12.2} {:>8.2} {:>9.2}",
            subjects[case.subject].name,
            case.name,
            case.length,
            library * 1e6,
            hash_once * 1e6,
            independent * 1e6,
            library / hash_once,
            library / independent,
            per_byte(n),
            per_byte(n) / per_byte(ordinary),
        );
    }
}
