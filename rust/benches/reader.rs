//! The times of the reading calls beside what they cannot do without: hashing each page and each
//! key once. Also beside the independent crate, in one run.

#[path = "../tests/common/mod.rs"]
mod common;
mod subject;
mod timing;

use common::neighbours::{Neighbour, NEIGHBOURS};
use std::hint::black_box;
use subject::Subject;
use timing::best_times;

fn check(subject: &Subject) {
    black_box(mijdegen::check(black_box(&subject.register))).expect("an accepted register");
}

fn independent_check(subject: &Subject) {
    black_box(independent::check(black_box(&subject.register))).expect("an accepted register");
}

/// Looks for the key in the middle.
fn lookup(subject: &Subject, key: &[u8]) {
    black_box(mijdegen::lookup(black_box(&subject.register), key)).expect("a present key");
}

/// Lists the record in the middle.
fn list(subject: &Subject) {
    let mut out = [0; 256];
    let register = black_box(&subject.register);
    black_box(mijdegen::list(register, 2_048, &mut out)).expect("a record");
    black_box(out);
}

/// Gives the record beside the key in the middle.
fn beside(subject: &Subject, call: Neighbour, key: &[u8]) {
    let mut out = [0; 256];
    let register = black_box(&subject.register);
    black_box(call.safe(register, key, &mut out)).expect("a record");
    black_box(out);
}

fn main() {
    let subjects = Subject::all();

    let mut owned: Vec<Box<dyn FnMut() + '_>> = Vec::new();
    for subject in &subjects {
        owned.push(Box::new(|| check(subject)));
        owned.push(Box::new(|| subject.hash_once()));
        owned.push(Box::new(|| independent_check(subject)));
    }
    let ordinary = &subjects[0];
    let key = ordinary.middle_key();
    owned.push(Box::new(|| lookup(ordinary, key)));
    owned.push(Box::new(|| list(ordinary)));
    for call in NEIGHBOURS {
        owned.push(Box::new(move || beside(ordinary, call, key)));
    }
    let mut tasks: Vec<&mut dyn FnMut()> = Vec::new();
    for task in &mut owned {
        tasks.push(task.as_mut());
    }
    let times = best_times(&mut tasks);

    println!("Times of one call in microseconds, best of many samples, all taken in turn.");
    println!("Hash-once is the library's digest of each page and each key, once each.");
    println!("Each register has 4,096 records.\n");
    println!(
        "{:<31} {:>8} {:>6} {:>9} {:>9} {:>12} {:>16} {:>18}",
        "register",
        "bytes",
        "pages",
        "check",
        "hash-once",
        "independent",
        "check/hash-once",
        "check/independent"
    );
    for (subject, times) in subjects.iter().zip(times.chunks(3)) {
        println!(
            "{:<31} {:>8} {:>6} {:>9.1} {:>9.1} {:>12.1} {:>16.2} {:>18.2}",
            subject.name,
            subject.register.len(),
            subject.pages(),
            times[0] * 1e6,
            times[1] * 1e6,
            times[2] * 1e6,
            times[0] / times[1],
            times[0] / times[2],
        );
    }

    println!("\nTime of check per byte, in nanoseconds, and beside that of ordinary records:\n");
    let per_byte = |n: usize| times[3 * n] * 1e9 / subjects[n].register.len() as f64;
    for (n, subject) in subjects.iter().enumerate() {
        println!(
            "{:<31} {:>8.2} {:>8.2}",
            subject.name,
            per_byte(n),
            per_byte(n) / per_byte(0)
        );
    }

    println!("\nThe other calls on the register of ordinary records, in microseconds, and beside");
    println!("hash-once:\n");
    let names = ["lookup", "list", "at_or_after", "before"];
    for (name, time) in names.iter().zip(&times[9..]) {
        println!("{:<31} {:>8.1} {:>8.2}", name, time * 1e6, time / times[1]);
    }
}
