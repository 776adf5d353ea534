//! The speed of `digest` beside that of the independent SHA-256, in one run.

mod timing;

use std::hint::black_box;
use timing::{compare, megabytes_per_second};

fn main() {
    println!("MB/s is millions of input bytes per second, best of many samples.");
    println!("The ratio is the library's speed divided by the independent speed.\n");
    println!(
        "{:>12} {:>15} {:>18} {:>7}",
        "size (bytes)", "library (MB/s)", "independent (MB/s)", "ratio"
    );

    for size in [64, 100, 1_024, 4_194_304] {
        let input: Vec<u8> = (0..size).map(|place| (place % 251) as u8).collect();
        assert_eq!(mijdegen::digest(&input), Ok(independent::sha256(&input)));

        let best = compare(
            || mijdegen::digest(black_box(&input)),
            || independent::sha256(black_box(&input)),
        );
        println!(
            "{:>12} {:>15.1} {:>18.1} {:>7.2}",
            size,
            megabytes_per_second(size, best.library),
            megabytes_per_second(size, best.independent),
            best.ratio()
        );
    }
}
