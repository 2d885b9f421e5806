//! Compares the library with the plain implementation: `compare [CALLS [SEED]]`.

use std::{env, process, time::Instant};

fn main() {
    let mut arguments = env::args().skip(1).map(|word| {
        word.parse::<u64>().unwrap_or_else(|_| {
            eprintln!("usage: compare [CALLS [SEED]]");
            process::exit(2)
        })
    });
    let calls = arguments.next().unwrap_or(2_000_000);
    let seed = arguments.next().unwrap_or(1);

    let start = Instant::now();
    let coverage = makxirund::compare::run(seed, calls);
    println!(
        "seed {seed}: no difference in {:.1} s",
        start.elapsed().as_secs_f64()
    );
    print!("{coverage}");
    let unmet = coverage.unmet();
    if !unmet.is_empty() {
        println!("never or too seldom met: {unmet:?}");
        process::exit(1);
    }
}
