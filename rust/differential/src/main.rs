//! Compares the library with the Rust on the fixed list and on random calls: `differential [CALLS [SEED]]`. The same seed asks the same calls.
//! Its exit status is 1 where anything differs.

use std::env;
use std::process::ExitCode;
use std::time::Instant;

/// As many as take some seconds.
const CALLS: u64 = 10_000_000;
/// Of what differs, so much is written.
const WRITTEN: u64 = 20;

fn main() -> ExitCode {
    let mut numbers = env::args().skip(1).map(|word| word.parse());
    let (Ok(calls), Ok(seed), None) = (numbers.next().unwrap_or(Ok(CALLS)), numbers.next().unwrap_or(Ok(1)), numbers.next()) else {
        eprintln!("usage: differential [CALLS [SEED]], two whole numbers");
        return ExitCode::from(2);
    };
    let start = Instant::now();
    let mut different = 0;
    let mut differs = |difference| {
        different += 1;
        if different <= WRITTEN {
            println!("{difference}");
        }
    };
    let fixed = differential::compare_fixed(&mut differs);
    differential::compare(calls, seed, &mut differs);
    println!(
        "{fixed} calls of the fixed list and {calls} of seed {seed} compared with the Rust in {:.1} s: {different} differ",
        start.elapsed().as_secs_f64()
    );
    ExitCode::from(u8::from(different > 0))
}
