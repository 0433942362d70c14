//! The proved library against the scalar Rust that it was ported from, in one run: a round times both, one after the other, and the next round the
//! other way about. It writes the ratio of the best times and the median of the rounds' ratios, the library's time over the Rust's.
//!
//! `call` has the Rust behind a call as well, since the library is an archive and never in line; `in line` has it as a Rust program does.

mod jobs;
mod rounds;

use rounds::ratios;

fn main() {
    println!("| Job | best ratio | median ratio |\n|---|---|---|");
    for job in jobs::all() {
        let (best, median) = ratios(&job);
        println!("| {} | {best:.2} | {median:.2} |", job.name);
    }
}
