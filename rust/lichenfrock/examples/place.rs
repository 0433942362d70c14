//! Places a key: `cargo run --example place KEY BITS` writes the slot of BITS bits that the word KEY stands in. Numbers are decimal, or hexadecimal after 0x.

use lichenfrock::Goldilocks;
use std::process::ExitCode;

fn number(text: &str) -> Option<u64> {
    match text.strip_prefix("0x") {
        Some(digits) => u64::from_str_radix(digits, 16).ok(),
        None => text.parse().ok(),
    }
}

fn main() -> ExitCode {
    let arguments: Vec<String> = std::env::args().skip(1).collect();
    let numbers: Vec<u64> = arguments.iter().filter_map(|text| number(text)).collect();
    let (2, &[key, bits]) = (arguments.len(), &numbers[..]) else {
        eprintln!("usage: place KEY BITS");
        return ExitCode::from(2);
    };
    let key = Goldilocks::new(key);
    match key.slot(bits) {
        Ok(slot) => {
            println!("key {key}: slot {slot} of {}", 1_u64 << bits);
            ExitCode::SUCCESS
        }
        Err(refusal) => {
            eprintln!("refused {}: {refusal}", refusal.number());
            ExitCode::FAILURE
        }
    }
}
