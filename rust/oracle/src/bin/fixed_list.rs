//! Writes the fixed list: `cargo run --release --bin fixed_list > ../crates/replay/stdin`, in the folder rust, makes it again.

fn main() {
    print!("{}", oracle::fixed_list());
}
