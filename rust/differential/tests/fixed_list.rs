//! The fixed list and the operations that are compared.

use differential::compare_fixed;
use oracle::Operation;
use std::fs;
use std::path::Path;

fn read(path: &str) -> String {
    let path = Path::new(env!("CARGO_MANIFEST_DIR")).join("../..").join(path);
    fs::read_to_string(&path).unwrap_or_else(|error| panic!("{}: {error}", path.display()))
}

#[test]
fn the_list_is_made_again_byte_for_byte() {
    let (kept, made) = (read("crates/replay/stdin"), oracle::fixed_list());
    let first = kept.lines().zip(made.lines()).position(|(kept, made)| kept != made);
    assert_eq!(first, None, "the first line that differs, from 0");
    assert!(kept == made, "{} bytes are kept and {} are made", kept.len(), made.len());
}

#[test]
fn its_lines_have_one_width_and_are_enough() {
    let list = read("crates/replay/stdin");
    assert!(list.lines().all(|line| line.len() == 112));
    assert!(list.lines().count() >= 20_000);
}

#[test]
fn no_operation_is_left_out() {
    let table = read("crates/goldilocks/src/lib.rt");
    let listed = table
        .lines()
        .filter_map(|line| line.strip_prefix("pub use ")?.strip_suffix(';')?.rsplit("::").next());
    let operations: Vec<&str> = listed.filter(|name| name.starts_with(char::is_lowercase)).collect();
    let compared: Vec<&str> = Operation::ALL.iter().map(|operation| operation.name()).collect();
    assert_eq!(compared, operations);
    let list = read("crates/replay/stdin");
    for name in operations {
        assert!(list.lines().any(|line| line.split(' ').next() == Some(name)), "{name} is not on the list");
    }
}

#[test]
fn the_library_agrees_with_the_list() {
    compare_fixed(|difference| panic!("{difference}"));
}
