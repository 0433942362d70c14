//! The exported functions, the C header and the Rust declarations name the same functions with the same parameters, in document 01's order; those are the
//! public operations; and the C test calls each of them. A function is compared as one line, as `slot(x: u64, k: u64, word: *mut u64) -> u64`.
//! The exported functions stand in modules, so 01's order is asked within each.

use std::fs;

const PREFIX: &str = "lichenfrock_";

/// The text of a file of the repository, in one line and without comments.
fn text(path: &str) -> String {
    let path = format!("{}/../../{path}", env!("CARGO_MANIFEST_DIR"));
    let text = fs::read_to_string(&path).unwrap_or_else(|error| panic!("{path}: {error}"));
    let code = text.lines().map(|line| line.split("//").next().unwrap().trim()).collect::<Vec<_>>().join(" ");
    code.split("/*").map(|piece| piece.split_once("*/").map_or(piece, |(_, code)| code)).collect()
}

/// What stands between `start` and the nearest `end`, each time.
fn between(text: &str, start: &str, end: &str) -> Vec<String> {
    text.split(start)
        .skip(1)
        .map(|rest| rest.split(end).next().unwrap().trim().to_string())
        .collect()
}

/// A function of the form `NAME(PARAMETERS) -> RESULT`, each parameter put into the common form by `parameter`.
fn declaration(function: &str, parameter: impl Fn(&str) -> String) -> String {
    let (name, rest) = function.split_once('(').unwrap();
    let (parameters, result) = rest.split_once(") -> ").unwrap();
    let parameters: Vec<String> = parameters.split(',').map(str::trim).filter(|text| !text.is_empty()).map(parameter).collect();
    format!("{name}({}) -> {result}", parameters.join(", "))
}

/// `words: &[u64]` is a pointer and a length.
fn of_rattle(parameter: &str) -> String {
    let (name, kind) = parameter.split_once(": ").unwrap();
    let (pointer, rest) = match kind.strip_prefix("&mut ") {
        Some(rest) => ("*mut ", rest),
        None => kind.strip_prefix('&').map_or(("", kind), |rest| ("*const ", rest)),
    };
    match rest.strip_prefix('[').and_then(|rest| rest.strip_suffix(']')) {
        Some(item) => format!("{name}: {pointer}{item}, {name}_len: usize"),
        None => format!("{name}: {pointer}{rest}"),
    }
}

fn of_rust(parameter: &str) -> String {
    parameter.replace("&mut ", "*mut ")
}

fn of_c(parameter: &str) -> String {
    let (kind, name) = parameter.rsplit_once(' ').unwrap();
    match (name.strip_prefix('*'), kind.strip_prefix("const ")) {
        (Some(name), Some(kind)) => format!("{name}: *const {}", number(kind)),
        (Some(name), None) => format!("{name}: *mut {}", number(kind)),
        (None, _) => format!("{name}: {}", number(kind)),
    }
}

/// The Rust name of a number of C.
fn number(kind: &str) -> &str {
    match kind {
        "uint64_t" => "u64",
        "uint8_t" => "u8",
        "int64_t" => "i64",
        "int32_t" => "i32",
        "size_t" => "usize",
        "bool" => "bool",
        _ => panic!("a type that is not known here: {kind}"),
    }
}

/// The exported functions of each module that the library's root names.
fn exported() -> Vec<Vec<String>> {
    let of_module = |module: &String| {
        let module = text(&format!("crates/lichenfrock/src/{module}.rt"));
        let functions = between(&module, &format!("extern \"C\" fn {PREFIX}"), " ensures");
        functions.iter().map(|function| declaration(function, of_rattle)).collect()
    };
    between(&text("crates/lichenfrock/src/lib.rt"), "mod ", ";").iter().map(of_module).collect()
}

fn declared_in_rust() -> Vec<String> {
    let functions = between(&text("rust/lichenfrock/src/raw.rs"), &format!("fn {PREFIX}"), ";");
    functions.iter().map(|function| declaration(function, of_rust)).collect()
}

fn declared_in_c() -> Vec<String> {
    let header = text("include/lichenfrock.h");
    let statements = header.split(';').filter_map(|statement| statement.rsplit_once(&format!(" {PREFIX}")));
    statements
        .map(|(before, function)| {
            let result = before.split_whitespace().last().unwrap();
            declaration(&format!("{} -> {}", function.trim(), number(result)), of_c)
        })
        .collect()
}

fn sorted(mut functions: Vec<String>) -> Vec<String> {
    functions.sort();
    functions
}

#[test]
fn all_declare_the_same_functions() {
    let declared = declared_in_c();
    assert_eq!(declared_in_rust(), declared);
    let exported = exported();
    assert_eq!(sorted(exported.concat()), sorted(declared.clone()));
    for functions in exported {
        let in_order: Vec<String> = declared.iter().filter(|function| functions.contains(function)).cloned().collect();
        assert_eq!(functions, in_order);
    }
}

#[test]
fn every_operation_is_declared_and_called() {
    let operations = between(&text("crates/goldilocks/src/lib.rt"), "pub use ", ";");
    let operations = operations
        .iter()
        .map(|path| path.split_once("::").unwrap().1)
        .filter(|name| name.starts_with(char::is_lowercase));
    let operations: Vec<&str> = operations.collect();
    let declared = declared_in_c();
    let names: Vec<&str> = declared.iter().map(|function| function.split_once('(').unwrap().0).collect();
    assert!(!names.is_empty());
    assert_eq!(names, operations);
    let test = text("c/every_function.c");
    for name in names {
        assert!(test.contains(&format!("{PREFIX}{name}(")), "c/every_function.c does not call {PREFIX}{name}");
    }
}
