//! Finds the source, tests that it is the one that is meant, and hands it to the compiler as it stands.

use std::env;
use std::fs;
use std::path::{Path, PathBuf};
use std::process::{exit, Command};

/// Names the source where it does not stand beside the repository.
const VARIABLE: &str = "GOLDILOCKS_RS";
const BESIDE: &str = "../../../shared/docs/src/src/goldilocks.rs";
/// `src/goldilocks.rs` of p3-goldilocks 0.8.0.
const SHA256: &str = "e11cc54d5946e872ca02cc3b8fbc458849687b95f03b659f385095a0cd1545e5";

fn main() {
    println!("cargo::rerun-if-env-changed={VARIABLE}");
    let named = env::var_os(VARIABLE).map(PathBuf::from);
    let path = named.unwrap_or_else(|| Path::new(env!("CARGO_MANIFEST_DIR")).join(BESIDE));
    let source = path.canonicalize().unwrap_or_else(|error| give_up(&path, &error.to_string()));
    println!("cargo::rerun-if-changed={}", source.display());
    let sum = sha256(&source);
    if sum != SHA256 {
        give_up(&source, &format!("its sha256 is {sum}, and not {SHA256}"));
    }
    // The source names what it imports for packed lanes and for macros; what the shims leave out is not used.
    let module = format!("#[allow(dead_code, unused_imports)]\n#[path = {source:?}]\nmod goldilocks;\n");
    let folder = env::var_os("OUT_DIR").expect("cargo sets OUT_DIR");
    fs::write(Path::new(&folder).join("source.rs"), module).expect("OUT_DIR can be written");
}

fn sha256(path: &Path) -> String {
    let run = Command::new("sha256sum")
        .stdin(fs::File::open(path).unwrap_or_else(|error| give_up(path, &error.to_string())))
        .output();
    let run = run.unwrap_or_else(|error| give_up(path, &format!("sha256sum could not be started: {error}")));
    String::from_utf8_lossy(&run.stdout).split(' ').next().unwrap_or_default().to_owned()
}

fn give_up(path: &Path, why: &str) -> ! {
    eprintln!(
        "oracle: {}: {why}.\nSet {VARIABLE} to src/goldilocks.rs of p3-goldilocks 0.8.0.",
        path.display()
    );
    exit(1);
}
