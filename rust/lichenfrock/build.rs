//! Makes the archive with the Rattle kit, or finds one that was made, and says what to do where neither can be had.

use std::env;
use std::fs;
use std::io::ErrorKind;
use std::path::{Path, PathBuf};
use std::process::{exit, Command};

const ARCHIVE: &str = "liblichenfrock.a";
const FOLDER: &str = "LICHENFROCK_LIB_DIR";

fn main() {
    println!("cargo::rerun-if-env-changed={FOLDER}");
    let folder = match env::var_os(FOLDER) {
        Some(folder) => given(PathBuf::from(folder)),
        None => made(),
    };
    println!("cargo::rustc-link-search=native={}", folder.display());
    println!("cargo::rustc-link-lib=static=lichenfrock");
}

/// The folder that the variable names.
fn given(folder: PathBuf) -> PathBuf {
    let archive = folder.join(ARCHIVE);
    println!("cargo::rerun-if-changed={}", archive.display());
    if !archive.is_file() {
        give_up(
            &format!("{FOLDER} is {}, and no {ARCHIVE} is there.", folder.display()),
            "Name a folder that has it, or leave the variable out, so that the Rattle kit's rt makes it.",
        );
    }
    folder
}

/// The folder of this build, with a copy of the archive that `tools/archive` makes, or that it made earlier.
fn made() -> PathBuf {
    let processor = variable("CARGO_CFG_TARGET_ARCH");
    let system = variable("CARGO_CFG_TARGET_OS");
    if !["x86_64", "aarch64"].contains(&processor.as_str()) || system != "linux" {
        give_up(
            &format!("tools/archive writes {ARCHIVE} for Linux on x86_64 and aarch64, and this build is for {processor}-{system}."),
            &format!("Set {FOLDER} to a folder that has one for {processor}-{system}."),
        );
    }
    let root = Path::new(&variable("CARGO_MANIFEST_DIR")).join("../..");
    let archive = root.join("target/archive").join(&processor).join(ARCHIVE);
    for source in sources(&root) {
        println!("cargo::rerun-if-changed={}", source.display());
    }
    make(&root, &processor, &archive);
    let folder = PathBuf::from(variable("OUT_DIR"));
    if let Err(error) = fs::copy(&archive, folder.join(ARCHIVE)) {
        give_up(
            &format!("{} could not be copied: {error}.", archive.display()),
            "See to it that it can be read.",
        );
    }
    folder
}

/// What the archive is made from. Beside a crate's sources lies what rt writes when it makes it, its folder `out`.
fn sources(root: &Path) -> Vec<PathBuf> {
    let mut sources = vec![root.join("crates.txt"), root.join("tools/archive")];
    for krate in fs::read_dir(root.join("crates")).into_iter().flatten().flatten() {
        sources.extend(["src", "specs", "proofs"].map(|part| krate.path().join(part)));
    }
    sources.retain(|source| source.exists());
    sources
}

/// Has `rt` prove and compile the archive; without an `rt`, one that is there already serves.
fn make(root: &Path, processor: &str, archive: &Path) {
    match Command::new("rt").arg("version").output() {
        Ok(_) => prove(root, processor),
        Err(error) if error.kind() == ErrorKind::NotFound && archive.is_file() => {
            println!("cargo::rerun-if-env-changed=PATH");
            println!("cargo::rerun-if-changed={}", archive.display());
            println!(
                "cargo::warning=there is no rt on the PATH; the archive that it made earlier is used: {}",
                archive.display()
            );
        }
        Err(error) => give_up(
            &format!("rt, the command of the Rattle kit, could not be started ({error}), and it has made no {ARCHIVE} for {processor} here yet."),
            &format!("Put the kit's folder bin on the PATH (README.md, \"What it needs\"), or set {FOLDER} to a folder that has the archive."),
        ),
    }
}

fn prove(root: &Path, processor: &str) {
    match Command::new("bash").args(["tools/archive", processor]).current_dir(root).output() {
        Ok(run) if run.status.success() => {}
        Ok(run) => give_up(
            &format!("`tools/archive {processor}` failed:\n{}{}", text(&run.stdout), text(&run.stderr)),
            "Only what is proved is compiled. Mend what rt says, and build again.",
        ),
        Err(error) => give_up(&format!("bash could not be started: {error}."), "Put it on the PATH."),
    }
}

fn variable(name: &str) -> String {
    env::var(name).unwrap_or_else(|_| give_up(&format!("cargo has not set {name}."), "Build with cargo."))
}

fn text(bytes: &[u8]) -> String {
    String::from_utf8_lossy(bytes).into_owned()
}

fn give_up(why: &str, what_to_do: &str) -> ! {
    eprintln!("lichenfrock: {why}\n{what_to_do}");
    exit(1);
}
