//! Links the archive that `bindings/archive` makes, and takes the lengths over from the header.

use std::path::{Path, PathBuf};
use std::process::{self, Command};
use std::{env, fs};

fn main() {
    write_lengths();
    println!("cargo:rerun-if-env-changed=OBSCURLANE_LIB");
    let folder = env::var_os("OBSCURLANE_LIB").map_or_else(made_folder, PathBuf::from);
    let archive = folder.join("libexports.a");
    println!("cargo:rerun-if-changed={}", archive.display());
    if !archive.is_file() {
        fail(&format!("there is no {}", archive.display()));
    }
    println!("cargo:rustc-link-search=native={}", folder.display());
    println!("cargo:rustc-link-lib=static=exports");
}

fn in_root(path: &str) -> PathBuf {
    Path::new(&variable("CARGO_MANIFEST_DIR")).join("../..").join(path)
}

/// One that cargo sets for every build script.
fn variable(name: &str) -> String {
    env::var(name).unwrap_or_else(|error| panic!("{name}: {error}"))
}

/// The folder of the archive of this tree, which has to be there: an old one would link as well as a new one, and answer what
/// the sources no longer say.
fn made_folder() -> PathBuf {
    for path in ["crates.txt", "bindings/archive"] {
        println!("cargo:rerun-if-changed={}", in_root(path).display());
    }
    for folder in sources() {
        println!("cargo:rerun-if-changed={}", folder.display());
    }
    println!("cargo:rerun-if-env-changed=OBSCURLANE_NATIVE");
    let (target, host) = (variable("CARGO_CFG_TARGET_ARCH"), env::consts::ARCH);
    if target != host {
        fail(&format!("bindings/archive compiles for {host}, and this build is for {target}"));
    }
    match Command::new(in_root("bindings/archive")).arg("--check").status() {
        Ok(status) if status.success() => in_root("target/staticlib"),
        Ok(_) => fail("the archive has to be made first"),
        Err(error) => fail(&format!("bindings/archive: {error}")),
    }
}

/// The folders in which each crate has its sources; what rt keeps beside them, in `out`, changes with every check.
fn sources() -> Vec<PathBuf> {
    let crates = fs::read_dir(in_root("crates")).into_iter().flatten().flatten();
    let parts =
        crates.flat_map(|entry| ["src", "specs", "proofs"].map(|part| entry.path().join(part)));
    parts.filter(|folder| folder.is_dir()).collect()
}

fn fail(why: &str) -> ! {
    eprintln!("obscurlane: {why}");
    eprintln!("obscurlane: OBSCURLANE_LIB can name another folder that has libexports.a");
    process::exit(1);
}

/// Writes the header's lengths as constants of Rust, so that they stand in one place. Both languages write sums of numbers and
/// names alike.
fn write_lengths() {
    let path = in_root("bindings/c/obscurlane.h");
    println!("cargo:rerun-if-changed={}", path.display());
    let header = fs::read_to_string(&path).unwrap_or_else(|error| panic!("the header: {error}"));
    let pieces = header.split("/*").map(|piece| piece.split_once("*/").map_or(piece, |cut| cut.1));
    let code: String = pieces.collect();
    let entries = code.split(['{', '}', ',']).filter_map(|entry| entry.trim().split_once(" = "));
    let lengths = entries.filter(|(name, _)| {
        name.starts_with("OBSCURLANE_LONGEST_")
            || name.starts_with("OBSCURLANE_CABINET_")
            || name.ends_with("_BYTES")
            || *name == "OBSCURLANE_TRAILER"
    });
    let constants: String =
        lengths.map(|(name, sum)| format!("pub const {name}: usize = {sum};\n")).collect();
    let written = Path::new(&variable("OUT_DIR")).join("lengths.rs");
    fs::write(written, constants.replace("OBSCURLANE_", "")).expect("cargo's folder is written");
}
