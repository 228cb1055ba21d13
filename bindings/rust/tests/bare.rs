//! Without its feature the crate needs no heap, and is built all the same.

use std::process::Command;

#[test]
fn it_is_built_without_alloc() {
    let mut cargo = Command::new(env!("CARGO"));
    cargo.args(["check", "--quiet", "--offline", "--lib", "--no-default-features"]);
    cargo.args(["--manifest-path", concat!(env!("CARGO_MANIFEST_DIR"), "/Cargo.toml")]);
    cargo.args(["--target-dir", env!("CARGO_TARGET_TMPDIR")]);
    let run = cargo.output().expect("cargo runs");
    assert!(run.status.success(), "{}", String::from_utf8_lossy(&run.stderr));
}
