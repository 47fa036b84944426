//! The crate without its features in a program that has no standard library: were it linked by
//! anything, the program's panic handler would be its second, and the build would fail.

use std::process::Command;

#[test]
fn a_program_without_the_standard_library_runs() {
    let manifest = concat!(env!("CARGO_MANIFEST_DIR"), "/tests/without_std/Cargo.toml");
    let target = concat!(env!("CARGO_TARGET_TMPDIR"), "/without_std");
    let ran = Command::new(env!("CARGO"))
        .args(["run", "--release", "--offline", "--quiet"])
        .args(["--manifest-path", manifest, "--target-dir", target])
        .output()
        .expect("Cargo runs");
    let said = String::from_utf8_lossy(&ran.stderr);
    assert!(ran.status.success(), "{said}");
}
