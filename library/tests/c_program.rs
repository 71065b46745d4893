//! Builds the C program beside this file with the header and the library, and runs it.

use std::path::Path;
use std::process::Command;

const STRICT: [&str; 5] = ["-std=c99", "-Wall", "-Wextra", "-Wpedantic", "-Werror"];

#[test]
fn calls_from_c() {
    let package = Path::new(env!("CARGO_MANIFEST_DIR"));
    let program = Path::new(env!("CARGO_TARGET_TMPDIR")).join("calls");
    let built = Command::new("cc")
        .args(STRICT)
        .arg("-I")
        .arg(package.join("include"))
        .arg("-o")
        .arg(&program)
        .arg(package.join("tests/c/calls.c"))
        .arg(env!("PONGURIENA_ARCHIVE"))
        .status();
    assert!(built.expect("cc starts").success(), "it does not build");
    let output = Command::new(&program).output().expect("it starts");
    let said = String::from_utf8_lossy(&output.stdout);
    assert!(output.status.success(), "{said}");
}
