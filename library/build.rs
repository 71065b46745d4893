//! Links libponguriena.a, from the first of these folders that is named or there: the one that
//! the environment variable names, `lib` beside the manifest, and where `tools/archive` writes it.

use std::env;
use std::path::{Path, PathBuf};

const FOLDER_VARIABLE: &str = "PONGURIENA_STATICLIB";

const ARCHIVE: &str = "libponguriena.a";

fn main() {
    println!("cargo::rerun-if-env-changed={FOLDER_VARIABLE}");
    if env::var("CARGO_CFG_TARGET_ARCH").as_deref() != Ok("x86_64")
        || env::var("CARGO_CFG_TARGET_OS").as_deref() != Ok("linux")
    {
        println!("cargo::error=what was proved is compiled for x86-64 Linux alone");
    }
    let folder = library_folder();
    let archive = folder.join(ARCHIVE);
    println!("cargo::rerun-if-changed={}", archive.display());
    if !archive.is_file() {
        println!(
            "cargo::error={} is not there: a package has it in `lib`, and in the repository \
             `tools/archive ponguriena` writes it",
            archive.display()
        );
    }
    println!("cargo::rustc-link-search=native={}", folder.display());
    println!("cargo::rustc-link-lib=static=ponguriena");
    // For the test that builds a C program, and for crates that build on this one.
    println!("cargo::rustc-env=PONGURIENA_ARCHIVE={}", archive.display());
    println!("cargo::metadata=folder={}", folder.display());
}

fn library_folder() -> PathBuf {
    let manifest = Path::new(env!("CARGO_MANIFEST_DIR"));
    if let Some(folder) = env::var_os(FOLDER_VARIABLE) {
        return folder.into();
    }
    let packaged = manifest.join("lib");
    if packaged.is_dir() {
        return packaged;
    }
    manifest.join("../target/staticlib")
}
