//! Links libponguriena_parts.a, from the folder of libponguriena.a.

use std::env;
use std::path::Path;

const ARCHIVE: &str = "libponguriena_parts.a";

fn main() {
    let folder = env::var_os("DEP_PONGURIENA_FOLDER").expect("the crate that is linked tells it");
    let archive = Path::new(&folder).join(ARCHIVE);
    println!("cargo::rerun-if-changed={}", archive.display());
    if !archive.is_file() {
        println!(
            "cargo::error={} is not there: run `tools/archive ponguriena_parts` first",
            archive.display()
        );
    }
    println!("cargo::rustc-link-lib=static=ponguriena_parts");
}
