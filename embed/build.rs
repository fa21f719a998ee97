//! Links the static library that `embed/archive` writes: from the folder in
//! LOTS_STATICLIB, or else from `../target/staticlib`.

use std::env;
use std::path::Path;

fn main() {
    let here = env::var("CARGO_MANIFEST_DIR").expect("cargo sets it");
    let folder = env::var("LOTS_STATICLIB").unwrap_or_else(|_| "../target/staticlib".into());
    // A relative folder is taken from this one; an absolute one stays as it is.
    let folder = Path::new(&here).join(folder);
    let archive = folder.join("libcewandog.a");
    if !archive.exists() {
        println!(
            "cargo::warning={} is missing: run `embed/archive`",
            archive.display()
        );
    }
    println!("cargo::rerun-if-env-changed=LOTS_STATICLIB");
    println!("cargo::rerun-if-changed={}", archive.display());
    println!("cargo::rustc-link-search=native={}", folder.display());
    println!("cargo::rustc-link-lib=static=cewandog");
}
