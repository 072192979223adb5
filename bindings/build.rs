//! Links libpalgwern.a from target/staticlib, or from the folder that PALGWERN_LIBRARY names.
use std::env;
use std::path::PathBuf;

fn main() {
    println!("cargo::rerun-if-env-changed=PALGWERN_LIBRARY");
    let beside = PathBuf::from(env::var("CARGO_MANIFEST_DIR").unwrap()).join("../target/staticlib");
    let folder = env::var("PALGWERN_LIBRARY").map(PathBuf::from).unwrap_or(beside);
    let archive = folder.join("libpalgwern.a");
    println!("cargo::rerun-if-changed={}", archive.display());
    if !archive.exists() {
        println!("cargo::error={} is missing; `tools/make palgwern` makes it, and PALGWERN_LIBRARY names another folder", archive.display());
        return;
    }
    println!("cargo::rustc-link-search=native={}", folder.display());
    println!("cargo::rustc-link-lib=static=palgwern");
}
