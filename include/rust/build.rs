//! Links libcapi.a from HOWHIRUKE_LIB, or from target/staticlib of the repository.
use std::env;
use std::path::{Path, PathBuf};

fn main() {
    println!("cargo::rerun-if-env-changed=HOWHIRUKE_LIB");
    let here = env::var("CARGO_MANIFEST_DIR").expect("cargo sets CARGO_MANIFEST_DIR");
    let folder = env::var("HOWHIRUKE_LIB").map_or_else(|_| Path::new(&here).join("../../target/staticlib"), PathBuf::from);
    let library = folder.join("libcapi.a");
    println!("cargo::rerun-if-changed={}", library.display());
    if !library.is_file() {
        println!(
            "cargo::error={} is missing: run `sh tools/make.sh capi` in the repository, or set HOWHIRUKE_LIB to the folder of libcapi.a",
            library.display()
        );
        return;
    }
    println!("cargo::rustc-link-search=native={}", folder.display());
    println!("cargo::rustc-link-lib=static=capi");
}
