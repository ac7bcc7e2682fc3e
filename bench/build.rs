//! Compiles the calls of M4RI, and links them and M4RI itself.
use std::env;
use std::path::Path;
use std::process::Command;

fn run(program: &str, words: &[&str]) {
    let status = Command::new(program).args(words).status().unwrap_or_else(|error| panic!("{program}: {error}"));
    assert!(status.success(), "{program} {words:?}: {status}");
}

fn main() {
    let folder = env::var("BENCH_FOLDER").expect("run.sh sets BENCH_FOLDER");
    let source = Path::new(&folder).join("src/m4ri.c");
    let out = env::var("OUT_DIR").unwrap();
    let object = format!("{out}/bench_m4ri.o");
    run("cc", &["-O3", "-Wall", "-Wextra", "-c", source.to_str().unwrap(), "-o", &object]);
    run("ar", &["crs", &format!("{out}/libbench_m4ri.a"), &object]);
    println!("cargo:rustc-link-search=native={out}");
    println!("cargo:rustc-link-lib=static=bench_m4ri");
    println!("cargo:rustc-link-lib=dylib=m4ri");
    println!("cargo:rerun-if-changed={}", source.display());
    println!("cargo:rerun-if-env-changed=BENCH_FOLDER");
}
