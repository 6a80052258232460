//! Tells the linker where librecipe.a is: in RECIPE_LIB_DIR, or where `tools/build.py recipe` puts it.
use std::path::PathBuf;

fn main() {
    println!("cargo:rerun-if-env-changed=RECIPE_LIB_DIR");
    let dir = std::env::var_os("RECIPE_LIB_DIR")
        .map(PathBuf::from)
        .unwrap_or_else(|| PathBuf::from(env!("CARGO_MANIFEST_DIR")).join("../../target/staticlib"));
    let archive = dir.join("librecipe.a");
    if !archive.exists() {
        panic!("{} is not there: run `python3 tools/build.py recipe`, or set RECIPE_LIB_DIR", archive.display());
    }
    println!("cargo:rerun-if-changed={}", archive.display());
    println!("cargo:rustc-link-search=native={}", dir.display());
    println!("cargo:rustc-link-lib=static=recipe");
}
