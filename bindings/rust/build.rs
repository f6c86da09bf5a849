//! Links `libexport.a`, which `bindings/archive` makes: from the folder that `MORELBARREL_LIB` names, or from the repository's `target/staticlib`.
use std::env;
use std::path::PathBuf;

fn main() {
    println!("cargo:rerun-if-env-changed=MORELBARREL_LIB");
    let folder = match env::var_os("MORELBARREL_LIB") {
        Some(folder) => PathBuf::from(folder),
        None => PathBuf::from(env::var_os("CARGO_MANIFEST_DIR").expect("cargo sets it")).join("../../target/staticlib"),
    };
    let archive = folder.join("libexport.a");
    println!("cargo:rerun-if-changed={}", archive.display());
    let target = env::var("TARGET").expect("cargo sets it");
    if !target.starts_with("x86_64-") || !target.contains("linux") {
        panic!("libexport.a holds code for Linux on x86-64, and this is a build for {target}");
    }
    if !archive.is_file() {
        panic!("{} is missing: run `bindings/archive`, or name its folder in MORELBARREL_LIB", archive.display());
    }
    println!("cargo:rustc-link-search=native={}", folder.display());
    println!("cargo:rustc-link-lib=static=export");
}
