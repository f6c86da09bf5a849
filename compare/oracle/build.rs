//! Lays out one module tree in OUT_DIR: the originals that ORIGINALS.sha256 lists, byte for byte, and where a module of ethercrab is not among them,
//! our shim of it from shims/ethercrab. A shim may not take the place of a listed original.

use std::collections::BTreeSet;
use std::path::{Path, PathBuf};
use std::{env, fs};

fn main() {
    let here = PathBuf::from(env::var("CARGO_MANIFEST_DIR").unwrap());
    let tree = PathBuf::from(env::var("OUT_DIR").unwrap()).join("ethercrab");
    let source = env::var("ETHERCRAB_SRC").map_or(here.join("../../../shared/docs/src/src"), PathBuf::from);
    println!("cargo:rerun-if-env-changed=ETHERCRAB_SRC");
    let _ = fs::remove_dir_all(&tree);

    let list = read(&here.join("ORIGINALS.sha256"));
    let list = String::from_utf8(list).unwrap();
    let originals: BTreeSet<&str> = list.lines().filter_map(|line| line.split("  ").nth(1)).collect();
    for name in &originals {
        write(&tree.join(name), &read(&source.join(name)));
    }

    let shims = here.join("shims/ethercrab");
    println!("cargo:rerun-if-changed={}", shims.display());
    for file in files(&shims) {
        let name = file.strip_prefix(&shims).unwrap();
        assert!(!originals.contains(name.to_str().unwrap()), "{} hides an original", file.display());
        write(&tree.join(name), &read(&file));
    }
}

fn read(file: &Path) -> Vec<u8> {
    println!("cargo:rerun-if-changed={}", file.display());
    fs::read(file).unwrap_or_else(|e| panic!("{}: {e}", file.display()))
}

fn write(file: &Path, bytes: &[u8]) {
    fs::create_dir_all(file.parent().unwrap()).unwrap();
    fs::write(file, bytes).unwrap();
}

fn files(folder: &Path) -> Vec<PathBuf> {
    let entries = fs::read_dir(folder).unwrap().map(|e| e.unwrap().path());
    entries.flat_map(|path| if path.is_dir() { files(&path) } else { vec![path] }).collect()
}
