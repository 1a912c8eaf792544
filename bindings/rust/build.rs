//! Links the archive of the proved core.

use std::env;
use std::path::{Path, PathBuf};

/// A variable that cargo sets for build scripts.
fn of_cargo(name: &str) -> String {
    env::var(name).unwrap_or_else(|error| panic!("cargo sets {name}: {error}"))
}

/// The folder that LRU_LIB_DIR names, or that of a package, which has the archive for its target,
/// or that of the repository.
fn folder(target: &str) -> PathBuf {
    if let Some(folder) = env::var_os("LRU_LIB_DIR") {
        return PathBuf::from(folder);
    }
    let here = of_cargo("CARGO_MANIFEST_DIR");
    let packaged = Path::new(&here).join("lib");
    if packaged.exists() {
        // The archive calls so little of the C library that musl will do.
        packaged.join(match target {
            "x86_64-unknown-linux-musl" => "x86_64-unknown-linux-gnu",
            _ => target,
        })
    } else {
        Path::new(&here).join("../c/build")
    }
}

fn main() {
    println!("cargo::rerun-if-env-changed=LRU_LIB_DIR");
    let target = of_cargo("TARGET");
    let folder = folder(&target);
    let archive = folder.join("liblru.a");
    println!("cargo::rerun-if-changed={}", archive.display());
    if !archive.exists() {
        println!(
            "cargo::error=there is no {} for {target}: packages are for x86_64-unknown-linux-gnu, \
             also taken for x86_64-unknown-linux-musl, and for aarch64-unknown-linux-gnu. In the \
             repository, run `make -C bindings/c`, or set LRU_LIB_DIR to the folder of liblru.a",
            archive.display()
        );
        return;
    }
    println!("cargo::rustc-link-search=native={}", folder.display());
    println!("cargo::rustc-link-lib=static=lru");
}
