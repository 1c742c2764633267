//! Finds the proved static library: in ATC_VM_LIB_DIR, or where `tools/library` writes it.

use std::path::{Path, PathBuf};
use std::process::exit;
use std::time::SystemTime;
use std::{env, fs};

fn main() {
    println!("cargo:rerun-if-changed=build.rs");
    println!("cargo:rerun-if-env-changed=ATC_VM_LIB_DIR");
    let target = env::var("TARGET").unwrap_or_default();
    if !target.starts_with("x86_64-") || !target.contains("linux") {
        eprintln!("atc-vm: the proved library libatc_vm.a is made for x86-64 Linux and can't be linked for {target}.");
        exit(1);
    }
    let root = PathBuf::from(env::var_os("CARGO_MANIFEST_DIR").unwrap_or_default()).join("../..");
    let given = env::var_os("ATC_VM_LIB_DIR").map(PathBuf::from);
    let dir = given
        .clone()
        .unwrap_or_else(|| root.join("target/staticlib"));
    let library = dir.join("libatc_vm.a");
    println!("cargo:rerun-if-changed={}", library.display());
    match changed(&library) {
        // Only linking needs it.
        None => println!(
            "cargo:warning={} is missing: run `tools/library` in the repository's root, or set ATC_VM_LIB_DIR to the folder that has libatc_vm.a.",
            library.display()
        ),
        Some(made) if given.is_none() => warn_if_older(made, &root),
        Some(_) => (),
    }
    let dir = dir.canonicalize().unwrap_or(dir);
    println!("cargo:rustc-link-search=native={}", dir.display());
    println!("cargo:rustc-link-lib=static=atc_vm");
    // For tests/header.rs, which links a C program with the same library.
    println!("cargo:rustc-env=ATC_VM_FOUND_IN={}", dir.display());
}

fn warn_if_older(made: SystemTime, root: &Path) {
    for sources in [root.join("crates"), root.join("crates.txt")] {
        println!("cargo:rerun-if-changed={}", sources.display());
        if newest(&sources) > Some(made) {
            println!("cargo:warning=libatc_vm.a is older than {}: run `tools/library` in the repository's root.", sources.display());
        }
    }
}

fn changed(path: &Path) -> Option<SystemTime> {
    fs::metadata(path).and_then(|of| of.modified()).ok()
}

// When a file, or a folder or anything in it, was last changed.
fn newest(path: &Path) -> Option<SystemTime> {
    let entries = fs::read_dir(path).into_iter().flatten().flatten();
    let within = entries.map(|entry| newest(&entry.path()));
    within.max().flatten().max(changed(path))
}
