//! Finds the proved library `libexchange.a` and links it. Where it is missing, or the target is
//! another than the library's, cargo warns and links nothing: checking and documenting work all
//! the same, and a program that calls the library does not link.

use std::env;
use std::path::{Path, PathBuf};

/// The folder to look in instead of the one that `rt lib` writes to.
const FOLDER: &str = "EXCHANGE_LIB_DIR";
/// The target for which the library is made, and what of it must be so: any C library will do.
const TARGET: &str = "x86_64-unknown-linux-gnu";
const ARCH: &str = "x86_64";
const OS: &str = "linux";

fn main() {
    println!("cargo::rerun-if-env-changed={FOLDER}");
    println!("cargo::rerun-if-changed=build.rs");
    let folder = folder();
    let library = folder.join("libexchange.a");
    println!("cargo::rerun-if-changed={}", library.display());
    match obstacle(&library) {
        Some(obstacle) => println!("cargo::warning=nothing that calls it will link: {obstacle}"),
        None => {
            println!("cargo::rustc-link-search=native={}", folder.display());
            println!("cargo::rustc-link-lib=static=exchange");
        }
    }
}

/// Why the library cannot be linked, if it cannot.
fn obstacle(library: &Path) -> Option<String> {
    if variable("CARGO_CFG_TARGET_ARCH") != ARCH || variable("CARGO_CFG_TARGET_OS") != OS {
        let target = variable("TARGET");
        return Some(format!("libexchange.a is made for {TARGET}, and the target is {target}"));
    }
    if !library.is_file() {
        return Some(format!(
            "{} is missing: run `rt lib` in crates/exchange, or set {FOLDER} to the folder that has it",
            library.display()
        ));
    }
    None
}

/// The folder of the library: the one given, or `crates/exchange/out` of the repository. Cargo runs
/// this script in the folder of the crate, so a relative one is taken from that of the workspace,
/// where `test.sh` looks too.
fn folder() -> PathBuf {
    let package = PathBuf::from(variable("CARGO_MANIFEST_DIR"));
    let workspace = package.parent().unwrap_or(&package);
    let repository = workspace.parent().unwrap_or(workspace);
    let given = env::var_os(FOLDER).filter(|folder| !folder.is_empty());
    match given {
        Some(folder) => workspace.join(folder),
        None => repository.join("crates/exchange/out"),
    }
}

/// A variable that cargo sets for build scripts.
fn variable(name: &str) -> String {
    env::var(name).unwrap_or_default()
}
