//! Links the verified library, which the toolchain of the repository builds.

use std::env;
use std::path::PathBuf;

fn main() {
    let package =
        env::var_os("CARGO_MANIFEST_DIR").expect("cargo tells a build script its package");
    let folder = PathBuf::from(package).join("../crates/vault/out");
    let archive = folder.join("libvault.a");
    println!("cargo::rerun-if-changed={}", archive.display());
    if archive.is_file() {
        println!("cargo::rustc-link-search=native={}", folder.display());
        println!("cargo::rustc-link-lib=static=vault");
    } else {
        println!(
            "cargo::error=crates/vault/out/libvault.a is missing; at the top of the repository, \
             `(cd crates/vault && rt lib)` builds it"
        );
    }
}
