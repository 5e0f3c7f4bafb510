//! Compiles the C++ side, and links it and the archives that `rt lib` leaves.

use std::path::Path;
use std::process::Command;

/// The static libraries of the repository that are measured, in `crates/NAME/out/libNAME.a`.
const ARCHIVES: [&str; 1] = ["measured"];

const ROPE: &str = "cpp/rope.cpp";

fn run(command: &mut Command) {
    let status = command.status().expect("the command starts");
    assert!(status.success(), "{command:?} ends with {status}");
}

fn compile_rope(out: &Path) {
    let object = out.join("rope.o");
    run(Command::new("g++")
        .args(["-O2", "-std=c++17", "-Wall", "-Wextra", "-c", ROPE, "-o"])
        .arg(&object));
    run(Command::new("ar")
        .arg("crs")
        .arg(out.join("librope_cpp.a"))
        .arg(&object));
    println!("cargo:rerun-if-changed={ROPE}");
    println!("cargo:rustc-link-search=native={}", out.display());
    println!("cargo:rustc-link-lib=static=rope_cpp");
    println!("cargo:rustc-link-lib=stdc++");
}

fn link_archive(top: &Path, name: &str) {
    let folder = top.join("crates").join(name).join("out");
    let archive = folder.join(format!("lib{name}.a"));
    println!("cargo:rerun-if-changed={}", archive.display());
    println!("cargo:rustc-link-search=native={}", folder.display());
    println!("cargo:rustc-link-lib=static={name}");
}

fn main() {
    let variable = |name| std::env::var(name).expect("Cargo sets it");
    compile_rope(Path::new(&variable("OUT_DIR")));
    let package = variable("CARGO_MANIFEST_DIR");
    let top = Path::new(&package).parent().expect("a folder above");
    for name in ARCHIVES {
        link_archive(top, name);
    }
}
