// Tells cargo where the library's archives lie, where a feature asks for one of them.
use std::env;
use std::path::{Path, PathBuf};

fn main() {
    println!("cargo::rerun-if-changed=build.rs");
    println!("cargo::rerun-if-env-changed=SUNTIMPANI_LIB_DIR");
    let folder = env::var_os("SUNTIMPANI_LIB_DIR").map_or_else(usual_folder, PathBuf::from);
    link("CARGO_FEATURE_LIBRARY", &folder, "suntimpani");
    link("CARGO_FEATURE_MEASURE", &folder, "measure");
    link("CARGO_FEATURE_MEASURE", &folder, "measure_lines");
}

fn link(feature: &str, folder: &Path, library: &str) {
    if env::var_os(feature).is_none() {
        return;
    }
    let archive = folder.join(format!("lib{library}.a"));
    println!("cargo::rerun-if-changed={}", archive.display());
    println!("cargo::rustc-link-search=native={}", folder.display());
    println!("cargo::rustc-link-lib=static={library}");
}

// By the machine that is compiled for: tools/prove builds for x86-64, and targets/aarch64/archive for AArch64.
fn usual_folder() -> PathBuf {
    let tests = env::var_os("CARGO_MANIFEST_DIR").expect("cargo names the package's folder");
    let machine = env::var("CARGO_CFG_TARGET_ARCH").expect("cargo names the machine");
    let folder = if machine == "aarch64" { "../target/aarch64-linux-gnu" } else { "../target/staticlib" };
    PathBuf::from(tests).join(folder)
}
