// Tells cargo where libsuntimpani.a lies: in SUNTIMPANI_LIB_DIR, or where this repository builds it for the target that
// is compiled for.
use std::path::PathBuf;
use std::{env, process};

fn main() {
    println!("cargo:rerun-if-changed=build.rs");
    println!("cargo:rerun-if-env-changed=SUNTIMPANI_LIB_DIR");
    let target = target();
    let folder = env::var_os("SUNTIMPANI_LIB_DIR").map_or_else(|| usual_folder(target), PathBuf::from);
    let archive = folder.join("libsuntimpani.a");
    if !archive.is_file() {
        let make = target.map_or("make lib".to_string(), |target| format!("make lib TARGET={target}"));
        eprintln!("suntimpani: there is no {}", archive.display());
        eprintln!("suntimpani: build it by '{make}' in the repository, or name its folder in SUNTIMPANI_LIB_DIR");
        process::exit(1);
    }
    println!("cargo:rerun-if-changed={}", archive.display());
    println!("cargo:rustc-link-search=native={}", folder.display());
    println!("cargo:rustc-link-lib=static=suntimpani");
}

// What `make lib` is told in TARGET for the machine and the system that are compiled for; nothing for x86-64, and for
// any other, of which there is no archive.
fn target() -> Option<&'static str> {
    let of_cargo = |name| env::var(name).unwrap_or_else(|_| panic!("cargo tells {name}"));
    match (&*of_cargo("CARGO_CFG_TARGET_ARCH"), &*of_cargo("CARGO_CFG_TARGET_OS")) {
        ("aarch64", "android") => Some("aarch64-linux-android"),
        ("aarch64", "linux") => Some("aarch64-linux-gnu"),
        _ => None,
    }
}

fn usual_folder(target: Option<&str>) -> PathBuf {
    let package = env::var_os("CARGO_MANIFEST_DIR").expect("cargo names the package's folder");
    PathBuf::from(package).join("../../target").join(target.unwrap_or("staticlib"))
}
