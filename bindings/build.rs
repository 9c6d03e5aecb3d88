//! Links the static library `liblova.a`.

use std::env;
use std::path::PathBuf;

/// The folder of the static library: `LOVA_STATICLIB`, or else `target/lova` of the repository.
fn folder() -> PathBuf {
    let package = PathBuf::from(env::var_os("CARGO_MANIFEST_DIR").expect("cargo sets CARGO_MANIFEST_DIR"));
    match env::var_os("LOVA_STATICLIB") {
        Some(folder) => package.join(folder),
        None => package.join("../target/lova"),
    }
}

/// Tell cargo where the archive is, or that it is missing.
fn main() {
    let folder = folder();
    let archive = folder.join("liblova.a");
    println!("cargo::rerun-if-env-changed=LOVA_STATICLIB");
    println!("cargo::rerun-if-changed=build.rs");
    println!("cargo::rerun-if-changed={}", archive.display());
    if archive.is_file() {
        println!("cargo::rustc-link-search=native={}", folder.display());
        println!("cargo::rustc-link-lib=static=lova");
    } else {
        let ways = "build it with `bindings/archive`, or set LOVA_STATICLIB to the folder that holds it";
        println!("cargo::error=no static library at {}: {ways}", archive.display());
    }
}
