//! Links the static library of the twin, which `rt lib` in crates/capi writes.

use std::path::Path;
use std::process::exit;

fn main() {
    let manifest = std::env::var("CARGO_MANIFEST_DIR").expect("cargo names the package's folder");
    let folder = Path::new(&manifest).join("../../crates/capi/out");
    let archive = folder.join("libcapi.a");
    println!("cargo:rerun-if-changed=build.rs");
    println!("cargo:rerun-if-changed={}", archive.display());
    if !archive.is_file() {
        eprintln!("twin1750: there is no {}", archive.display());
        eprintln!("twin1750: run `rt lib` in crates/capi first");
        exit(1);
    }
    println!("cargo:rustc-link-search=native={}", folder.display());
    println!("cargo:rustc-link-lib=static=capi");
}
