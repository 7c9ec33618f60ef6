//! Links the proved archive that `rt lib` writes in crates/kalomivund, `crates/kalomivund/out/libkalomivund.a` of the repository.
//! Where the archive is not there the crate still compiles, and only programs that call it fail to link.

use std::path::Path;

fn main() {
    let manifest = std::env::var("CARGO_MANIFEST_DIR").expect("cargo sets CARGO_MANIFEST_DIR");
    let folder = Path::new(&manifest).join("../crates/kalomivund/out");
    let archive = folder.join("libkalomivund.a");
    println!("cargo:rerun-if-changed=build.rs");
    println!("cargo:rerun-if-changed={}", archive.display());
    if archive.exists() {
        println!("cargo:rustc-link-search=native={}", folder.display());
        println!("cargo:rustc-link-lib=static=kalomivund");
    } else {
        println!("cargo:warning=no archive: run `rt lib` in crates/kalomivund first");
    }
}
