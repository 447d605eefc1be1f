//! Links the library's archive where it is built and the program is for its machine, x86-64; else the
//! tests of the C face say that they are skipped.

use std::path::Path;

fn main() {
    let root = std::env::var("CARGO_MANIFEST_DIR").unwrap_or_default();
    let machine = std::env::var("CARGO_CFG_TARGET_ARCH").unwrap_or_default();
    let folder = Path::new(&root).join("../target/staticlib");
    let archive = folder.join("libin656.a");
    println!("cargo:rustc-check-cfg=cfg(archive)");
    println!("cargo:rerun-if-changed=build.rs");
    println!("cargo:rerun-if-changed={}", archive.display());
    if machine == "x86_64" && archive.is_file() {
        println!("cargo:rustc-cfg=archive");
        println!("cargo:rustc-link-search=native={}", folder.display());
        println!("cargo:rustc-link-lib=static=in656");
    }
}
