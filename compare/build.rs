//! Links the proved functions, which `tools/archives.sh` writes.

use std::path::Path;

fn main() {
    let manifest = std::env::var("CARGO_MANIFEST_DIR").expect("cargo names the package's folder");
    let folder = Path::new(&manifest).join("../target/staticlib");
    println!("cargo:rustc-link-search=native={}", folder.display());
    for library in ["comparison", "intake"] {
        println!("cargo:rustc-link-lib=static={library}");
        println!("cargo:rerun-if-changed={}", folder.join(format!("lib{library}.a")).display());
    }
}
