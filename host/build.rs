//! Links the proved library where the feature `proved` asks for it.

use std::path::Path;

fn main() {
    println!("cargo:rerun-if-changed=build.rs");
    if std::env::var_os("CARGO_FEATURE_PROVED").is_none() {
        return;
    }
    let here = std::env::var("CARGO_MANIFEST_DIR").expect("cargo says where the package is");
    let folder = Path::new(&here).join("../target/staticlib");
    let library = folder.join("libdepot.a");
    println!("cargo:rerun-if-changed={}", library.display());
    if !library.exists() {
        eprintln!("The proved library is missing: target/staticlib/libdepot.a");
        eprintln!("Build it with `rt lib` in the repository's folder crates/depot_c, and copy out/libdepot_c.a there to target/staticlib/libdepot.a,");
        eprintln!("or leave out `--features proved`.");
        std::process::exit(1);
    }
    println!("cargo:rustc-link-search=native={}", folder.display());
    println!("cargo:rustc-link-lib=static=depot");
}
