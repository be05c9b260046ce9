//! Links the static libraries that `tools/build` writes to target/staticlib.
use std::path::Path;

fn main() {
    let folder = Path::new(env!("CARGO_MANIFEST_DIR")).join("../target/staticlib");
    println!("cargo:rustc-link-search=native={}", folder.display());
    for name in ["plan_c", "solver"] {
        if std::env::var_os(format!("CARGO_FEATURE_{}", name.to_uppercase())).is_some() {
            let archive = folder.join(format!("lib{name}.a"));
            println!("cargo:rerun-if-changed={}", archive.display());
            assert!(archive.exists(), "{} is missing: run tools/build", archive.display());
        }
    }
    println!("cargo:rerun-if-changed=build.rs");
}
