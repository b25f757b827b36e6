//! Links libsmoother.a, which `scripts/staticlib smoother` makes in the repository. SMOOTHER_LIB names another folder that holds it.
use std::{env, path::Path};

fn main() {
    println!("cargo::rerun-if-env-changed=SMOOTHER_LIB");
    let folder = env::var("SMOOTHER_LIB").unwrap_or_else(|_| "../../target/staticlib".into());
    let folder = Path::new(&env::var("CARGO_MANIFEST_DIR").expect("set by cargo")).join(folder);
    let archive = folder.join("libsmoother.a");
    println!("cargo::rerun-if-changed={}", archive.display());
    if !archive.is_file() {
        println!(
            "cargo::error=no {}: run `scripts/staticlib smoother` in the repository, or set SMOOTHER_LIB",
            archive.display()
        );
    }
    println!("cargo::rustc-link-search=native={}", folder.display());
    println!("cargo::rustc-link-lib=static=smoother");
}
