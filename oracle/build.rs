//! Links the proved libraries where their archives have been made, and sets the flags `probe` and `smoother`. PROVED_LIB names the folder that holds
//! libprobe.a and libsmoother.a.
use std::{env, path::Path};

const LIBRARIES: [&str; 2] = ["probe", "smoother"];

fn main() {
    let folder = env::var("PROVED_LIB").unwrap_or_else(|_| "../target/staticlib".into());
    let folder = Path::new(&env::var("CARGO_MANIFEST_DIR").expect("set by cargo")).join(folder);
    println!("cargo::rerun-if-env-changed=PROVED_LIB");
    for name in LIBRARIES {
        let archive = folder.join(format!("lib{name}.a"));
        println!("cargo::rerun-if-changed={}", archive.display());
        println!("cargo::rustc-check-cfg=cfg({name})");
        if archive.is_file() {
            println!("cargo::rustc-cfg={name}");
            println!("cargo::rustc-link-search=native={}", folder.display());
            println!("cargo::rustc-link-lib=static={name}");
        }
    }
}
