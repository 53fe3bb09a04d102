//! Links `compare` with the archive that the environment variable VEDROGNE_LIB names.

use std::env;

fn main() {
    println!("cargo:rustc-check-cfg=cfg(archive)");
    println!("cargo:rerun-if-changed=build.rs");
    println!("cargo:rerun-if-env-changed=VEDROGNE_LIB");
    if env::var_os("CARGO_FEATURE_SELFTEST").is_some() {
        return;
    }
    if let Ok(path) = env::var("VEDROGNE_LIB") {
        println!("cargo:rustc-cfg=archive");
        println!("cargo:rerun-if-changed={path}");
        println!("cargo:rustc-link-arg-bin=compare={path}");
    }
}
