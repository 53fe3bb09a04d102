// Compiles the C decoders with -O3 and links them and the proved library, whose archive VEDROGNE_LIB names. The mask
// maker alone can be linked without the archive.
use std::env;
use std::path::Path;
use std::process::Command;

/// Compiles a source with these flags beside the usual ones and links the object.
fn compile(source: &str, flags: &[&str], object: &str) {
    println!("cargo:rerun-if-changed={source}");
    let object = Path::new(&env::var("OUT_DIR").unwrap()).join(object);
    let built = Command::new("cc")
        .args(["-std=c99", "-O3", "-Wall", "-Wextra"])
        .args(flags)
        .args(["-c", source, "-o"])
        .arg(&object)
        .status();
    assert!(built.is_ok_and(|status| status.success()), "cc failed");
    println!("cargo:rustc-link-arg={}", object.display());
}

fn main() {
    println!("cargo:rerun-if-env-changed=VEDROGNE_LIB");
    compile("baseline.c", &[], "baseline.o");
    // the sums stay in the order in which sse2.c has them
    let order = "-fno-tree-reassoc";
    compile("sse2.c", &[order], "sse2.o");
    compile("sse2.c", &[order, "-DSIGNED_PRODUCT"], "sse2_signed.o");
    let library =
        env::var("VEDROGNE_LIB").expect("VEDROGNE_LIB: the archive of the proved library");
    println!("cargo:rerun-if-changed={library}");
    if Path::new(&library).exists() {
        println!("cargo:rustc-link-arg={library}");
    }
}
