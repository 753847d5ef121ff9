//! Links libmurgolab.a: from the folder that MURGOLAB_LIB names, else from the repository's target/staticlib.

use std::path::Path;

fn main() {
    println!("cargo:rerun-if-env-changed=MURGOLAB_LIB");
    let package = std::env::var("CARGO_MANIFEST_DIR").expect("cargo names the package's folder");
    let named = std::env::var_os("MURGOLAB_LIB").unwrap_or_else(|| "../target/staticlib".into());
    let folder = Path::new(&package).join(named);
    let archive = folder.join("libmurgolab.a");
    println!("cargo:rerun-if-changed={}", archive.display());
    println!("cargo:rustc-link-search=native={}", folder.display());
    // A build script does not know what it is run for: one that failed would stop `cargo doc` and `cargo check` too.
    // So a library is asked for whose name says what is missing: the compiler's one message is then of use.
    let missing = " (run tools/build archive, or name the folder of libmurgolab.a in MURGOLAB_LIB)";
    println!("cargo:rustc-link-lib=static=murgolab{}", if archive.exists() { "" } else { missing });
}
