//! Says where the library lies: in FIRROZKA_LIB_DIR if that is set (seen from
//! this crate's folder), else where `bash tools/build library` puts it.

use std::env;
use std::path::{Path, PathBuf};
use std::process;

fn main() {
    let here = PathBuf::from(env::var_os("CARGO_MANIFEST_DIR").expect("cargo sets it"));
    let folder = match env::var_os("FIRROZKA_LIB_DIR") {
        Some(folder) => here.join(folder),
        None => here.join("../../target/staticlib"),
    };
    let library = folder.join("libfirrozka.a");
    println!("cargo:rerun-if-env-changed=FIRROZKA_LIB_DIR");
    println!("cargo:rerun-if-changed={}", library.display());
    if !library.exists() {
        missing(&library);
    }
    println!("cargo:rustc-link-search=native={}", folder.display());
    println!("cargo:rustc-link-lib=static=firrozka");
}

/// Ends the build with two plain sentences; a panic would hide them in its own.
fn missing(library: &Path) -> ! {
    eprintln!("firrozka: there is no {}.", library.display());
    eprintln!(
        "Run `bash tools/build library` at the repository's root, or set FIRROZKA_LIB_DIR \
         to the folder that has libfirrozka.a."
    );
    process::exit(1)
}
