//! Links libgczone.a of the folder GCZONE_LIB_DIR, or of bindings/c/out, where `make` puts it.

use std::env;
use std::path::PathBuf;

fn main() {
    println!("cargo:rerun-if-env-changed=GCZONE_LIB_DIR");
    let folder = match env::var_os("GCZONE_LIB_DIR") {
        Some(folder) => PathBuf::from(folder),
        None => PathBuf::from(env::var_os("CARGO_MANIFEST_DIR").expect("cargo sets it")).join("../c/out"),
    };
    let archive = folder.join("libgczone.a");
    if !archive.is_file() {
        println!("cargo:warning={} is not there; `make -C bindings/c` makes it", archive.display());
    }
    println!("cargo:rustc-link-search=native={}", folder.display());
    println!("cargo:rustc-link-lib=static=gczone");
    println!("cargo:rerun-if-changed={}", archive.display());
}
