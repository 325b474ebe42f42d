//! Tells the linker where libsffs1.a is: SFFS1_LIB, or the folder that the repository's build writes.

use std::env;
use std::path::PathBuf;

fn main() {
    let folder = match env::var_os("SFFS1_LIB") {
        Some(folder) => PathBuf::from(folder),
        None => PathBuf::from(env::var_os("CARGO_MANIFEST_DIR").unwrap()).join("../../target/staticlib"),
    };
    let archive = folder.join("libsffs1.a");
    if !archive.exists() {
        println!("cargo:warning={} is not there: build the static library first", archive.display());
    }
    println!("cargo:rerun-if-env-changed=SFFS1_LIB");
    println!("cargo:rerun-if-changed={}", archive.display());
    println!("cargo:rustc-link-search=native={}", folder.display());
}
