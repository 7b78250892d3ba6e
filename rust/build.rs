//! Names the proved archive to the linker: `TAMESWULK_LIB` if that is set, else where `rt lib` writes it, the repository's `crates/tameswulk/out`.
use std::{env, path::PathBuf};

fn main() {
    println!("cargo:rerun-if-env-changed=TAMESWULK_LIB");
    let folder = match env::var_os("TAMESWULK_LIB") {
        Some(folder) => PathBuf::from(folder),
        None => PathBuf::from(env::var_os("CARGO_MANIFEST_DIR").unwrap()).join("../crates/tameswulk/out"),
    };
    let archive = folder.join("libtameswulk.a");
    println!("cargo:rerun-if-changed={}", archive.display());
    if !archive.is_file() {
        eprintln!("no {}: `rt lib` makes it, in the repository's crates/tameswulk", archive.display());
        std::process::exit(1);
    }
    println!("cargo:rustc-link-search=native={}", folder.display());
    println!("cargo:rustc-link-lib=static=tameswulk");
}
