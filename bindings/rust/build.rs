//! Links libbalqirven.a: from the folder that BALQIRVEN_LIB_DIR names, or else from target/staticlib of the checkout that this crate stands in.

use std::env;
use std::path::Path;

fn main() {
    println!("cargo::rerun-if-env-changed=BALQIRVEN_LIB_DIR");
    let folder = match env::var_os("BALQIRVEN_LIB_DIR") {
        Some(named) => Path::new(&named).to_path_buf(),
        None => Path::new(env!("CARGO_MANIFEST_DIR")).join("../../target/staticlib"),
    };
    let archive = folder.join("libbalqirven.a");
    println!("cargo::rerun-if-changed={}", archive.display());

    if env::var("CARGO_CFG_TARGET_ARCH").as_deref() != Ok("x86_64") {
        println!("cargo::error=libbalqirven.a is for x86-64 alone");
    } else if folder.is_relative() {
        println!("cargo::error=BALQIRVEN_LIB_DIR is to be a whole path, and is '{}'", folder.display());
    } else if !archive.is_file() {
        println!("cargo::error={} is not there: build it (./build), or name its folder by BALQIRVEN_LIB_DIR", archive.display());
    } else {
        println!("cargo::rustc-link-search=native={}", folder.display());
        println!("cargo::rustc-link-lib=static=balqirven");
    }
}
