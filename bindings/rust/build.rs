//! Tells where libace_c.a is: the folder in ACE_C_DIR, or else where `tools/staticlib ace_c` writes it.

use std::env;
use std::path::{Path, PathBuf};

fn main() {
    let here = env::var("CARGO_MANIFEST_DIR").expect("cargo says where the crate is");
    let folder = match env::var_os("ACE_C_DIR") {
        Some(folder) => PathBuf::from(folder),
        None => Path::new(&here).join("../../target/staticlib"),
    };
    let archive = folder.join("libace_c.a");
    println!("cargo:rerun-if-env-changed=ACE_C_DIR");
    println!("cargo:rerun-if-changed={}", archive.display());
    assert!(
        archive.is_file(),
        "{} is not there: `tools/staticlib ace_c` writes it",
        archive.display()
    );
    println!("cargo:rustc-link-search=native={}", folder.display());
}
