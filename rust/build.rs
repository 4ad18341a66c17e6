//! Tells the linker where the proved library is.

use std::env;
use std::path::PathBuf;

fn main() {
    println!("cargo:rerun-if-env-changed=LINK_LIB");
    let folder = folder();
    let library = folder.join("liblink.a");
    println!("cargo:rerun-if-changed={}", library.display());
    assert!(
        library.is_file(),
        "{} isn't there: `make link` writes it to target/staticlib, and LINK_LIB=folder names \
         another place",
        library.display()
    );
    println!("cargo:rustc-link-search=native={}", folder.display());
    println!("cargo:rustc-link-lib=static=link");
}

/// Where LINK_LIB says, else where `make link` writes it.
fn folder() -> PathBuf {
    match env::var_os("LINK_LIB") {
        Some(folder) => folder.into(),
        None => PathBuf::from(env!("CARGO_MANIFEST_DIR")).join("../target/staticlib"),
    }
}
