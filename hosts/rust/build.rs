//! Links the static library: libbtpu.a in the directory that BTPU_LIB_DIR names, or libboard.a where the
//! repository's `staticlib` puts it.

use std::env;
use std::path::{Path, PathBuf};
use std::process::exit;

fn main() {
    println!("cargo:rerun-if-env-changed=BTPU_LIB_DIR");
    let (directory, name) = place();
    let library = directory.join(format!("lib{name}.a"));
    println!("cargo:rerun-if-changed={}", library.display());
    if !library.exists() {
        eprintln!(
            "{} is missing. In the root of the repository run: ./staticlib\n\
             Or name the directory of an installed libbtpu.a in BTPU_LIB_DIR.",
            library.display()
        );
        exit(1);
    }
    println!("cargo:rustc-link-search=native={}", directory.display());
    println!("cargo:rustc-link-lib=static={name}");
}

/// The directory of the library and its name there.
fn place() -> (PathBuf, &'static str) {
    if let Some(directory) = env::var_os("BTPU_LIB_DIR") {
        return (directory.into(), "btpu");
    }
    let manifest = env::var_os("CARGO_MANIFEST_DIR").expect("cargo sets the manifest directory");
    (Path::new(&manifest).join("../../target/staticlib"), "board")
}
