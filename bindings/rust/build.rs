//! Says where libclearing_c.a is: in CLEARING_LIB_DIR or, without it, in the repository's target/staticlib.

use std::env;
use std::path::{Path, PathBuf};

fn main() {
    let package = PathBuf::from(env::var_os("CARGO_MANIFEST_DIR").expect("set by cargo"));
    // A relative CLEARING_LIB_DIR is taken from this package's folder.
    let folder = package.join(env::var_os("CLEARING_LIB_DIR").unwrap_or("../../target/staticlib".into()));
    let library: &Path = &folder.join("libclearing_c.a");
    if !library.exists() {
        println!("cargo:warning={} is missing: tools/library, or set CLEARING_LIB_DIR", library.display());
    }
    println!("cargo:rerun-if-env-changed=CLEARING_LIB_DIR");
    println!("cargo:rerun-if-changed={}", library.display());
    println!("cargo:rustc-link-search=native={}", folder.display());
}
