//! Links libbindlewort.a: that of the folder named by BINDLEWORT_LIB, or the one that `tests/library` makes.

use std::env;
use std::path::PathBuf;

fn main() {
    let folder = match env::var_os("BINDLEWORT_LIB") {
        Some(folder) => PathBuf::from(folder),
        None => PathBuf::from(env!("CARGO_MANIFEST_DIR")).join("../target/native"),
    };
    let archive = folder.join("libbindlewort.a");
    if !archive.is_file() {
        panic!("there is no {}: run tests/library first", archive.display());
    }
    println!("cargo:rerun-if-env-changed=BINDLEWORT_LIB");
    println!("cargo:rerun-if-changed={}", archive.display());
    println!("cargo:rustc-link-search=native={}", folder.display());
    println!("cargo:rustc-link-lib=static=bindlewort");
    println!("cargo:rustc-env=BINDLEWORT_ARCHIVE={}", archive.display());
}
