//! Finds `libcorridor.a`: in the folder that CORRIDOR_LIB_DIR names, otherwise
//! where the repository's `tests/build` puts it.

use std::env;
use std::path::{Path, PathBuf};

fn main() {
    println!("cargo::rerun-if-env-changed=CORRIDOR_LIB_DIR");
    let folder = folder();
    let library = folder.join("libcorridor.a");
    if !library.is_file() {
        println!(
            "cargo::error=there is no {}: run tests/build at the top of the repository, or set \
             CORRIDOR_LIB_DIR to the folder that has it",
            library.display()
        );
        return;
    }
    // a relative folder is the package's, and rustc may run elsewhere
    let folder = folder.canonicalize().unwrap_or(folder);
    println!("cargo::rerun-if-changed={}", library.display());
    println!("cargo::rustc-link-search=native={}", folder.display());
    println!("cargo::rustc-link-lib=static=corridor");
}

/// The folder in which the library has to stand.
fn folder() -> PathBuf {
    if let Some(named) = env::var_os("CORRIDOR_LIB_DIR") {
        return PathBuf::from(named);
    }
    let package = env::var_os("CARGO_MANIFEST_DIR").unwrap_or_default();
    let repository = Path::new(&package).join("../..");
    let repository = repository.canonicalize().unwrap_or(repository);
    repository.join("target/staticlib")
}
