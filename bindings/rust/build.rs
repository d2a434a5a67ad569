//! Finds the library that `make lib` writes: in the folder that SUBMISSION_BOOK_LIB names, else in
//! `target/lib` of the repository.

use std::env;
use std::path::{Path, PathBuf};
use std::process::exit;

fn main() {
    println!("cargo:rerun-if-changed=build.rs");
    println!("cargo:rerun-if-env-changed=SUBMISSION_BOOK_LIB");
    let folder = folder();
    let library = folder.join("libsubmission_book.a");
    // one that is written later is found by the next build
    println!("cargo:rerun-if-changed={}", library.display());
    // the whole path, since the linker runs elsewhere
    let Some(folder) = folder.canonicalize().ok().filter(|_| library.is_file()) else {
        missing(&folder);
    };
    println!("cargo:rustc-link-search=native={}", folder.display());
    println!("cargo:rustc-link-lib=static=submission_book");
    // tests/header.rs reads the header there
    println!("cargo:rustc-env=SUBMISSION_BOOK_FOLDER={}", folder.display());
}

fn folder() -> PathBuf {
    if let Some(named) = env::var_os("SUBMISSION_BOOK_LIB").filter(|name| !name.is_empty()) {
        return PathBuf::from(named);
    }
    let crate_folder = PathBuf::from(env::var_os("CARGO_MANIFEST_DIR").expect("set by cargo"));
    crate_folder.join("../../target/lib")
}

fn missing(folder: &Path) -> ! {
    eprintln!("There is no libsubmission_book.a in {}.", folder.display());
    eprintln!("Run `make lib` at the root of the repository: it writes the library.");
    eprintln!("For a library elsewhere, SUBMISSION_BOOK_LIB names the folder that holds it.");
    exit(1);
}
