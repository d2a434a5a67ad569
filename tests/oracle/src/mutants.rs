//! Checks that each mutant of the Rust is told from the Rust by the generated scripts.

use std::fs;
use std::path::{Path, PathBuf};
use std::process::Command;

use rust_book::mutant_list::{Mutant, MUTANTS};
use rust_book::play::play;
use rust_book::upstream;

use crate::compare::{differs, report};
use crate::driver::Driver;
use crate::generate;
use crate::shrink::shrink;

fn oracle_folder() -> &'static Path {
    Path::new(env!("CARGO_MANIFEST_DIR"))
}

/// A copy of the crate with the mutant's text in it.
fn changed_copy(mutant: &Mutant) -> PathBuf {
    let copy = oracle_folder().join("target/mutants/source");
    copy_folder(&oracle_folder().join("rust_book"), &copy.join("rust_book"));
    copy_folder(&oracle_folder().join("serde"), &copy.join("serde"));
    let manifest = fs::read_to_string(oracle_folder().join("Cargo.toml")).expect("the manifest");
    let profiles = manifest.find("[profile").expect("the profiles");
    let workspace = "[workspace]\nresolver = \"2\"\nmembers = [\"rust_book\", \"serde\"]\n\n";
    write_if_changed(&copy.join("Cargo.toml"), &format!("{workspace}{}", &manifest[profiles..]));
    if mutant.of_ours() {
        let file = copy.join(mutant.file);
        let text = fs::read_to_string(&file).expect("the file to change");
        let places = text.matches(mutant.find).count();
        assert_eq!(places, 1, "mutant {}: its text is found {places} times", mutant.number);
        write_if_changed(&file, &text.replace(mutant.find, mutant.put));
    }
    copy
}

/// Files that stay the same keep their time, so that they are not built again.
fn write_if_changed(file: &Path, text: &str) {
    if fs::read_to_string(file).ok().as_deref() != Some(text) {
        fs::write(file, text).expect("a copied file");
    }
}

fn copy_folder(from: &Path, to: &Path) {
    fs::create_dir_all(to).expect("a folder for the copy");
    for entry in fs::read_dir(from).expect("a folder to copy") {
        let path = entry.expect("an entry").path();
        let place = to.join(path.file_name().expect("a name"));
        if path.is_dir() {
            copy_folder(&path, &place);
        } else {
            write_if_changed(&place, &fs::read_to_string(&path).expect("a text file"));
        }
    }
}

/// Builds the player with the mutant in it.
fn build(mutant: &Mutant) -> Driver {
    let target = oracle_folder().join("target/mutants");
    let number = if mutant.of_ours() { String::new() } else { mutant.number.to_string() };
    let upstream = fs::canonicalize(upstream::ROOT).expect("the upstream folder");
    let status = Command::new("cargo")
        .args(["build", "-q", "-j1", "--offline", "--profile", "mutant"])
        .args(["-p", "rust_book", "--bin", "player", "--target-dir"])
        .arg(&target)
        .current_dir(changed_copy(mutant))
        .env("ORACLE_MUTANT", number)
        .env("SUBMISSION_BOOK_UPSTREAM", upstream)
        .env("RUSTFLAGS", "-Awarnings")
        .status()
        .expect("cargo runs");
    assert!(status.success(), "mutant {} does not build", mutant.number);
    Driver { path: target.join("mutant/player"), arguments: Vec::new() }
}

/// The number of the first script on which the mutant's answers differ from the other side's:
/// the driver's if there is one, else the unchanged Rust's.
fn caught(mutant: &Driver, other: Option<&Driver>, seed: u64, scripts: u64) -> Option<u64> {
    (0..scripts).find(|number| {
        let bytes = generate::script(seed, *number).bytes();
        let expected = match other {
            Some(driver) => driver.run(&bytes).output,
            None => play(&bytes),
        };
        mutant.run(&bytes).output != expected
    })
}

/// Goes through all mutants, or only the one named; true if each is caught.
pub fn run(
    other: Option<&Driver>,
    only: Option<usize>,
    seed: u64,
    scripts: u64,
    show: bool,
) -> bool {
    let chosen = |mutant: &&Mutant| only.is_none_or(|number| number == mutant.number);
    let mut missed = 0;
    for mutant in MUTANTS.iter().filter(chosen) {
        let driver = build(mutant);
        match caught(&driver, other, seed, scripts) {
            Some(number) => {
                println!("mutant {:2} caught by script {number:4}: {}", mutant.number, mutant.note);
                if show {
                    let script = generate::script(seed, number);
                    report(&driver, &shrink(&script, |bytes| differs(&driver, bytes)));
                }
            }
            None => {
                println!("mutant {:2} NOT CAUGHT: {}", mutant.number, mutant.note);
                missed += 1;
            }
        }
    }
    missed == 0
}
