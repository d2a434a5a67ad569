//! The functions of `src/ffi.rs` are those of the library's header: a declaration that differs from
//! the library would not be noticed by the linker.

use std::fs;
use std::path::PathBuf;

const FFI: &str = include_str!("../src/ffi.rs");
const REFUSAL: &str = include_str!("../src/refusal.rs");

/// The header of the repository, else that beside the library that is linked.
fn header() -> String {
    let repository = PathBuf::from(env!("CARGO_MANIFEST_DIR")).join("../../include");
    let folders = [repository, PathBuf::from(env!("SUBMISSION_BOOK_FOLDER"))];
    let mut read =
        folders.iter().map(|folder| fs::read_to_string(folder.join("submission_book.h")));
    read.find_map(Result::ok).expect("submission_book.h")
}

/// The header without comments, with single spaces.
fn code(header: &str) -> String {
    let mut parts = header.split("/*");
    let first = parts.next().unwrap().to_string();
    let code = parts.fold(first, |code, part| code + part.split_once("*/").unwrap().1);
    code.split_whitespace().collect::<Vec<_>>().join(" ")
}

/// The declarations of the header, sorted.
fn declared(header: &str) -> Vec<String> {
    let code = code(header);
    let declarations = code.split("uint8_t submission_book_").skip(1);
    let mut all: Vec<String> = declarations
        .map(|rest| format!("submission_book_{}", rest.split_once(';').unwrap().0))
        .collect();
    all.sort();
    all
}

/// An argument of `src/ffi.rs` as the header writes it.
fn in_c(argument: &str) -> String {
    let (name, kind) = argument.trim().split_once(": ").unwrap();
    let length = |pointer: &str| format!("{pointer} *{name}, size_t {name}_len");
    match kind {
        "&mut [u8]" => length("uint8_t"),
        "&[u8]" => length("const uint8_t"),
        "&[u64]" => length("const uint64_t"),
        "&mut u64" => format!("uint64_t *{name}"),
        "u64" => format!("uint64_t {name}"),
        "u8" => format!("uint8_t {name}"),
        other => panic!("{other}"),
    }
}

/// The functions of `src/ffi.rs` as the header writes them, sorted.
fn wrapped() -> Vec<String> {
    let lines = FFI.lines().filter_map(|line| line.trim().strip_prefix("fn submission_book_"));
    let mut all: Vec<String> = lines
        .filter(|line| line.ends_with(");"))
        .map(|line| {
            let (name, rest) = line.split_once('(').unwrap();
            let arguments: Vec<String> =
                rest.strip_suffix(");").unwrap().split(", ").map(in_c).collect();
            format!("submission_book_{name}({})", arguments.join(", "))
        })
        .collect();
    all.sort();
    all
}

#[test]
fn every_function_of_the_header_is_declared_as_it_is_there() {
    let wrapped = wrapped();
    assert_eq!(wrapped.len(), 33);
    assert_eq!(wrapped, declared(&header()));
}

/// The number behind `name`, in either language's way of writing it.
fn number_behind(text: &str, name: &str) -> u64 {
    let rest = text.split_once(name).unwrap_or_else(|| panic!("{name}")).1.trim_start();
    let digits = rest.chars().filter(|c| *c != '_').take_while(char::is_ascii_digit);
    digits.collect::<String>().parse().unwrap()
}

/// Each size of `src/ffi.rs` and its name in the header, where that is another one.
fn sizes() -> Vec<(&'static str, String)> {
    let lines = FFI.lines().filter_map(|line| line.strip_prefix("pub const "));
    let names = lines.map(|line| line.split_once(':').unwrap().0);
    names
        .map(|name| match name {
            "BOOK_BYTES" => (name, "SUBMISSION_BOOK_BYTES".to_string()),
            "FEE_INTENT_BYTES" => (name, "SUBMISSION_BOOK_FEE_INTENT_ANSWER_BYTES".to_string()),
            _ => (name, format!("SUBMISSION_BOOK_{name}")),
        })
        .collect()
}

#[test]
fn the_sizes_are_those_of_the_header() {
    let header = header();
    let sizes = sizes();
    assert_eq!(sizes.len(), 16);
    for (here, there) in sizes {
        let size = number_behind(FFI, &format!("pub const {here}: usize ="));
        assert_eq!(size, number_behind(&header, &format!("#define {there} ")), "{here}");
    }
}

#[test]
fn the_version_is_that_of_the_header() {
    let version = format!("VERSION_STRING \"{}\"", env!("CARGO_PKG_VERSION"));
    assert!(header().contains(&version), "{version}");
}

/// `NO_BOOK` as `NoBook`.
fn in_rust(name: &str) -> String {
    let word = |word: &str| word[..1].to_string() + &word[1..].to_lowercase();
    name.split('_').map(word).collect()
}

#[test]
fn the_refusals_have_the_names_and_numbers_of_the_header() {
    let code = code(&header());
    let listed = code.split_once("enum submission_book_refusal {").unwrap().1;
    let listed = listed.split_once('}').unwrap().0.split(',');
    let header: Vec<String> = listed
        .map(|item| {
            item.trim().strip_prefix("SUBMISSION_BOOK_").unwrap().split_once(" = ").unwrap()
        })
        .map(|(name, number)| format!("{} => {number}", in_rust(name)))
        .filter(|item| item != "Done => 0")
        .collect();
    let lines = REFUSAL.lines().filter_map(|line| line.trim().strip_prefix("Refusal::"));
    let here: Vec<String> = lines
        .map(|line| line.trim_end_matches(',').replace(" { .. }", ""))
        .filter(|line| line.ends_with(|last: char| last.is_ascii_digit()))
        .collect();
    assert_eq!(here.len(), 13);
    assert_eq!(here, header);
}
