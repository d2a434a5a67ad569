//! Cuts the upstream text that the oracle is built around into `OUT_DIR`.
//!
//! `submission.rs` and `replay.rs` are copied whole. Of the other files, items are cut out by
//! exact markers. A file or a marker that is missing, or found twice, ends the build.
//! With `ORACLE_MUTANT=n` one marked replacement of `src/mutant_list.rs` is applied.

#[path = "src/mutant_list.rs"]
#[allow(dead_code)]
mod mutant_list;

use std::path::{Path, PathBuf};
use std::{env, fs};

use mutant_list::{Mutant, MUTANTS};

/// One upstream file, with the mutant applied if it is of this file.
struct Source {
    path: &'static str,
    text: String,
}

impl Source {
    fn read(root: &Path, path: &'static str, mutant: Option<&Mutant>) -> Source {
        let file = root.join("src").join(path);
        println!("cargo:rerun-if-changed={}", file.display());
        let mut text = fs::read_to_string(&file).unwrap_or_else(|error| {
            panic!(
                "upstream file {} cannot be read ({error}); name the folder that holds \
                 src/{path} in SUBMISSION_BOOK_UPSTREAM",
                file.display()
            )
        });
        if let Some(mutant) = mutant.filter(|mutant| mutant.file == path) {
            let places = text.matches(mutant.find).count();
            assert_eq!(places, 1, "mutant {}: its text is found {places} times", mutant.number);
            text = text.replace(mutant.find, mutant.put);
        }
        Source { path, text }
    }

    /// The byte offset of the one line that reads `line`.
    fn line_start(&self, line: &str) -> usize {
        let mut found = Vec::new();
        let mut at = 0;
        for each in self.text.split_inclusive('\n') {
            if each.trim_end_matches('\n') == line {
                found.push(at);
            }
            at += each.len();
        }
        assert_eq!(
            found.len(),
            1,
            "{}: marker line found {} times: {line}",
            self.path,
            found.len()
        );
        found[0]
    }

    /// From the line `first` up to and without the line `before`.
    fn range(&self, first: &str, before: &str) -> String {
        let start = self.line_start(first);
        let end = self.line_start(before);
        assert!(start < end, "{}: markers in the wrong order: {first}", self.path);
        self.text[start..end].to_string()
    }

    /// The item whose head is the line `head`, with the attributes and doc comments above it, to
    /// its closing brace. A head that ends with `;` is the whole item.
    fn item(&self, head: &str) -> String {
        let mut start = self.line_start(head);
        while let Some(line) = self.text[..start].split_inclusive('\n').next_back() {
            let text = line.trim_start();
            if !text.starts_with("#[") && !text.starts_with("///") {
                break;
            }
            start -= line.len();
        }
        let body = self.line_start(head);
        if head.ends_with(';') {
            return self.text[start..body + head.len() + 1].to_string();
        }
        let indent = &head[..head.len() - head.trim_start().len()];
        let closing = format!("\n{indent}}}\n");
        let end = self.text[body..]
            .find(&closing)
            .unwrap_or_else(|| panic!("{}: no closing brace for: {head}", self.path));
        self.text[start..body + end + closing.len()].to_string()
    }

    fn items(&self, heads: &[&str]) -> String {
        heads.iter().map(|head| self.item(head) + "\n").collect()
    }
}

fn upstream_root() -> PathBuf {
    println!("cargo:rerun-if-env-changed=SUBMISSION_BOOK_UPSTREAM");
    match env::var_os("SUBMISSION_BOOK_UPSTREAM") {
        Some(folder) => PathBuf::from(folder),
        None => {
            let package =
                PathBuf::from(env::var_os("CARGO_MANIFEST_DIR").expect("manifest folder"));
            package.join("../../../../shared/docs/src")
        }
    }
}

fn chosen_mutant() -> Option<&'static Mutant> {
    println!("cargo:rerun-if-env-changed=ORACLE_MUTANT");
    let number = env::var("ORACLE_MUTANT").ok().filter(|text| !text.is_empty())?;
    let number: usize = number.parse().expect("ORACLE_MUTANT is a number");
    let mutant = MUTANTS.iter().find(|mutant| mutant.number == number);
    Some(mutant.unwrap_or_else(|| panic!("there is no mutant {number}")))
}

fn main() {
    println!("cargo:rerun-if-changed=build.rs");
    println!("cargo:rerun-if-changed=src/mutant_list.rs");
    let root = upstream_root();
    let mutant = chosen_mutant();
    let out = PathBuf::from(env::var_os("OUT_DIR").expect("out folder"));
    let source = |path| Source::read(&root, path, mutant);
    let write = |name: &str, text: &str| fs::write(out.join(name), text).expect("out file");

    let submission = source("transaction_manager/submission.rs");
    write("submission.rs", &submission.text);
    let replay = source("transaction_manager/replay.rs");
    write("replay.rs", &replay.text);

    // Everything between the two markers is one unbroken piece of upstream text.
    let manager = source("transaction_manager.rs");
    write(
        "transaction_manager.rs",
        &manager.range(
            "/// A transaction the manager has handed to the hosting layer for submission,",
            "/// Per-watched-coin bookkeeping owned by the manager.",
        ),
    );

    let effects = source("session_phases/effects.rs");
    write(
        "effects.rs",
        &effects.items(&[
            "pub enum FeePolicy {",
            "pub enum AttachmentFailurePolicy {",
            "pub enum SubmissionFeeIntent {",
            "pub struct TransactionSubmission {",
            "impl TransactionSubmission {",
        ]),
    );

    let spend = source("common/types/spend.rs");
    write(
        "spend.rs",
        &spend.items(&["pub struct Spend {", "pub struct CoinSpend {", "pub struct SpendBundle {"]),
    );
    let coin_string = source("common/types/coin_string.rs");
    write(
        "coin_string.rs",
        &coin_string.items(&[
            "pub struct CoinString(Vec<u8>);",
            "impl std::fmt::Debug for CoinString {",
            "impl CoinString {",
        ]),
    );
    let coin_id = source("common/types/coin_id.rs");
    write("coin_id.rs", &coin_id.items(&["pub struct CoinID(pub Hash32);", "impl CoinID {"]));
    let puzzle_hash = source("common/types/puzzle_hash.rs");
    write(
        "puzzle_hash.rs",
        &puzzle_hash.items(&["pub struct PuzzleHash(Hash);", "impl PuzzleHash {"]),
    );
    let amount = source("common/types/amount.rs");
    let methods = ["    pub fn new(amt: u64) -> Amount {", "    pub fn to_u64(&self) -> u64 {"];
    write(
        "amount.rs",
        &format!(
            "{}impl Amount {{\n{}}}\n{}",
            amount.item("pub struct Amount(u64);"),
            amount.items(&methods),
            amount.item("impl<E: ClvmEncoder<Node = NodePtr>> ToClvm<E> for Amount {"),
        ),
    );

    println!("cargo:rustc-env=ORACLE_UPSTREAM_ROOT={}", root.display());
    println!("cargo:rustc-env=ORACLE_BUILT_MUTANT={}", mutant.map_or(0, |mutant| mutant.number));
}
