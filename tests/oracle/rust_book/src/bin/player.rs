//! Plays one call script: standard input to standard output.

use std::io::{Read, Write};

fn main() {
    let mut script = Vec::new();
    std::io::stdin().read_to_end(&mut script).expect("standard input");
    let answers = rust_book::play::play(&script);
    std::io::stdout().write_all(&answers).expect("standard output");
}
