//! Every call of the book, timed in one run on the same books: the upstream Rust, and the port through its C boundary,
//! also without the reading and writing of the book. Prints Markdown.

#[path = "../../clock.rs"]
mod clock;
#[path = "../../archive/plain.rs"]
mod plain;

#[cfg(feature = "rust")]
pub(crate) use rust_book as oracle;
#[cfg(feature = "rust")]
pub(crate) use rust_book::case;

// Without the upstream text the port is timed alone.
#[cfg(not(feature = "rust"))]
#[path = "../../../tests/oracle/rust_book/src/archive.rs"]
#[allow(dead_code)]
mod archive;
#[cfg(not(feature = "rust"))]
#[path = "../rust/case.rs"]
mod case;
#[cfg(not(feature = "rust"))]
#[path = "../../../tests/oracle/rust_book/src/model.rs"]
#[allow(dead_code)]
mod model;
#[cfg(not(feature = "rust"))]
mod oracle {
    pub(crate) use crate::{archive, model, sha256};
}
#[cfg(not(feature = "rust"))]
#[path = "../../../tests/oracle/rust_book/src/sha256.rs"]
mod sha256;

/// The library's own symbol of a function.
macro_rules! symbol {
    ($name:ident) => {
        stringify!($name)
    };
}

mod inputs;
mod looks;
mod port;
mod stack;
mod table;
mod times;
#[cfg(feature = "other")]
mod versions;

/// The other build of the library, whose symbols bench/run.sh renames.
#[cfg(feature = "other")]
#[path = "."]
mod other {
    macro_rules! symbol {
        ($name:ident) => {
            concat!("other_", stringify!($name))
        };
    }
    #[allow(dead_code)]
    pub mod port;
}

extern "C" {
    fn mallopt(parameter: i32, value: i32) -> i32;
}

/// Memory once had stays with the program, so that no round of the Rust's pays for new pages.
fn keep_memory() {
    const TRIM_THRESHOLD: i32 = -1;
    const MMAP_THRESHOLD: i32 = -3;
    for parameter in [TRIM_THRESHOLD, MMAP_THRESHOLD] {
        // The C library's own settings; 1 says that it took them.
        assert_eq!(unsafe { mallopt(parameter, 1 << 30) }, 1);
    }
}

fn main() {
    keep_memory();
    #[cfg(feature = "other")]
    if std::env::args().any(|word| word == "versions") {
        print!("{}", versions::table());
        return;
    }
    let calls = table::calls();
    let drain = table::drain();
    let (stack, largest) = table::stack();
    print!("{}{}{drain}{stack}", calls.in_short(largest), calls.table);
}
