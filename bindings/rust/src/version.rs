//! That the linked library is the one that this crate is for.

use crate::ffi;

/// A part of this crate's version as a number.
const fn part(text: &str) -> u32 {
    let digits = text.as_bytes();
    let (mut number, mut at) = (0, 0);
    while at < digits.len() {
        number = 10 * number + (digits[at] - b'0') as u32;
        at += 1;
    }
    number
}

/// SUBMISSION_BOOK_VERSION of the library that this crate is for.
const VERSION: u32 = part(env!("CARGO_PKG_VERSION_MAJOR")) << 16
    | part(env!("CARGO_PKG_VERSION_MINOR")) << 8
    | part(env!("CARGO_PKG_VERSION_PATCH"));

/// Another version may have other sizes, numbers and forms.
fn expect(library: u32) {
    let (major, minor, patch) = (library >> 16, library >> 8 & 0xff, library & 0xff);
    assert!(
        library == VERSION,
        "the linked library has version {major}.{minor}.{patch}, and this crate is for version {}: \
         build it anew with `make lib`",
        env!("CARGO_PKG_VERSION")
    );
}

/// Asked where a book is made and where bytes are hashed, which every use begins with.
pub fn expect_version() {
    expect(ffi::version());
}

/// The library does not do as its header says, so it is another one than this crate is for.
#[cold]
pub fn wrong_library() -> ! {
    panic!("the linked library is not of this crate's revision: build it anew with `make lib`")
}

#[cfg(test)]
mod tests {
    use super::*;

    #[test]
    fn the_linked_library_is_of_this_version() {
        assert_eq!(ffi::version(), VERSION);
    }

    #[test]
    #[should_panic(expected = "has version 1.2.3, and this crate is for version ")]
    fn a_library_of_another_version_is_refused() {
        expect(0x010203);
    }
}
