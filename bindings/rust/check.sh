#!/usr/bin/env bash
# The crate's tests on the library that `make lib` has written; documentation, and clippy where it is at hand, without a warning; and that a library of
# another version is refused.
set -euo pipefail
cd "$(dirname "$0")"
cargo test --offline --quiet
RUSTDOCFLAGS='-D warnings' cargo doc --offline --no-deps --quiet
if cargo clippy --version >/dev/null 2>&1; then
    cargo clippy --offline --all-targets --quiet -- -D warnings
fi

work=$(mktemp -d)
trap 'rm -rf "$work"' EXIT
cp ../../target/lib/libsubmission_book.a "$work/"
ar d "$work/libsubmission_book.a" submission_book_answers.o
printf 'unsigned submission_book_version(void);\nunsigned submission_book_version(void) { return 0x010203; }\n' >"$work/version.c"
"${CC:-cc}" -c "$work/version.c" -o "$work/version.o"
ar rs "$work/libsubmission_book.a" "$work/version.o"
if SUBMISSION_BOOK_LIB=$work CARGO_TARGET_DIR=$work/target cargo test --offline --quiet --test scenarios >"$work/said" 2>&1 ||
    ! grep -q 'the linked library has version 1\.2\.3, and this crate is for version' "$work/said"; then
    tail -n 20 "$work/said"
    echo "Rust crate: a library of another version is not refused"
    exit 1
fi
echo "Rust crate: tests, documentation and lints without a warning; a library of another version is refused"
