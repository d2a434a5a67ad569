#!/usr/bin/env bash
# Every comparison in one run, as Markdown: the calls against the upstream Rust, archives and SHA-256 against plain Rust.
#   bench/run.sh [OLD]    with OLD, another build's libc_api_c.a: every call of that library against this one, and nothing else
set -euo pipefail
cd "$(dirname "$0")/.."
export PATH="$HOME/.cargo/bin:$PATH"
out=$PWD/target/bench
mkdir -p "$out"
if ! command -v rustc >/dev/null; then
    echo "There is no Rust compiler here, and the programs that measure are Rust: nothing is measured."
    exit 1
fi
log=$out/build.log
: >"$log"
make --no-print-directory target/libc_api_c.a >&2

# Two builds of the library in one program: the other one's functions get other names.
if [ $# -gt 0 ]; then
    nm -g --defined-only "$1" | awk '$3 ~ /^submission_book_/ { print $3, "other_" $3 }' >"$out/symbols"
    objcopy --redefine-syms="$out/symbols" "$1" "$out/libother.a"
    rustc --edition 2021 -C opt-level=3 --cfg 'feature="other"' -o "$out/versions" bench/calls/src/main.rs -L native=target -l static=c_api_c \
        -L native="$out" -l static=other >>"$log" 2>&1 || { cat "$log"; exit 1; }
    exec "$out/versions" versions
fi

# A copy of the oracle's build of the upstream text, with the module that times its methods.
upstream=${SUBMISSION_BOOK_UPSTREAM:-../shared/docs/src}
copy=$out/rust_book
rm -rf "$copy" "$out/serde"
cp -r tests/oracle/rust_book tests/oracle/serde "$out/"
cp bench/calls/rust/case.rs "$copy/src/"
cp bench/calls/rust/timing.rs "$copy/src/transaction_manager/"
echo 'pub mod timing;' >>"$copy/src/transaction_manager.rs"
printf 'pub mod case;\npub use transaction_manager::timing;\n' >>"$copy/src/lib.rs"

libraries="-L native=$PWD/target -l static=c_api_c"
if command -v cargo >/dev/null && [ -f "$upstream/src/transaction_manager/submission.rs" ]; then
    SUBMISSION_BOOK_UPSTREAM=$(cd "$upstream" && pwd) RUSTFLAGS=$libraries CARGO_TARGET_DIR=$out/cargo \
        cargo build --release --offline --features rust --manifest-path bench/calls/Cargo.toml >>"$log" 2>&1 || { cat "$log"; exit 1; }
    calls=$out/cargo/release/call_times
else
    # shellcheck disable=SC2086
    rustc --edition 2021 -C opt-level=3 -o "$out/call_times" bench/calls/src/main.rs $libraries >>"$log" 2>&1 || { cat "$log"; exit 1; }
    calls=$out/call_times
fi
for part in archive sha256; do
    rustc --edition 2021 -C opt-level=3 -o "$out/$part" "bench/$part/main.rs" -L target -l static=c_api_c >>"$log" 2>&1 || { cat "$log"; exit 1; }
done
"$calls"
"$out/archive"
"$out/sha256"
