#!/bin/sh
# Fuzzes the C boundary: fuzz/run.sh [SECONDS]. Of the seconds (600 if none are given) a tenth goes to the readers of answers, and half of the rest to
# each of the other targets. It installs nothing.
set -eu
cd "$(dirname "$0")/.."
seconds=${1:-600}
crate=c_api_c
library=target/lib$crate.a
out=$PWD/target/fuzz
machine=$(uname -m)

fail() {
    echo "fuzz: $*" >&2
    exit 1
}

need_tools() {
    command -v rt >/dev/null || fail "rt, the Rattle kit's command, is not on the path"
    command -v clang >/dev/null || fail "clang is missing: install Debian's package clang"
    version=$(clang -dumpversion)
    runtime=$(clang -print-runtime-dir)
    for part in fuzzer asan; do
        [ -f "$runtime/libclang_rt.$part-$machine.a" ] || fail "clang's $part runtime is missing: install Debian's package libclang-rt-${version%%.*}-dev"
    done
    toolchain=$(dirname "$(rt doc)")/toolchain
    compiler=$toolchain/bin/clang
    [ -x "$compiler" ] || fail "the kit has no compiler $compiler"
}

# A folder like the kit's toolchain, whose compiler also keeps the LLVM module that it is given.
make_keeping_toolchain() {
    rm -rf "$out/toolchain"
    mkdir -p "$out/toolchain/bin"
    for entry in "$toolchain"/* "$toolchain"/bin/*; do
        name=${entry#"$toolchain"/}
        [ "$name" = bin ] || [ "$name" = bin/clang ] || ln -s "$entry" "$out/toolchain/$name"
    done
    cat >"$out/toolchain/bin/clang" <<END
#!/bin/sh
for word in "\$@"; do
    case \$word in *.bc) cp "\$word" "$out/module.bc" ;; esac
done
exec "$compiler" "\$@"
END
    chmod +x "$out/toolchain/bin/clang"
}

# The module is made anew only where a source, the list of crates or the kit has changed.
module_stamp() {
    { rt version; cat crates.txt; find crates -name out -prune -o -path '*/src/*' -type f -print | sort | xargs sha256sum; } | sha256sum
}

build_module() {
    stamp=$(module_stamp)
    if [ -f "$out/module.bc" ] && [ -f "$library" ] && [ "$(cat "$out/stamp" 2>/dev/null)" = "$stamp" ]; then
        return
    fi
    echo "fuzz: proving $crate and compiling it, which takes minutes"
    tools/prove --library "$crate" || fail "$library was not built"
    make_keeping_toolchain
    rm -f "$out/module.bc"
    tools/prove --over-kept "$crate" "$out/lib$crate.a" "$out/toolchain" || fail "$crate was not compiled once more"
    [ -f "$out/module.bc" ] || fail "the compiler was given no LLVM module"
    echo "$stamp" >"$out/stamp"
}

# The same module with coverage counters, traced comparisons and AddressSanitizer. The kit's compiler makes the object file, since an
# older one does not read its LLVM modules. AddressSanitizer passes over a function that has not its attribute.
instrument_module() {
    flags="--target=x86_64-unknown-linux-gnu -march=x86-64 --no-default-config -fPIC"
    # shellcheck disable=SC2086
    "$compiler" $flags -O0 -Xclang -disable-llvm-passes -S -emit-llvm -x ir "$out/module.bc" -o "$out/module.ll"
    sed 's/^\(attributes #[0-9]* = { nounwind\) \("probe-stack"\)/\1 sanitize_address \2/' "$out/module.ll" >"$out/module_asan.ll"
    grep -q '^attributes .* sanitize_address' "$out/module_asan.ll" || fail "no function got the attribute for AddressSanitizer"
    # shellcheck disable=SC2086
    "$compiler" $flags -O3 -mllvm -trap-unreachable -fsanitize=fuzzer-no-link,address -c -x ir "$out/module_asan.ll" -o "$out/module.o"
}

# Each target twice: on the instrumented library, and on the library as it is delivered.
build_target() {
    words="-std=c11 -g -O1 -Wall -Wextra -Wno-unused-function -I include"
    # shellcheck disable=SC2086
    clang $words -fsanitize=address -c "fuzz/$1.c" -o "$out/$1.o"
    clang -fsanitize=fuzzer,address "$out/$1.o" "$out/module.o" -o "$out/$1"
    # shellcheck disable=SC2086
    clang $words -fsanitize=fuzzer "fuzz/$1.c" "$library" -o "$out/$1_delivered"
}

# Prints the last coverage line and the counts of a log.
report() {
    grep -a -o 'Loaded 1 modules.*counters)' "$2" | tail -1 | sed "s/^/fuzz: $1: /"
    grep -a -E '^#[0-9]+.*cov: ' "$2" | tail -1 | sed "s/^/fuzz: $1: /"
    grep -a -E '^stat::(number_of_executed_units|average_exec_per_sec|new_units_added)' "$2" | sed "s/^/fuzz: $1: /"
}

# What is found is kept in target/fuzz/corpus, and is played on the delivered library as well.
fuzz_target() {
    mkdir -p "$out/corpus/$1"
    options="-timeout=20 -rss_limit_mb=2048 -max_len=$2 -print_final_stats=1 -artifact_prefix=$out/$1-"
    # shellcheck disable=SC2086
    ASAN_OPTIONS=detect_leaks=0 "$out/$1" $options -max_total_time=$((seconds / 2)) "$out/corpus/$1" "fuzz/corpus/$1" >"$out/$1.log" 2>&1 || {
        grep -a -E 'check failed|ERROR|SUMMARY|Test unit' "$out/$1.log" >&2
        fail "$1 FAILED: target/fuzz/$1.log; repeat with: target/fuzz/$1 FILE"
    }
    report "$1" "$out/$1.log"
    # shellcheck disable=SC2086
    "$out/$1_delivered" $options -runs=0 "$out/corpus/$1" "fuzz/corpus/$1" >"$out/$1_delivered.log" 2>&1 || {
        grep -a -E 'check failed|ERROR|SUMMARY|Test unit' "$out/$1_delivered.log" >&2
        fail "$1 FAILED on the delivered library: target/fuzz/$1_delivered.log"
    }
    echo "fuzz: $1: no crash and no failed check; $(find "$out/corpus/$1" "fuzz/corpus/$1" -type f | wc -l) inputs played on the delivered library too"
}

# The readers of answers are C: nothing is proved for them, and all of them is instrumented.
fuzz_answers() {
    clang -std=c11 -g -O1 -Wall -Wextra -I include -fsanitize=fuzzer,address,undefined -fno-sanitize-recover=all fuzz/answers.c lib/submission_book_answers.c -o "$out/answers"
    mkdir -p "$out/corpus/answers"
    "$out/answers" -max_len=20000 -print_final_stats=1 -artifact_prefix="$out/answers-" -max_total_time=$((seconds / 10)) "$out/corpus/answers" >"$out/answers.log" 2>&1 || {
        grep -a -E 'check failed|ERROR|SUMMARY|Test unit' "$out/answers.log" >&2
        fail "answers FAILED: target/fuzz/answers.log; repeat with: target/fuzz/answers FILE"
    }
    report answers "$out/answers.log"
    echo "fuzz: answers: no crash and no failed check"
}

# The fuzzer takes 0 seconds for no end.
[ "$seconds" -ge 10 ] 2>/dev/null || fail "the seconds are a number from 10 on, not '$seconds'"
mkdir -p "$out"
need_tools
fuzz_answers
seconds=$((seconds - seconds / 10))
build_module
instrument_module
build_target archive
build_target calls
fuzz_target archive 61440
fuzz_target calls 4096
