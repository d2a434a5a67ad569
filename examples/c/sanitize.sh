#!/usr/bin/env bash
# The C example, the C tests and the C part of the library under AddressSanitizer and UndefinedBehaviorSanitizer, with the proved part that `make lib`
# has written; then the same tests under valgrind, where it is at hand. Ends with an error on any report. CC names the compiler (cc),
# LIBRARY another library, OUT the folder of what is made.
set -euo pipefail
cd "$(dirname "$0")/../.."
library=${LIBRARY:-target/lib/libsubmission_book.a}
out=${OUT:-target/sanitize}
warnings=(-std=c11 -Wall -Wextra -Wconversion -Wsign-conversion -Werror -pedantic -I include -I examples/c -I tests/c_api)
# shellcheck disable=SC2054
flags=(-g -O1 -fsanitize=address,undefined -fno-sanitize-recover=all -fno-omit-frame-pointer)
# Its own object of the library is not linked where the same functions are compiled here.
shared=(lib/submission_book_answers.c examples/c/coins.c)
tests=(tests/c_api/{calls,answers,buffers,sizes,looks,digests,sha256,sample}.c -pthread)
export ASAN_OPTIONS=detect_stack_use_after_return=1:strict_string_checks=1:abort_on_error=0
mkdir -p "$out"
"${CC:-cc}" "${warnings[@]}" "${flags[@]}" examples/c/kitchen.c examples/c/account.c "${shared[@]}" "$library" -o "$out/kitchen"
"${CC:-cc}" "${warnings[@]}" "${flags[@]}" "${tests[@]}" "${shared[@]}" "$library" -o "$out/calls"
"$out/kitchen" "$out/kitchen.archive" >"$out/kitchen.txt"
tail -n 1 "$out/kitchen.txt"
"$out/calls"
echo "sanitizers: no report"
if command -v valgrind >/dev/null; then
    "${CC:-cc}" "${warnings[@]}" -gdwarf-4 -O1 "${tests[@]}" "${shared[@]}" "$library" -o "$out/plain"
    valgrind --quiet --error-exitcode=1 "$out/plain"
    echo "valgrind: no report"
fi
