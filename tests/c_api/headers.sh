#!/usr/bin/env bash
# The headers and the C part of the library by themselves: C11 and C++ without a warning, and a warning where a refusal is ignored. CC and CXX name
# the compilers (cc, c++).
set -euo pipefail
cd "$(dirname "$0")/../.."
warnings=(-Wall -Wextra -Wconversion -Wsign-conversion -Werror -pedantic -I include -c -o /dev/null)
for header in submission_book.h submission_book_answers.h; do
    printf '#include "%s"\n' "$header" | "${CC:-cc}" -std=c11 "${warnings[@]}" -x c -
    for standard in c++11 c++17; do
        printf '#include "%s"\n' "$header" | "${CXX:-c++}" -std=$standard "${warnings[@]}" -x c++ -
    done
done
"${CC:-cc}" -std=c11 "${warnings[@]}" lib/submission_book_answers.c
"${CXX:-c++}" -std=c++11 "${warnings[@]}" -x c++ lib/submission_book_answers.c
ignored='#include "submission_book.h"
void lost(uint8_t *book);
void lost(uint8_t *book) { submission_book_restore_runtime(book, SUBMISSION_BOOK_BYTES); }'
for language in "${CC:-cc} -std=c11 -x c" "${CXX:-c++} -std=c++17 -x c++"; do
    # shellcheck disable=SC2086
    if $language "${warnings[@]}" - <<<"$ignored" 2>/dev/null; then
        echo "headers: a refusal is ignored without a warning: $language"
        exit 1
    fi
    # shellcheck disable=SC2086
    $language "${warnings[@]}" - <<<"${ignored/\{ /\{ (void)!}"
done
# Which of the three it needs is the compiler's choice; it needs nothing else.
needed=$(nm -u target/libc_api_c.a | awk '$1 == "U" && $2 !~ /^mem(cpy|move|set)$/ { print $2 }' | sort | xargs)
[ -z "$needed" ] || { echo "headers: the proved part needs $needed"; exit 1; }
# README.md shows examples/first.c whole
awk '/^```c$/ { on = 1; next } /^```$/ { on = 0 } on' README.md | diff - examples/first.c || { echo "headers: README.md's first program is not examples/first.c"; exit 1; }
echo "headers: C11, C++11 and C++17 without a warning, an ignored refusal warns"
