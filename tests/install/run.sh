#!/usr/bin/env bash
# Installs into an empty folder, builds examples/first.c as a stranger would, with the static and with the shared library, shows an
# archive with the installed program, and uninstalls. CC names the compiler (cc).
set -euo pipefail
cd "$(dirname "$0")/../.."
work=$(mktemp -d)
trap 'rm -rf "$work"' EXIT
prefix=$work/usr
make --no-print-directory install PREFIX="$prefix" DESTDIR= >/dev/null
if command -v pkg-config >/dev/null; then
    export PKG_CONFIG_PATH=$prefix/lib/pkgconfig
    flags=$(pkg-config --cflags --libs submission_book)
    grep -q "VERSION_STRING \"$(pkg-config --modversion submission_book)\"" include/submission_book.h
else
    echo "install: pkg-config is not here, its file is not tried"
    flags="-I $prefix/include -L $prefix/lib -lsubmission_book"
fi
# shellcheck disable=SC2086
"${CC:-cc}" examples/first.c $flags -o "$work/shared"
"${CC:-cc}" -I "$prefix/include" examples/first.c "$prefix/lib/libsubmission_book.a" -o "$work/static"
expected='submissions to deliver: 1, the first has the id 1 and the token 5'
[ "$(LD_LIBRARY_PATH=$prefix/lib "$work/shared")" = "$expected" ]
[ "$("$work/static")" = "$expected" ]
show=$prefix/bin/show_archive
printf '\002\0\0\0\0\0\0\0\005\0\0\0\0\0\0\0\001\0\0\0\0\0' >"$work/opened"
cp "$work/opened" "$work/--hex"
head -c 21 "$work/opened" >"$work/cut"
# the words behind the first one, in a folder of its own: exit status, and the first line on standard output
shows() {
    local status=$1 first=$2 got=0
    shift 2
    (cd "$work" && "$show" "$@" <opened >out 2>err) || got=$?
    [ $got = "$status" ] || { echo "install: show_archive $*: exit status $got in place of $status"; exit 1; }
    [[ "$(head -n 1 "$work/out")" == "$first"* ]] || { echo "install: show_archive $*: $(head -n 1 "$work/out")"; exit 1; }
}
[ "$(cd / && "$show" <"$work/opened")" = "$(cat tests/show_archive/expected/opened)" ]
shows 0 'archive of '
shows 0 'archive of ' -
shows 0 'archive of ' opened
shows 0 'archive of ' -- --hex
shows 0 'archive of ' --hex opened
shows 0 'archive of ' opened --hex
grep -q '^00016 ' "$work/out"
shows 0 'usage: ' --help
shows 0 'usage: ' opened -h
shows 0 '<!DOCTYPE html>' --html
shows 0 '<!DOCTYPE html>' opened --hex --html
shows 0 '<!DOCTYPE html>' --html -- --hex
shows 1 '<!DOCTYPE html>' --html cut
shows 2 '' --html nothing
shows 1 'not an archive' cut
shows 2 '' nothing
grep -q '^not read: the file cannot be opened' "$work/err"
shows 2 '' --hexa opened
shows 2 '' opened cut
if [ -w /dev/full ]; then
    got=0
    "$show" "$work/opened" >/dev/full 2>/dev/null || got=$?
    [ $got = 3 ] || { echo "install: show_archive: exit status $got for text that could not be written"; exit 1; }
fi
make --no-print-directory uninstall PREFIX="$prefix" DESTDIR=
left=$(find "$work/usr" -not -type d)
[ -z "$left" ] || { echo "install: left behind: $left"; exit 1; }
# what a packager does: files below DESTDIR, PREFIX in the text
make --no-print-directory install PREFIX=/usr DESTDIR="$work/package" >/dev/null
grep -qx 'prefix=/usr' "$work/package/usr/lib/pkgconfig/submission_book.pc"
echo "install: static, shared, pkg-config and show_archive as expected"
