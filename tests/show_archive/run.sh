#!/bin/sh
# Runs show_archive on files that are made here and compares what it writes with the files in expected/.
# usage: tests/show_archive/run.sh [PROGRAM]      (PROGRAM: target/bin/show_archive)
root=$(realpath "$(dirname "$0")/../..") || exit 2
show=$(realpath "${1:-$root/target/bin/show_archive}") || exit 2
cd "$root" || exit 2
here=$(pwd)/tests/show_archive
full=$(pwd)/crates/show_archive/stdin
work=$(mktemp -d) || exit 2
trap 'rm -rf "$work"' EXIT
cd "$work" || exit 2
failed=0

# n times the byte with an octal number
rep() {
    i=0
    while [ "$i" -lt "$2" ]; do printf "\\$1"; i=$((i + 1)); done
}

# a number of 8 bytes below 256, in octal
num() {
    rep 000 7
    printf "\\$1"
}

# one spend of the coin aabb with one output of 258
bundle() {
    printf '\001\002\252\273'
    rep 001 32
    printf '\001\001'
    rep 002 32
    rep 000 6
    printf '\001\002'
}

# the worked example of docs/ARCHIVE.md
worked() {
    printf '\002'; num 006; num 002
    printf '\001'; num 001
    printf '\001'; num 005; printf '\000'; rep 003 32; printf '\001'; rep 003 32
    printf '\000'; rep 004 32; bundle; printf '\000\000'
    printf '\002'; rep 005 32; num 011; printf '\000\000\001'; num 115
    printf '\001\001'; num 001; bundle; printf '\000\000\002\000'
    printf '\001'; num 007; printf '\001'; num 144; printf '\001'; num 001
}

# the SHA-256 of a file, as 32 bytes
hash() {
    printf "$(sha256sum <"$1" | awk '
        function digit(d) { return index("0123456789abcdef", d) - 1 }
        { for (i = 1; i < 64; i += 2) printf "\\%03o", 16 * digit(substr($1, i, 1)) + digit(substr($1, i + 1, 1)) }')"
}

# a spend of a coin of 1000 with outputs of 600 and 400, and one of a wallet's coin of 100 with an output of 75
stage() { printf '\102'; rep 021 32; rep 022 32; printf '\003\350'; rep 023 32; printf '\001\002'; rep 024 32; rep 000 6; printf '\002\130'; rep 025 32; rep 000 6; printf '\001\220'; }
wallet() { printf '\101'; rep 026 32; rep 027 32; printf '\144'; rep 030 32; printf '\001\001'; rep 031 32; num 113; }
attach() { printf '\002'; rep 032 32; num 031; }
expiry() { printf '\001'; num 120; }

# fingerprints that agree: base is the stage payment, fee the one with the wallet's spend, intent that of base, expiry and fee intent
{ printf '\001'; stage; } >base
{ printf '\002'; stage; wallet; } >fee
{ cat base; expiry; attach; } >intent
{ cat base; expiry; printf '\001'; } >feeless
{ cat base; printf '\000\001'; } >endless

# a payment that has landed, without a fee: its attempt is set aside and acknowledged
landed() {
    printf '\002'; num 006; num 002
    printf '\001'; num 001; printf '\000'
    printf '\001'; num 005; printf '\000'; hash base; printf '\001'; hash base
    hash feeless; cat base; printf '\000\001\001\001'; hash base; printf '\002'; expiry
    printf '\000\001'; num 001; printf '\000\000'
}

# a payment with its fee attached: drained for the base bundle and finalised with the fee bundle, only the base acknowledged
attached() {
    printf '\002'; num 007; num 002
    printf '\001'; num 001
    printf '\001'; num 006; printf '\001'; hash base; printf '\001'; hash fee
    printf '\001'; num 005; printf '\000'; hash base; printf '\001'; hash base
    hash intent; cat base; printf '\001'; cat fee; num 031; printf '\002'; attach; printf '\001'; hash base; printf '\000'; expiry
    rep 000 4
}

# the same by hand: no fingerprint agrees
by_hand() {
    printf '\002'; num 007; num 002
    printf '\001'; num 001
    printf '\001'; num 006; printf '\001'; rep 061 32; printf '\001'; rep 062 32
    printf '\001'; num 005; printf '\000'; hash intent; printf '\001'; hash opened
    hash feeless; cat base; printf '\001'; cat fee; num 031; printf '\002'; attach; printf '\001'; rep 063 32; printf '\000'; expiry
    rep 000 4
}

# a queue alone: one intent twice, another with a fee to attach, and an entry of a submission that is not retained
queued() { cat base; expiry; printf '\001\000\000'; }
queue_only() {
    printf '\002'; num 005; num 001
    printf '\000\004'
    printf '\000'; queued
    printf '\000'; cat fee; expiry; attach; printf '\000\000'
    printf '\000'; queued
    printf '\001'; num 011; printf '\001'; head -c 100 base | tail -c 99; printf '\000\000\001\000\000'
    rep 000 3
}

# every state: landed, an input spent, acknowledged, under way, queued by its id, queued by its intent, retained only
entry() { cat base; printf '\000\001\001'; printf "$1"; }
states() {
    printf '\002'; num 006; num 010
    printf '\007'
    num 001; printf '\000\000'; hash feeless; entry '\000\002\000'
    num 002; printf '\000\000'; hash feeless; entry '\000\001\000'
    num 003; printf '\000\000'; hash feeless; cat base; printf '\000\001\001\001'; hash base; printf '\000\000'
    num 004; printf '\001'; num 005; printf '\000'; hash base; printf '\000\000'; hash feeless; entry '\000\000\000'
    num 005; printf '\000\000'; rep 064 32; entry '\000\000\000'
    num 006; printf '\000\000'; rep 065 32; entry '\000\000\000'
    num 007; printf '\000\000'; hash endless; entry '\000\000\000'
    printf '\002\001'; num 005; queued
    printf '\000'; cat endless; printf '\000\000'
    rep 000 3
}

# the largest archive: every count and every number as large as may be
nums() { rep 377 7; printf "\\$1"; }
big_bundle() {
    printf '\004'
    for spend in 1 2 3 4; do
        printf '\111'; rep 376 64; printf '\000'; rep 377 8; rep 375 32; printf '\001\004'
        for output in 1 2 3 4; do rep 374 32; nums 377; done
    done
}
big() {
    big_bundle >bundle
    printf '\002'; nums 377; nums 377
    printf '\020'
    n=0
    while [ "$n" -lt 16 ]; do
        nums "$(printf %o $((255 - n)))"
        for token in $((254 - 2 * n)) $((253 - 2 * n)); do
            printf '\001'; nums "$(printf %o $token)"; printf '\000'; rep 001 32; printf '\001'; rep 002 32
        done
        rep 003 32; cat bundle; printf '\001'; cat bundle; nums 377
        printf '\002\002'; rep 004 32; nums 377; printf '\001'; rep 005 32; printf '\001\001'; nums 377
        n=$((n + 1))
    done
    printf '\020'
    n=0
    while [ "$n" -lt 16 ]; do
        printf '\001'; nums 377; cat bundle; printf '\001'; nums 377; printf '\002'; rep 004 32; nums 377; printf '\003\000'
        n=$((n + 1))
    done
    printf '\100'
    n=0
    while [ "$n" -lt 64 ]; do nums "$(printf %o $((255 - n)))"; n=$((n + 1)); done
    printf '\001'; nums 377
    printf '\020'
    n=0
    while [ "$n" -lt 16 ]; do nums "$(printf %o $((240 + n)))"; n=$((n + 1)); done
}

# a file with the byte at an offset changed
with() {
    head -c "$2" "$1"
    printf "\\$3"
    tail -c +$(($2 + 2)) "$1"
}

same() {
    if cmp -s "$1" "$2"; then
        echo "ok: $3"
    else
        echo "FAILED: $3"
        diff "$1" "$2" | head -10
        failed=1
    fi
}

same_sum() {
    if [ "$(sha256sum <"$1" | cut -d ' ' -f 1)" = "$2" ]; then
        echo "ok: $3"
    else
        echo "FAILED: $3"
        failed=1
    fi
}

worked >worked
same_sum worked 0121cf1cca836e61062f887a4ddc2c41ffa43287af94c7c6a0600eb94a755211 "the worked example is that of docs/ARCHIVE.md"
"$show" <worked >out
same "$here/expected/worked" out "the worked example, from standard input"
"$show" worked >out
same "$here/expected/worked" out "the same, from a file"
"$show" --hex worked >out
same "$here/expected/worked-hex" out "the same, with its bytes"
"$show" --hex <worked >out
same "$here/expected/worked-hex" out "the same from standard input, with its bytes"
printf '\002' >opened; num 005 >>opened; num 001 >>opened; rep 000 5 >>opened
"$show" opened >out
same "$here/expected/opened" out "a book just opened"

# books made here
landed >landed
attached >attached
by_hand >by-hand
queue_only >queue-only
states >states
for book in landed attached by-hand queue-only states; do
    "$show" $book >out
    same "$here/expected/$book" out "the text of $book"
done
# the same again from a second source, which is written from docs/ARCHIVE.md
if command -v python3 >/dev/null; then
    for book in worked opened landed attached by-hand queue-only states "$full"; do
        "$show" "$book" >out
        python3 "$here/text.py" "$book" >text
        same text out "the text of $(basename "$book"), against the one in Python"
    done
else
    echo "show_archive: there is no python3 here, the texts are not compared with those in Python"
fi
if [ ! -f "$root/target/kitchen.archive" ]; then
    echo "show_archive: there is no target/kitchen.archive, the sample kitchen is not shown"
elif command -v python3 >/dev/null; then
    "$show" "$root/target/kitchen.archive" >out
    python3 "$here/text.py" "$root/target/kitchen.archive" >text
    same text out "the sample kitchen, against the text in Python"
    if grep -q 'DOES NOT AGREE' out; then echo "FAILED: a fingerprint of the sample kitchen does not agree"; failed=1; fi
fi

big >largest
"$show" largest >out
same_sum largest 353d40b45e6f1715e119a830f58b3dc8c0890f8ef1b42ee193ef1bcc18c77d24 "the largest archive"
same_sum out 19e1cf4051ede95568ed8977818ed691b15ba541abfd86199d65e0bd827cdad9 "all of its text"

# the pages that the installed script makes of the text: its own for each book, well formed and with every line of the text
sed "s|@LIBEXEC@|$(dirname "$show")|" "$root/tools/show_archive.in" >script
head -c 100 worked >cut
for book in worked opened landed attached by-hand queue-only states largest cut; do
    sh script $book >text
    status=$?
    sh script $book --html >$book.html
    [ $? = $status ] || { echo "FAILED: the exit status of the page of $book"; failed=1; }
    if command -v python3 >/dev/null; then
        if python3 "$here/page.py" text $book.html; then echo "ok: the page of $book"; else echo "FAILED: the page of $book"; failed=1; fi
    fi
done
command -v python3 >/dev/null || echo "show_archive: there is no python3 here, the pages are not parsed"
sh script --html --hex worked >page
sh script --hex worked >text
if command -v python3 >/dev/null; then python3 "$here/page.py" text page || failed=1; fi
same "$here/expected/attached.html" attached.html "the page of attached, as it was"
browser=
for name in chromium chromium-browser google-chrome; do command -v $name >/dev/null && browser=$name; done
if [ -n "$browser" ]; then
    # what a browser makes of it: the same words, and a document to print
    $browser --headless --no-sandbox --disable-gpu --dump-dom "file://$work/attached.html" >dom 2>/dev/null
    if grep -q '<td><span>  id </span>1<span>' dom && $browser --headless --no-sandbox --disable-gpu --print-to-pdf="$work/attached.pdf" "file://$work/attached.html" 2>/dev/null && [ -s attached.pdf ]; then
        echo "ok: the page in $browser"
    else
        echo "FAILED: the page in $browser"
        failed=1
    fi
else
    echo "show_archive: there is no chromium here, the page is not opened in a browser"
fi

# refusals: one for each rule
refused() {
    echo "== $1"
    "$show" bad
}
{
    : >bad; refused "no bytes"
    head -c 100 worked >bad; refused "cut after 100 bytes"
    head -c 101 worked >bad; refused "cut before a mark"
    with worked 0 003 >bad; refused "three numbers"
    with worked 17 310 >bad; refused "200 submissions"
    with worked 26 002 >bad; refused "mark of an attempt"
    with worked 34 006 >bad; refused "a token that is not issued yet"
    with worked 35 002 >bad; refused "goal of an attempt"
    with worked 68 002 >bad; refused "mark of a finalised fingerprint"
    with worked 134 005 >bad; refused "five spends"
    with worked 135 112 >bad; refused "a coin string of 74 bytes"
    with worked 170 000 >bad; refused "an unreadable base bundle"
    with worked 171 005 >bad; refused "five outputs"
    with worked 212 002 >bad; refused "mark of a fee bundle"
    with worked 213 007 >bad; refused "durable mark"
    with worked 214 003 >bad; refused "kind of a fee intent"
    with worked 255 002 >bad; refused "mark of an acknowledged fingerprint"
    with worked 256 003 >bad; refused "chain state"
    with worked 257 002 >bad; refused "mark of an expiry"
    with worked 266 021 >bad; refused "17 queue entries"
    with worked 267 002 >bad; refused "mark of a queue entry's id"
    with worked 312 002 >bad; refused "kind of a run in the queue"
    with worked 356 004 >bad; refused "trigger"
    with worked 357 002 >bad; refused "goal of a queue entry"
    with worked 358 101 >bad; refused "65 retirements"
    with worked 367 002 >bad; refused "two rollback heights"
    with worked 376 021 >bad; refused "17 replayed ids"
    with worked 384 002 >bad; refused "a replayed id that is not retained"
    { cat worked; printf '\000'; } >bad; refused "one byte more"
    with "$full" 666 001 >bad; refused "an id twice"
    with "$full" 676 006 >bad; refused "a token twice"
    with "$full" 1002 002 >bad; refused "a retired id twice"
    with "$full" 1020 003 >bad; refused "replayed ids that do not rise"
    { cat worked; head -c 70000 /dev/zero; } >bad; refused "a file longer than any archive"
} >out
same "$here/expected/refusals" out "refusals"

# every cut: each line has how many cuts in a row were refused so
cuts() {
    n=0
    size=$(wc -c <"$1")
    while [ "$n" -lt "$size" ]; do
        head -c "$n" "$1" | "$show" | head -2 | tr '\n' ' '
        echo
        n=$((n + 1))
    done | uniq -c | sed 's/^ *//'
}
cuts worked >out
same "$here/expected/cuts-worked" out "every cut of the worked example"
cuts "$full" >out
same "$here/expected/cuts-full" out "every cut of the archive of the crate's stdin"

# files that cannot be read: standard output says so, the reason goes to standard error
{
    "$show" missing 2>&1
    mkdir folder
    "$show" folder 2>&1
    "$show" --hex missing 2>&1
} >out
same "$here/expected/unreadable" out "files that cannot be read"

# arguments that it does not know, and one too many: the usage, and nothing is read
{
    "$show" --help
    "$show" --hex --help
    "$show" --
    "$show" worked --hex
    "$show" --hex worked opened
} >out
same "$here/expected/usage" out "arguments that are not its own"

[ "$failed" = 0 ] && echo "show_archive: all as expected"
exit "$failed"
