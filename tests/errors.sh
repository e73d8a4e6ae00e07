#!/bin/sh
# What nightsheet and ./run do where they are called in another way, or reading or writing goes wrong, or goes in pieces: a word, closed and
# odd inputs, a full disk, short writes, a slow reader, a pipe that closes. What comes out is the sheet, or the beginning of it and a line on standard error. Ends in
# 'N passed, M failed'.
set -u
cd "$(dirname "$0")/.." || exit 2
. tests/ask
ask run nightsheet
sheet=target/bin/nightsheet
work=$(mktemp -d) || exit 2
trap 'rm -rf "$work"' EXIT
gcc -std=c99 -Wall -Wextra -Werror -O1 -shared -fPIC tests/errors/short.c -o "$work/short.so" || none "tests/errors/short.c does not build"
passed=0 failed=0

# A night whose sheet is larger than what a pipe holds, and its sheet.
{
    printf 'house\t1\t2\nmember\t1\t5\t0\nmember\t2\t0\t0\n'
    awk 'BEGIN { for (i = 1; i <= 3000; i++) printf "deposit\t1\t1000000000\npay\t1\t%d\t2\t7\nrelease\t1\n", i }'
    echo end
} >"$work/day"
"$sheet" <"$work/day" >"$work/sheet"
[ "$(wc -c <"$work/sheet")" -gt 200000 ] || none "the sheet is too short for this test"

# what NAME TEST..: counts whether it holds
what() {
    name=$1
    shift
    if "$@"; then passed=$((passed + 1)); else failed=$((failed + 1)); echo "errors: $name"; fi
}

# told STATUS OUTPUT SAID: the status of the last run, the file that its output is, and the words on standard error
told() {
    [ "$status" = "$1" ] || { echo "errors: status $status"; return 1; }
    cmp "$work/got" "$2" || return 1
    [ "$(cat "$work/said")" = "$3" ] || { cat "$work/said"; return 1; }
}

# begins: what came out is the beginning of the sheet, and not all of it
begins() { [ "$(wc -c <"$work/got")" -lt "$(wc -c <"$work/sheet")" ] && head -c "$(wc -c <"$work/got")" "$work/sheet" | cmp - "$work/got"; }

# It takes no words: with one it says how it is used, and reads nothing of its input.
{
    "$sheet" "$work/day" >"$work/got" 2>"$work/said"
    status=$?
    head -c 5 >"$work/left"
} <"$work/day"
what "a word" told 0 /dev/null "usage: nightsheet < DAYFILE
Reads a day file on standard input and writes its sheet on standard output."
what "a word: the input is left" [ "$(cat "$work/left")" = house ]

"$sheet" <&- >"$work/got" 2>"$work/said"
status=$?
what "a closed input" told 0 /dev/null "nightsheet: cannot read"

"$sheet" </ >"$work/got" 2>"$work/said"
status=$?
what "a directory as input" told 0 /dev/null "nightsheet: cannot read"

"$sheet" <"$work/day" 2>"$work/said" >/dev/full
status=$?
: >"$work/got"
what "a full disk" told 0 /dev/null "nightsheet: cannot write"

"$sheet" <"$work/day" 2>"$work/said" >&-
status=$?
what "a closed output" told 0 /dev/null "nightsheet: cannot write"

LD_PRELOAD=$work/short.so SHORT_READ=1 SHORT_WRITE=3 "$sheet" <"$work/day" >"$work/got" 2>"$work/said"
status=$?
what "input byte by byte, and three bytes written at a time" told 0 "$work/sheet" ""

LD_PRELOAD=$work/short.so SHORT_READ=4095 SHORT_WRITE=4095 "$sheet" <"$work/day" >"$work/got" 2>"$work/said"
status=$?
what "one byte less than a buffer, each time" told 0 "$work/sheet" ""

LD_PRELOAD=$work/short.so SHORT_WRITE=1000 FULL_AFTER=10007 "$sheet" <"$work/day" >"$work/got" 2>"$work/said"
status=$?
head -c 10007 "$work/sheet" >"$work/want"
what "a disk that is full after short writes" told 0 "$work/want" "nightsheet: cannot write"

# The limit of a file's size cuts a write short, and refuses the next.
(trap '' XFSZ && ulimit -f 8 && exec "$sheet" <"$work/day" >"$work/got" 2>"$work/said")
status=$?
what "a limit of the file's size" begins
cp "$work/got" "$work/want"
what "a limit of the file's size is told" told 0 "$work/want" "nightsheet: cannot write"

{ "$sheet" <"$work/day" 2>"$work/said"; echo $? >"$work/status"; } | { sleep 1; dd bs=777 status=none; } >"$work/got"
status=$(cat "$work/status")
what "a slow reader with a full pipe" told 0 "$work/sheet" ""

{ "$sheet" <"$work/day" 2>"$work/said"; echo $? >"$work/status"; } | head -c 5000 >"$work/got"
status=$(cat "$work/status")
head -c 5000 "$work/sheet" >"$work/want"
# The program ignores the signal of a closed pipe, and says that it cannot write; an older kit's was ended by it.
closes() { told 141 "$work/want" "" >/dev/null || told 0 "$work/want" "nightsheet: cannot write"; }
what "a pipe that closes" closes

{ (trap '' PIPE && exec "$sheet" <"$work/day" 2>"$work/said"); echo $? >"$work/status"; } | head -c 5000 >"$work/got"
status=$(cat "$work/status")
what "a pipe that closes, and the signal is ignored" told 0 "$work/want" "nightsheet: cannot write"

# What is said of the lines so far stands there before more input is awaited.
rm -f "$work/got"
{
    printf 'house\t1\t1\nmember\t1\t5\t0\nres'
    for _ in 1 2 3 4 5 6 7 8 9 10; do [ -s "$work/got" ] || sleep 1; done
    cp "$work/got" "$work/early" || exit 1
    printf 'olve\nend\n'
} | "$sheet" >"$work/got" 2>"$work/said"
status=$?
printf '2\topen\t1\t5\n' >"$work/want"
what "a line that waited for the next" cmp "$work/early" "$work/want"
printf '2\topen\t1\t5\n3\tresolve\t0\t0\t0\t0\t0\nbalance\t1\t5\t0\nmoney\t5\n' >"$work/want"
what "a line that came in two pieces" told 0 "$work/want" ""

# ./run: its status says whether the sheet is whole.
runs() { # STATUS OUTPUT [WORD..]
    want=$1 output=$2
    shift 2
    ./run "$@" >"$work/got" 2>"$work/said"
    status=$?
    [ "$status" = "$want" ] && cmp "$work/got" "$output"
}
what "./run on the example" runs 0 examples/night.sheet
what "./run on a whole night" runs 0 tests/days/paper-example.sheet tests/days/paper-example.day
what "./run on a night that stops before its end" runs 1 tests/days/stops-before-end.sheet tests/days/stops-before-end.day
what "./run on a bad opening" runs 1 tests/days/opening-house-of-65.sheet tests/days/opening-house-of-65.day
what "./run on an empty file" runs 1 tests/days/empty.sheet /dev/null
what "./run on a directory" runs 1 /dev/null /
what "./run on a file that is not there" runs 2 /dev/null "$work/nothing"
what "./run with two files" runs 2 /dev/null examples/night.day examples/night.day
full() { ! ./run >/dev/full 2>"$work/said" && grep -q '^run: the sheet could not be written' "$work/said"; }
what "./run on a full disk" full
echo "$passed passed, $failed failed"
[ "$failed" -eq 0 ]
