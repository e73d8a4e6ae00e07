#!/bin/sh
# The comparison can fail: with a broken program in place of the generator, of the second program or of nightsheet, tests/compare.sh
# fails on every night and says why. Ends in 'N passed, M failed'.
set -u
cd "$(dirname "$0")/.." || exit 2
. tests/ask
ask run nightsheet
build second release
work=$(mktemp -d) || exit 2
trap 'rm -rf "$work"' EXIT
passed=0 failed=0

# stand_in NAME LINES..: a program that does this
stand_in() {
    name=$1
    shift
    { echo '#!/bin/sh'; printf '%s\n' "$@"; } >"$work/$name"
    chmod +x "$work/$name"
}
stand_in ends-badly 'exit 3'
stand_in writes-nothing 'cat >/dev/null'
stand_in made-and-failed "'$PWD/target/second/release/nights' \"\$@\"; exit 3"
stand_in read-and-failed "'$PWD/target/second/release/second' \"\$@\"; exit 3"
stand_in night-and-failed "'$PWD/target/bin/nightsheet'; exit 3"
stand_in says-an-error "'$PWD/target/bin/nightsheet'; echo 'nightsheet: cannot write' >&2"
stand_in loses-the-last-line "'$PWD/target/bin/nightsheet' | sed '\$d'"
stand_in is-killed "'$PWD/target/bin/nightsheet' | head -n 2; kill -9 \$\$"

# fails WHY WORD=PROGRAM..: with these stand-ins each of two nights fails for that reason
fails() {
    why=$1
    shift
    for word; do said="${said:-} ${word%%=*}=$(basename "${word#*=}")"; done
    if env "$@" sh tests/compare.sh 2 1 small >"$work/said" 2>&1 || [ "$(grep -c "^compare: nights [12] small: $why" "$work/said")" -ne 2 ] ||
        [ "$(tail -n 1 "$work/said")" != "0 passed, 2 failed" ]; then
        failed=$((failed + 1))
        echo "stand-ins:$said is not seen:"
        cat "$work/said"
    else
        passed=$((passed + 1))
    fi
    said=
}
fails "the generator ended with status 3" "NIGHTS=$work/ends-badly"
fails "the generator wrote nothing" "NIGHTS=$work/writes-nothing"
fails "the generator ended with status 3" "NIGHTS=$work/made-and-failed"
fails "the second program ended with status 3" "SECOND=$work/ends-badly"
fails "the second program wrote nothing" "SECOND=$work/writes-nothing"
fails "the second program ended with status 3" "SECOND=$work/read-and-failed"
fails "nightsheet ended with status 3" "NIGHTSHEET=$work/ends-badly"
fails "nightsheet wrote nothing" "NIGHTSHEET=$work/writes-nothing"
fails "nightsheet ended with status 3" "NIGHTSHEET=$work/night-and-failed"
fails "nightsheet ended with status 137" "NIGHTSHEET=$work/is-killed"
fails "nightsheet said on standard error: nightsheet: cannot write" "NIGHTSHEET=$work/says-an-error"
fails "the sheets differ" "NIGHTSHEET=$work/loses-the-last-line"
fails "the second program wrote nothing" "SECOND=$work/writes-nothing" "NIGHTSHEET=$work/writes-nothing"
echo "$passed passed, $failed failed"
[ "$failed" -eq 0 ]
