#!/bin/sh
# Stored nights: each tests/days/NAME.day through the proved program gives NAME.sheet, and so does the example. The limit of lines is made
# here, since its file is large. Ends in 'N passed, M failed'.
set -u
cd "$(dirname "$0")/.." || exit 2
. tests/ask
ask run nightsheet
sheet=target/bin/nightsheet
got=$(mktemp) || exit 2
trap 'rm -f "$got"' EXIT
passed=0 failed=0

# NAME WANT: what the program wrote is the file WANT.
same() {
    if cmp -s "$got" "$2"; then
        passed=$((passed + 1))
    else
        failed=$((failed + 1))
        echo "days: $1: the sheet differs"
        diff "$got" "$2" | head -n 5
    fi
}

for day in tests/days/*.day examples/*.day; do
    "$sheet" <"$day" >"$got"
    same "$day" "${day%.day}.sheet"
done

# 1,000,000 lines and no end; one line more; and an end on the last line allowed.
long() { # LINES LAST
    printf 'house\t1\t1\nmember\t1\t5\t0\n'
    yes resolve | head -n "$(($1 - 3))"
    printf '%s\n' "$2"
}
want=$(mktemp) || exit 2
trap 'rm -f "$got" "$want"' EXIT
tail_of() { # LINES LAST WANTED..
    long "$1" "$2" | "$sheet" | tail -n 2 >"$got"
    shift 2
    printf "$@" >"$want"
    same "a night of $1 lines" "$want"
}
tail_of 1000000 resolve '1000000\tresolve\t0\t0\t0\t0\t0\n0\trefused\t12\n'
tail_of 1000001 resolve '1000000\tresolve\t0\t0\t0\t0\t0\n1000001\trefused\t12\n'
tail_of 1000000 end 'balance\t1\t5\t0\nmoney\t5\n'
echo "$passed passed, $failed failed"
[ "$failed" -eq 0 ]
