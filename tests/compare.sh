#!/bin/sh
# Nights made up from seeds, good and damaged, small and large, through the proved program and the second program: the sheets are the same
# to the byte. The second program resolves in its slow ways, which are not the house's; by the house's own method only on the night of a
# million lines. Usage: compare.sh [NIGHTS [SEED [KIND..]]]: NIGHTS of each kind, from SEED on; without a KIND all of them. Other programs
# can stand in for the three, by the words NIGHTSHEET, SECOND and NIGHTS of the environment (tests/stand-ins.sh does, to see that this can
# fail). Ends in 'N passed, M failed'.
set -u
cd "$(dirname "$0")/.." || exit 2
nights=${1:-500} seed=${2:-1}
[ $# -lt 2 ] || shift
[ $# -lt 1 ] || shift
. tests/ask
ask run nightsheet
build second release
sheet=${NIGHTSHEET:-$PWD/target/bin/nightsheet}
second=${SECOND:-$PWD/target/second/release/second}
maker=${NIGHTS:-$PWD/target/second/release/nights}
work=$(mktemp -d) || exit 2
trap 'rm -rf "$work"' EXIT
passed=0 failed=0

# Runs a program on the night; it ends well, says nothing on standard error and writes something: a sheet is never empty.
writes() { # NAME OUTPUT PROGRAM [WORD]
    name=$1 output=$2
    shift 2
    "$@" <"$work/day" >"$output" 2>"$work/said" || { what="$name ended with status $?"; return 1; }
    [ ! -s "$work/said" ] || { what="$name said on standard error: $(head -n 1 "$work/said")"; return 1; }
    [ -s "$output" ] || { what="$name wrote nothing"; return 1; }
}

# Makes up a night and compares its sheets; what is wrong stands in $what.
same() { # WAY SEED KIND [LINES]
    way=$1
    shift
    "$maker" "$@" >"$work/day" 2>"$work/said" || { what="the generator ended with status $?"; return 1; }
    # A night may be empty where openings are tried or a night is cut off, and nowhere else.
    case $2 in openings | damaged) ;; *) [ -s "$work/day" ] || { what="the generator wrote nothing"; return 1; } ;; esac
    # shellcheck disable=SC2086
    writes "the second program" "$work/want" "$second" $way && writes nightsheet "$work/got" "$sheet" || return 1
    cmp -s "$work/got" "$work/want" || { what="the sheets differ"; return 1; }
}

one() { # WAY SEED KIND [LINES]
    if same "$@"; then
        passed=$((passed + 1))
    else
        failed=$((failed + 1))
        shift
        echo "compare: nights $*: $what"
    fi
}

last=$((seed + nights - 1))
for kind in ${*:-small large limits damaged openings full million}; do
    case $kind in
    full) one --slow "$seed" full 20000 ;;
    million) one "" "$seed" million ;;
    *)
        k=$seed
        while [ "$k" -le "$last" ]; do
            one --slow "$k" "$kind"
            k=$((k + 1))
        done
        ;;
    esac
done
echo "compare: seeds $seed to $last of each kind"
echo "$passed passed, $failed failed"
[ "$failed" -eq 0 ] && [ "$passed" -gt 0 ]
