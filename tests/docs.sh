#!/bin/sh
# The documents tell the truth. About names: each law that docs/ cites, as `rule/Demands.largest-exists`, stands in that file, and each path
# that the README or docs/ gives is there (those of any crate, as `specs/`, are not looked for). About numbers: those of the house, where its
# tables stand and its codes, in the documents and in the header, are the ones that the crates define. Ends in 'N passed, M failed'.
set -u
cd "$(dirname "$0")/.." || exit 2
passed=0 failed=0

check() { # WHAT TEST..
    what=$1
    shift
    if "$@"; then passed=$((passed + 1)); else failed=$((failed + 1)); echo "docs: $what"; fi
}

# ---- names

# PORT.md is left out: it names what went.
pages="README.md $(ls docs/*.md | grep -v PORT.md)"
for cite in $(grep -hoE '`[a-z]+/[A-Z][A-Za-z]*\.[^` ]+`' $pages | tr -d '`' | sort -u); do
    crate=${cite%%/*} rest=${cite#*/}
    file=${rest%%.*} name=${rest#*.}
    check "no $name in crates/$crate/*/$file.antt" grep -qE "^ *((abbrev|unfoldable) )?pub ((record|data) )?$name( |\$)" "crates/$crate/specs/$file.antt" "crates/$crate/proofs/$file.antt" 2>/dev/null
done
for path in $(grep -hoE '`(\./)?[a-z.]+/[A-Za-z0-9_./-]*`' $pages | tr -d '`' | grep -vE '/[A-Z][A-Za-z]*\.[a-z]+[A-Za-z-]*-|^target/|^(src|specs|proofs)/|/Q-n' | sort -u); do
    case $path in */[A-Z]*.[a-zA-Z]*) case $path in *.md | *.antt | *.h) ;; *) continue ;; esac ;; esac
    check "no $path in the project" test -e "$path"
done

# ---- edits

# Each edit says in one form of words what is so, and what refuses the program in which it is not; and there are as many as TESTS.md says.
for edit in crates/*/must-fail/*.edit; do
    check "$edit: its first line is not '# .. : refused by \`NAME\`.'" sh -c "head -n 1 '$edit' | grep -qE '^# .+: refused by \`[^\`]+\`\.\$'"
done

edits=$(find crates/*/must-fail -name '*.edit' | wc -l)
check "TESTS.md does not say that there are $edits edits" grep -qF "$edits edits" docs/TESTS.md

# ---- the crates' numbers

# The constants of a source file as shell words, with PREFIX before each name: numbers, and sums and products of those before.
constants() { # PREFIX FILE..
    prefix=$1
    shift
    sed -n 's/^ *\(pub \)\{0,1\}const \([A-Z_]*\): [a-z0-9]* = \([^;[]*\);.*/\2=$((\3))/p' "$@" |
        sed -e ':a' -e 's/\([0-9]\)_\([0-9]\)/\1\2/' -e 'ta' -e "s/House::/${prefix}_/g" -e "s/^/${prefix}_/"
}
eval "$(constants house crates/tables/src/lib.rt)"
eval "$(cat crates/*/src/*.rt | grep -E 'const (MOST_BYTES|MOST_DIGITS|MOST_LINES|LEAST_ROOM):' | constants text)"
for name in house_MEMBERS house_PLACES house_TABLE house_BYTES house_MOST house_HIGHEST house_LAST_NUMBER \
    text_MOST_BYTES text_MOST_DIGITS text_MOST_LINES text_LEAST_ROOM; do
    eval "[ -n \"\${$name:-}\" ]" || { echo "docs: the crates have no number ${name#*_}"; echo "0 passed, 1 failed"; exit 1; }
done
amount=${house_MOST_AMOUNT:-${house_LIMIT:-}} line=${house_MOST_LINE:-${house_LIMIT:-}}

# A number with its thousands parted by commas; a power of ten by its name.
commas() { echo "$1" | sed -e ':a' -e 's/\([0-9]\)\([0-9]\{3\}\)\(,\|$\)/\1,\2\3/' -e 'ta'; }
power() { echo "$1" | sed -n 's/^1\(0*\)$/\1/p' | awk '{ print "10^" length($0) }'; }

# Where each table begins, in bytes: 8 an account, 4 a counter, 8 a place.
counters=$((8 * house_TABLE)) places=$((12 * house_TABLE))
lines_at=$((8 * house_MEMBERS)) waiting_at=$((counters + 4))
lasts_at=$((counters + 4 * house_MEMBERS)) settled_at=$((counters + 8 * house_MEMBERS))
check "the crates' tables do not end where the last place does" test "$house_BYTES" -eq $((places + 8 * house_PLACES))

# The header: each of these names that it gives has the crates' number.
defines() { awk -v n="SNAREVAPOR_$1" '$1 == "#define" && $2 == n { sub(/.*\(/, "", $3); sub(/\).*/, "", $3); print $3 }' include/snarevapor.h; }
while read -r name number; do
    given=$(defines "$name")
    [ -z "$given" ] || check "SNAREVAPOR_$name is $given in the header, $number in the crates" test "$given" = "$number"
done <<END
TABLES $house_BYTES
MEMBERS $house_MEMBERS
PLACES $house_PLACES
MOST_AMOUNT $amount
MOST_LINE $line
MOST_BALANCE $house_HIGHEST
MOST_SUM $house_MOST
MOST_NUMBER $house_LAST_NUMBER
BALANCES_AT 0
LINES_AT $lines_at
MEMBERS_AT $counters
WAITING_AT $waiting_at
LAST_AT $lasts_at
SETTLED_AT $settled_at
PAYMENTS_AT $places
END

# The codes: the header's names and the rows of DAYFILE.md's table are those of the crates.
codes=$(sed -n 's/^code_of \([A-Za-z]*\) = \([0-9]*\)$/\1 \2/p' crates/answers/specs/Codes.antt)
code_of() { echo "$codes" | awk -v n="$1" '$1 == n { print $2 }'; }
rows=$(sed -n '/^## Codes/,/^## /s/^| \([0-9][0-9]*\) |.*/\1/p' docs/DAYFILE.md)
check "DAYFILE.md has other codes than the crates" test "$rows" = "$(echo "$codes" | cut -d ' ' -f 2)"
for name in $(echo "$codes" | cut -d ' ' -f 1); do
    upper=$(echo "$name" | tr '[:lower:]' '[:upper:]')
    given=$(sed -n "s/^ *SNAREVAPOR_$upper = \([0-9]*\).*/\1/p" include/snarevapor.h)
    # Line and Room are told on a sheet and to a writer of one, not by a call.
    case $name in Line | Room) ;; *) check "SNAREVAPOR_$upper is ${given:-missing} in the header" test "$given" = "$(code_of "$name")" ;; esac
done

# Each call's codes: the numbers in the first line of its definition are those that it judges, and PROMISES.md has them in that order.
for call in opening/Open entry/Deposit entry/Submit settling/Release settling/Group resolving/Resolve; do
    file=crates/${call%/*}/specs/${call#*/}.antt
    told=$(sed -n '1s/.*codes \([0-9, ]*\)).*/\1/p' "$file")
    judged=$(sed -n 's/^use .*Refusal\.TheVariants\.{\(.*\)}/\1/p' "$file" | sed 's/ as [A-Za-z]*//g' | tr -d ' ' | tr , '\n' |
        while read -r name; do code_of "$name"; done)
    check "$file: it says codes $told, and judges others" test "$(echo "$told" | tr -d ' ' | tr , '\n' | sort -n)" = "$(printf '1\n%s\n' "$judged" | sort -nu)"
    name=$(echo "${call#*/}" | tr '[:upper:]' '[:lower:]')
    check "PROMISES.md: the codes of $name are not $told" grep -qE "^\| $name \|.*[^0-9] ?$told([^0-9]|\$)" docs/PROMISES.md
done

# What the pages say of single numbers.
says() { check "$1 does not say '$2'" grep -qF "$2" "$1"; }
says docs/DAYFILE.md "A number is 1 to $text_MOST_DIGITS digits"
says docs/DAYFILE.md "at most $text_MOST_BYTES"
says docs/DAYFILE.md "at most $(commas "$text_MOST_LINES") lines"
says docs/DAYFILE.md "less than $text_LEAST_ROOM bytes left"
says docs/DAYFILE.md "members outside 1 to $house_MEMBERS"
says docs/DAYFILE.md "amount outside 1 to $(power "$amount")"
says docs/DAYFILE.md "a line above $(power "$line")"
says docs/DAYFILE.md "would pass $(power "$house_MOST")"
says docs/DAYFILE.md "$(commas "$house_PLACES") payments wait"
row() { # SLICE WORDS..: the row of a slice in TABLES.md has each of these
    slice=$1
    shift
    for words; do check "TABLES.md: $slice: not '$words'" sh -c "grep -F '| \`$slice:' docs/TABLES.md | grep -qF '$words'"; done
}
row accounts "| $house_TABLE |" "its line at $house_MEMBERS + i - 1" "from $((2 * house_MEMBERS)) on spare"
row counters "| $house_TABLE |" "at $house_MEMBERS + i - 1" "at $((2 * house_MEMBERS)) + i - 1" "from $((3 * house_MEMBERS)) on spare"
row pays "| $(commas "$house_PLACES") |"

# Every number with commas, and every power of ten, on these pages is one of the house's, or a word of TABLES.md's example. Money, with its
# cents behind a point, is not looked at.
known=" $(power "$amount") $(power "$line") $(power "$house_MOST") "
for n in "$house_BYTES" "$house_PLACES" $((house_PLACES + 1)) "$house_LAST_NUMBER" $((house_LAST_NUMBER + 1)) "$text_MOST_LINES" $((text_MOST_LINES + 1)) \
    "$counters" "$waiting_at" "$lasts_at" "$settled_at" "$places" $((places + 8)) $((places + 16)) 65535 65536 $((30 * 65536 + 1)) $((20 * 65536 + 64)); do
    known="$known$(commas "$n") "
done
for page in README.md docs/DAYFILE.md docs/TABLES.md docs/BYTES.md docs/PROMISES.md docs/TRUST.md docs/CHANGING.md docs/FLOOR.md include/snarevapor.h; do
    [ -f "$page" ] || continue
    for n in $(sed 's/[0-9][0-9,]*\.[0-9][0-9]//g' "$page" | grep -oE '[0-9]{1,3}(,[0-9]{3})+|10\^[0-9]+' | sort -u); do
        case $known in *" $n "*) passed=$((passed + 1)) ;; *) failed=$((failed + 1)) && echo "docs: $page: $n is no number of the house" ;; esac
    done
done

# A host in C repeats none of them: it uses the header's names.
repeats() { # NUMBER
    ! cat host/*.c host/*.h examples/*.c 2>/dev/null | grep -E "(^|[^A-Za-z0-9_.,])$1([^0-9A-Za-z_]|\$)"
}
for n in "$house_MEMBERS" "$house_PLACES" "$house_TABLE" "$house_BYTES" "$amount" "$house_MOST" "$house_HIGHEST" "$house_LAST_NUMBER" "$counters" "$waiting_at" \
    "$lasts_at" "$settled_at" "$places"; do
    check "a host has the number $n, which has a name in the header" repeats "$n"
done
echo "$passed passed, $failed failed"
[ "$failed" -eq 0 ]
