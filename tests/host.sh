#!/bin/sh
# The host side, from outside. Installs into a temporary prefix, builds examples/small.c against that, looks at the archive's names and the
# header alone, and lends what can only be read to calls that are refused. Then the floor, plain and with the sanitizers: stored sessions by
# a pipe (tests/host/NAME.in gives NAME.out, with the words of NAME.args), screens at a pseudo-terminal (tests/host/*.screen and
# docs/FLOOR.md), and nights that are killed, stopped, full or foreign (tests/host/nights.py). `tests/host.sh --store` writes sessions and
# screens anew. Needs gcc, g++ and python3. Ends in 'N passed, M failed'.
set -u
cd "$(dirname "$0")/.." || exit 2
passed=0 failed=0 store=
[ "${1:-}" = --store ] && store=--store
archive=target/staticlib/libsnarevapor.a
work=$(mktemp -d) || exit 2
trap 'rm -rf "$work"' EXIT
export ASAN_OPTIONS=exitcode=99 UBSAN_OPTIONS=exitcode=99 # a status that the floor has not

check() { # WHAT COMMAND..
    what=$1
    shift
    if "$@"; then passed=$((passed + 1)); else failed=$((failed + 1)); echo "host: $what"; fi
}

count() { # COMMAND..: its last line's counts are added to ours
    "$@" >"$work/said" 2>&1
    last=$(tail -n 1 "$work/said" | grep -E '^[0-9]+ passed, [0-9]+ failed$') || { cat "$work/said"; last="0 passed, 1 failed"; }
    sed '$d' "$work/said"
    p=${last%% *} last=${last#*, }
    passed=$((passed + p)) failed=$((failed + ${last%% *}))
}

strict="-std=c99 -Wall -Wextra -Wpedantic -Werror"

# The archive: only names of the library are defined for others, all six calls are, and nothing but memory functions is asked for.
names_only() { ! nm -g --defined-only "$archive" | awk 'NF == 3 && $3 !~ /^snarevapor_/ { print; bad = 1 } END { exit !bad }'; }
asks_little() { ! nm -u "$archive" | awk '$1 == "U" && $2 !~ /^mem(cpy|move|set|cmp)$/ { print; bad = 1 } END { exit !bad }'; }
all_six() { [ "$(nm -g --defined-only "$archive" | grep -cE ' T snarevapor_(open|deposit|submit|release|group|resolve)$')" -eq 6 ]; }

# The flags that the pkg-config file gives, by pkg-config if it is there, else from the file.
flags() {
    if command -v pkg-config >/dev/null; then
        PKG_CONFIG_PATH=$work/prefix/lib/pkgconfig pkg-config --cflags --libs snarevapor
    else
        sed -n 's/^Cflags: //p; s/^Libs: //p' "$work/prefix/lib/pkgconfig/snarevapor.pc" |
            sed "s|\${includedir}|$work/prefix/include|; s|\${libdir}|$work/prefix/lib|"
    fi
}

installed() {
    for file in bin/floor bin/nightsheet include/snarevapor.h lib/libsnarevapor.a share/man/man1/floor.1 share/man/man1/nightsheet.1; do
        [ -s "$work/prefix/$file" ] || { echo "no $file"; return 1; }
    done
    "$work/prefix/bin/floor" --help >/dev/null && "$work/prefix/bin/nightsheet" <examples/night.day | cmp - examples/night.sheet
}

on_installed() {
    # shellcheck disable=SC2046,SC2086
    gcc $strict examples/small.c $(flags) -o "$work/on-installed" && "$work/on-installed" | cmp - "$work/small.out" &&
        g++ -std=c++11 -Wall -Wextra -Wpedantic -Werror -x c++ examples/small.c -x none $(flags) -o "$work/in-c++" &&
        "$work/in-c++" | cmp - "$work/small.out"
}

man_pages() { [ -z "$(groff -man -ww -z host/*.1 2>&1)" ]; }

session() { # PROGRAM NAME
    words=
    [ -f "tests/host/$2.args" ] && words=$(cat "tests/host/$2.args")
    # shellcheck disable=SC2086
    { "$1" $words <"tests/host/$2.in"; echo "status $?"; } >"$work/said" 2>&1
    [ -z "$store" ] || cp "$work/said" "tests/host/$2.out"
    diff "tests/host/$2.out" "$work/said"
}

check "it does not install" sh -c "host/install $work/prefix >/dev/null"
check "what was installed does not run" installed
count python3 tests/host/header.py "$archive" "$work"
check "examples/small.c does not build on what was installed, or prints something else" on_installed
check "the archive defines other names" names_only
check "the archive lacks one of the six calls" all_six
check "the archive asks for other names" asks_little
# shellcheck disable=SC2086
check "the header alone is not C99" gcc $strict -Wconversion -Wshadow -fsyntax-only -x c include/snarevapor.h
check "the header alone is not C++11" g++ -std=c++11 -Wall -Wextra -Wpedantic -Werror -fsyntax-only -x c++ include/snarevapor.h
command -v groff >/dev/null && check "a man page is malformed" man_pages

# shellcheck disable=SC2086
check "tests/host/readonly.c does not build" gcc $strict -I include tests/host/readonly.c "$archive" -o "$work/readonly"
check "a refused call writes" "$work/readonly"

mkdir -p "$work/bin"
# shellcheck disable=SC2086
check "the floor does not build with the sanitizers" gcc $strict -g -O1 -fsanitize=address,undefined -fno-sanitize-recover=all -I include \
    host/*.c "$archive" -o "$work/bin/floor"
check "tests/host/stop.c does not build" gcc -shared -fPIC -Wall -Wextra -Werror -o "$work/stop.so" tests/host/stop.c -ldl
cp target/bin/nightsheet "$work/bin" || exit 2
for program in target/host/floor "$work/bin/floor"; do
    for lines in tests/host/*.in; do
        name=$(basename "$lines" .in)
        check "$program differs on $name" session "$program" "$name"
    done
done
count python3 tests/host/screens.py $store "$work/bin" tests/host/*.screen docs/FLOOR.md
count python3 tests/host/nights.py target/host/floor "$work/bin/floor" target/bin/nightsheet "$work/stop.so"
echo "$passed passed, $failed failed"
[ "$failed" -eq 0 ]
