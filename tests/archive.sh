#!/bin/sh
# The static archive on lent bytes: the rows of tests/archive/rows.txt, whose answers were written by hand, then random calls against the
# second program: `tests/archive.sh [ROUNDS [SEED]]`. The same seed makes the same calls. Ends in 'N passed, M failed'.
set -u
cd "$(dirname "$0")/.." || exit 2
. tests/ask
ask lib snarevapor
build archive release
exec target/archive/release/archive "${1:-20000}" "${2:-20261115}"
