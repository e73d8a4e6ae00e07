#!/bin/sh
# The second program: its own tests, and its reading of document 01 against itself on houses made up from a seed. Ends in
# 'N passed, M failed'.
set -u
cd "$(dirname "$0")/.." || exit 2
. tests/ask
build second release
seed=20261115
log=$(mktemp) || exit 2
trap 'rm -f "$log"' EXIT

CARGO_TARGET_DIR=$PWD/target/second cargo test --offline --quiet --manifest-path tests/second/Cargo.toml >"$log" 2>&1
status=$?
passed=$(sed -n 's/^test result: [a-zA-Z]*\. \([0-9]*\) passed.*/\1/p' "$log" | awk '{ n += $1 } END { print n + 0 }')
failed=$(sed -n 's/^test result: .* \([0-9]*\) failed.*/\1/p' "$log" | awk '{ n += $1 } END { print n + 0 }')
if [ "$status" -ne 0 ] || [ "$passed" -eq 0 ]; then
    cat "$log"
    [ "$failed" -gt 0 ] || failed=1
fi

if target/second/release/second --selftest "$seed" 3000 >"$log" 2>&1; then
    passed=$((passed + 1))
else
    failed=$((failed + 1))
fi
cat "$log"
echo "second: self-test with seed $seed, 3000 rounds"
echo "$passed passed, $failed failed"
[ "$failed" -eq 0 ]
