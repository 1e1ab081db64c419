#!/bin/sh
# compare.sh [FILES] [CASES] [FIRST SEED]: generates FILES files of CASES cases each (25 of 1,000, seeds from 1 on), runs each through the
# proved program `conformance` and through the reference, and says how many cases were compared and which is the first that differs. What
# they print has the bytes of each store that a call left, so rows in another order differ too.
# Needed first: `rt run` in crates/conformance, and `cargo build --release --offline` in reference/.
set -eu
files=${1:-25} cases=${2:-1000} seed=${3:-1}
top=$(cd "$(dirname "$0")/.." && pwd)
proved=${CONFORMANCE:-$top/crates/conformance/out/conformance}
reference=${REFERENCE:-$top/reference/target/release/reference}
work=$(mktemp -d)
trap 'rm -rf "$work"' EXIT
compared=0 lines=0
last=$((seed + files - 1))
while [ "$seed" -le "$last" ]; do
    "$reference" generate "$seed" "$cases" "$work/cases.bin" >"$work/said"
    if [ "$(wc -c <"$work/cases.bin")" -gt 1048576 ]; then
        echo "seed $seed: more than 1 MiB, give fewer cases to a file"
        exit 2
    fi
    "$reference" cases "$work/cases.bin" >"$work/expected"
    (cd "$work" && "$proved") >"$work/found"
    if ! cmp -s "$work/expected" "$work/found"; then
        line=$(diff "$work/expected" "$work/found" | sed -n '1s/[^0-9].*//p')
        sed -n "${line}p" "$work/expected" >"$work/left"
        sed -n "${line}p" "$work/found" >"$work/right"
        column=$(cmp "$work/left" "$work/right" | sed 's/.* \([0-9][0-9]*\), line.*/\1/')
        echo "seed $seed: $(head -n "$line" "$work/expected" | grep '^case ' | tail -n 1) differs, in line $line, column $column"
        # a line of bytes may be long
        diff "$work/expected" "$work/found" | head -n 6 | cut -c -200
        exit 1
    fi
    compared=$((compared + $(grep -c '^case ' "$work/expected")))
    lines=$((lines + $(wc -l <"$work/expected")))
    seed=$((seed + 1))
done
echo "compared $compared cases, $lines lines: no difference"
