#!/usr/bin/env python3
"""Counts the instructions of each case of the benchmark, for both sides, by callgrind: figures that no other program disturbs.

count.py BENCH [CASES..]: BENCH is the built program; cases by name, all of them where none is named.
"""
import re
import subprocess
import sys

bench = sys.argv[1]
cases = sys.argv[2:] or subprocess.run([bench, "list"], capture_output=True, text=True, check=True).stdout.splitlines()


def count(case, side):
    tool = ["valgrind", "--tool=callgrind", "--toggle-collect=bench_measured", "--callgrind-out-file=/dev/null"]
    run = subprocess.run([*tool, bench, "once", case, side], capture_output=True, text=True, check=True)
    return int(re.search(r"Collected : (\d+)", run.stderr).group(1))


print(f"{'case':<26} {'ours':>11} {'reference':>11} {'ratio':>6} {'one pass':>9}")
for case in cases:
    ours, theirs, limit = (count(case, side) for side in ("ours", "reference", "pass"))
    print(f"{case:<26} {ours:>11} {theirs:>11} {ours / theirs:>6.2f} {limit:>9}", flush=True)
