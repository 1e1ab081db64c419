#!/usr/bin/env python3
"""Shows what the compiler made of the loops of a case: the instructions that our side executed most, with how often each was executed.

loops.py BENCH CASE [LEAST]: BENCH is the built program; instructions executed fewer than LEAST times (500) are left out, and so are those of
the system's libraries, memcpy's too. Instructions that follow one another stand together; behind their number is how many of them each
pass through the loop takes.
"""
import collections
import os
import re
import subprocess
import sys
import tempfile


def executed(bench, case):
    """How often each instruction of the program was executed, by its place in the file."""
    with tempfile.TemporaryDirectory() as folder:
        out = os.path.join(folder, "out")
        tool = ["valgrind", "--tool=callgrind", "--toggle-collect=bench_measured", "--dump-instr=yes", "--compress-pos=no"]
        tool += ["--compress-strings=no", f"--callgrind-out-file={out}"]
        subprocess.run([*tool, bench, "once", case, "ours"], capture_output=True, check=True)
        lines = open(out).read().splitlines()
    times, ours, call = collections.Counter(), False, False
    for line in lines:
        if line.startswith("ob="):
            ours = os.path.basename(line[3:]) == os.path.basename(bench)
        elif line.startswith("calls="):
            call = True
        elif line.startswith("0x"):
            place, _, count = line.split()[:3]
            if ours and not call:
                times[int(place, 16)] += int(count)
            call = False
    return times


def instructions(bench):
    """Each instruction of the program: the function it is in, its place, its text."""
    tool = ["objdump", "-d", "--no-show-raw-insn", "-M", "intel", bench]
    listing = subprocess.run(tool, capture_output=True, text=True, check=True).stdout
    function = ""
    for line in listing.splitlines():
        if heading := re.match(r"[0-9a-f]+ <(.*)>:$", line):
            function = heading.group(1)
        elif found := re.match(r"\s+([0-9a-f]+):\s+(.*)", line):
            yield function, int(found.group(1), 16), found.group(2)


def main():
    bench, case = sys.argv[1:3]
    least = int(sys.argv[3]) if len(sys.argv) > 3 else 500
    times, runs, follows = executed(bench, case), [], False
    for function, place, text in instructions(bench):
        often = times[place] >= least
        if often and not (follows and runs[-1][0] == function):
            runs.append((function, []))
        if often:
            runs[-1][1].append((times[place], text))
        follows = often
    for function, lines in sorted(runs, key=lambda run: -sum(count for count, _ in run[1])):
        total, most = sum(count for count, _ in lines), max(count for count, _ in lines)
        print(f"{function}: {len(lines)} instructions, {total / most:.2f} for each of {most}")
        for count, text in lines:
            print(f"{count:>9}  {text}")
        print()


main()
