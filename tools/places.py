#!/usr/bin/env python3
"""Counts the places that docs/DESIGN-PASS.md speaks of, point by point, in the src/ (and, for point 8, the proofs/) of every crate.

    python3 tools/places.py            the counts
    python3 tools/places.py 3          the places of point 3, one a line
"""
import re
import sys
from collections import defaultdict
from pathlib import Path

SOURCES = sorted(Path("crates").glob("*/src/**/*.rt"))
NUMBER = re.compile(r"\b\d[\d_]*(?:[ui](?:8|16|32|64|size))?\b")
WIDTH = re.compile(r"\b[ui](?:8|16|32|64|size)\b")


def lines():
    for path in SOURCES:
        for at, line in enumerate(path.read_text().splitlines(), 1):
            if not line.lstrip().startswith("//") and not line.startswith("ghost use"):
                yield path, at, line


def found(pattern):
    seek = re.compile(pattern)
    return [f"{path}:{at}: {line.strip()}" for path, at, line in lines() if seek.search(line)]


def functions():
    """Every function: its place, its name, what stands before its body, and its body."""
    head = re.compile(r"^\s*(?:pub(?:\(crate\))? )?(?:extern \"C\" )?fn (\w+)")
    for path in SOURCES:
        text = path.read_text().splitlines()
        for at, line in enumerate(text):
            name = head.match(line)
            if not name:
                continue
            indent = len(line) - len(line.lstrip())
            end = at
            while end < len(text) and text[end].rstrip() != " " * indent + "}" and not text[end].rstrip().endswith(" {}"):
                end += 1
            begin = at
            while begin < end and text[begin].rstrip() != " " * indent + "{" and not text[begin].rstrip().endswith(") {"):
                begin += 1
            yield f"{path}:{at + 1}: {name.group(1)}", text[at:begin], text[begin + 1:end]


def twins():
    """Functions of one file or of two whose bodies are alike but for numbers, widths, constants, and the names that they call or take."""
    alike = defaultdict(list)
    for place, _, body in functions():
        text = "\n".join(line.strip() for line in body if line.strip())
        if len(text) < 60:
            continue
        text = WIDTH.sub("T", NUMBER.sub("0", text))
        text = re.sub(r"\b[A-Z][A-Z_0-9]+\b", "C", text)
        text = re.sub(r"\b[a-z_]\w*\b", "x", text)
        alike[text].append(place)
    return [place for places in alike.values() if len(places) > 1 for place in places]


def facts():
    """Facts that stand in the `requires` of three functions or more."""
    where = defaultdict(set)
    for place, top, _ in functions():
        clauses = " ".join(line.strip() for line in top)
        for clause in re.findall(r"requires(?: \w+)? \{ (.*?) \}", clauses):
            for fact in clause.split(" × "):
                where[fact.strip("() ")].add(place)
    return [f"{fact}  in {len(places)} functions" for fact, places in sorted(where.items()) if len(places) >= 3]


def travelling():
    """Pairs of parameters, name and type, that stand side by side in five functions or more."""
    where = defaultdict(set)
    for place, top, _ in functions():
        text = " ".join(line.strip() for line in top)
        inner = text[text.find("(") + 1:]
        parameters = re.findall(r"(\w+): ((?:&(?:'\w+ )?(?:mut )?)?(?:\[[^\]]*\]|[\w:]+))", inner.split(") ->")[0].split("requires")[0].split("ensures")[0])
        for first, second in zip(parameters, parameters[1:]):
            where[f"{first[0]}: {first[1]}, {second[0]}: {second[1]}"].add(place)
    return [f"{pair}  in {len(places)} functions" for pair, places in sorted(where.items()) if len(places) >= 5]


def proofs(kind):
    return [str(path) for path in sorted(Path("crates").glob(f"*/proofs/**/{kind}"))]


def answers_of_search():
    """Proof files by hand in which a step is answered by the search alone."""
    return [path for path in proofs("Proof.antt") if "search rules)" in Path(path).read_text()]


POINTS = {
    "1 own enums": lambda: found(r"^(?:pub(?:\(crate\))? )?enum "),
    "1 a refusal or an own Option matched and handed on by hand": lambda: found(r"(?:Verdict::Refused|Got::Absent|Found::Belongs|NoRoom|Known::Refused|Answer::Refused)"),
    "1 flags with a value beside them": lambda: found(r"^\s+pub (?:found|known|ok|present): bool"),
    "1 kinds and operations by number": lambda: found(r"(?:^(?:pub )?const [A-Z]\w*: u8|^\s+\d+ => |\b(?:kind|number|op|call) == (?:\d+|[A-Z]+)|operation::[A-Z]+\b)"),
    "2 functions with a twin": twins,
    "3 loops that count by hand": lambda: found(r"^\s*(?:while|loop)\b"),
    "4 types without the derives of equality": lambda: found(r"^#\[derive\((?!.*PartialEq)"),
    "4 equality, order or choice of the larger by hand": lambda: found(r"\bfn (?:same|same_\w+|is_blank|larger|smaller|equal\w*)\("),
    "4 what is printed by hand": lambda: found(r"\bfn (?:append|print|put|write)_\w*(?:line|text|number|decimal|digits|answer|row|verdict)\w*\("),
    "5 facts in three contracts or more": facts,
    "5 parameters that travel together": travelling,
    "6 arrays of a fixed length": lambda: found(r"(?:=|return) \[(?:0|[a-z]+)\w*; [\d_]+\]"),
    "6 lists searched by hand": lambda: found(r"\bfn (?:place_of|index_of|search|first_waiting|place_from|least_from|find)\("),
    "7 switches on a kind": lambda: found(r"(?:match (?:op|kind|number|call|operation)\b|if (?:kind|number|call) == )"),
    "8 proofs by hand": lambda: proofs("Proof.antt"),
    "8 of these with answers that the search finds": answers_of_search,
}

if __name__ == "__main__":
    asked = sys.argv[1] if len(sys.argv) > 1 else None
    for name, places in POINTS.items():
        if asked and not name.startswith(asked):
            continue
        got = places()
        print(f"{len(got):5}  {name}")
        if asked:
            print("\n".join("       " + place for place in got))
