#!/usr/bin/env python3
"""Brings this repository's own definitions, lemmas, fields and proof variables to the library's spelling: words in snake case.

usage: python3 tools/respell.py    at the top of the repository, once, behind the kit's port.py

    packOf, canBook, accepted-none  ->  pack_of, can_book, accepted_none

The table is made of the tree itself: what a file of specs/ or proofs/ declares, and the variables of proofs. Names of the kit's library stay,
and so do names of src/, strings, and what the check makes of the code (steps of a walk, goals). It turns .antt files, the clauses of .rt files,
the edits and, where a name stands in backticks, comments. It prints the names that fall together. A second run changes nothing.
"""

import collections
import os
import re
import subprocess
import sys

KIT = os.path.dirname(subprocess.run(["rt", "doc"], capture_output=True, text=True, check=True).stdout.strip())
TOKEN = re.compile(r"\"(?:[^\"\\]|\\.)*\"|[^\s(){}.;,@\"«»\[\]\\λ|`]+")
DECLARED = re.compile(r"^(?:(?:abbrev|unfoldable|pub|opaque|ruleset|data|record|pattern|syntax)\s+)*([^\s:(){},;.=]+)(?:\s+\{[^}]*\})*\s*:(?=\s|$)")
FIELD = re.compile(r"^\s+pub\s+([^\s:(){},;.=|]+)\s*:\s")
CASES = re.compile(r"^  ([^:(){},;.=|]+?)\s:\s")
MADE = re.compile(r"^(After|Then|Else|In|At|Loop|Behind|Arm|Join|Iter|Need|Lts|Block|Start|calls)-|^in-[A-Z]|^(invariant|decreases)-loop|^loop-(test|init|preserved|smaller)|^returns-\d|^(close-requires|type-inv|well-formed|Operand-in|enum-told\d*)$|^(shared-)?slice-known\d*|-(lts|kinds|reads)\d*$")

# A lemma that would have its definition's name.
LEMMAS = set(
    "as-booked behind-block book-key book-keys book-row book-rows book-used booked-below can-done can-write count-new data-key data-rows event-right"
    " fixed-bit floor-after floor-key from-floor inside-at instruction-at is-form is-jump is-some keys-apart list-wrong log-key log-line log-rows next-at"
    " next-in no-agent opened-words operand-bits own-side parts-of right-at rows-from side-bits with-store workflow-no zero-no behind-end book-right"
    " fed-arrival fed-run fed-turn fresh-store is-end reply-or same-request with-slots with-row word-at".split()
)
# The same, where an earlier script has taken the dash out already: by folder.
OLD_LEMMAS = {"store/proofs": {"keys_from": "keys_from_lem"}, "meaning/proofs": {"list_right": "list_right_lem"}, "turn/proofs": {"code_by": "code_by_lem"}, "delivered/proofs": {"no_record": "is_no_record"}}
# A field that would hide the definition which the next fields name.
OTHERS = {"worked-out": "is_worked_out"}


def snake(name):
    if name in OTHERS:
        return OTHERS[name]
    lem = "_lem" if name in LEMMAS else ""
    name = name.replace("getD", "get_or").replace("-", "_")
    return re.sub(r"(?<=[a-z0-9])([A-Z])", lambda m: "_" + m.group(1).lower(), name) + lem


def is_ours(name):
    return bool(re.match(r"^[a-z]\w*[A-Z]\w*'*$", name) or re.match(r"^\+?[a-z0-9][\w]*(-[\w']+)+'*[₀-₉]*$", name))


def files(root, endings):
    for folder, dirs, names in os.walk(root):
        dirs[:] = sorted(d for d in dirs if d not in ("out", ".git"))
        for n in sorted(names):
            if n.endswith(endings):
                yield os.path.join(folder, n)


def read(path):
    with open(path, encoding="utf-8") as f:
        return f.read()


def library():
    """The names that the kit's own files declare."""
    out = set()
    for part in ("rattle", "antt", "logic"):
        for p in files(os.path.join(KIT, part), (".antt",)):
            for l in read(p).splitlines():
                m = re.match(r"^\s*(?:(?:abbrev|unfoldable|pub|opaque|ruleset|private)\s+)*([^\s:(){},;.=]+)(?:\s+\{[^}]*\})?\s*:", l)
                if m:
                    out.add(m.group(1))
    return out


def declared(root):
    """Each name that a file of ours declares, with the folders where it stands."""
    out = collections.defaultdict(set)
    for p in files(root, (".antt",)):
        where = "/".join(os.path.relpath(p, root).split("/")[:2])
        for l in read(p).splitlines():
            if l.lstrip().startswith("--"):
                continue
            for form in (DECLARED, FIELD):
                m = form.match(l)
                if m:
                    out[m.group(1)].add(where)
            m = CASES.match(l)
            if m and all(re.match(r"^[\w'-]+$", w) for w in m.group(1).split()):
                for w in m.group(1).split():
                    if w != "pub":
                        out[w].add(where)
    return out


def imported(text):
    """The names that a file takes from the kit's library."""
    out = set()
    for m in re.finditer(r"(?m)^(?:ghost |pub )*use ([^\s{;]+)\.\{([^}]*)\}", text):
        if m.group(1).split(".")[0] != "Rattle" or m.group(1).split(".")[1] in ("std", "core"):
            out |= {w.strip().split(" as ")[-1] for w in m.group(2).split(",")}
    return out


def main():
    root = os.path.join(os.getcwd(), "crates")
    lib, ours = library(), declared(root)
    if not any(is_ours(name) and not MADE.search(name) and re.match(r"^[a-z][a-z0-9]*[A-Z]", name) for name in ours):
        print("nothing to do: every name has its new spelling")
        return
    together = collections.defaultdict(set)
    for name in ours:
        together[snake(name) if is_ours(name) and not MADE.search(name) else name].add(name)
    for new, olds in sorted(together.items()):
        if len(olds) > 1:
            print("together:", new, "of", ", ".join(sorted(olds)))

    def turned(name, taken, folder):
        if name.startswith('"') or name in taken or MADE.search(name):
            return name
        old = OLD_LEMMAS.get(folder, {})
        if name in old:
            return old[name]
        if not is_ours(name) or (name in lib and name not in ours):
            return name
        return snake(name)

    for p in files(root, (".antt", ".rt", ".edit")):
        text = read(p)
        folder = "/".join(os.path.relpath(p, root).split("/")[:2])
        taken = imported(text)
        out = []
        before = {m.group(0) for m in TOKEN.finditer(text)}
        hidden = set()

        def one(m):
            new = turned(m.group(0), taken, folder)
            if new != m.group(0) and new in before and m.string[max(0, m.start() - 1) : m.start()] != ".":
                hidden.add((m.group(0), new))
            return new

        code = p.endswith(".rt")
        inside = False
        for line in text.split("\n"):
            if p.endswith(".edit") and not re.match(r"^(old|new):", line):
                out.append(line)
                continue
            mark = "//" if code else "--"
            cut = re.search(r"(^|\s)" + mark, line) if not p.endswith(".edit") else None
            head, tail = (line[: cut.start()], line[cut.start() :]) if cut else (line, "")
            if code:
                # In the code itself a '-' between names is a difference, and has spaces.
                head = TOKEN.sub(lambda m: one(m) if m.group(0) in ours else m.group(0), head)
            elif not head.startswith("pub mod") and not head.startswith("mod "):
                if re.match(r"^(pub )?use ", head):
                    at = head.find("{") if "{" in head else len(head)
                    head = head[:at] + TOKEN.sub(one, head[at:])
                else:
                    head = TOKEN.sub(one, head)
            tail = re.sub(r"`[^`]*`", lambda m: TOKEN.sub(lambda n: one(n) if n.group(0) in ours else n.group(0), m.group(0)), tail)
            tail = TOKEN.sub(lambda m: one(m) if m.group(0) in ours and re.match(r"^[a-z]\w*[A-Z]", m.group(0)) else m.group(0), tail)
            out.append(head + tail)
        new = "\n".join(out)
        for old, now in sorted(hidden):
            print("beside:", os.path.relpath(p, root), old, now)
        if new != text:
            with open(p, "w", encoding="utf-8") as f:
                f.write(new)


if __name__ == "__main__":
    sys.exit(main())
