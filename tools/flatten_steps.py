#!/usr/bin/env python3
"""Lets a walk read each step off the record at hand, and counts the `.before` anew where a record is handed on.

usage: rt names OUT && python3 tools/flatten_steps.py OUT [CRATE | PATH of a Proof.antt ..]    at the top of the repository

    c.before.before.floor.ensures  ->  c.floor.ensures
    let t = c.before.before.before in start t  ->  let t = c.before.before in start t

A record has the fields of all records further out, so that a step needs no way to it. A helper of the file that takes a record of one place
is given just that record: the count is that of today's places. A second run changes nothing.
"""

import re
import sys

from respell_steps import rewrite_file, walks

W = r"[^\W\d][\w'-]*[₀-₉]*"
ATOM = re.compile(r"\s+(?:(" + W + r"(?:\.[^\s(){},;.]+)*)|\()")


class Places:
    def __init__(self, steps):
        names = steps["places_by_name"]
        self.at = {n: k for k, n in enumerate(names)}
        old = {}
        for k, it in enumerate(steps["places"]):
            old.setdefault(it[0], k)
        self.up = [None if it[1] is None else old[it[1]] for it in steps["places"]]
        self.arms = steps["arms"]
        self.asked = [self.at.get(new) for _, new in steps["asked_at"]]
        self.goals = {new: at for (_, new), at in zip(steps["needs"], self.asked)}

    def leads(self, k):
        arm = self.arms[k] if k < len(self.arms) else None
        for _ in range(arm[1] if arm else 1):
            k = self.up[k] if k is not None else None
        return k

    def count(self, k, target):
        n = 0
        while k is not None and k != target:
            k, n = self.leads(k), n + 1
        return n if k == target else None

    def of_type(self, text):
        m = re.match(r"^\(*tie\.([^\s()]+)", text.strip())
        return self.at.get(m.group(1)) if m else None


def closing(text, i):
    depth = 0
    while i < len(text):
        depth += (text[i] in "([{") - (text[i] in ")]}")
        i += 1
        if depth == 0:
            return i
    return i


def parts(text, mark):
    out, depth, cur = [], 0, ""
    for ch in text:
        depth += (ch in "([{") - (ch in ")]}")
        if depth == 0 and ch == mark:
            out.append(cur)
            cur = ""
        else:
            cur += ch
    return out + [cur]


def body_of(text, env, helpers, places):
    """The text with each way written anew, where env has the place of each record variable."""
    env = dict(env)

    def handed_on(name, rest):
        """The place at which a helper wants the variable."""
        for h, (params, _) in helpers.items():
            for m in re.finditer(r"(?<![\w.'-])" + re.escape(h) + r"(?![\w'-])", rest):
                at = m.end()
                for p in params:
                    a = ATOM.match(rest, at)
                    if not a:
                        break
                    if a.group(1) == name and p is not None:
                        return p
                    at = a.end() if a.group(1) else closing(rest, a.end() - 1)
        # or another variable made of it
        m = re.search(r"\blet (" + W + r") =\s+" + re.escape(name) + r"((?:\.before)*) in\b", rest)
        if m and m.group(1) != name:
            return None
        return None

    out, pos = "", 0
    token = re.compile(
        r"\blet (?P<x>" + W + r") =\s+(?P<v>" + W + r")(?P<b>(?:\.before)*)(?P<in>\s+in\b)"
        r"|(?<![\w.'-])(?P<h>" + W + r")(?=\s)"
        r"|(?<![\w.'-])(?P<c>" + W + r")(?P<cb>(?:\.before)+)(?P<f>\.[^\s(){},;.]+)?"
    )
    while True:
        m = token.search(text, pos)
        if not m:
            return out + text[pos:]
        out += text[pos : m.start()]
        s, end = m.group(0), m.end()
        if m.group("x") and m.group("v") in env:
            here = env[m.group("v")]
            want = handed_on(m.group("x"), text[m.end() :])
            n = places.count(here, want) if want is not None and here is not None else 0
            if n is None:
                n = 0
            s = f"let {m.group('x')} = {m.group('v')}{'.before' * n}{m.group('in')}"
            env[m.group("x")] = want if want is not None and n is not None else here
        elif m.group("x") and m.group("v") not in helpers:
            env.pop(m.group("x"), None)
        elif m.group("h") in helpers and helpers[m.group("h")][0]:
            params, ret = helpers[m.group("h")]
            s, at = m.group("h"), m.end()
            for p in params:
                a = ATOM.match(text, at)
                if not a:
                    break
                gap = text[at : a.end()][: len(text[at : a.end()]) - len(text[at : a.end()].lstrip())]
                if a.group(1):
                    word = a.group(1)
                    v = word.split(".")[0]
                    if p is not None and v in env and env[v] is not None and re.match(r"^[^.]+(\.before)*$", word):
                        n = places.count(env[v], p)
                        word = v + ".before" * (n if n is not None else word.count(".before"))
                    elif v in env:
                        word = re.sub(r"^([^.]+)(?:\.before)+(\.(?!before))", r"\1\2", word)
                    s += gap + word
                    at = a.end()
                else:
                    e = closing(text, a.end() - 1)
                    given = re.match(r"\((" + W + r") ", text[a.end() - 1 : e])
                    s += gap + body_of(text[a.end() - 1 : e], env, helpers, places)
                    at = e
                    more = re.match(r"(?:\.before)+(?![\w.])", text[at:])
                    if more and given and p is not None and helpers.get(given.group(1), (None, None))[1] is not None:
                        n = places.count(helpers[given.group(1)][1], p)
                        s += ".before" * n if n is not None else more.group(0)
                        at += more.end()
            end = at
            # what a helper gave, in brackets
            back = re.match(r"\)((?:\.before)+)(\.[^\s(){},;.]+)", text[at:])
            if out.endswith("(") and back:
                s += ")" + back.group(2)
                end = at + back.end()
            made = re.search(r"\blet (" + W + r") =\s+$", out)
            if made and re.match(r"\s+in\b", text[end:]) and ret is not None:
                env[made.group(1)] = ret
        elif m.group("c") and m.group("c") in env and m.group("f"):
            s = m.group("c") + m.group("f")
        out += s
        pos = end


def blocks_of(text):
    blocks, now = [], []
    for l in text.split("\n"):
        # A line of comment is a block of its own.
        if l and not l[0].isspace() and not l.startswith(")") and now:
            blocks.append("\n".join(now))
            now = []
        now.append(l)
    return blocks + ["\n".join(now)]


def turned(text, steps):
    return "\n".join(each_block(blocks_of(text), Places(steps), {}, [], {}))


def bound(text, places):
    """The places of the variables that a part of a signature binds, and all of them in order."""
    env, kinds = {}, []
    for names, kind in re.findall(r"\(([^():]+) : ((?:[^()]|\([^()]*\))*)\)", text) or [(None, text)]:
        k = places.of_type(kind)
        for v in names.split() if names else [None]:
            kinds.append(k)
            if v and k is not None:
                env[v] = k
    return env, kinds


def each_block(blocks, places, helpers, outer, outer_env):
    result = []
    for b in blocks:
        module = re.match(r"^module \S+ (.*?) where\n", b, re.S)
        signature = re.match(r"^(?:abbrev |unfoldable |pub )*([^\s:(){}]+) :(.*)$", b, re.S)
        clause = re.match(r"^([^\s:(){}]+)((?:\s+[^\s=:]+)*)\s+=", b)
        if module:
            env, kinds = bound(module.group(1), places)
            inner = b[module.end() :]
            lines = ["" if not l.strip() else l[2:] for l in inner.split("\n")]
            done = "\n".join(each_block(blocks_of("\n".join(lines)), places, helpers, outer + kinds, {**outer_env, **env}))
            result.append(b[: module.end()] + "\n".join("  " + l if l.strip() else l for l in done.split("\n")))
            continue
        if signature and not b.startswith("where"):
            kinds, env = list(outer), dict(outer_env)
            each = parts(signature.group(2), "→")
            for p in each[:-1]:
                more, of = bound(p, places)
                kinds += of
                env.update(more)
            back = places.of_type(each[-1])
            result.append(body_of(b, env, helpers, places))
            m = re.match(r"^tie\.Need-([^\s()]+)", each[-1].strip())
            if m and len(each) == 1:
                kinds = kinds + [places.goals.get(m.group(1))]
            helpers[signature.group(1)] = (kinds, back)
            continue
        if "tie.spec" in b:
            k = b.index("tie.spec") + len("tie.spec")
            out, nth = b[:k], 0
            while k < len(b) and b[k] != ")":
                if b[k].isspace():
                    out += b[k]
                    k += 1
                    continue
                e = closing(b, k) if b[k] == "(" else k + len(re.match(r"[^\s)]+", b[k:]).group(0))
                arg = b[k:e]
                if not re.match(r"^(invariant|decreases)-loop", arg):
                    m = re.match(r"^\(λ ([^\s.]+)", arg)
                    if m and nth < len(places.asked) and places.asked[nth] is not None and m.group(1) != "_":
                        arg = body_of(arg, {m.group(1): places.asked[nth]}, helpers, places)
                    nth += 1
                out += arg
                k = e
            result.append(out + b[k:])
            continue
        if clause and clause.group(1) in helpers:
            kinds, back = helpers[clause.group(1)]
            kinds = kinds[len(outer) :]
            env = {**outer_env, **{v: k for v, k in zip(clause.group(2).split(), kinds) if k is not None}}
            whole = re.match(r"^(\S+(?: " + W + r")* =\s+)(" + W + r")((?:\.before)*)\s*$", b)
            made = re.match(r"^(\S+(?: " + W + r")* =\s+)(\((" + W + r") .*\))((?:\.before)+)\s*$", b)
            if made and back is not None and helpers.get(made.group(3), (None, None))[1] is not None and places.count(helpers[made.group(3)][1], back) is not None:
                tail = b[len(b.rstrip()) :]
                result.append(made.group(1) + body_of(made.group(2), env, helpers, places) + ".before" * places.count(helpers[made.group(3)][1], back) + tail)
            elif whole and back is not None and whole.group(2) in env and places.count(env[whole.group(2)], back) is not None:
                tail = b[len(b.rstrip()) :]
                result.append(whole.group(1) + whole.group(2) + ".before" * places.count(env[whole.group(2)], back) + tail)
            else:
                result.append(body_of(b, env, helpers, places))
            continue
        result.append(b)
    return result


def main(argv):
    for path, _, in_a_cycle, steps in walks(argv[0], argv[1:]):
        if not in_a_cycle:
            rewrite_file(path, lambda text: turned(text, steps))


if __name__ == "__main__":
    main(sys.argv[1:])
