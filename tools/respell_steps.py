#!/usr/bin/env python3
"""Turns the names of steps that a walk cites (proofs/F/Proof.antt) to those that today's check makes of the code.

usage: rt names OUT && python3 tools/respell_steps.py OUT [CRATE ..]    at the top of the repository

    c.before.if1.taken, tie.After-check-to-16, tie.invariant-loop  ->  c.before.if-id-floor.true, tie.After-check_to_16-v, tie.invariant-loop-x

OUT has each function's steps under their earlier and their present names, in the order of the code. Run it once.
"""

import json
import os
import re
import sys

PLAIN = {"inv": "invariant", "pre": "requires", "taken": "true", "good": "well_formed", "well-formed": "well_formed", "type-inv": "type_inv"}


def dashed(name):
    return re.sub(r"[-_]", "-", name)


def tables(steps):
    """The places, the fields and the goals of one function: by their earlier name, dashes for underscores, the present one."""
    places, fields, goals = {}, {}, {}
    for (old, _, (was, now), *_), new in zip(steps["places"], steps["places_by_name"]):
        places[dashed(old)] = new
        if was:
            fields[dashed(was)] = now
        m = re.match(r"^(Then|Else)\d+$", old)
        loop = re.match(r"^(loop-\S+)-test$", now)
        if m and loop:
            short = {"Then": "In", "Else": "After"}[m.group(1)]
            for (label, _), _ in steps["loops"]:
                if len(steps["loops"]) == 1:
                    places.setdefault(f"{short}-{label}", new)
                    fields.setdefault(f"{label}-test", now)
    for old, new in steps["asked_at"]:
        places.setdefault(dashed(old), new)
    for old, new in steps["needs"]:
        goals[dashed(old)] = new
    for (old, new), _ in steps["loops"]:
        fields[dashed(old)] = new
    return places, fields, goals


def signatures(root):
    """The parameters of each function of src/, and those by &mut, by crate and name."""
    out = {}
    for folder, _, names in os.walk(root):
        if "/src" not in folder + "/":
            continue
        for n in names:
            with open(os.path.join(folder, n), encoding="utf-8") as f:
                text = f.read()
            for m in re.finditer(r"\bfn (\w+)(?:<[^>]*>)?\(([^)]*)\)", text):
                each = [w.strip() for w in m.group(2).split(",") if w.strip()]
                name = lambda w: "self" if "self" in w.split(":")[0].split() or w.endswith("self") else w.split(":")[0].replace("mut ", "").strip()
                out.setdefault(m.group(1), ([name(w) for w in each], [name(w) for w in each if "&mut" in w or re.search(r":\s*&'\w+ mut", w)]))
    return out


def arms(steps):
    """What a pattern bound, which was a path below a step, by the arm's name."""
    out = {}
    for arm in steps["arms"]:
        if arm:
            for name, step, path in arm[2]:
                if path:
                    out.setdefault(dashed(step) + "." + ".".join(path), arm[0] + "." + name)
    return out


def turned(text, steps, own, of):
    places, fields, goals = tables(steps)
    patterns = arms(steps)
    callees = {}
    for (_, _, (was, now), callee, *_), _ in zip(steps["places"], steps["places_by_name"]):
        if callee:
            callees[now] = of.get(callee.split("::")[-1], ([], []))[1]
    loops = {old: new for (old, new), _ in steps["loops"]}
    W = r"[^\s(){}.;,@\"«»\[\]\\]+"

    def by_tie(m):
        name = m.group(1)
        for head in ("invariant-", "decreases-"):
            if name.startswith(head) and name[len(head) :] in loops:
                return "tie." + head + loops[name[len(head) :]]
        if name.startswith("Need-"):
            # An earlier goal has its operation's kind before its place.
            return "tie.Need-" + goals.get(dashed(name[5:]), name[5:])
        return "tie." + places.get(dashed(name), name)

    text = re.sub(r"(?<![\w-])tie\.(" + W + ")", by_tie, text)

    def by_field(m):
        name = m.group(1)
        if name in PLAIN:
            return "." + PLAIN[name]
        if re.match(r"^t\d+$", name) and dashed(name) not in fields and 0 < int(name[1:]) <= len(own[0]):
            return "." + own[0][int(name[1:]) - 1]
        new = fields.get(dashed(name)) or fields.get(dashed(name[0].lower() + name[1:])) or name
        # A step that only reads a place has the place's name, as has an argument.
        if re.match(re.escape(name) + r"-(\w+-)*\d+$", new) and not re.search(r"known|told|arg\d*$", name) and not m.string[m.end() :].startswith(".given"):
            return "." + name
        return "." + new

    out = []
    for line in text.split("\n"):
        if re.match(r"^(pub )?use ", line) or line.lstrip().startswith("--"):
            out.append(line)
            continue
        for old, new in sorted(patterns.items(), key=lambda it: -len(it[0])):
            line = re.sub(r"(?<=[\w'₀-₉)])\.(" + W + ")" + re.escape(old[old.index(".") :]) + r"(?![\w.-])", lambda m: "." + new if dashed(m.group(1)) == old[: old.index(".")] else m.group(0), line)
        line = re.sub(r"(?<=[\w'₀-₉)])\.(" + W + ")", lambda m: m.group(0) if m.string[: m.start()].endswith("tie") else by_field(m), line)
        line = re.sub(r"(\.(?:if-[^\s.()]*|loop-[^\s.()]*-test))\.left(?![\w-])", r"\1.false", line)
        # What a callee left in the first thing that it was lent.
        line = re.sub(r"\.([^\s.()]+)\.(?:new|last)\.(\d)(?![\w-])", lambda m: f".{m.group(1)}.new.{callees[m.group(1)][int(m.group(2))]}" if int(m.group(2)) < len(callees.get(m.group(1), [])) else m.group(0), line)
        out.append(line)
    return "\n".join(out)


def chains(text, steps):
    """Counts the `.before` anew: a pattern's record has in one what two or three had, so that it leads further out."""
    names = [dashed(it[0]) for it in steps["places"]]
    at = {}
    for k, n in enumerate(names):
        at.setdefault(n, k)
    up = [None if it[1] is None else at[dashed(it[1])] for it in steps["places"]]

    def leads(k):
        arm = steps["arms"][k] if k < len(steps["arms"]) else None
        for _ in range(arm[1] if arm else 1):
            k = up[k] if k is not None else None
        return k

    if all(leads(k) == up[k] for k in range(len(names))):
        return text

    def far(k, n):
        for _ in range(n):
            k = up[k] if k is not None else None
        return k

    def above(k, top):
        while k is not None:
            if k == top:
                return True
            k = up[k]
        return False

    def place(word):
        m = re.match(r"^\(*tie\.(\S+?)\)*$", word.strip().split(" ")[0])
        return at.get(dashed(m.group(1))) if m else None

    def new_count(actual, target):
        n, k = 0, actual
        while k != target:
            above_k = leads(k)
            if above_k is None or not above(above_k, target):
                break
            k, n = above_k, n + 1
        return n, k

    helpers = {}
    lines = text.split("\n")
    blocks, now = [], []
    for l in lines:
        if l and not l[0].isspace() and not l.startswith((")", "--")) and now:
            blocks.append("\n".join(now))
            now = []
        now.append(l)
    blocks.append("\n".join(now))

    def split_arrows(t):
        out, depth, cur, i = [], 0, "", 0
        while i < len(t):
            if t[i] in "([{":
                depth += 1
            elif t[i] in ")]}":
                depth -= 1
            if depth == 0 and t[i] == "→":
                out.append(cur)
                cur = ""
            else:
                cur += t[i]
            i += 1
        return out + [cur]

    def rewrite(body, env):
        env = dict(env)
        W = r"[A-Za-z_][\w'-]*[₀-₉]*"
        pattern = re.compile(
            r"\blet (?P<x>" + W + r") =\s+(?P<v>" + W + r")(?P<b>(?:\.before)*) in\b"
            r"|\blet (?P<hx>" + W + r") =\s+(?P<h>" + W + r") (?P<hv>" + W + r"|\([^()]*\))(?P<hb>(?:\.before)*) in\b"
            r"|\((?P<ph>" + W + r") (?P<pv>" + W + r")(?P<pvb>(?:\.before)*)\)(?P<pb>(?:\.before)+)"
            r"|(?<![\w.'-])(?P<cv>" + W + r")(?P<cb>(?:\.before)+)"
        )

        def go(var, befores):
            target, actual = env[var]
            t = far(target, befores.count("."))
            n, k = new_count(actual, t)
            return n, (t, k)

        out, pos = "", 0
        while True:
            m = pattern.search(body, pos)
            if not m:
                return out + body[pos:]
            out += body[pos : m.start()]
            s = m.group(0)
            if m.group("x") and m.group("v") in env:
                n, env[m.group("x")] = go(m.group("v"), m.group("b"))
                s = f"let {m.group('x')} = {m.group('v')}{'.before' * n} in"
            elif m.group("hx"):
                if m.group("hv") in env and m.group("hb"):
                    n, _ = go(m.group("hv"), m.group("hb"))
                    s = f"let {m.group('hx')} = {m.group('h')} {m.group('hv')}{'.before' * n} in"
                elif m.group("hv").startswith("("):
                    s = s.replace(m.group("hv"), rewrite(m.group("hv"), env))
                r = helpers.get(m.group("h"), (None, None))[1]
                if r is not None:
                    env[m.group("hx")] = (r, r)
                elif m.group("hx") in env:
                    del env[m.group("hx")]
            elif m.group("ph"):
                inner = m.group("pv") + m.group("pvb")
                if m.group("pv") in env and m.group("pvb"):
                    inner = m.group("pv") + ".before" * go(m.group("pv"), m.group("pvb"))[0]
                r = helpers.get(m.group("ph"), (None, None))[1]
                b = m.group("pb")
                if r is not None:
                    b = ".before" * new_count(r, far(r, b.count(".")))[0]
                s = f"({m.group('ph')} {inner}){b}"
            elif m.group("cv") and m.group("cv") in env:
                n, _ = go(m.group("cv"), m.group("cb"))
                s = m.group("cv") + ".before" * n
            out += s
            pos = m.end()

    result = []
    for b in blocks:
        m = re.match(r"^(?:abbrev |unfoldable |pub )*(" + r"[^\s:(){}]+" + r") :(.*)$", b, re.S)
        if m and not re.search(r"(?m)^" + re.escape(m.group(1)) + r"\b.*=", m.group(2)):
            params = []
            parts = split_arrows(m.group(2))
            for p in parts[:-1]:
                p = p.strip()
                for q in re.findall(r"\(([^():]+) : ((?:[^()]|\([^()]*\))*)\)", p) or [(None, p)]:
                    k = place(q[1])
                    params += [k] * (len(q[0].split()) if q[0] else 1)
            last = parts[-1].strip()
            ret = place(last) if last.startswith("tie.") else None
            helpers[m.group(1)] = (params, ret)
            # a type may name what it speaks of
            env = {}
            for p in parts[:-1]:
                for q in re.findall(r"\(([^():]+) : ((?:[^()]|\([^()]*\))*)\)", p):
                    k = place(q[1])
                    if k is not None:
                        for v in q[0].split():
                            env[v] = (k, k)
            result.append(rewrite(b, env))
            continue
        m = re.match(r"^(?:pub )?(\S+)((?: [^\s=]+)*) =", b)
        if "tie.spec" in b:
            i = b.index("tie.spec") + len("tie.spec")
            out, k, nth = b[:i], i, 0
            asked = [at.get(dashed(o)) for o, _ in steps["asked_at"]]
            while k < len(b):
                if b[k].isspace():
                    out += b[k]
                    k += 1
                    continue
                if b[k] == ")":
                    out += b[k:]
                    break
                if b[k] == "(":
                    d, j = 0, k
                    while True:
                        d += (b[j] in "([{") - (b[j] in ")]}")
                        j += 1
                        if d == 0:
                            break
                    arg = b[k:j]
                else:
                    j = k
                    while j < len(b) and not b[j].isspace() and b[j] != ")":
                        j += 1
                    arg = b[k:j]
                if arg in ("invariant-loop", "decreases-loop") or re.match(r"^(invariant|decreases)-loop", arg):
                    out += arg
                else:
                    mm = re.match(r"^\(λ ([^\s.]+)", arg)
                    if mm and nth < len(asked) and asked[nth] is not None and mm.group(1) != "_":
                        arg = rewrite(arg, {mm.group(1): (asked[nth], asked[nth])})
                    out += arg
                    nth += 1
                k = j
            result.append(out)
            continue
        if m and m.group(1) in helpers:
            params = helpers[m.group(1)][0]
            env = {v: (k, k) for v, k in zip(m.group(2).split(), params) if k is not None}
            result.append(rewrite(b, env))
            continue
        result.append(b)
    return "\n".join(result)


def walks(folder, wanted=()):
    """Each walk whose crate or path is wanted, or each, with its function's name and steps: what `rt names` listed in the folder."""
    for crate in sorted(os.listdir(os.path.join(folder, "crates"))):
        with open(os.path.join(folder, "crates", crate, "names.json"), encoding="utf-8") as f:
            all_steps = json.load(f)
        for key, steps in all_steps.items():
            m = re.match(r"^Rattle-\w+-proofs\.(.*)\.Lts(-\S+)?$", key)
            path = os.path.join("crates", crate, "proofs", *m.group(1).split("."), "Proof.antt") if m else ""
            if os.path.exists(path) and (not wanted or crate in wanted or path in wanted):
                yield path, m.group(1), bool(m.group(2)), steps


def rewrite_file(path, change):
    with open(path, encoding="utf-8") as f:
        text = f.read()
    new = change(text)
    if new != text:
        with open(path, "w", encoding="utf-8") as f:
            f.write(new)


def main(argv):
    of = signatures("crates")
    for path, name, _, steps in walks(argv[0], argv[1:]):
        own = of.get(name.split(".")[-1], ([], []))
        rewrite_file(path, lambda text: turned(chains(text, steps), steps, own, of))


if __name__ == "__main__":
    main(sys.argv[1:])
