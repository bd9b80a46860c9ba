#!/usr/bin/env python3
"""Respells this repository's own definitions and lemmas: words in snake case, types in camel case, primes as apostrophes.

usage: python3 tools/respell.py [--dry]      at the top of the repository, once, right after port.py

A name is this repository's own where a file of specs/ or proofs/ declares it. The names of goals (those that are declared as
`NAME : goal...`) and of what the checker makes keep their spelling, and so do comments, strings, and the code of src/: there
only ghost imports, clauses, ghost fields and ghost members are touched.
"""

import os
import re
import sys

WORD = r"[^\s(){}\[\],;.:«»\"|]+"
DECLARED = re.compile(r"^\s*((?:(?:pub|abbrev|unfoldable|record|data|ruleset)\s+)*)(" + WORD + r")\s*(?=:|\(|\{|$)")
TOKEN = re.compile(r"--[^\n]*|//[^\n]*|\"(?:[^\"\\\n]|\\.)*\"|" + WORD + r"|.", re.S)
ODD = {"A-leader": "IsLeader", "A-way": "HasWay", "So-far": "IsSoFar"}


def files():
    for top, dirs, names in os.walk("crates"):
        dirs[:] = sorted(d for d in dirs if d not in ("out", "data"))
        for name in sorted(names):
            if name.endswith((".antt", ".rt")):
                yield os.path.join(top, name)


def spelled(name):
    name = name.replace("′", "'")
    if name in ODD:
        return ODD[name]
    if name[0].isupper():
        head, *rest = name.split("-")
        return head + "".join(w[:1].upper() + w[1:] for w in rest)
    return name.replace("-", "_")


def declared(path):
    """The names that a proof or spec file declares, and whether each is the name of a goal."""
    for line in open(path, encoding="utf-8"):
        if line.lstrip().startswith(("--", "use ", "pub use ", "mod ", "pub mod ")):
            continue
        m = DECLARED.match(line)
        if m and ":" in line[m.end() - 1:] + " " or m and m[1].strip():
            yield m[2], bool(re.match(r"\s*:\s*goal\.", line[m.end():]))


def ghostly(text):
    """The parts of a source file that contracts and ghost items are made of, as (begin, end)."""
    at = 0
    start = re.compile(r"\bghost use [^;]*;|\b(?:requires|ensures)\*?(?: \w+)? \{|\bghost (?:invariant |fn )?[\w]+\s*[:=] \{|\bghost [\w]+ = \{")
    while m := start.search(text, at):
        begin = m.start()
        if m[0].endswith(";"):
            at = m.end()
        else:
            depth, at = 1, m.end()
            while depth and at < len(text):
                depth += {"{": 1, "}": -1}.get(text[at], 0)
                at += 1
        yield begin, at


def foreign(text):
    """The names that a file imports from elsewhere than this repository's crates: they are not its own."""
    found = set()
    for m in re.finditer(r"\buse ([^\s{};]+)\{([^}]*)\}", text):
        parts = m[1].split(".")
        if not (parts[0] == "Rattle" and len(parts) > 1 and os.path.isdir(os.path.join("crates", parts[1]))):
            found |= {w.split(" as ")[-1].strip() for w in m[2].split(",")}
    return found


def respelled(text, names):
    out, last = [], ""
    for m in TOKEN.finditer(text):
        t = m[0]
        if t in names and not (last == "." and t in KEPT):
            t = names[t]
        out.append(t)
        last = m[0]
    return "".join(out)


# steps of a function that are named after a variable: behind a dot these are not the definitions of the same name
KEPT = {"answer-line", "closed-line", "fault-line", "first-line", "rehearsed-line", "sum-line", "tally-line", "withheld-line"}


def main():
    own, goals = {}, set()
    for path in files():
        if path.endswith(".antt"):
            for name, goal in declared(path):
                if goal:
                    goals.add(name)
                elif "-" in name.strip("-") or "′" in name:
                    own.setdefault(name, path)
    names = {n: spelled(n) for n in own if n not in goals and not n.startswith("--")}
    back = {}
    for old, new in names.items():
        if new in back:
            sys.exit(f"respell: {old} and {back[new]} fall together as {new}")
        back[new] = old
    tokens = {}
    for path in files():
        for m in TOKEN.finditer(open(path, encoding="utf-8").read()):
            tokens.setdefault(m[0], path)
    for old, new in sorted(names.items()):
        if new in tokens:
            print(f"look: {old} becomes {new}, which stands in {tokens[new]} already (declared in {own[old]})")
    for name in sorted(goals & set(own)):
        print(f"look: {name} is the name of a goal too, declared in {own[name]}: kept")
    if "--dry" in sys.argv:
        for old, new in sorted(names.items()):
            print(f"{old} -> {new}")
        return
    for path in files():
        text = open(path, encoding="utf-8").read()
        others = foreign(text)
        mine = {old: new for old, new in names.items() if old not in others}
        if path.endswith(".antt"):
            new = respelled(text, mine)
        else:
            new, at = "", 0
            for begin, end in ghostly(text):
                new += text[at:begin] + respelled(text[begin:end], mine)
                at = end
            new += text[at:]
        if new != text:
            open(path, "w", encoding="utf-8").write(new)
    print(f"respell: {len(names)} names")


if __name__ == "__main__":
    main()
