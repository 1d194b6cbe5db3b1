#!/usr/bin/env python3
"""Spells the repository's own definitions and lemmas as today's Rattle does: words in snake case, types in camel case.

usage: respell.py          at the top: renames by respelled.tsv beside this script, in all files of crates/, and then the names that imports give
       respell.py list     at the top: the names that are declared here and spelled otherwise, each with its new spelling

A name that a file imports from a library, and a label that Rattle makes (behind goal. or c. in an answer), stays.
"""

import os
import re
import sys

HERE = os.path.dirname(os.path.realpath(__file__))
NAME = r'[^\s(){}.;,@"«»`]+'
TOKEN = re.compile(rf"(?<![^\s(){{}}.;,@\"«»`]){NAME}")
USE = re.compile(r"(?m)^[ ]*(?:pub |ghost )?use ([^\s;{]+)\.\{([^}]*)\}")
PLAIN = re.compile(r"(?:(?:abbrev|unfoldable|pub|infix\w*) )*")
ROOTS = {"c", "l", "w", "goal", "a"}


def texts():
    for folder, dirs, files in os.walk("crates"):
        dirs[:] = sorted(d for d in dirs if d != "out")
        for f in sorted(files):
            if f.endswith((".antt", ".rt", ".edit")):
                yield os.path.join(folder, f)


def crates():
    return {c for c in os.listdir("crates")}


def declared(path, text):
    for line in text.split("\n"):
        s = line.strip()
        if s.startswith("--"):
            continue
        m = re.match(rf"{PLAIN.pattern}(data|record) (?:pub )?({NAME})(.*)", s)
        if m:
            if re.search(r": Type", m[3]) or m[3].strip().startswith(("(", "{", ":", "")):
                yield m[2], True
            continue
        m = re.match(rf"{PLAIN.pattern}({NAME})((?: \{{[^{{}}]*\}})*) : (.*)$", s)
        if m and not m[3].startswith("goal."):
            yield m[1], bool(re.search(r"Type 0$", m[3]))


def spelled(name, kind):
    """The new spelling of a name that is declared as a type, or else not."""
    if kind and name[:1].isupper():
        return "".join(w[:1].upper() + w[1:] for w in re.split(r"[-_]", name))
    if name[:1].islower():
        name = re.sub(r"(?<=[a-z0-9])[A-Z]", lambda m: "_" + m[0].lower(), name)
    return name.replace("-", "_")


def imported(text, own):
    """The names that a text imports from a library, under the name that it gives them."""
    names = set()
    for m in USE.finditer(text):
        steps = m[1].split(".")
        ours = steps[0] == "Rattle" and len(steps) > 1 and steps[1] in own
        if ours and len(steps) > 2 and steps[2] == "proofs" and steps[-1].split(" ")[0] in ("Goals", "Given"):
            ours = False
        if not ours:
            for it in m[2].split(","):
                it = it.strip()
                if it:
                    names.add(it.split(" as ")[-1].strip())
                    names.add(it.split(" as ")[0].strip())
    return names


def lists():
    own = crates()
    kinds = {}
    for p in texts():
        if p.endswith(".antt"):
            with open(p, encoding="utf-8") as f:
                for name, kind in declared(p, f.read()):
                    kinds.setdefault(name, set()).add(kind)
    new = {}
    for name, kind in sorted(kinds.items()):
        to = spelled(name, kind == {True})
        if to != name and re.search(r"\w", name) and not re.match(r"[◌¬]", name):
            new[name] = to
    where = {}
    for p in texts():
        with open(p, encoding="utf-8") as f:
            t = f.read()
        toks = set(TOKEN.findall(t))
        for n in toks & set(new):
            if new[n] in toks or new[n] in kinds:
                where.setdefault(n, []).append(p)
        for n in toks & set(new):
            if n in imported(t, own):
                print(f"library: {n} in {p}", file=sys.stderr)
    for n in sorted(where):
        print(f"meets: {n} -> {new[n]}: {where[n][:4]} {'(declared)' if new[n] in kinds else ''}", file=sys.stderr)
    twice = {}
    for n, to in new.items():
        twice.setdefault(to, []).append(n)
    for to, ns in twice.items():
        if len(ns) > 1:
            print(f"together: {ns} -> {to}", file=sys.stderr)
    for n, to in new.items():
        print(f"{n}\t{to}")


def given(text):
    """The names that a text's imports give to what they import, and their new spelling."""
    tokens = set(TOKEN.findall(text))
    for line in re.findall(r"(?m)^\s*(?:pub |ghost )?use [^\n]*", text):
        for name in re.findall(r" as ([a-z][^\s,;}]*)", line):
            to = "value_of" if name == "value_of_lem" else spelled(name, False)
            if to != name:
                yield name, to if to not in tokens else "the_" + re.sub(r"_of$", "", to)


def apply():
    own = crates()
    with open(os.path.join(HERE, "respelled.tsv"), encoding="utf-8") as f:
        new = dict(line.rstrip("\n").split("\t") for line in f if "\t" in line)
    changed = 0
    for p in texts():
        with open(p, encoding="utf-8") as f:
            t = f.read()
        stay = imported(t, own)
        answers = re.search(r"/(Answers|Invariants)\.antt$", p)
        spans = [(m.start(2), m.end(2)) for m in USE.finditer(t) if not (m[1].split(".")[0] == "Rattle" and m[1].split(".")[1:2] and m[1].split(".")[1] in own) or m[1].split(".")[-1] in ("Goals", "Given")]
        labels = set(re.findall(rf"(?m)^(?:abbrev )?(?:pub )?({NAME}) : goal\.", t)) if answers else set()

        def turn(m):
            n = m[0]
            if n not in new:
                return n
            at = m.start()
            if any(a <= at < b for a, b in spans):
                return n
            dotted = at > 0 and t[at - 1] == "."
            if not dotted and (n in stay or n in labels):
                return n
            if dotted and answers:
                root = re.search(rf"(?<![^\s(){{}};,@\"«»])({NAME})\.$", t[max(0, at - 40) : at])
                if root and root[1] in ROOTS:
                    return n
            return new[n]

        u = TOKEN.sub(turn, t)
        for name, to in set(given(u)):
            u = re.sub(rf"(?<![\w.-]){re.escape(name)}(?![\w-])", to, u)
        if u != t:
            changed += 1
            with open(p, "w", encoding="utf-8") as f:
                f.write(u)
    print(f"respell: {len(new)} names, {changed} files")


if __name__ == "__main__":
    {"list": lists, "apply": apply}[sys.argv[1] if len(sys.argv) > 1 else "apply"]()
