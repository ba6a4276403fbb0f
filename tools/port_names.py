#!/usr/bin/env python3
"""Brings the names of the repository's own definitions and lemmas to snake case, once, after the toolchain's port script.

usage: port_names.py [--say]

Run it at the top of the repository. It reads every .antt file and renames what these files define: `hexOf` becomes
`hex_of`, `line-none` becomes `line_none`. Types, modules, functions of src/ and names of the toolchain keep theirs.
Clauses in src/, must-fail edits and the quoted names of the pages follow. --say only lists what would be renamed.
"""
import glob
import re
import sys

WORD = re.compile(r"[^\W\d][\w'·]*(?:-[\w'·]+)*")
DEFINES = re.compile(
    r"^\s*(?:module _ .*)?(?:(?:pub|abbrev|unfoldable|opaque|instance|infixl|infixr) )*"
    r"([^\W\d][\w']*(?:-[\w']+)*)\s*(?:\{[ℓ\w ,:]*\}\s*|\([^)]*\)\s*)*:(?!=)"
)
LET = re.compile(r"(?:let|in) ([a-z][\w']*(?:-[\w']+)*) (?:[a-z:=])")


def files(*patterns):
    return sorted(f for p in patterns for f in glob.glob(p, recursive=True) if "/out/" not in f)


def read(path):
    with open(path, encoding="utf-8", newline="") as f:
        return f.read()


def snake(name):
    name = re.sub(r"(?<=[a-z0-9])([A-Z])", lambda m: "_" + m[1].lower(), name)
    return name.replace("-", "_")


def imports(text):
    """What the `use` lines of a file bring: the names of this repository's crates, and all others."""
    own, other = set(), set()
    for m in re.finditer(r"\buse ([^\s{;]+?)\.?\{([^}]*)\}", text):
        names = {n.split(" as ")[-1].strip() for n in m[2].split(",")}
        mine = re.match(r"Rattle\.(\w+)\.", m[1])
        (own if mine and mine[1] in CRATES else other).update(names)
    return own, other


CRATES = {f.split("/")[1] for f in files("crates/*/src")}


def main():
    sources = files("crates/*/specs/**/*.antt", "crates/*/proofs/**/*.antt")
    texts = {f: read(f) for f in sources}
    defined = set()
    for f, text in texts.items():
        walked = f.endswith("/Proof.antt")
        for line in text.split("\n"):
            if line.lstrip().startswith("--"):
                continue
            m = DEFINES.match(line)
            if m:
                defined.add(m[1])
            if not walked:
                defined.update(m[1] for m in LET.finditer(line))
                for group in re.findall(r"[({]([^(){}:]*) :", line):
                    defined.update(WORD.findall(group))
    new = {n: snake(n) for n in defined if n[0].islower() and snake(n) != n}
    together = {}
    for n, s in new.items():
        together.setdefault(s, set()).add(n)
    for n in defined:
        if n in together:
            together[n].add(n)
    clash = {s: ns for s, ns in together.items() if len(ns) > 1}
    for s, ns in sorted(clash.items()):
        print("together:", s, sorted(ns))
    if "--say" in sys.argv:
        print(len(new), "names")
        return
    # A definition keeps the plain name; a lemma of that name is told apart by an ending.
    lemmas = {}
    for s, ns in clash.items():
        humps = [n for n in ns if "-" not in n and n != s]
        for n in ns:
            if "-" in n:
                new[n] = s + "_lem"
            elif n == s and humps:
                lemmas[n] = s + "_lem"

    def turn(text, kept):
        def one(m):
            if m[0] in kept:
                return m[0]
            if m[0] in lemmas and text[m.start() - 1 : m.start()] != "." and text[m.end() : m.end() + 1] != ".":
                return lemmas[m[0]]
            return new.get(m[0], m[0])

        return WORD.sub(one, text)

    for f, text in texts.items():
        own, other = imports(text)
        out = []
        for line in text.split("\n"):
            if re.match(r"\s*(pub )?use (?!Rattle\.)", line):
                out.append(line)
            else:
                out.append(turn(line, other - own))
        write(f, "\n".join(out), text)
    for f in files("crates/*/src/**/*.rt"):
        text = read(f)
        out, depth, clause = [], 0, False
        for line in text.split("\n"):
            starts = re.match(r"\s*(ghost|requires|ensures|decreases|invariant)\b", line)
            if starts or depth > 0 or line.lstrip().startswith("//"):
                new_line = turn(line, set())
                if not line.lstrip().startswith("//"):
                    depth = max(0, depth + line.count("{") - line.count("}"))
                out.append(new_line)
            else:
                out.append(line)
        write(f, "\n".join(out), text)
    for f in files("crates/*/must-fail/*.edit"):
        text = read(f)
        if "specs/" in text:
            write(f, turn(text, set()), text)
    for f in files("README.md", "docs/*.md", "host/README.md", "crates/*/README.md"):
        text = read(f)
        write(f, re.sub(r"`[^`\n]*`", lambda m: turn(m[0], set()), text), text)


def write(path, new, old):
    if new != old:
        with open(path, "w", encoding="utf-8", newline="") as f:
            f.write(new)


main()
