#!/usr/bin/env python3
"""Spells the repository's own definitions and lemmas as today's Rattle does: snake case, and ' for a prime.

usage: python3 tools/respell.py [--list]      at the top, once, after port.py
Names that are defined in specs/ and in the lemma files of proofs/ are turned, wherever they stand in .rt and .antt
files and, between backquotes, in README.md and docs/. Names that the libraries define too are left. A definition may
get the spelling of a function of src/, since the two are told apart; such pairs are printed. Two names of antt that
would fall together stop it before anything is written.
"""

import glob
import re
import sys

NAME = r"[^\s(){}.,;:λ\[\]|`\"]+"
DEFINED = re.compile(r"\s*(?:(?:abbrev|unfoldable|pub|record|data|syntax|mutual) )*(" + NAME + r")\s*(?:\{[^:]*:[^}]*\}|\([^:]*:[^)]*\)|\s)*:(?![:=])")
CASE = re.compile(r"\s*\|\s*(" + NAME + r")\s*:")
TOKEN = re.compile(NAME)


def new_spelling(name):
    return name.replace("-", "_").replace("′", "'")


def read(path):
    with open(path, encoding="utf-8") as f:
        return f.read()


def own_names(files):
    names = set()
    for path in files:
        for line in read(path).split("\n"):
            if line.lstrip().startswith("--"):
                continue
            found = DEFINED.match(line) or CASE.match(line)
            if found:
                names.add(found.group(1))
    return names


def library_names(files, crates):
    names = set()
    for path in files:
        for line in re.findall(r"^(?:pub )?(?:ghost )?use ([^;\n]*)", read(path), re.M):
            of_crate = re.match(r"Rattle\.(\w+)\.", line)
            if of_crate and of_crate.group(1) in crates:
                continue
            listed = re.search(r"\{(.*)\}", line)
            if listed:
                names |= {w.split(" as ")[0].strip() for w in listed.group(1).split(",")}
    return names


def main():
    crates = {c.split("/")[1] for c in glob.glob("crates/*/src")}
    definitions = glob.glob("crates/*/specs/**/*.antt", recursive=True) + glob.glob("crates/*/proofs/*.antt")
    texts = sorted(glob.glob("crates/*/specs/**/*.antt", recursive=True) + glob.glob("crates/*/proofs/**/*.antt", recursive=True) + glob.glob("crates/*/src/**/*.rt", recursive=True))
    own = own_names(definitions)
    theirs = library_names(texts, crates)
    # of an operator, as ◌has-type◌, its parts are turned where it is used
    operators = {n for n in own if "◌" in n and re.search(r"\w-\w", n)}
    own |= {part for n in operators for part in n.split("◌") if part}
    turned = {n: new_spelling(n) for n in own if new_spelling(n) != n and ("◌" not in n or n in operators)}
    kept = sorted(n for n in turned if n in theirs)
    for n in kept:
        print(f"a library's name too, left as it is: {n}")
        del turned[n]
    together = []
    for path in texts:
        lines = [re.sub(r"Rattle\.[\w.+']*|" + ("--.*" if path.endswith(".antt") else "//.*"), "", l) for l in read(path).split("\n")]
        tokens = {t for l in lines for t in TOKEN.findall(l)}
        for n, t in turned.items():
            if t in tokens and n in tokens:
                if path.endswith(".rt"):
                    print("a function has this name too:", n, t, path)
                else:
                    together.append((n, t, path))
    together += sorted((n, t) for n, t in turned.items() if t in own)
    twice = {}
    for n, t in turned.items():
        twice.setdefault(t, []).append(n)
    together += [tuple(sorted(v)) for v in twice.values() if len(v) > 1]
    for pair in together:
        print("would fall together:", *pair)
    if "--list" in sys.argv:
        print(len(turned), "names")
        return 0
    if together:
        return 1
    for path in texts:
        old = read(path)
        new = TOKEN.sub(lambda m: turned.get(m.group(), m.group()), old)
        if new != old:
            with open(path, "w", encoding="utf-8") as f:
                f.write(new)
    for path in ["README.md"] + glob.glob("docs/**/*.md", recursive=True):
        old = read(path)
        new = re.sub(r"`[^`\n]+`", lambda q: TOKEN.sub(lambda m: turned.get(m.group(), m.group()), q.group()), old)
        if new != old:
            with open(path, "w", encoding="utf-8") as f:
                f.write(new)
    print(len(turned), "names turned")
    return 0


if __name__ == "__main__":
    raise SystemExit(main())
