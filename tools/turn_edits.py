#!/usr/bin/env python3
"""Brings the must-fail edits over to the spelling that the sources have since the port (docs/PORT.md).

usage: python3 tools/turn_edits.py [--dry]      at the top; needs the commit before the port, for edits not yet turned

An edit, crates/*/must-fail/*.edit, has comment lines, `file: PATH`, and pairs `old: TEXT`, `new: TEXT`; each old text
stands once in its file, after the pairs before it, and the new one replaces it. For an edit that does not fit any more
this takes each line of the sources before the port in which an old text stands, finds the line of today's source that
it became, and turns the texts by rule. A turned pair is written only where
- the same rules, on the whole line, give just today's line, so that they may be trusted with the new text too,
- the old text stands once in today's file, after the pairs before it, and on that line,
- no spelling of before the port is left, and no name of the new text has gone from the file with the port.
Every other edit is listed, with the reason, and left as it is: to be turned by hand. An edit that fits, and has no old
spelling left, is left alone, so this may be run again. With --dry nothing is written. The status is 1 if any is left.
"""

import difflib
import glob
import os
import re
import subprocess
import sys

BEFORE = "3b79c78"
NAME = r"[^\s(){}.,;:λ\[\]|`\"]+"
TOKEN = re.compile(NAME)
OLD_SPELLING = re.compile(r"[⌜⌝′·]|\b(?:mathlib|Prim)\b|(?<![\w◌])_[^\w\s(){}.,;:]+_(?!\w)|[^\s(,{] \.[a-z]|\bnow \(|\.(?:entry|exit)\b")
# Names of the libraries that the port replaced by others.
LIBRARY = {"getD": "get_or", "getElem?": "get_elem?", "Option·map": "map"}


def read(path):
    with open(path, encoding="utf-8") as f:
        return f.read()


def before(path):
    shown = subprocess.run(["git", "show", f"{BEFORE}:{path}"], capture_output=True)
    if shown.returncode != 0:
        raise SystemExit(f"no {path} in {BEFORE}: {shown.stderr.decode()}")
    return shown.stdout.decode("utf-8")


def names_in(text):
    return set(TOKEN.findall(text))


def code(path, text):
    """The text without its comments."""
    mark = "--" if path.endswith(".antt") else "//"
    return "\n".join(re.sub(r"(?:^|(?<=\s))" + mark + r"(?:\s.*|$)", "", line) for line in text.split("\n"))


# ---- an edit

def parse(text):
    """The lines of an edit as [kind, text]: kind is "file", "old", "new", or "" for any other line, kept as it is."""
    lines = []
    for line in text.split("\n"):
        found = re.match(r"(file|old|new): ?(.*)", line)
        lines.append([found.group(1), found.group(2)] if found else ["", line])
    return lines


def written(lines):
    return "\n".join(f"{kind}: {text}" if kind else text for kind, text in lines)


def pairs_of(lines):
    """[the file, the index of the old line, the index of the new line] of each pair."""
    path, pairs = None, []
    for i, (kind, text) in enumerate(lines):
        if kind == "file":
            path = text.strip()
        if kind == "old":
            pairs.append((path, i, i + 1))
            if lines[i + 1][0] != "new":
                raise SystemExit(f"no new: behind old: {text}")
    return pairs


def fits(crate, lines):
    """Whether each old text stands once in today's files, after the pairs before it, and the text changes."""
    texts = {}
    for path, i, j in pairs_of(lines):
        where = os.path.join(crate, path)
        text = texts.get(where) or read(where)
        if text.count(lines[i][1]) != 1:
            return False
        texts[where] = text.replace(lines[i][1], lines[j][1])
    return all(text != read(where) for where, text in texts.items())


# ---- the spelling

class Spelling:
    """The rules, for one file: they depend on the names that today's sources have."""

    def __init__(self, path, known):
        self.old, self.new = before(path), read(path)
        self.lent = set(re.findall(r"(\w+): &mut ", self.new))
        self.here = names_in(code(path, self.new))
        self.known = known
        self.gone = names_in(self.turn(code(path, self.old))) - self.here

    def name(self, token):
        if token in LIBRARY:
            return LIBRARY[token]
        if token in self.here:
            return token
        if re.fullmatch(r"_[^\w\s]+_", token):
            return "◌" + token[1:-1] + "◌"
        turned = token.replace("-", "_").replace("′", "'")
        return turned if turned in self.known else token

    def turn(self, text):
        text = re.sub(r"Rattle·(\w+)·specs\.specs\b", r"Rattle.\1.specs", text)
        text = re.sub(r"Rattle·(\w+)\.", r"Rattle.\1.", text)
        # Projections, those of a name in brackets first.
        text = re.sub(r"now \((\w+) \.entry\)", lambda m: m.group(1) + (".old" if m.group(1) in self.lent else ".now"), text)
        text = re.sub(r"now \((\w+) \.exit\)", r"\1.new", text)
        text = re.sub(r"\((" + NAME + r")((?: \." + NAME + r")+)\)", lambda m: m.group(1) + m.group(2).replace(" ", ""), text)
        text = re.sub(r"(?<=[^\s({,;]) (\.[a-z])", r"\1", text)
        text = re.sub(r"λ (?:r|_)\. ⌜ ", "", text).replace("⌜ ", "").replace(" ⌝", "")
        text = re.sub(r"\((now \w+|\w+\.(?:old|now|new))\)", r"\1", text)
        return TOKEN.sub(lambda m: self.name(m.group()), text)


def became(spelling):
    """The lines of today that the lines of before became, by number."""
    old = [spelling.turn(l) for l in spelling.old.split("\n")]
    new = spelling.new.split("\n")
    at = {}
    for tag, a, b, c, d in difflib.SequenceMatcher(None, old, new, autojunk=False).get_opcodes():
        if tag == "equal" or (tag == "replace" and b - a == d - c):
            at.update(zip(range(a, b), range(c, d)))
    return at


def turned(crate, lines, spellings, known):
    """The edit by rule, or the reason why not."""
    lines = [list(l) for l in lines]
    olds, news, taken = {}, {}, {}
    for path, i, j in pairs_of(lines):
        where = os.path.join(crate, path)
        if where not in spellings:
            s = Spelling(where, known)
            spellings[where] = s, became(s)
        spelling, at = spellings[where]
        old_text = olds.get(where, spelling.old)
        new_text = news.get(where, spelling.new)
        old, new = lines[i][1], lines[j][1]
        if old_text.count(old) != 1:
            return f"before the port it stands {old_text.count(old)} times: {old}"
        n = old_text[:old_text.index(old)].count("\n")
        olds[where] = old_text.replace(old, new)
        if n not in at:
            return f"no line of today is that of: {old}"
        was, line = spelling.old.split("\n")[n], spelling.new.split("\n")[at[n]]
        if spelling.turn(was) != line:
            return f"the rules give another line: {spelling.turn(was)} | {line}"
        # A part of a line, turned alone, must be a part of the line; else the whole line is named.
        first, second = spelling.turn(old), spelling.turn(new)
        if new_text.count(first) != 1:
            first = new_text.split("\n")[at[n]]
            second = spelling.turn(olds[where].split("\n")[n])
            if new_text.count(first) != 1:
                return f"today it stands {new_text.count(first)} times: {first}"
        if new_text[:new_text.index(first)].count("\n") != at[n]:
            return f"it stands on another line: {first}"
        if first == second:
            return f"nothing changes: {first}"
        gone = names_in(second) & spelling.gone
        if gone:
            return f"names that are not in the file any more: {' '.join(sorted(gone))}"
        left = OLD_SPELLING.search(first + "\n" + second)
        if left:
            return f"old spelling: {left.group()} in {second}"
        lines[i][1], lines[j][1] = first, second
        news[where] = new_text.replace(first, second)
    return lines


def main():
    known = set()
    for path in glob.glob("crates/*/specs/**/*.antt", recursive=True) + glob.glob("crates/*/src/**/*.rt", recursive=True):
        known |= names_in(read(path))
    count = {"already": 0, "turned": 0, "left": 0}
    spellings = {}
    for edit in sorted(glob.glob("crates/*/must-fail/*.edit")):
        crate = edit.rsplit("/must-fail/", 1)[0]
        lines = parse(read(edit))
        texts = "\n".join(text for kind, text in lines if kind in ("old", "new"))
        stale = {t for t in names_in(texts) if re.search(r"[^\W\d]-[^\W\d]|′", t)} - {t for p, _, _ in pairs_of(lines) for t in names_in(read(os.path.join(crate, p)))}
        if fits(crate, lines) and not stale and not OLD_SPELLING.search(texts):
            count["already"] += 1
            continue
        done = turned(crate, lines, spellings, known)
        if isinstance(done, str):
            count["left"] += 1
            print(f"{edit}: {done}")
            continue
        count["turned"] += 1
        if "--dry" not in sys.argv:
            with open(edit, "w", encoding="utf-8") as f:
                f.write(written(done))
    print(", ".join(f"{v} {k}" for k, v in count.items()))
    return 1 if count["left"] else 0


if __name__ == "__main__":
    raise SystemExit(main())
