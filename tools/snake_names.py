#!/usr/bin/env python3
"""Spells the repository's own definitions, lemmas, fields and constructors with underscores: `is-leap` becomes `is_leap`.

usage: tools/snake_names.py      at the top of the repository; files are rewritten in place, and names that fall together stop it first

A name is own if a file of a crate's specs/ or proofs/ declares it and its type is no goal that Rattle states. It turns as a whole word in .antt and .rt
files (code, clauses, comments), in edits (must-fail, tried), and in pages of words (README.md, docs/) where it stands between backticks.
A step of a generated proof that is named after a function, parameter or variable of the code, as in `c.year-of.ensures`, turns with it.
"""
import pathlib
import re
import sys

WORD = r"[^\s(){}.;,@\"«»:`]+"
DECLARED = re.compile(rf"^ *(?:(?:pub|abbrev|unfoldable|record|data|ruleset) +)*({WORD})(?: [^:=\n]*)? :(?= |\n)(?!\s*(?:tie|goal)\.)", re.M)
RATTLES = re.compile(rf"\b(?:tie|goal)\.({WORD})")
IMPORTED = re.compile(r"^(?:pub )?use ([\w.]+)\.\{([^}]*)\}", re.M)
TOKEN = re.compile(r"[^\s(){}.;,@\"«»:`\[\]|/]+")
SPAN = re.compile(r"`[^`\n]+`")


def files(top, *patterns):
    return [p for pattern in patterns for p in sorted(top.glob(pattern)) if "out" not in p.parts and "target" not in p.parts]


def own_names(top):
    crates = {p.name for p in (top / "crates").iterdir()}
    own, others, rattles = set(), set(), set()
    for path in files(top, "crates/*/specs/**/*.antt", "crates/*/proofs/**/*.antt"):
        text = path.read_text()
        own |= set(DECLARED.findall(text))
        rattles |= set(RATTLES.findall(text))
        for module, names in IMPORTED.findall(text):
            if not (module.startswith("Rattle.") and module.split(".")[1] in crates):
                others |= {n.strip().split(" as ")[0] for n in names.split(",")}
    return {n for n in own - rattles if "-" in n and re.match(r"\w", n)}, own, others


def code_names(top):
    found = set()
    for path in files(top, "crates/*/src/**/*.rt"):
        found |= set(re.findall(r"\b[a-z]\w*_\w+\b", path.read_text()))
    return found


def main():
    top = pathlib.Path(".")
    turned, own, others = own_names(top)
    new = {n: n.replace("-", "_") for n in turned}
    bad = [n for n in turned if n in others or new[n] in own or new[n] in others]
    bad += [n for n in turned if sum(1 for m in turned if new[m] == new[n]) > 1]
    if bad:
        sys.exit("names that fall together: " + ", ".join(sorted(set(bad))))
    steps = {n.replace("_", "-"): n for n in code_names(top)}

    # What port.py has turned already stands with dashes in edits and pages.
    known = own | set(new.values())

    def turn(text, outside=False):
        def one(m):
            word = m.group()
            if outside and "-" in word and word.replace("-", "_") in known: return word.replace("-", "_")
            behind_dot = m.start() > 0 and text[m.start() - 1] == "."
            return new.get(word) or (behind_dot and steps.get(word)) or word
        return TOKEN.sub(one, text)

    changed = 0
    for path in files(top, "crates/**/*.antt", "crates/**/*.rt", "crates/**/*.edit"):
        old = path.read_text()
        text = turn(old, path.suffix == ".edit")
        if text != old: path.write_text(text); changed += 1
    for path in files(top, "README.md", "docs/**/*.md"):
        old = path.read_text()
        text = SPAN.sub(lambda m: turn(m.group(), True), old)
        if text != old: path.write_text(text); changed += 1
    print(f"{len(turned)} names; {changed} files changed")


main()
