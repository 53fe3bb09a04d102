#!/usr/bin/env python3
"""Brings the repository's own definitions and lemmas to the spelling of the port (docs/PORT.md): words in snake case.

usage: tools/port-names.py [ROOT]

A name of specs/ or proofs/ that begins with a small letter and has a capital in a word, as `unlessRefused` or
`overwriteFrom-store`, gets underscores: `unless_refused`, `overwrite_from-store`. Dashes stay. Each such name is the
repository's own. It turns whole names alone: in .antt files everywhere, in .rt files within clauses and `ghost use`
items, in must-fail edits everywhere, in comments between backquotes. Functions, fields, constants and exported names of
src/ are in snake case or capitals already, and stay. It stops, and writes nothing, where a new name stands in some
.antt file already and is no word of src/ (a definition may have the name of the function that it speaks of). A second
run changes nothing.
"""

import glob
import os
import re
import sys

NAME = r'[^\s(){}.;,@"«»\[\]]+'
# a name whose place another one has: at df411a3 a lemma `last_set` stands beside it
OTHER = {"lastSet": "with_last_set"}
CLAUSE = re.compile(r"\b(?:requires|ensures)\b\s*\*?\s*(?:\w+\s*)?\{|\bghost\s+use\b|\bghost\s+\w+\s*:\s*\{")


def read(path):
    with open(path, encoding="utf-8") as f:
        return f.read()


def snake(name):
    return OTHER.get(name) or re.sub(r"(?<=[a-z0-9])([A-Z])", lambda m: "_" + m[1].lower(), name)


def ghost_parts(text):
    """The spans of a .rt file that are antt: clauses, to their closing brace, and `ghost use` items."""
    at = 0
    for m in CLAUSE.finditer(text):
        if m.start() < at:
            continue
        if m[0].endswith("use"):
            end = text.index(";", m.end())
        else:
            depth, end = 1, m.end()
            while depth:
                depth += {"{": 1, "}": -1}.get(text[end], 0)
                end += 1
        yield m.end(), end
        at = end


def main(argv):
    root = argv[0] if argv else "."
    antt = sorted(glob.glob(f"{root}/crates/*/specs/**/*.antt", recursive=True))
    antt += sorted(glob.glob(f"{root}/crates/*/proofs/**/*.antt", recursive=True))
    rust = sorted(glob.glob(f"{root}/crates/*/src/**/*.rt", recursive=True))
    edits = sorted(glob.glob(f"{root}/crates/*/must-fail/*.edit"))
    texts = {path: read(path) for path in antt + rust + edits}
    words = {w for path in antt for w in re.findall(NAME, texts[path])}
    of_src = {w for path in rust for w in re.findall(r"\w+", texts[path])} | set(os.listdir(f"{root}/crates"))
    table = {w: snake(w) for w in words if w[0].islower() and re.search(r"[a-z0-9][A-Z]", w)}
    met = {new for new in table.values() if new in words and new not in of_src}
    if met or len(set(table.values())) != len(table):
        print("names that fall together:", *sorted(met))
        return 1
    if not table:
        print("0 names")
        return 0
    turn = lambda part: re.sub(NAME, lambda m: table.get(m[0], m[0]), part)
    for path, text in texts.items():
        if path.endswith(".rt"):
            new, at = "", 0
            for begin, end in ghost_parts(text):
                new += text[at:begin] + turn(text[begin:end])
                at = end
            new += text[at:]
        else:
            new = turn(text)
        # a name in a comment stands in backquotes
        new = re.sub(r"`([^`\n]+)`", lambda m: "`" + turn(m[1]) + "`", new)
        if new != text:
            with open(path, "w", encoding="utf-8") as f:
                f.write(new)
    print(f"{len(table)} names")
    return 0


if __name__ == "__main__":
    sys.exit(main(sys.argv[1:]))
