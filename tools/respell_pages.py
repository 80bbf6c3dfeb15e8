#!/usr/bin/env python3
"""Brings the names of definitions, lemmas and laws that the pages cite to the spelling that tools/respell.py gave them in crates/.

usage: tools/respell_pages.py [--dry]   at the top; --dry prints what would be turned, and changes nothing

A name is turned if it stands between backquotes, alone or as a word of a path, has a capital inside or a dash, and crates/ declares the name that
tools/respell.py makes of it. docs/PORT.md, which sets the old spelling beside the new, is left.
"""
import glob
import re
import sys

from respell import BY_HAND, snake

NAME = re.compile(r"(?<![\w./-])[a-z][A-Za-z0-9_'-]*(?![\w./-])")
WORD = re.compile(r"[a-z][A-Za-z0-9_']*")


def declared():
    found = set()
    for file in glob.glob("crates/*/specs/**/*.antt", recursive=True) + glob.glob("crates/*/proofs/**/*.antt", recursive=True):
        with open(file, encoding="utf-8") as it:
            for line in it:
                head = re.match(r"\s*((?:[a-z][\w'₀-₉-]* )+):(?:\s|$)", line)
                found.update(WORD.findall(head[1]) if head else [])
    return found


def main(dry):
    names, turned = declared(), {}

    def turn(found):
        name = found[0]
        new = BY_HAND.get(name, snake(name))
        if new == name or not re.search(r"[a-z0-9][A-Z]|-", name) or new not in names:
            return name
        turned[name] = new
        return new

    for page in ["README.md", "tests/differential/README.md", *sorted(set(glob.glob("docs/*.md")) - {"docs/PORT.md"})]:
        with open(page, encoding="utf-8") as it:
            was = it.read()
        now = re.sub(r"`[^`\n]+`", lambda quoted: NAME.sub(turn, quoted[0]), was)
        if now != was and not dry:
            with open(page, "w", encoding="utf-8") as it:
                it.write(now)
    for old, new in sorted(turned.items()):
        print(old, new)


if __name__ == "__main__":
    main(sys.argv[1:] == ["--dry"])
