#!/usr/bin/env python3
"""Brings the names that this repository's own definitions, lemmas and proofs gave themselves to the spelling of the kit: words in snake case.

usage: tools/respell.py         at the top, once, after the kit's port/port.py
       tools/respell.py --dry   prints the names that would fall together, and changes nothing

A name is turned if a file of specs/ or proofs/ declares it: with a capital inside (`bitWeight`) or with a dash (`rising-is-odd`). The kit's own names,
types, modules and what the check makes up keep theirs. Functions of src/ have their spelling already. In comments and in sources only names with a
capital are turned, because a dash may be plain English there.
"""
import glob
import os
import re
import sys

TOKEN = re.compile(r"(?<![A-Za-z0-9_'-])[A-Za-z_][A-Za-z0-9_'₀₁₂₃₄₅₆₇₈₉′-]*")
DECLARED = re.compile(r"^\s*(?:abbrev |unfoldable |opaque |private )?(?:pub )?([a-z][A-Za-z0-9_'₀-₉′-]*)(?: +[a-z][A-Za-z0-9_'₀-₉′-]*)* :(?:\s|$)")
ALIAS = re.compile(r"^use .* as ([a-z][A-Za-z0-9_'-]*)$")
USE = re.compile(r"^(?:pub )?(?:ghost )?use ([^ ;{]*[^ ;{.])(?:\.\{([^}]*)\})?")
# A name that a script or the check makes, and the words of Rattle itself.
MADE = re.compile(r"^(invariant-loop|decreases-loop|Need-|After-|Else|Then|At-|Joined|In-)")
# Spelled so that it falls together with no other: a lemma that would have its definition's name ends in `_lem`, and a definition that would have
# a case's name, or a step's, says what it is of.
BY_HAND = {
    "startTx": "start_tx_of",
    "startAnswer": "start_answer_of",
    "rxOf": "rx_heard",
    "withEnd": "ended_bytes",
    "newLine": "new_line_of",
}
for lemma in (
    "clash-of good-line is-full is-hold is-idle is-more is-on is-short last-pull no-calls on-stop pulls-in with-core is-over peek-at".split()
):
    BY_HAND[lemma] = lemma.replace("-", "_") + "_lem"

# What port.py had turned already, in the files that a definition of the same name comes into.
BEFORE = {
    "crates/in_place/proofs/Leaves.antt": ("goes_on", "goes_on_lem"),
    "crates/in_place/proofs/tick/Proof.antt": ("goes_on", "goes_on_lem"),
    "crates/rx_decode/proofs/Longest.antt": ("best_of", "best_of_lem"),
}


def snake(name):
    name = re.sub(r"(?<=[a-z0-9])([A-Z])", lambda m: "_" + m.group(1).lower(), name)
    return name.replace("-", "_")


def own(crates, module):
    return module.split(".")[0] == "Rattle" and len(module.split(".")) > 1 and module.split(".")[1] in crates


def main(dry):
    crates = {os.path.basename(c) for c in glob.glob("crates/*")}
    files = sorted(glob.glob("crates/*/specs/**/*.antt", recursive=True) + glob.glob("crates/*/proofs/**/*.antt", recursive=True))
    sources = sorted(glob.glob("crates/*/src/**/*.rt", recursive=True))
    edits = sorted(glob.glob("crates/*/must-fail/*.edit"))
    declared, kits = set(), set()
    text = {f: open(f, encoding="utf-8").read() for f in files + sources + edits}
    for f, (old, new) in BEFORE.items():
        text[f] = re.sub(r"(?<![\w'-])" + old + r"(?![\w'-])", new, text[f])
    for f in files:
        for line in text[f].split("\n"):
            for pattern in (DECLARED, ALIAS):
                m = pattern.match(line)
                if m:
                    declared.add(m.group(1))
            if line.startswith("use "):
                declared.update(re.findall(r" as ([a-z][A-Za-z0-9_'-]*)[,}]", line))
            m = re.match(r"^\s*(?:abbrev |unfoldable |opaque )?(?:pub )?((?:[a-z][A-Za-z0-9_'-]* )+):\s", line)
            if m:
                declared.update(m.group(1).split())
    for f in files + sources:
        for line in text[f].split("\n"):
            m = USE.match(line)
            if m and not own(crates, m.group(1)) and m.group(2):
                for name in m.group(2).split(","):
                    kits.add(name.split(" as ")[0].strip())
    turned = {}
    for name in declared:
        if MADE.match(name) or name in kits or not re.search(r"[a-z0-9][A-Z]|[A-Za-z0-9]-[A-Za-z0-9]", name):
            continue
        turned[name] = BY_HAND.get(name, snake(name))
    by_new = {}
    for old, new in turned.items():
        by_new.setdefault(new, set()).add(old)
    for new, olds in sorted(by_new.items()):
        if len(olds) > 1:
            at = {old: [f for f in files + sources if re.search(r"(?<![\w-])" + re.escape(old) + r"(?![\w-])", text[f])] for old in olds}
            both = set.intersection(*(set(x) for x in at.values()))
            print("together:", new, sorted(olds), "in one file: " + ", ".join(sorted(both)) if both else "")

    def turn(line, only_capitals, sole=False):
        def one(m):
            t = m.group(0)
            if t in turned and not (only_capitals and "-" in t):
                # a step, a field or a part of a path, and in Sole a function, has no lemma's name
                return snake(t) if "-" in t and (sole or line[m.start() - 1 : m.start()] == ".") else turned[t]
            return t

        return TOKEN.sub(one, line)

    for f in files + sources + edits:
        was = text[f]
        stood = open(f, encoding="utf-8").read()
        tokens = {m.group(0) for line in was.split("\n") for m in TOKEN.finditer(line.split("-- ")[0].split("// ")[0]) if line[m.start() - 1 : m.start()] != "."}
        for old in sorted(tokens & turned.keys()):
            if turned[old] in tokens and not f.endswith(".edit"):
                print("stands there:", f, old, turned[old])
        out = []
        for line in was.split("\n"):
            if f.endswith(".antt"):
                cut = re.search(r"(^|\s)-- ", line)
                at = cut.start() if cut else len(line)
                out.append(turn(line[:at], False, f.endswith("/Sole.antt")) + turn(line[at:], True))
            elif f.endswith(".rt"):
                out.append(turn(line, True))
            else:
                out.append(turn(line, not line.startswith(("old: ", "new: "))))
        if not dry and "\n".join(out) != stood:
            with open(f, "w", encoding="utf-8") as it:
                it.write("\n".join(out))
    print(f"{len(turned)} names")


if __name__ == "__main__":
    main(sys.argv[1:] == ["--dry"])
