#!/usr/bin/env python3
"""Brings this repository's own words of specs/ and proofs/ to snake case: definitions, lemmas, fields, constructors and parameters.

usage: python3 tools/respell.py [--list]      at the top of the repository, once, right after the kit's own port.py

A word in mixed case or with hyphens is turned where it is defined here (in specs/, in a lemma file of proofs/, or as a lemma of a
function's own proof) and wherever it is cited. Names that the check makes (goals, steps), names of the library, functions of src/,
strings and comments keep theirs. Where the plain turn of a word would fall together with another name, OTHER says what it is instead.
"""

import glob
import os
import re
import sys

# words whose plain turn would fall together with another name
OTHER = {
    "first-ready": "first_ready_is",
    "turn-value": "turn_value_is",
    "row-of": "row_of_is",
}

# names that stand for an import in a source file, and variables that patterns and lets bind
BOUND_THERE = (
    "deferrable-kind polling-kind sporadic-kind sporadic-too not-now q-len ran-before ran-now aIs bIs fIs m1Is m2Is m3Is nextIs oIs tIs xIs tIs' m2Is' fIs'"
).split()

TOKEN = re.compile(r"[^\s(){}\[\];,.⌜⌝\"]+")
DEF = re.compile(r"^\s*(?:(?:abbrev|unfoldable|pub|instance|infix\w*|let)\s+)*([^\s(){}\[\];,.:=\"]+)\s*(?:[({][^:]*:.*[)}]\s*)*:(?:\s|$)")
BOUND = re.compile(r"[({]([^(){}:]*) : ")


def antt():
    return sorted(p for p in glob.glob("crates/*/specs/**/*.antt", recursive=True) + glob.glob("crates/*/proofs/**/*.antt", recursive=True) if "/out/" not in p)


def rt():
    return sorted(glob.glob("crates/*/src/**/*.rt", recursive=True))


def read(p):
    with open(p, encoding="utf-8") as f:
        return f.read()


def needs_turn(n):
    return "-" in n.strip("-") and not n.startswith("-") and re.match(r"^[A-Za-z][\w'-]*$", n) is not None or re.match(r"^[a-z]\w*[A-Z]", n) is not None and "-" not in n


def turned(n):
    if n in OTHER:
        return OTHER[n]
    n = n.replace("-", "_")
    return re.sub(r"(?<=[a-z0-9])([A-Z])", lambda m: "_" + m.group(1).lower(), n)


def words():
    """The own words to turn; those of them that are fields, and the names of modules under which words are cited."""
    made, own, fields, aliases = set(), set(BOUND_THERE), set(), set()
    for p in antt():
        made |= set(re.findall(r"\bgoal\.([^\s(){}\[\];,.]+)", read(p)))
    for p in antt():
        for line in read(p).split("\n"):
            code = line.split("--")[0] if line.lstrip().startswith("--") else line
            if code.lstrip().startswith("use "):
                m = re.search(r" as ([^\s;]+)", code)
                if m:
                    aliases.add(m.group(1))
                if m and needs_turn(m.group(1)):
                    own.add(m.group(1))
                continue
            m = DEF.match(code)
            if m and needs_turn(m.group(1)) and not m.group(1).startswith(("invariant-", "decreases-", "returns", "overflow", "loop-")):
                own.add(m.group(1))
                if line.startswith(" "):
                    fields.add(m.group(1))
            for names in BOUND.findall(code):
                own |= {n for n in names.split() if needs_turn(n)}
    return own - made, fields, aliases


def turn_line(line, own, fields, aliases):
    if line.lstrip().startswith(("--", "//")):
        return line
    parts = re.split(r'("(?:[^"\\]|\\.)*")', line)
    for i in range(0, len(parts), 2):
        text = parts[i]

        def turn(m):
            n = m.group(0)
            if n not in own:
                return n
            # after a dot only a field, or a word of a module that stands under a short name
            if m.start() > 0 and text[m.start() - 1] == "." and n not in fields:
                before = re.search(r"([^\s(){}\[\];,.]+)\.$", text[: m.start()])
                if not before or before.group(1) not in aliases - {"goal"}:
                    return n
            return turned(n)

        parts[i] = TOKEN.sub(turn, text)
    return "".join(parts)


def main():
    own, fields, aliases = words()
    if "--list" in sys.argv:
        for n in sorted(own):
            print(n, turned(n))
        return
    for p in antt() + rt():
        old = read(p)
        new = "\n".join(turn_line(line, own, fields, aliases) for line in old.split("\n"))
        if new != old:
            with open(p, "w", encoding="utf-8") as f:
                f.write(new)


main()
