#!/usr/bin/env python3
"""Lists the places of src/ that the design pass looks for, one line a place, and counts them by point.

    tools/places.py [COMMIT] [-l]      # the files of a commit, else those of the working tree; -l lists each place

It goes by text, so a place is one to look at: docs/DESIGN-PASS.md says what became of each."""
import re
import subprocess
import sys
from collections import defaultdict

COMMIT = next((a for a in sys.argv[1:] if not a.startswith("-")), None)
LIST = "-l" in sys.argv


def git(*args):
    return subprocess.run(["git", *args], capture_output=True, text=True, check=True).stdout


def files():
    names = git("ls-tree", "-r", "--name-only", COMMIT) if COMMIT else git("ls-files")
    for name in names.split():
        if re.fullmatch(r"crates/\w+/src/.*\.rt", name):
            yield name, git("show", f"{COMMIT}:{name}") if COMMIT else open(name).read()


def closing(text, at):
    """The place behind the brace that closes the one at `at`."""
    depth = 0
    for i in range(at, len(text)):
        depth += {"{": 1, "}": -1}.get(text[i], 0)
        if depth == 0:
            return i + 1
    return len(text)


def functions(text):
    """Name, line, signature, requires-clauses and body of each function."""
    for found in re.finditer(r"\bfn (\w+)", text):
        at = found.end()
        clauses = []
        head = None
        while True:
            step = re.compile(r"(requires|ensures)\b[ \w]*\{|\{|;").search(text, at)
            if not step:
                break
            if head is None:
                head = text[found.start():step.start()]
            if step.group() == ";" or step.group() == "{":
                body = text[step.start():closing(text, step.start())] if step.group() == "{" else ""
                yield found.group(1), text.count("\n", 0, found.start()) + 1, head, clauses, body
                break
            end = closing(text, step.end() - 1)
            if step.group(1) == "requires":
                clauses.append(" ".join(text[step.end():end - 1].split()))
            at = end


def shape(body):
    """The body with each name, number and text of its own taken out."""
    body = re.sub(r"b?'(\\.|[^'])'|b?\"[^\"]*\"|\b\d[\w_]*", "0", body)
    kept = {"if", "else", "for", "in", "match", "let", "mut", "return", "while", "break", "continue", "Some", "None", "Ok", "Err"}
    return re.sub(r"\b[A-Za-z_]\w*\b", lambda m: m.group() if m.group() in kept else "x", " ".join(body.split()))


found = defaultdict(list)
requires = defaultdict(list)
groups = defaultdict(list)
shapes = defaultdict(list)

for name, raw in files():
    crate = name.split("/")[1]
    lines = raw.split("\n")
    code = "\n".join(re.sub(r"//.*", "", line) for line in lines)

    def note(point, line, what):
        found[point].append((name, line, what))

    # 1: numbers for kinds and refusals, a number that stands for none, a flag
    for i, line in enumerate(lines, 1):
        bare = re.sub(r"//.*", "", line)
        if re.search(r"\bletter(: u8|\([^)]*\) -> u8)|fn \w*letter\w*\(.*-> u8", bare):
            note("1 letters as u8", i, line)
        if re.search(r"^\s*b'[TPDS]'( \| b'[PDS]')* =>|[!=]= b'[TPDS]'|matches!\(letter", bare):
            note("1 tests of a letter", i, line)
        if re.search(r"//.*(\b0 where|\b0 for (none|a job)|\b0: none|number 0|past the last where|empty where there|\b64 where no|\b16 where no)", line):
            note("1 a number that stands for none", i, line)
        if re.search(r"^\s*(pub(\(crate\))? )?\w+: bool,", bare):
            note("1 flags", i, line)
        if re.search(r"fn \w+\(&mut self.*-> bool", bare):
            note("1 bool for granted or refused", i, line)
        if re.search(r"number: \d+,|Refused\(\d+\)|=> Err\(\w+\) =>", bare) and crate not in ("schedules", "samples"):
            note("1 refusals by a written number", i, line)
    # 3: an index counted by hand
    for loop in re.finditer(r"\bfor (\w+) in [^{]*\.\.[^{]*\{", code):
        body = code[loop.end() - 1:closing(code, loop.end() - 1)]
        var = loop.group(1)
        if var != "_" and re.search(rf"\[[^\]]*\b{var}\b[^\]]*\]|\.(at|get|row|line)\({var}\b|\({var} as usize|, {var}\)", body):
            note("3 loops over an index", code.count("\n", 0, loop.start()) + 1, loop.group())
        elif var == "_" and re.search(r"\.next\(\)|\[\w+\.\.\]", body):
            note("3 counted loops over what could be an iterator", code.count("\n", 0, loop.start()) + 1, loop.group())
    for loop in re.finditer(r"\bfor \((\w+), \w+\) in [^{]*enumerate\(\) \{", code):
        body = code[loop.end() - 1:closing(code, loop.end() - 1)]
        if re.search(rf"\breturn (Some\()?{loop.group(1)}\b|break '\w+ {loop.group(1)}\b|\[[^\]]*\b{loop.group(1)}\b[^\]]*\]|\* {loop.group(1)}\b", body):
            note("3 loops that search or address by a place", code.count("\n", 0, loop.start()) + 1, loop.group())
    for loop in re.finditer(r"\bfor \w+ in [^{.]*\{", code):
        body = code[loop.end() - 1:closing(code, loop.end() - 1)]
        if re.search(r"\+= |return true", body):
            note("3 loops that count, add up or test", code.count("\n", 0, loop.start()) + 1, loop.group())
    # 4: by hand
    for fn, line, head, clauses, body in functions(code):
        copied = re.findall(r"\b(\w+): \*?(?:\w+\.)*(\w+)(?: as \w+)?,", body)
        if sum(a == b for a, b in copied) >= 3:
            note("4 fields copied one by one", line, fn)
        if re.search(r"Ok\((\w*|\(\))\) => Ok\(\1\),", body):
            note("4 a result turned by hand", line, fn)
        if re.search(r"push(_\w+)?\(|write_all\(", body) and re.search(r"text|Text|self", head):
            note("4 printing by hand", line, fn)
        if re.search(r"^\{ (\w+) == (\w+) \}$", " ".join(body.split())) or re.search(r"\w\[(\w+)\] != \w+(\.\w+)*\[\1\]", body):
            note("4 equality by hand", line, fn)
        if re.search(r"fn (none|empty|blank)\(\)", head):
            note("4 a blank value by hand", line, fn)
        for clause in clauses:
            requires[(crate, re.sub(r"\.(now|old|new)\b", "", re.sub(r"\b(lines|above|times|requests)\b", "_", clause)))].append((name, line, fn))
        args = re.findall(r"\b(\w+): (&?(?:mut )?[^,()]+?)(?=,|\)|$)", " ".join(head.split()).split("->")[0])
        args = [(a, t.strip()) for a, t in args if a not in ("rt", "text", "out")]
        for i, one in enumerate(args):
            for other in args[i + 1:]:
                groups[(crate, one, other)].append((name, line, fn))
        if body.count(";") + body.count("=>") >= 2 or len(body) > 60:
            shapes[(crate, shape(body))].append((name, line, fn))
    # 6: a buffer with its length beside it
    for struct in re.finditer(r"struct (\w+)[^{;(]*\{", code):
        body = code[struct.end() - 1:closing(code, struct.end() - 1)]
        if re.search(r": \[.*; \w+\],|: &'a mut \[", body) and re.search(r": usize,|count: u64", body):
            note("6 buffers with a length beside", code.count("\n", 0, struct.start()) + 1, struct.group(1))
    for local in re.finditer(r"let mut \w+ = \[[^;\]]+; \w+\];", code):
        note("6 arrays of a fixed size that are filled", code.count("\n", 0, local.start()) + 1, local.group())
    # 7: a switch on which code to run
    for switch in re.finditer(r"\bmatch [^{;]*\{", code):
        body = code[switch.end() - 1:closing(code, switch.end() - 1)]
        if len(re.findall(r"::<(?:Polling|Deferrable|Sporadic)>|drive_\w+\(|(?:self|setup)\.(?:polling|deferrable|sporadic)", body)) >= 2:
            note("7 a switch on the kind", code.count("\n", 0, switch.start()) + 1, switch.group())
    for macro in re.finditer(r"macro_rules! (\w+)", code):
        note("7 code by a macro", code.count("\n", 0, macro.start()) + 1, macro.group(1))
    for switch in re.finditer(r"enum (Class|Step|Mode|Which)\b", code):
        note("7 a value that says which code to run", code.count("\n", 0, switch.start()) + 1, switch.group(1))

for (crate, _), places in shapes.items():
    if len(places) > 1:
        for name, line, fn in places[1:]:
            found["2 functions of one shape"].append((name, line, f"{fn}, as {places[0][2]} of {places[0][0]}:{places[0][1]}"))
for (crate, clause), places in requires.items():
    if len(places) >= 3:
        found["5 a fact in three or more contracts"].append((places[0][0], places[0][1], f"{clause} ({len(places)} functions)"))
for (crate, one, other), places in groups.items():
    if len(places) >= 3:
        found["5 two parameters that travel together in three or more functions"].append(
            (places[0][0], places[0][1], f"{one[0]}, {other[0]}: " + ", ".join(fn for _, _, fn in places)))

for point in sorted(found):
    print(f"{len(found[point]):4}  {point}")
    if LIST:
        for name, line, what in found[point]:
            print(f"        {name}:{line}: {' '.join(what.split())[:150]}")
