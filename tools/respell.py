#!/usr/bin/env python3
"""Gives the definitions and lemmas of specs/ and proofs/ names in snake case.

usage: python3 tools/respell.py [--dry]      at the top of the repository, once, on a clean tree

A name that a file of specs/ or proofs/ declares with a dash gets an underscore in each dash's place, wherever the
name is cited: in .antt files and, in .rt files, in the clauses and ghost items. Names that the toolchain makes
(answers, invariants, measures and the steps that they cite), comments, strings and code keep their spelling.
It stops, and writes nothing, where two names of one file would fall together, and lists those of src/ that a
renamed word now equals.
"""

import os
import re
import sys

NAME = r"[A-Za-z_ℕℤ][\w'ℕℤ]*(?:-[\w'ℕℤ→]+)+"
TOKEN = re.compile(r"(?<![\w'\-])(" + NAME + r")(?![\w'\-])")
SIGNATURE = re.compile(r"^(\s*)((?:(?:pub|abbrev|unfoldable|opaque)\s+)*)([^\s:{}()]+(?:\s+[^\s:{}()]+)*)\s+:\s+(.*)$")
BINDING = re.compile(r"[({]((?:" + NAME + r"|[\w']+)(?:\s+(?:" + NAME + r"|[\w']+))*)\s+:\s")
HEAD = re.compile(r"^\s*(?:(?:pub|abbrev|unfoldable)\s+)*(?:record|data)\s+(\S+)(.*)$")
RULESET = re.compile(r"^\s*(?:pub\s+)?ruleset\s+(\S+)")


def files(kind):
    for folder, dirs, names in sorted(os.walk("crates")):
        dirs[:] = sorted(d for d in dirs if d != "out")
        for n in sorted(names):
            if n.endswith(kind):
                yield os.path.join(folder, n)


def code_of(line):
    """The part of an .antt line before its comment."""
    m = re.search(r"(^|\s)--(\s|$)", line)
    return (line, "") if m is None else (line[: m.start()], line[m.start():])


def declared(path):
    """The names with a dash that an .antt file declares, and is free to name."""
    found = set()
    for line in open(path, encoding="utf-8"):
        code, _ = code_of(line.rstrip("\n"))
        m = RULESET.match(code)
        if m:
            found.add(m.group(1))
        m = HEAD.match(code)
        if m:
            found.add(m.group(1))
        m = SIGNATURE.match(code)
        if m and not re.match(r"goal\.", m.group(4)):
            found.update(m.group(3).split())
        for b in BINDING.finditer(code):
            found.update(b.group(1).split())
        for b in re.finditer(r"(?:λ|let)\s+(" + NAME + r")\s*[.:=]", code):
            found.add(b.group(1))
        for b in re.finditer(r"[;{]\s*(?:pub\s+)?(" + NAME + r")\s+:\s", code):
            found.add(b.group(1))
    return {n for n in found if "-" in n and TOKEN.fullmatch(n)}


def snake(name):
    return name.replace("-", "_")


def respelled(text, names):
    return TOKEN.sub(lambda m: snake(m.group(1)) if m.group(1) in names else m.group(1), text)


def antt(text, names):
    lines = []
    for line in text.split("\n"):
        code, comment = code_of(line)
        comment = re.sub(r"`[^`]*`", lambda m: respelled(m.group(0), names), comment)
        lines.append(respelled(code, names) + comment)
    return "\n".join(lines)


def source(text, names):
    """An .rt file: its code has no name with a dash, so only comments and strings are left alone."""
    def piece(m):
        return m.group(0) if m.group(0)[0] in '/"' else respelled(m.group(0), names)
    return re.sub(r'//[^\n]*|"(?:[^"\\\n]|\\.)*"|[^/"]+|[/"]', piece, text)


def main():
    names = set()
    for p in files(".antt"):
        names |= declared(p)
    out, bad = {}, 0
    for kind, turn in ((".antt", antt), (".rt", source), (".edit", source)):
        for p in files(kind):
            old = open(p, encoding="utf-8").read()
            new = turn(old, names)
            here = set(TOKEN.findall(old)) & names
            cited = re.sub(r"^use [^{\n]* as \w+$", "", old, flags=re.M)
            words = set(re.findall(r"(?<![\w'\-])[\w']+(?![\w'\-])", cited))
            for n in sorted(here):
                if snake(n) in words and turn is not source:
                    print(f"falls together: {p}: {n} and {snake(n)}")
                    bad += 1
                elif snake(n) in words:
                    print(f"look: {p}: {snake(n)} stands there too")
            if new != old:
                out[p] = new
    print(f"{len(names)} names, {len(out)} files")
    if "--dry" in sys.argv:
        print(" ".join(sorted(names)))
        return
    if bad:
        sys.exit(1)
    for p, new in out.items():
        with open(p, "w", encoding="utf-8") as f:
            f.write(new)


main()
