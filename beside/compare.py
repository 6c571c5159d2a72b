#!/usr/bin/env python3
"""Runs the program `rehearse` and the C ring beside it on random texts, and compares what they print, byte for byte; then
asks the proved library and plain C the same questions about block memories (limits.c).

beside/compare.py [HOW_MANY [SEED]]; ten thousand texts and seed 1 where they are left out. It needs rt, gcc and nothing
else. It stops at the first difference, and prints the text or the question that shows it."""
import os
import random
import subprocess
import sys
import tempfile

HERE = os.path.dirname(os.path.abspath(__file__))
HIGHEST = 1 << 40


def compile_c(folder, name, *libraries):
    program = os.path.join(folder, name)
    source = os.path.join(HERE, name + ".c")
    subprocess.run(["gcc", "-std=c99", "-O2", "-Wall", "-Wextra", "-o", program, source, *libraries], check=True)
    return program


def proved(command, crate, made):
    """Proves and builds a crate by rt, and answers the path of what it made."""
    folder = os.path.join(HERE, "..", "crates", crate)
    said = subprocess.run(["rt", command], cwd=folder, stdin=subprocess.DEVNULL, stdout=subprocess.DEVNULL,
                          stderr=subprocess.PIPE)
    if said.returncode:
        sys.exit(said.stderr.decode())
    return os.path.join(folder, "out", made)


def start(r):
    return r.choice([0, 0, r.randrange(200), HIGHEST - 1, HIGHEST - 1 - r.randrange(100), r.randrange(HIGHEST)])


def turns(r, workers):
    words, left = [], 4096
    for _ in range(r.choice([0, 1, 3, r.randrange(65), 64])):
        most = min(left, r.choice([1, 4, 12, 60, 400]))
        if most < 1:
            break
        count = r.randrange(1, most + 1)
        words.append((r.choice([0, 0, r.randrange(workers + 1)]), count))
        left -= count
    return words


def plan(r):
    cells = r.choice([1, 2, 3, 16, r.randrange(1, 65), 64])
    workers = r.randrange(1, 9)
    probes = [r.choice([0, 65535, r.randrange(65536)]) for _ in range(r.choice([0, 1, 3, r.randrange(65), 64]))]
    return "%d %d %d\n%s\n%s\n" % (cells, workers, start(r), " ".join(map(str, probes)),
                                   " ".join("%d:%d" % word for word in turns(r, workers)))


def damaged(r, text):
    """One byte changed, left out or put in; a line too many or too few; a number at an edge of its rule."""
    data = bytearray(text.encode())
    way = r.randrange(6)
    where = r.randrange(len(data))
    if way == 0:
        data[where] = r.randrange(256)
    elif way == 1:
        del data[where]
    elif way == 2:
        data.insert(where, r.choice(b" :\n0159-+x"))
    elif way == 3:
        data += r.choice([b"\n", b"0", b" "])
    elif way == 4:
        del data[where:]
    else:
        lines = text.split("\n")
        at = r.randrange(3)
        lines[at] = {0: "%d %d %d" % (r.choice([0, 1, 64, 65]), r.choice([0, 1, 8, 9]), r.choice([0, HIGHEST - 1, HIGHEST])),
                     1: " ".join(["65535"] * r.choice([63, 64, 65]) + r.choice([[], ["65536"]])),
                     2: " ".join(["0:1"] * r.choice([1, 64, 65]) + r.choice([[], ["0:4095"], ["9:1"], ["0:0"]]))}[at]
        data = bytearray("\n".join(lines).encode())
    return bytes(data)


def compare_texts(folder, many, r):
    programs = proved("run", "rehearse", "rehearse"), compile_c(folder, "ring")
    kinds = {"run to the end": 0, "stopped": 0, "refused": 0}
    for i in range(many):
        text = plan(r)
        text = damaged(r, text) if r.random() < 0.4 else text.encode()
        ours, other = (subprocess.run([p], input=text, stdout=subprocess.PIPE, check=True).stdout for p in programs)
        if ours != other:
            sys.exit("text %d differs:\n%r\nrehearse: %r\nC ring:   %r" % (i, text, ours, other))
        kinds["refused" if ours.startswith(b"refused") else "stopped" if b"stopped" in ours else "run to the end"] += 1
    print("%d texts printed alike: %s" % (many, ", ".join("%d %s" % (n, kind) for kind, n in kinds.items())), flush=True)


def main():
    many = int(sys.argv[1]) if len(sys.argv) > 1 else 10000
    r = random.Random(int(sys.argv[2]) if len(sys.argv) > 2 else 1)
    with tempfile.TemporaryDirectory() as folder:
        compare_texts(folder, many, r)
        limits = compile_c(folder, "limits", proved("lib", "c_exports", "libc_exports.a"))
        return subprocess.run([limits]).returncode


sys.exit(main())
