#!/usr/bin/env python3
"""Spells the repository's own definitions and lemmas in snake case.

usage: tools/respell.py [FOLDER]

Run once, after the toolchain's porting script, at the top of the repository or of FOLDER.
tools/respell.tsv has a row for each name: old, a tab, new. A name turns where it stands as a whole
word: anywhere in a .antt file, in the clauses and `ghost use` lines of a .rt file, in the pairs of a
must-fail edit, and between backquotes in a comment.
"""

import os
import re
import subprocess
import sys

TABLE = os.path.join(os.path.dirname(os.path.realpath(__file__)), "respell.tsv")
# A word as antt cuts its text.
WORD = re.compile(r"[^\s(){}.;,@\"«»`]+")
QUOTED = re.compile(r"`[^`\n]*`")


def rows():
    with open(TABLE, encoding="utf-8") as f:
        return dict(line.rstrip("\n").split("\t") for line in f if line.strip())


def turned(text, names):
    return WORD.sub(lambda m: names.get(m[0], m[0]), text)


def turn_antt(text, names):
    """The code whole; of a comment what stands between backquotes."""
    lines = []
    for line in text.split("\n"):
        m = re.search(r"(?:^|\s)--(?:\s|$)", line)
        at = m.start() if m else len(line)
        comment = QUOTED.sub(lambda q: turned(q[0], names), line[at:])
        lines.append(turned(line[:at], names) + comment)
    return "\n".join(lines)


def clauses(text):
    """The spans of a source's clauses: from a clause's word to the brace that closes it."""
    for m in re.finditer(r"\b(?:requires|ensures|ghost(?! use))\b[^{}\n;]*\{", text):
        depth, i = 1, m.end()
        while depth and i < len(text):
            depth += {"{": 1, "}": -1}.get(text[i], 0)
            i += 1
        yield m.start(), i
    for m in re.finditer(r"\bghost use [^;]*;", text):
        yield m.start(), m.end()


def turn_rt(text, names):
    out, at = [], 0
    for start, end in sorted(clauses(text)):
        if start < at:
            continue
        out.append(text[at:start])
        out.append(turned(text[start:end], names))
        at = end
    out.append(text[at:])
    lines = []
    for line in "".join(out).split("\n"):
        m = re.search(r"//", line)
        cut = m.start() if m else len(line)
        lines.append(line[:cut] + QUOTED.sub(lambda q: turned(q[0], names), line[cut:]))
    return "\n".join(lines)


def turn_edit(text, names):
    return "\n".join(turned(line, names) if line.startswith(("old:", "new:")) else line for line in text.split("\n"))


TURNS = {".antt": turn_antt, ".rt": turn_rt, ".edit": turn_edit}


def main(root):
    names = rows()
    for folder, dirs, files in os.walk(os.path.join(root, "crates")):
        dirs[:] = [d for d in dirs if d != "out"]
        for name in files:
            turn = TURNS.get(os.path.splitext(name)[1])
            if turn is None:
                continue
            path = os.path.join(folder, name)
            with open(path, encoding="utf-8") as f:
                old = f.read()
            new = turn(old, names)
            if new != old:
                with open(path, "w", encoding="utf-8") as f:
                    f.write(new)
    for crate in sorted(os.listdir(os.path.join(root, "crates"))):
        subprocess.run(["rt", "fmt"], cwd=os.path.join(root, "crates", crate), check=True, stdout=subprocess.DEVNULL)


if __name__ == "__main__":
    main(sys.argv[1] if len(sys.argv) > 1 else ".")
