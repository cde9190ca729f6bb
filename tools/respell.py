#!/usr/bin/env python3
"""Brings the repository's own definitions and lemmas to the spelling of today's Rattle: snake case, an apostrophe for a prime.

usage: python3 tools/respell.py        at the top of the repository, once, after port.py

tools/respell.tsv has a line for each name: the file where the line holds ('*' for all of crates/), the old spelling, the new one. In .antt files each
token is looked up, comments and all; in .rt files only what stands in a clause, a ghost item or a `ghost use` line, so that the names of functions,
fields and constants stay. In must-fail edits only those of an .antt file or of a line of ghost text are turned.
"""
import os
import re
import sys

HERE = os.path.dirname(os.path.realpath(__file__))
TOKEN = re.compile(r"[^\s(){}\[\];,.«»:`\"]+")
GHOST = re.compile(r"\b(?:ghost use|requires\*?|ensures\*?|ghost)\b")


def table():
    names = {}
    with open(os.path.join(HERE, "respell.tsv"), encoding="utf-8") as lines:
        for line in lines:
            if line.strip() and not line.startswith("#"):
                where, old, new = line.rstrip("\n").split("\t")
                names.setdefault(where, {})[old] = new
    return names


def turn(text, names):
    return TOKEN.sub(lambda m: names.get(m.group(0), m.group(0)), text)


def turn_code(text, names):
    """Only the ghost text of a .rt file: the rest of a `ghost use` line, and what stands between a clause's braces."""
    out, at = [], 0
    while True:
        m = GHOST.search(text, at)
        if m is None:
            return "".join(out) + text[at:]
        line = text.rfind("\n", 0, m.start()) + 1
        if text[line:m.start()].lstrip().startswith("//"):
            end = text.find("\n", m.start())
            out.append(text[at:end])
            at = end
            continue
        if m.group(0) == "ghost use":
            end = text.index(";", m.end())
            out.append(text[at:m.end()] + turn(text[m.end():end], names))
            at = end
            continue
        start = text.find("{", m.end())
        if start < 0 or not re.fullmatch(r"\s*\w*:?\s*", text[m.end():start]):
            out.append(text[at:m.end()])
            at = m.end()
            continue
        depth, end = 0, start
        while True:
            depth += {"{": 1, "}": -1}.get(text[end], 0)
            end += 1
            if depth == 0:
                break
        out.append(text[at:start] + turn(text[start:end], names))
        at = end


def main():
    names = table()
    for folder, folders, files in os.walk("crates"):
        folders[:] = sorted(f for f in folders if f != "out")
        for file in sorted(files):
            path = os.path.join(folder, file)
            if not file.endswith((".antt", ".rt", ".edit")):
                continue
            here = names.get("*", {}) | names.get(path, {})
            with open(path, encoding="utf-8") as f:
                text = f.read()
            if file.endswith(".antt"):
                new = turn(text, here)
            elif file.endswith(".rt"):
                new = turn_code(text, here)
            elif re.search(r"^file: (specs|proofs)/", text, re.M):
                new = "\n".join(turn(l, here) if l.startswith(("old:", "new:")) else l for l in text.split("\n"))
            else:
                new = text
            if new != text:
                with open(path, "w", encoding="utf-8") as f:
                    f.write(new)


if __name__ == "__main__":
    sys.exit(main())
