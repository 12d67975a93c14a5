#!/usr/bin/env python3
"""Respells the repository's own definitions and lemmas: words in snake case, a dash only between two names.

usage: python3 tools/respell.py      once, at the top, after the upgrade scripts of the toolchain and before they are committed

tools/respelled.txt has a line 'OLD NEW' for each name. Names are whole words in .antt and .rt files and in edits; comments and
strings are left. Comments that the upgrade scripts changed are put back as they stand in the last commit.
"""
import os
import re
import subprocess

TABLE = dict(line.split() for line in open("tools/respelled.txt", encoding="utf-8"))
WORD = re.compile(r"[^\s(){}\[\];,.=:λ∷«»\"]+")


def parts(text, mark):
    """The text cut into pieces (is code, piece): comments to the end of a line and strings are no code."""
    cut = re.compile(mark + r'[^\n]*|"(?:\\.|[^"\\\n])*"')
    at = 0
    for m in cut.finditer(text):
        yield True, text[at : m.start()]
        yield False, m[0]
        at = m.end()
    yield True, text[at:]


def respelled(text, mark):
    return "".join(WORD.sub(lambda m: TABLE.get(m[0], m[0]), p) if code else p for code, p in parts(text, mark))


def comments(text, mark):
    return [line for line in text.split("\n") if line.strip().startswith(mark)]


def restored(text, mark, path):
    """The text with its comment lines as the last commit has them, where there are as many."""
    r = subprocess.run(["git", "show", "HEAD:" + path], capture_output=True, text=True)
    old = comments(r.stdout, mark) if r.returncode == 0 else []
    if len(old) != len(comments(text, mark)):
        return text
    lines = iter(old)
    return "\n".join(next(lines) if line.strip().startswith(mark) else line for line in text.split("\n"))


def main():
    for folder, dirs, names in os.walk("crates"):
        dirs[:] = sorted(d for d in dirs if d != "out")
        for name in sorted(names):
            path = os.path.join(folder, name)
            mark = "//" if name.endswith(".rt") else "--"
            if not name.endswith((".rt", ".antt", ".edit")):
                continue
            with open(path, encoding="utf-8") as f:
                text = f.read()
            new = respelled(text, "//" if name.endswith(".edit") else mark)
            if not name.endswith(".edit"):
                new = restored(new, mark, path)
            if new != text:
                with open(path, "w", encoding="utf-8") as f:
                    f.write(new)


main()
