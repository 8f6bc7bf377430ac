#!/usr/bin/env python3
"""Gives the repository's own definitions and lemmas the spelling of the kit: words in snake case, facts as types.

usage: tools/respell.py   at the top of a repository that port.py has turned, once

tools/respell.txt has a line for each name: the old spelling and the new one. A name that a file takes from a library stays in that file.
Names are changed in specs/ and proofs/, in the clauses of .rt files, in must-fail edits, and between back quotes in comments, README.md and docs/.
"""
import os
import re

HERE = os.path.dirname(os.path.realpath(__file__))
ROOT = os.path.dirname(HERE)
NAME = re.compile(r"[A-Za-zΑ-ωℕ_][\w'₀-₉]*(?:-[\w'₀-₉]+)*")
COMMENT = {".antt": re.compile(r"(?:^|\s)--(?:\s|$)"), ".rt": re.compile(r"(?:^|\s)//"), ".edit": re.compile(r"(?!)")}
IMPORT = re.compile(r"(?m)^\s*(?:ghost )?use ([\w.+'-]+)\.\{([^}]*)\}")


def table():
    with open(os.path.join(HERE, "respell.txt"), encoding="utf-8") as f:
        return dict(l.split() for l in f if l.strip() and not l.startswith("#"))


def from_libraries(text, own):
    """The names that the file takes from a library of the kit: they keep their spelling."""
    taken = set()
    for path, names in IMPORT.findall(text):
        parts = path.split(".")
        if not (parts[0] == "Rattle" and len(parts) > 1 and parts[1] in own):
            taken.update(NAME.findall(names))
    return taken


def functions():
    found = set()
    for d, _, fs in os.walk(os.path.join(ROOT, "crates")):
        for f in fs:
            if f.endswith(".rt"):
                with open(os.path.join(d, f), encoding="utf-8") as it:
                    found.update(re.findall(r"\bfn (\w+)", it.read()))
    return found


def respelled(text, words, steps=()):
    """The steps of a function's proof are named after the functions that it calls, and are not names of ours."""
    def new(m):
        w = m.group(0)
        if steps and text[m.start() - 1:m.start()] == "." and w.replace("-", "_") in steps:
            return w
        return words.get(w, w)

    return NAME.sub(new, text)


def quoted(text, words):
    return re.sub(r"`[^`\n]*`", lambda m: respelled(m.group(0), words), text)


def turn(text, kind, words, steps):
    lines = []
    for line in text.split("\n"):
        m = COMMENT[kind].search(line)
        code, said = (line[:m.start()], line[m.start():]) if m else (line, "")
        lines.append(respelled(code, words, steps) + quoted(said, words))
    return "\n".join(lines)


def main():
    words = table()
    own = set(os.listdir(os.path.join(ROOT, "crates")))
    called = functions()
    for top in ("crates", "docs", "README.md"):
        top = os.path.join(ROOT, top)
        paths = [top] if os.path.isfile(top) else [os.path.join(d, f) for d, _, fs in os.walk(top) for f in fs if "/out/" not in d + "/"]
        for path in paths:
            kind = os.path.splitext(path)[1]
            if kind not in COMMENT and kind != ".md":
                continue
            with open(path, encoding="utf-8") as f:
                text = f.read()
            if kind == ".md":
                new = quoted(text, words)
            else:
                kept = from_libraries(text, own)
                steps = called if path.endswith("/Proof.antt") else ()
                new = turn(text, kind, {a: b for a, b in words.items() if a not in kept}, steps)
            if new != text:
                with open(path, "w", encoding="utf-8") as f:
                    f.write(new)


main()
