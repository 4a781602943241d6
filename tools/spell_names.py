#!/usr/bin/env python3
"""Spells the repository's own definitions and lemmas as the library spells its names.

usage: python3 tools/spell_names.py      at the top of the repository, once

Facts and types are written in camel case and everything else in snake case; a dash stays between the names of two
functions. The table beside this script has each old name and its new one. Only .antt and .rt files change, and in
them no string and no comment (but for the names of facts, which comments cite).
"""

import os
import re
import sys

HERE = os.path.dirname(os.path.realpath(__file__))
TOKEN = re.compile(r'[^\s(){}\[\];,."`]+')
STRING = re.compile(r'b?"(?:[^"\\]|\\.)*"')


def table():
    with open(os.path.join(HERE, "spell_names.txt"), encoding="utf-8") as f:
        return dict(line.split() for line in f if line.strip())


def files(top):
    for folder, dirs, names in os.walk(os.path.join(top, "crates")):
        dirs[:] = sorted(d for d in dirs if d not in ("out", "target"))
        for name in sorted(names):
            if name.endswith((".antt", ".rt")):
                yield os.path.join(folder, name)


def spelled(text, names, facts_only=False):
    def one(m):
        word = m.group(0)
        if facts_only and not word[:1].isupper():
            return word
        return names.get(word, word)

    return TOKEN.sub(one, text)


def turned(line, names, mark):
    out, at = [], 0
    for m in re.finditer(STRING.pattern + "|" + re.escape(mark), line):
        out.append(spelled(line[at : m.start()], names))
        if m.group(0) == mark:
            out.append(spelled(line[m.start() :], names, facts_only=True))
            return "".join(out)
        out.append(m.group(0))
        at = m.end()
    out.append(spelled(line[at:], names))
    return "".join(out)


def main():
    names, changed = table(), 0
    for path in files(os.getcwd()):
        mark = "//" if path.endswith(".rt") else "--"
        with open(path, encoding="utf-8") as f:
            old = f.read()
        new = "\n".join(turned(line, names, mark) for line in old.split("\n"))
        if new != old:
            changed += 1
            with open(path, "w", encoding="utf-8") as f:
                f.write(new)
    print(f"spell_names: {changed} files changed", file=sys.stderr)


main()
