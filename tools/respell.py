#!/usr/bin/env python3
"""Turns the repository's own definitions and lemmas to today's spelling: words in snake case, a dash between two names alone.

usage: python3 tools/respell.py          over crates/, once, after port.py
       python3 tools/respell.py PAGE..   over the names that pages have in backticks

tools/respelled.txt has a line for each name: the old spelling and the new one. Strings keep their text. In comments a name in
camel case is turned, one with a dash only in backticks, since it may be English.
"""

import os
import re
import sys

HERE = os.path.dirname(os.path.realpath(__file__))
TOP = os.path.dirname(HERE)
TOKEN = re.compile(r"[^\s(){}\[\],;.«»⌜⌝λ|`\"]+")
STRING = re.compile(r'("(?:[^"\\]|\\.)*")')


def table():
    with open(os.path.join(HERE, "respelled.txt"), encoding="utf-8") as f:
        return dict(line.split() for line in f)


def turned(text, names):
    return TOKEN.sub(lambda m: names.get(m[0], m[0]), text)


def in_code(text, names):
    return "".join(part if part.startswith('"') else turned(part, names) for part in STRING.split(text))


def in_prose(text, names):
    """A comment: names in backticks, and others in camel case."""
    camel = {k: v for k, v in names.items() if "-" not in k}
    parts = re.split(r"(`[^`]*`)", text)
    return "".join(turned(p, names if p.startswith("`") else camel) for p in parts)


def comment_at(line, mark):
    """Where a line's comment begins, or its end."""
    inside = False
    for i, c in enumerate(line):
        if c == '"':
            inside = not inside
        elif not inside and line.startswith(mark, i):
            before = line[i - 1 : i]
            after = line[i + len(mark) : i + len(mark) + 1]
            if mark == "//" or ((before in ("", " ", "\t", "(")) and after in ("", " ", "\n", "-")):
                return i
    return len(line)


def file_turned(path, text, names):
    if path.endswith(".edit"):
        return "".join(in_code(line, names) for line in text.splitlines(keepends=True))
    mark = "--" if path.endswith(".antt") else "//"
    out = []
    for line in text.splitlines(keepends=True):
        i = comment_at(line, mark)
        out.append(in_code(line[:i], names) + in_prose(line[i:], names))
    return "".join(out)


def main():
    names = table()
    if sys.argv[1:]:
        for page in sys.argv[1:]:
            with open(page, encoding="utf-8") as f:
                text = f.read()
            parts = re.split(r"(`[^`\n]*`)", text)
            new = "".join(turned(p, names) if p.startswith("`") else p for p in parts)
            if new != text:
                with open(page, "w", encoding="utf-8") as f:
                    f.write(new)
        return
    for folder, dirs, files in os.walk(os.path.join(TOP, "crates")):
        dirs[:] = sorted(d for d in dirs if d != "out")
        for name in sorted(files):
            path = os.path.join(folder, name)
            if name.endswith((".antt", ".rt", ".edit")):
                with open(path, encoding="utf-8") as f:
                    text = f.read()
                new = file_turned(path, text, names)
                if new != text:
                    with open(path, "w", encoding="utf-8") as f:
                        f.write(new)


main()
