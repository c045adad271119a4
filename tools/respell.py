#!/usr/bin/env python3
"""Gives the repository's own definitions and lemmas the spelling of today's Rattle: words in snake case.

usage: python3 tools/respell.py [TOP]

TOP is the top of a repository that port.py has turned; without it, this one. Rows of spelling.tsv: the old name, the new one and, where
the name turns in one file alone, that file. A second run changes nothing. In comments and pages a name with a dash turns only between
backquotes, since it may be a word there. Functions of src/, C names, strings, inputs and outputs keep their names.
"""

import os
import re
import sys

HERE = os.path.dirname(os.path.realpath(__file__))
WORD = re.compile(r"[^\s(){}\[\].;,@\"«»`|:]+")
SPAN = re.compile(r"`[^`\n]*`")
FENCE = re.compile(r"^```.*?^```", re.S | re.M)


def table(path, text):
    everywhere, here = {}, {}
    with open(os.path.join(HERE, "spelling.tsv"), encoding="utf-8") as f:
        for line in f:
            old, new, *file = line.rstrip("\n").split("\t")
            if not file:
                everywhere[old] = new
            elif path == file[0] and new not in text:
                # (the old name is another's new one)
                here[old] = new
    return everywhere | here


def code(text, names):
    return WORD.sub(lambda m: names.get(m[0], m[0]), text)


def prose(text, names):
    """Names between backquotes turn; outside them, only those that no prose has: with a capital after a small letter."""
    plain = {old: new for old, new in names.items() if re.fullmatch(r"[a-z]\w*[A-Z]\w*", old)}
    out, at = [], 0
    for m in SPAN.finditer(text):
        out += [code(text[at : m.start()], plain), code(m[0], names)]
        at = m.end()
    return "".join(out + [code(text[at:], plain)])


def commented(text, sign, names):
    """A file of code: what stands behind the sign of a comment is prose."""
    lines = []
    for line in text.split("\n"):
        m = re.search(rf"(?:^|(?<=\s)){sign}(?=\s|$)", line)
        at = m.start() if m else len(line)
        lines.append(code(line[:at], names) + prose(line[at:], names))
    return "\n".join(lines)


def page(text, names):
    out, at = [], 0
    for m in FENCE.finditer(text):
        out += [prose(text[at : m.start()], names), code(m[0], names)]
        at = m.end()
    return "".join(out + [prose(text[at:], names)])


def turned(path, text):
    names = table(path, text)
    if path.endswith(".antt"):
        return commented(text, "--", names)
    if path.endswith(".rt"):
        return commented(text, "//", names)
    return page(text, names)


def main(top):
    count = 0
    for folder, dirs, files in os.walk(top):
        dirs[:] = sorted(d for d in dirs if d not in ("out", ".git", "build", "target"))
        for name in sorted(files):
            path = os.path.relpath(os.path.join(folder, name), top)
            inside = path.startswith("crates/") and name.endswith((".antt", ".rt"))
            if not inside and not (name.endswith(".md") and not path.startswith("docs/PORT")):
                continue
            with open(os.path.join(top, path), encoding="utf-8") as f:
                old = f.read()
            new = turned(path, old)
            if new != old:
                count += 1
                with open(os.path.join(top, path), "w", encoding="utf-8") as f:
                    f.write(new)
    print(f"respell: {count} files")


if __name__ == "__main__":
    main(os.path.abspath(sys.argv[1]) if len(sys.argv) > 1 else os.path.dirname(HERE))
