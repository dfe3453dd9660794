#!/usr/bin/env python3
"""Brings this repository's own definitions and laws to the kit's spelling, by the table beside this script.

usage: tools/spell.py [FOLDER]      once, right after the kit's port.py; FOLDER is the checkout (default: this one)

A row of spelling.tsv is an old name, a tab and the new one. Whole names turn, nothing else: in .antt files, in clauses of .rt files, in must-fail edits,
and in the code spans of the pages. Functions of src/, strings, inputs and outputs keep their names.
"""

import os
import re
import sys

HERE = os.path.dirname(os.path.realpath(__file__))
NAME = re.compile(r'[^\s(){}.;,@"«»\[\]`]+')
STRING = re.compile(r'"(?:[^"\\\n]|\\.)*"')
COMMENT = re.compile(r'(?<![^\s(){}.;,@"«»])--[^\n]*')
SAME = re.compile(r"(?<![^\s{,])(\S+) as (\S+?)(?=[,}])")


def table():
    with open(os.path.join(HERE, "spelling.tsv"), encoding="utf-8") as f:
        return dict(line.rstrip("\n").split("\t") for line in f if line.strip())


def turned(text, rows):
    return NAME.sub(lambda m: rows.get(m.group(), m.group()), text)


def outside(pattern, text, inner, outer):
    """The text with `outer` on what lies outside the matches of the pattern, and `inner` on the matches."""
    parts, at = [], 0
    for m in pattern.finditer(text):
        parts += [outer(text[at : m.start()]), inner(m.group())]
        at = m.end()
    return "".join(parts + [outer(text[at:])])


def in_comment(text, camel):
    return NAME.sub(lambda m: camel.get(m.group(), m.group()), text)


def spelled(path, text, rows, camel):
    if path.endswith(".md"):
        return re.sub(r"`[^`\n]+`", lambda m: turned(m.group(), rows), text)
    mark = re.compile(r"//[^\n]*") if path.endswith(".rt") else COMMENT
    if path.endswith(".rt"):
        # a row with neither a capital nor a dash is a law's, and in .rt files a function's
        rows = {old: new for old, new in rows.items() if old != old.lower() or "-" in old}
    code = lambda t: outside(STRING, t, lambda s: s, lambda s: turned(s, rows))
    if path.endswith(".edit"):
        return code(text)
    text = outside(mark, text, lambda c: in_comment(c, camel), code)
    return SAME.sub(lambda m: m.group(1) if m.group(1) == m.group(2) else m.group(), text)


def main():
    top = sys.argv[1] if len(sys.argv) > 1 else os.path.dirname(HERE)
    rows = table()
    camel = {old: new for old, new in rows.items() if "-" not in old and old != old.lower()}
    for folder, dirs, files in os.walk(top):
        dirs[:] = sorted(d for d in dirs if d not in ("out", "target", ".git", "reference", "tools"))
        for name in sorted(files):
            path = os.path.join(folder, name)
            inside = os.path.relpath(path, top)
            if not (inside.startswith("crates" + os.sep) and name.endswith((".antt", ".rt", ".edit")) or name.endswith(".md")):
                continue
            with open(path, encoding="utf-8") as f:
                old = f.read()
            new = spelled(path, old, rows, camel)
            if new != old:
                with open(path, "w", encoding="utf-8") as f:
                    f.write(new)


main()
