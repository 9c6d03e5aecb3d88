#!/usr/bin/env python3
"""Spells the repository's own definitions and lemmas by names.tsv beside this script: old, a tab, new.

usage: respell.py [ROOT]     once, at the top of the repository, right after port.py

A word of an .antt file, of a .rt file, of a must-fail edit or of a page's code span turns where the table has it,
but not in a string. Words of a comment turn between backquotes. Nothing else is written.
"""
import os
import re
import sys

HERE = os.path.dirname(os.path.realpath(__file__))
WORD = re.compile(r'[^\s(){}\[\]|.;,@"«»`]+')
QUOTED = re.compile(r'"(?:[^"\\\n]|\\.)*"')
SPAN = re.compile(r"`[^`\n]*`")

# Spelled like a function of src/: these turn in .antt files alone.
IN_PROOFS = {"is_digit", "digit_at"}


def turned(text, table):
    return WORD.sub(lambda m: table.get(m[0], m[0]), text)


def but_strings(text, table):
    out, at = [], 0
    for m in QUOTED.finditer(text):
        out += [turned(text[at : m.start()], table), m[0]]
        at = m.end()
    return "".join(out + [turned(text[at:], table)])


def spans(text, table):
    return SPAN.sub(lambda m: turned(m[0], table), text)


def code(text, table, mark):
    """Each line's code turns, and of the comment behind the mark what stands between backquotes."""
    lines = []
    for line in text.split("\n"):
        m = re.search(r"(?:^|\s)" + mark + r"(?:\s|$)", line)
        at = m.start() if m and line[: m.start()].count('"') % 2 == 0 else len(line)
        lines.append(but_strings(line[:at], table) + spans(line[at:], table))
    return "\n".join(lines)


def edit(text, table):
    """An edit's old and new text; names of files stay."""
    lines = []
    for line in text.split("\n"):
        m = re.match(r"(old|new):", line)
        lines.append(m[0] + but_strings(line[m.end() :], table) if m else line)
    return "\n".join(lines)


def main(root):
    with open(os.path.join(HERE, "names.tsv"), encoding="utf-8") as f:
        table = dict(line.rstrip("\n").split("\t") for line in f)
    outside = {old: new for old, new in table.items() if old not in IN_PROOFS}
    ways = {
        ".antt": lambda t: code(t, table, "--"),
        ".rt": lambda t: code(t, outside, "//"),
        ".edit": lambda t: edit(t, outside),
        ".md": lambda t: spans(t, outside),
    }
    changed = 0
    for folder, dirs, files in os.walk(root):
        dirs[:] = [d for d in dirs if d not in ("out", "target", ".git")]
        for name in files:
            way = ways.get(os.path.splitext(name)[1])
            if not way:
                continue
            path = os.path.join(folder, name)
            with open(path, encoding="utf-8") as f:
                old = f.read()
            new = way(old)
            if new != old:
                changed += 1
                with open(path, "w", encoding="utf-8") as f:
                    f.write(new)
    print(f"respell: {changed} files")


if __name__ == "__main__":
    main(sys.argv[1] if len(sys.argv) > 1 else ".")
