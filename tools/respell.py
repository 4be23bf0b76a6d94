#!/usr/bin/env python3
"""Gives the repository's own definitions and lemmas their spelling in snake case, by the table respell.tsv beside this file.

usage: respell.py FOLDER        FOLDER holds crates/, and maybe wrong/

The table has a row for each name: old, a tab, new. A whole word turns, in the .antt files, in the .rt files (whose code has no
such word outside its clauses) and in the lines of the .edit files that are read. A string stays, and so does a part of a
module's path. In a comment a word turns unless it is also a name of XML Schema. Run it once.
"""
import os
import re
import sys

HERE = os.path.dirname(os.path.realpath(__file__))
XSD = {"dateTime", "dayTime", "yearMonth"}
STRING = r'b?"(?:[^"\\\n]|\\.)*"'
WORD = r"[A-Za-zμ+][\w'₀-₉-]*"


def table():
    rows = {}
    with open(os.path.join(HERE, "respell.tsv"), encoding="utf-8") as f:
        for line in f:
            old, new = line.rstrip("\n").split("\t")
            rows[old] = new
    return rows


def camel(w):
    return "-" in w or re.search("[a-z0-9][A-Z]", w)


def turn(text, rows, comment, only_old):
    """The text with its words turned. only_old: rows whose old name is spelled as Rust spells its names stay."""

    def word(m):
        w = m.group(0)
        if w not in rows or (only_old and not camel(w)):
            return w
        if not camel(w) and (text[m.end() : m.end() + 1] == "." or text[max(0, m.start() - 1) : m.start()] == "."):
            return w
        return rows[w]

    out, at = [], 0
    for m in re.finditer(STRING + "|" + comment + r"[^\n]*", text):
        out.append(re.sub(WORD, word, text[at : m.start()]))
        s = m.group(0)
        if not s.endswith('"') or s.startswith(comment):
            s = re.sub(WORD, lambda m: rows[m.group(0)] if m.group(0) in rows and camel(m.group(0)) and m.group(0) not in XSD else m.group(0), s)
        out.append(s)
        at = m.end()
    out.append(re.sub(WORD, word, text[at:]))
    return "".join(out)


def edit(text, rows):
    out, rt = [], False
    for line in text.split("\n"):
        if line.startswith("file: "):
            rt = line.rstrip().endswith(".rt")
        elif line.startswith(("old: ", "new: ")):
            line = line[:5] + turn(line[5:], rows, "//" if rt else "--", rt)
        out.append(line)
    return "\n".join(out)


def main():
    if len(sys.argv) != 2:
        print(__doc__)
        return 2
    rows = table()
    turned = 0
    for top in ("crates", "wrong"):
        for folder, dirs, files in os.walk(os.path.join(sys.argv[1], top)):
            dirs[:] = sorted(d for d in dirs if d not in ("out", "target"))
            for name in sorted(files):
                path = os.path.join(folder, name)
                if not name.endswith((".rt", ".antt", ".edit")):
                    continue
                with open(path, encoding="utf-8") as f:
                    text = f.read()
                if name.endswith(".edit"):
                    new = edit(text, rows)
                else:
                    new = turn(text, rows, "//" if name.endswith(".rt") else "--", name.endswith(".rt"))
                if new != text:
                    turned += 1
                    with open(path, "w", encoding="utf-8") as f:
                        f.write(new)
    print(f"files turned: {turned}")
    return 0


if __name__ == "__main__":
    raise SystemExit(main())
