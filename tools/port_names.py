#!/usr/bin/env python3
"""Spells the names of this repository's definitions and lemmas as the present Rattle does: words in snake case, types and modules in camel case.

usage: python3 tools/port_names.py        at the top of the repository, once, right after port.py

port_names.tsv beside it has a row for each name: old, new and, where the new spelling holds in some files only, the beginning of their paths;
`pages` there stands for pages and edits, which port.py does not turn.
A lemma that would have a definition's name gets _lem. Functions, types and fields of src/, exported names and strings keep theirs.
It turns whole names alone: the code of .antt files, the clauses and ghost items of .rt files, the same in must-fail/*.edit, code spans in
comments and pages, and a bare word of a comment where the file's own code has the name or it has a capital inside.
"""

import os
import re
import subprocess
import sys

HERE = os.path.dirname(os.path.realpath(__file__))
NAME = re.compile(r'[^\s(){}.;,@"«»`]+')
COMMENT = re.compile(r'(?<![^\s(){}.;,@"«»])--[^\n]*')
USE = re.compile(r"\buse\s+([^\s{;]+)")
CAMEL = re.compile(r"[a-z0-9][A-Z]")


def read(path):
    with open(path, encoding="utf-8", newline="") as it:
        return it.read()


def tables():
    every, some = {}, []
    for line in read(os.path.join(HERE, "port_names.tsv")).split("\n"):
        if line:
            old, new, *where = line.split("\t")
            if where:
                some.append((old, new, where[0]))
            else:
                every[old] = new
    return every, some


def table_for(path, every, some):
    in_pages = path.endswith((".md", ".edit"))
    mine = [(old, new) for old, new, where in some if path.startswith(where) or (in_pages and where == "pages")]
    return {**every, **dict(mine)} if mine else every


def capitals(table, kept={}):
    """The names with a capital inside, which no prose has."""
    if id(table) not in kept:
        kept[id(table)] = (table, {k: v for k, v in table.items() if CAMEL.search(k)})
    return kept[id(table)][1]


def turned(text, table):
    return NAME.sub(lambda m: table.get(m[0], m[0]), text)


def spans(text, table):
    """Code spans of prose."""
    return re.sub(r"`[^`\n]*`", lambda m: turned(m[0], table), text)


def prose(text, table, seen):
    bare = capitals(table)
    text = NAME.sub(lambda m: table.get(m[0], m[0]) if m[0] in bare or ("-" in m[0] and m[0] in seen) else m[0], text)
    return spans(text, table)


def code(text, table):
    """Code of antt; a path of a `use` keeps its modules."""
    out, last = [], 0
    for m in USE.finditer(text):
        out += [turned(text[last : m.start(1)], table), m[1]]
        last = m.end()
    return "".join(out) + turned(text[last:], table)


def antt(text, table):
    seen = set(NAME.findall(COMMENT.sub("", text)))
    out, last = [], 0
    for m in COMMENT.finditer(text):
        out += [code(text[last : m.start()], table), prose(m[0], table, seen)]
        last = m.end()
    return "".join(out) + code(text[last:], table)


def rt_line(line, table):
    if line.lstrip().startswith("//"):
        return prose(line, table, ())
    if re.match(r"\s*(ghost\b|requires\b|ensures\b)", line):
        return code(line, table)
    return turned(line, capitals(table)) if '"' not in line else line


def rt(text, table):
    """Clauses and ghost items; elsewhere only names with a capital inside, which no name of src/ has."""
    return "\n".join(rt_line(line, table) for line in text.split("\n"))


def edit(text, table):
    out, is_antt = [], False
    for line in text.split("\n"):
        if line.startswith("file:"):
            is_antt = line.rstrip().endswith(".antt")
            out.append(line)
        elif line.startswith(("old:", "new:")):
            out.append(line[:4] + (code(line[4:], table) if is_antt else rt_line(line[4:], table)))
        else:
            out.append(prose(line, table, ()))
    return "\n".join(out)


TURNS = {".antt": antt, ".rt": rt, ".edit": edit, ".md": spans}


def main():
    if len(sys.argv) > 1:
        print(__doc__)
        return 2
    every, some = tables()
    names = subprocess.run(["git", "ls-files", "-z", "--cached", "--others", "--exclude-standard"], stdout=subprocess.PIPE, check=True).stdout.decode().split("\0")
    count = 0
    for path in sorted(set(names)):
        turn = TURNS.get(os.path.splitext(path)[1])
        if not turn or not os.path.isfile(path) or os.path.islink(path):
            continue
        old = read(path)
        new = turn(old, table_for(path, every, some))
        if new != old:
            with open(path, "w", encoding="utf-8", newline="") as it:
                it.write(new)
            count += 1
    print(f"port_names: {count} files changed")
    return 0


if __name__ == "__main__":
    raise SystemExit(main())
