#!/usr/bin/env python3
"""Respells the repository's own definitions and lemmas: words in snake case, types and laws in camel case.

    python3 tools/spell_names.py FOLDER

FOLDER is a checkout of the older spelling, after the toolchain's own script. In this repository the names are in place, and
a run would also touch names that the check makes.

tools/spelling.txt has a line for each name: the old one, the new one, and, where the old one also names something else, the
files of crates/ in which it is meant. Names are replaced whole, in specs/, proofs/ and the clauses of src/, and in comments
where they stand between backticks. Strings stay, and so do the names of functions, of variables and of whatever else the code
declares: none of them has a dash.
"""
import pathlib
import re
import sys

HERE = pathlib.Path(__file__).resolve().parent
NAME = re.compile(r"[^\s(){}\[\].,;\"`]+")


def table():
    return [line.split() for line in (HERE / "spelling.txt").read_text().splitlines()]


def names_in(rows, file):
    return {old: new for old, new, *files in rows if not files or file in files}


def code(text, new):
    parts = re.split(r'("(?:[^"\\]|\\.)*")', text)
    for i in range(0, len(parts), 2):
        parts[i] = NAME.sub(lambda m: new.get(m.group(0), m.group(0)), parts[i])
    return "".join(parts)


def comment(text, new):
    return re.sub(r"`[^`]*`", lambda m: NAME.sub(lambda n: new.get(n.group(0), n.group(0)), m.group(0)), text)


def line(text, mark, new):
    found = re.search(r"(?:^|(?<=\s))" + re.escape(mark), text)
    if found is None:
        return code(text, new)
    return code(text[: found.start()], new) + comment(text[found.start() :], new)


def main():
    if len(sys.argv) != 2:
        sys.exit(__doc__)
    top = pathlib.Path(sys.argv[1])
    rows = table()
    changed = 0
    for path in sorted(top.glob("crates/*/*/**/*")):
        if path.suffix not in (".antt", ".rt") or "out" in path.relative_to(top).parts:
            continue
        mark = "--" if path.suffix == ".antt" else "//"
        new = names_in(rows, str(path.relative_to(top / "crates")))
        before = path.read_text()
        after = "".join(line(l, mark, new) for l in before.splitlines(keepends=True))
        if after != before:
            path.write_text(after)
            changed += 1
    print(f"{changed} files respelled")


main()
