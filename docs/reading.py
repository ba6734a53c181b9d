#!/usr/bin/env python3
"""reading.py [--check]: puts into DEFINITIONS.md how many lines of each row's files the promise reaches, as reached.py counts them,
or with --check says which rows are not in step. A row's first cell names files, its second has the number."""
import re
import sys

from definitions import TOP, module_at, read
from reached import TOLD, files_of, kind_of, lines, reached, top_calls

PAGE = f"{TOP}/docs/DEFINITIONS.md"
ROW = re.compile(r"^\| (`[^|]*`) \| ([\d,]*) \|", re.M)


def files_in(cell):
    """The files of definitions that a cell names: `crate/File`, and `File` behind one of the same crate."""
    crate = None
    for name in re.findall(r"`([\w/]+)`", cell):
        before, _, file = name.rpartition("/")
        crate = before or crate
        yield module_at(crate, file) or sys.exit(f"{crate}/{file} is no file of definitions")


def in_step(text):
    """The page with its numbers, and the files that no row names."""
    own = files_of(it for it in reached(top_calls()) if kind_of(it) in TOLD)
    left = set(own)

    def row(found):
        files = list(files_in(found[1]))
        left.difference_update(files)
        return f"| {found[1]} | {sum(lines(own.get(file, [])) for file in files):,} |"

    return ROW.sub(row, text), sorted(map(str, left))


def main():
    text = read(PAGE)
    new, left = in_step(text)
    told = [f"{file} is in no row" for file in left]
    if "--check" in sys.argv:
        told += [f"not in step: {now[:60]}" for was, now in zip(text.splitlines(), new.splitlines()) if was != now]
    else:
        with open(PAGE, "w", encoding="utf-8") as file:
            file.write(new)
    print("\n".join(told) or "in step")
    sys.exit(1 if told else 0)


if __name__ == "__main__":
    main()
