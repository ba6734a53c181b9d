#!/usr/bin/env python3
"""wrap.py [--check] [FILE..]: breaks the lines of proofs and definitions (.antt) above 120 columns, and changes nothing else.

A line breaks at the outermost place that fits: before an arrow or an operator, behind a comma, a semicolon, `in` or `=`, or before an
argument. An import becomes several. Tokens before and after are compared. `rt fmt` then sets the indentation, so run both until
neither changes anything. With --check it only says which lines are too long.
"""
import glob
import os
import re
import sys
import textwrap

TOP = os.path.dirname(os.path.dirname(os.path.abspath(__file__)))
WIDTH = 120
USE = re.compile(r"^(\s*(?:pub |unfoldable )*use [\w.]+\.)\{(.*)\}$")
TOKEN = re.compile(r'"(?:[^"\\]|\\.)*"|[(){}\[\],;]|[^\s(){}\[\],;"]+')
OPENS, CLOSES = "({[", ")}]"
BEFORE = {"→": 0, "⊎": 1, "×": 1, "↔": 1, "∙": 1, "≡": 2, "++": 2, "∷": 2, "then": 1, "else": 1, "&&": 2, "||": 2, "+": 3, "where": 4}
BEHIND = {",": 1, ";": 0, "in": 0, "=": 1}


def places(line):
    """The places where a line may break: how deep, how badly, and at which column the next line begins."""
    depth, before = 0, None
    for found in TOKEN.finditer(line):
        token, at = found[0], found.start()
        if before and line[at - 1] == " ":
            worth = min(BEFORE.get(token, 5), BEHIND.get(before, 5), 4 if token in OPENS and before not in OPENS else 5)
            if before not in OPENS and not (before == "λ" or token in CLOSES):
                yield depth, worth, at
        if token in OPENS:
            depth += 1
        elif token in CLOSES:
            depth -= 1
        before = token


def broken(line):
    """A line as lines of at most WIDTH columns, where that is possible."""
    while len(line) > WIDTH:
        indent = len(line) - len(line.lstrip())
        found = [it for it in places(line) if indent + 24 <= it[2] <= WIDTH + 1]
        if not found:
            break
        depth, worth, at = min(found, key=lambda it: (it[0], it[1], -it[2]))
        yield line[:at].rstrip()
        line = " " * (indent + (0 if line.lstrip()[0] in "→⊎×∙" else 4)) + line[at:]
    yield line


def imports(head, names):
    """An import as several."""
    line = []
    for name in (it.strip() for it in names.split(",")):
        if line and len(head) + len(", ".join([*line, name])) + 2 > WIDTH:
            yield f"{head}{{{', '.join(line)}}}"
            line = []
        line.append(name)
    yield f"{head}{{{', '.join(line)}}}"


def wrapped(text):
    """The text with its long lines broken."""
    for line in text.splitlines():
        use = USE.match(line)
        if len(line) <= WIDTH:
            yield line
        elif line.lstrip().startswith("-- "):
            indent = " " * (len(line) - len(line.lstrip())) + "-- "
            yield from textwrap.wrap(line.lstrip()[3:], WIDTH, initial_indent=indent, subsequent_indent=indent, break_on_hyphens=False)
        elif use:
            yield from imports(*use.groups())
        elif " -- " in line:
            code, _, comment = line.partition(" -- ")
            yield " " * (len(line) - len(line.lstrip())) + "-- " + comment
            yield from broken(code.rstrip())
        else:
            yield from broken(line)


def tokens(text):
    """The tokens of a text but for imports and comments, whose lines may change."""
    lines = [re.sub(r"(^|\s)-- .*", "", it) for it in text.splitlines() if not re.match(r"\s*(pub |unfoldable )*use ", it)]
    return TOKEN.findall("\n".join(lines))


def main():
    words = [it for it in sys.argv[1:] if it != "--check"]
    long = 0
    for path in words or sorted(glob.glob(f"{TOP}/crates/*/*/**/*.antt", recursive=True)):
        if "/out/" in path:
            continue
        with open(path, encoding="utf-8") as file:
            text = file.read()
        new = text if "--check" in sys.argv else "\n".join(wrapped(text)) + "\n"
        assert tokens(new) == tokens(text), path
        if new != text:
            with open(path, "w", encoding="utf-8") as file:
                file.write(new)
        for number, line in enumerate(new.splitlines(), 1):
            if len(line) > WIDTH:
                long += 1
                print(f"{os.path.relpath(path, TOP)}:{number}: {len(line)} columns")
    print(f"{long} lines above {WIDTH} columns")
    sys.exit(1 if long else 0)


main()
