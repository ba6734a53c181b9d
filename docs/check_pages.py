#!/usr/bin/env python3
"""check_pages.py: says what is wrong with the documents' text: links that lead nowhere, names that are not there, long lines,
numbers of reached.py that differ from what it prints.

A name is what stands between backticks and is one word, or words joined by `::`, `.` or `/`: each word must stand in the sources,
the scripts or the examples of the repository, or be a path there. Files of definitions in tables of DEFINITIONS and TRUST are there. Lines have at most 100 columns but rows of tables, lines with a
link, and parts that are made. README names each crate in at most 180 lines; the pages in docs/ have at most
25,000 words in all, but for parts that are made.
"""
import glob
import os
import re
import subprocess
import sys

TOP = os.path.dirname(os.path.dirname(os.path.abspath(__file__)))
PAGES = [f"{TOP}/README.md", *sorted(glob.glob(f"{TOP}/docs/*.md"))]
EXAMPLES = [*sorted(glob.glob(f"{TOP}/examples/**/README.md", recursive=True)), f"{TOP}/workbench/README.md",
    *sorted(glob.glob(f"{TOP}/workbench/wrong/*.md"))]
NAMED = ("README", "PROVED", "DEFINITIONS", "ARCHITECTURE", "TRUST", "ROBUSTNESS", "DECISIONS")
FENCE = re.compile(r"^```.*?^```$", re.M | re.S)
MADE = re.compile(r"^<!-- made by .*?^<!-- end -->$", re.M | re.S)
WORD = re.compile(r"[A-Za-z_][A-Za-z0-9_]*")


def read(path):
    with open(path, encoding="utf-8", errors="replace") as file:
        return file.read()


def known_words():
    """All words of the sources, scripts and examples, and the names of files and folders."""
    words = set()
    for pattern in ("crates/*/*/**/*.rt", "crates/*/*/**/*.antt", "tests/*", "examples/*/*", "docs/*.py", "workbench/*.py", "crates.txt"):
        for path in glob.glob(f"{TOP}/{pattern}", recursive=True):
            if os.path.isfile(path) and not path.endswith((".o", ".md")) and "/out/" not in path:
                words.update(WORD.findall(read(path)))
    for at, folders, files in os.walk(TOP):
        if ".git" not in at and "/out" not in at:
            words.update(it for name in folders + files for it in WORD.findall(name))
    return words


def anchors(text):
    """The anchors of a page's headings, as they are linked to."""
    titles = re.findall(r"^#+ (.+)$", FENCE.sub("", text), re.M)
    return {re.sub(r"[^a-z0-9 _-]", "", it.lower()).replace(" ", "-") for it in titles}


def bad_links(path, text):
    for target in re.findall(r"\]\(([^)\s]+)\)", FENCE.sub("", text)):
        if target.startswith("http"):
            continue
        file, _, anchor = target.partition("#")
        at = os.path.normpath(os.path.join(os.path.dirname(path), file)) if file else path
        if not os.path.exists(at):
            yield f"no file behind {target}"
        elif anchor and anchor not in anchors(read(at)):
            yield f"no heading behind {target}"


def bad_names(path, text, words):
    if path not in PAGES or not any(it in os.path.basename(path) for it in NAMED):
        return
    for name in sorted(set(re.findall(r"`([A-Za-z_][\w:./]*\w)`", FENCE.sub("", text)))):
        for word in WORD.findall(name):
            if word not in words:
                yield f"{name} is nowhere"
                break


def lost_files(path, text):
    """The files of definitions that a table names in its first column and that are not there: `crate/File`, or `File` after it."""
    if path not in PAGES or not any(it in os.path.basename(path) for it in ("DEFINITIONS", "TRUST")):
        return
    for row in re.findall(r"^\| (`[^|]*) \|", text, re.M):
        crate = ""
        for name in re.findall(r"`([\w/]+)`", row):
            before, _, file = name.rpartition("/")
            crate = before.removesuffix("/specs") or crate
            if os.path.isdir(f"{TOP}/crates/{crate}/specs") and file[0].isupper() and not os.path.isfile(f"{TOP}/crates/{crate}/specs/{file}.antt"):
                yield f"{crate}/specs/{file}.antt is not there"


def old_numbers(text):
    """The calls of reached.py that are shown with other numbers than they print."""
    for call, shown in re.findall(r"^\$ (python3 docs/reached\.py.*?)(?: +#.*)?\n((?:(?!\$ |```).*\n)*)", text, re.M):
        if shown != subprocess.run(call, shell=True, cwd=TOP, capture_output=True, text=True).stdout:
            yield f"{call} prints other numbers"


def old_rows():
    """What reading.py says is not in step in DEFINITIONS."""
    told = subprocess.run(["python3", "docs/reading.py", "--check"], cwd=TOP, capture_output=True, text=True).stdout.splitlines()
    return [it for it in told if it != "in step"]


def long_lines(text):
    made = False
    for number, line in enumerate(text.splitlines(), 1):
        made = line.startswith("<!-- made") or (made and line != "<!-- end -->")
        if len(line) > 100 and not made and not line.startswith("|") and "](" not in line:
            yield f"line {number} has {len(line)} columns"


def unnamed_crates(text):
    """The crates that README does not name."""
    names = re.findall(r"^(\w+)[^#\n]*:", read(f"{TOP}/crates.txt"), re.M)
    return [f"{it} is not named" for it in names if f"`{it}`" not in text]


def main():
    words, wrong, count = known_words(), 0, 0
    for path in [*PAGES, *EXAMPLES]:
        text = read(path)
        told = [*bad_links(path, text), *bad_names(path, text, words), *lost_files(path, text), *old_numbers(text)]
        told += long_lines(text) if path in PAGES else []
        if path == PAGES[0]:
            told += unnamed_crates(text) + ([f"{len(text.splitlines())} lines"] if len(text.splitlines()) > 180 else [])
        told += old_rows() if path.endswith("DEFINITIONS.md") else []
        count += len(MADE.sub("", text).split()) if path in PAGES[1:] else 0
        wrong += len(told)
        for it in told:
            print(f"{os.path.relpath(path, TOP)}: {it}")
    print(f"{count:,} words in docs/, {len(PAGES) + len(EXAMPLES)} pages, {wrong} things to mend")
    sys.exit(1 if wrong or count > 25000 else 0)


main()
