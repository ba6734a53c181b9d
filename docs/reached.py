#!/usr/bin/env python3
"""reached.py [CRATE/FILE] [--files | --crates | --names]: what the contracts of the top calls reach, definition by definition.

It begins with the contracts of `tlsld` and `tlsld_plain` and the traits that they bound, or with all of a file of definitions,
and follows each name. A definition counts with its comment, and so does the head of a module with parameters; headings, imports
and blanks are apart. Which kind a file is of, docs/DEFINITIONS.md says: tables and faults are those that it lists under these
headings. Types are the structs, enums and constants that definitions take from code. Lines that are not reached are those of
definitions and headings in a file that has something reached, or that such a file imports, or one that is imported so.

--files: a line for each file of definitions, with its name if only one is reached. --crates: a line for each crate.
--names: of that file, or of all files, each definition that is not reached.
"""
import argparse
import functools
import os
import re
import signal
import sys

from definitions import TOP, imported, module_at, named_by, read, rust_files, rust_named

TOLD = ("tables", "definitions", "faults")
KINDS = ("contracts", *TOLD, "types in code")
SECTIONS = {"Tables": "tables", "Faults": "faults"}
TRAITS = ("Store", "Sink")
COMMANDS = ("Run", "Race", "Check", "Link", "Sites", "Show", "Gen")
HELD = "HoldsTheTable"
MEANT = "commands/Checks"


@functools.cache
def listed():
    """The kind of each file that the page of definitions lists."""
    found = {}
    for section in re.split(r"^## ", read(f"{TOP}/docs/DEFINITIONS.md"), flags=re.M)[1:]:
        kind = SECTIONS.get(section.split("\n")[0], "definitions")
        for row in re.findall(r"^\| (`.*?) \|", section, re.M):
            crate = None
            for name in re.findall(r"`([^`]+)`", row):
                crate = name.split("/")[0] if "/" in name else crate
                found.setdefault(f"{crate}/{name.split('/')[-1]}", kind)
    return found


def kind_of(item):
    """The kind of an item."""
    if item.kind in ("contract", "type", "heading"):
        return {"contract": "contracts", "type": "types in code", "heading": "headings"}[item.kind]
    return listed().get(str(item.file), "definitions")


def top_calls():
    """The contracts of the two top calls, and the traits that they bound."""
    calls = rust_files("commands")["top"].made
    return [*calls["tlsld"], *calls["tlsld_plain"], *(it for name in TRAITS for it in rust_named("ports", name))]


def file_named(name):
    """The file of definitions `CRATE/FILE`."""
    crate, _, file = name.partition("/")
    return module_at(crate, file.replace("/", ".")) or sys.exit(f"{name} is not a file of definitions")


def command_of(item, part):
    """The command that a clause is for, if its patterns name one."""
    patterns = re.split(r"\s=\s", part)[0]
    uses = {it for it in COMMANDS if it in item.file.uses and item.file.uses[it][0] == "command_line"}
    return next((it for it in uses if re.search(rf"\({it}\b", patterns)), None)


@functools.cache
def next_to(item):
    """What each part of an item names, with the command that the part is for."""
    return [(command_of(item, part) if at else None, named_by(item, part, at)) for at, part in enumerate(item.parts)]


def reached(begun, without=None):
    """All that is reached from these items; `without` a definition, or the clauses for a command."""
    found, left = set(), list(begun)
    while left:
        item = left.pop()
        if item not in found and item.name != without:
            found.add(item)
            left += item.above
            left += [it for command, items in next_to(item) if not command or command != without for it in items]
    return found


def lines(items):
    """How many lines items have."""
    return sum(it.lines for it in items)


def files_of(items):
    """The files of definitions in which items stand, each with its items."""
    found = {}
    for it in items:
        if it.kind not in ("contract", "type"):
            found.setdefault(it.file, []).append(it)
    return found


def unreached(items):
    """How many lines are not reached of each file of these items, and of each that these import."""
    own = files_of(items)
    return {file: lines(set(file.items) - set(own.get(file, []))) for file in imported(own)}


def of_kind(items, kind):
    """In how many files there are items of a kind, and how many lines they have."""
    own = [it for it in items if kind_of(it) == kind]
    return f"{kind}: {len({it.file for it in own})} files, {lines(own):,} lines"


def alone(begun, items):
    """What only one command needs, what every job's meaning, and what only the law of the images' rewritten forms."""
    only = {it: f"{lines(items - reached(begun, it)):,}" for it in (*COMMANDS, HELD)}
    yield "one command's alone: " + ", ".join(f"{it.lower()} {only[it]}" for it in COMMANDS)
    meant = reached(file_named(MEANT).items)
    yield f"what a job means: {lines(it for it in meant if it in items):,}; what images hold, alone: {only[HELD]}"


def summary(begun, from_top):
    """How much is reached, kind by kind, and what is apart."""
    items = reached(begun)
    told, files, left = {it for it in items if kind_of(it) in TOLD}, files_of(items), unreached(items)
    yield from (of_kind(items, kind) for kind in KINDS if from_top or kind != "contracts")
    yield f"tables, definitions, faults: {len(files)} files of {len({it.crate for it in files})} crates, {lines(told):,} lines"
    headings = lines(it for it in items if it.kind == "heading")
    imports, blanks = sum(it.imports for it in files), sum(it.blanks for it in files)
    yield f"apart: headings {headings:,}, imports {imports:,}, blanks {blanks:,}"
    others = [count for file, count in left.items() if file not in files]
    yield f"not reached: {sum(left.values()):,}, of them {sum(others):,} in {len(others)} whole files"
    yield from alone(begun, told) if from_top else ()


def by_file(begun):
    """A line for each file of definitions."""
    items = reached(begun)
    files = files_of(items)
    for file, count in sorted(unreached(items).items(), key=lambda it: (-it[1], str(it[0]))):
        own = files.get(file, [])
        names = [it.name for it in own if it.kind == "definition"]
        told = names[0] if len(names) == 1 else f"{len(names)} names"
        yield f"{file} ({listed().get(str(file), 'definitions')}): {lines(own)} lines reached, {count} not; {told}"


def by_crate(begun):
    """A line for each crate."""
    items = reached(begun)
    left = unreached(items)
    for crate in sorted({it.file.crate for it in items} | {it.crate for it in left}):
        kinds = {kind: lines(it for it in items if it.file.crate == crate and kind_of(it) == kind) for kind in KINDS}
        told = ", ".join(f"{kind} {count:,}" for kind, count in kinds.items() if count) or "nothing"
        yield f"{crate}: {told}; not reached {sum(count for file, count in left.items() if file.crate == crate):,}"


def left_out(items, file):
    """A line for each definition of a file that is not reached."""
    yield from (f"{file}: {it.lines} lines, {it.name}" for it in file.items if it not in items and it.kind == "definition")


def told_by(words):
    """The lines that are asked for."""
    if words.names:
        items = reached(top_calls())
        files = [file_named(words.file)] if words.file else sorted(unreached(items), key=str)
        return (line for file in files for line in left_out(items, file))
    begun = file_named(words.file).items if words.file else top_calls()
    if words.files or words.crates:
        return by_file(begun) if words.files else by_crate(begun)
    return summary(begun, not words.file)


def main():
    signal.signal(signal.SIGPIPE, signal.SIG_DFL)
    reader = argparse.ArgumentParser(description=__doc__, formatter_class=argparse.RawDescriptionHelpFormatter)
    reader.add_argument("file", nargs="?")
    for it in ("--files", "--crates", "--names"):
        reader.add_argument(it, action="store_true")
    print("\n".join(told_by(reader.parse_args())))


if __name__ == "__main__":
    main()
