#!/usr/bin/env python3
"""tables.py WHAT: prints what the workbench finds in four linkers of fixed versions, as made parts of docs/SEQUENCES
and wrong/.

    linkers        what each puts in the place of each form, in a program at a fixed address
    odd            what each makes of the sequences that stand in no row
    lawful         the lawful cases that one refuses, does not link, or links wrongly
    wrong CASE     the code of a case, what each linker that is wrong there writes, and what a thread then reads
    pages          writes wrong/, a page for each case that a linker links wrongly

Where a linker is missing, or another version, it ends with status 77.
"""
import argparse
import os
import re
import sys
import tempfile

HERE = os.path.dirname(os.path.abspath(__file__))
TOP = os.path.dirname(HERE)
sys.path.insert(0, f"{TOP}/docs")

import reports  # noqa: E402
import verdicts  # noqa: E402
from bench import Bench  # noqa: E402
from linkers import Linker  # noqa: E402
from sequences import FORMS, bindings, code, head, row, tidy  # noqa: E402

NOT_HERE = 77
LINKERS = {"ld": ("ld.bfd", "2.40"), "gold": ("ld.gold", "1.16"), "lld": ("ld.lld-19", "19.1.7"),
    "mold": ("mold", "1.10.1")}
PROGRAMS = ("static", "plain", "pie")
HEAD = """# Wrong answers

Each page is of a case that a linker links without an error, and whose threads then read something
else than their variables, or whose other bytes change: the code as it is in the object, as it is in
the program, and what a thread reads. `python3 workbench/tables.py pages` writes them.

| case | what stands there | wrong in |
|---|---|---|
"""


def command(program):
    return f"{program} {{kind}} {{relax}} -o {{out}} {{objects}}"


def headings():
    """The names of the linkers; where one is not there, or another version, nothing can be told."""
    for program, version in LINKERS.values():
        if version not in Linker(command(program), 10).version():
            print(f"{program} {version} is not here", file=sys.stderr)
            sys.exit(NOT_HERE)
    return [f"{name} {version}" for name, (_, version) in LINKERS.items()]


def all_four(room, names=()):
    """All four over some cases."""
    words = argparse.Namespace(commands=[command(it) for it, _ in LINKERS.values()], cases=f"{HERE}/cases",
        case=list(names), keep=False, seconds=10, jobs=os.cpu_count())
    return Bench(words, room)


def tried(names=()):
    """The rows of each linker over some cases."""
    with tempfile.TemporaryDirectory() as room:
        return all_four(room, names).rows()


def instructions(raw, room):
    """Some bytes as instructions, in one line."""
    with open(f"{room}/code", "wb") as file:
        file.write(raw)
    rows = reports.instructions(f"{room}/code", "-D", "-b", "binary", "-m", "i386:x86-64")
    return "; ".join(re.sub(r"\b(callw?) 0x[0-9a-f]+$", r"\1 ..", tidy(text)) for _, _, text in rows)


def all_cases():
    return sorted(os.listdir(f"{HERE}/cases"))


# ---- what linkers put in the place of each form

def of_form(rows, case, form):
    """The row of a case's first sequence of this form, in a program at a fixed address that is rewritten."""
    rewritten = [it for it in rows if it.case.name == case and it.link.kind == "plain" and it.link.relax]
    return next(it for it in rewritten if it.site.form == form)


def linkers():
    head("form", "its variable", "tlsld", *headings())
    cases = {(form, own): f"{form.split('-')[0] if form.startswith('desc') else form}-{'own' if own else 'lib'}"
        for form in FORMS for own, _ in bindings(form)}
    found, same = tried(set(cases.values())), []
    with tempfile.TemporaryDirectory() as room:
        for form in FORMS:
            for own, words in bindings(form):
                rows = [of_form(it, cases[form, own], form) for it in found]
                ours = instructions(rows[0].link.made[rows[0].case.sites.index(rows[0].site)][1], room)
                theirs = [instructions(it.found, room) for it in rows]
                if all(it == ours for it in theirs):
                    same.append(f"{code(form)} of {words} variable")
                else:
                    row(code(form), words, code(ours), *("the same" if it == ours else code(it) for it in theirs))
    print(f"\nAll write the same for {', '.join(same)}.\n")


# ---- odd forms

def word(row):
    """What a linker makes of one odd sequence."""
    if row.verdict == verdicts.NO_ANSWER:
        return row.why.split(":")[0]
    if row.verdict == verdicts.REFUSED:
        return "refuses"
    if row.verdict == verdicts.KEPT:
        return "keeps it"
    return "right" if row.verdict == verdicts.RIGHT else f"**{row.verdict}**: {summary(row.why)}"


def summary(why):
    """Why something is wrong, without numbers that change from run to run."""
    parts = []
    if "outside" in why:
        parts.append("bytes outside change")
    if "signal" in why:
        parts.append("a call crashes")
    if "reads" in why:
        parts.append("reads another place")
    if "lost" in why:
        parts.append(re.search(r"(\S+|the \w+ flag) is lost", why)[0])
    return ", ".join(parts)


def odd_cell(rows):
    """What a linker makes of an odd sequence in programs, and in a module if it does not keep it there."""
    words = {it.link.kind: word(it) for it in rows}
    programs = [words[it] for it in PROGRAMS if it in words]
    cell = programs[0] if len(set(programs)) == 1 else "; ".join(f"{it}: {words[it]}" for it in PROGRAMS if it in words)
    shared = words.get("shared", "keeps it")
    return cell if programs and shared == "keeps it" else f"{cell}; in a module: {shared}" if programs else shared


def odd():
    head("what stands there", "instructions", "tlsld", *headings())
    names = [it for it in all_cases() if it.startswith("odd-")]
    found = tried(names)
    with tempfile.TemporaryDirectory() as room:
        for name in names:
            rows = [[it for it in told if it.case.name == name] for told in found]
            case, site = rows[0][0].case, rows[0][0].site
            refusal = next(it.refused for it in case.links).split()
            kind = refusal[-1] if refusal[0] == "object" else refusal[2]
            row(case.why, code(instructions(case.written(site), room)), code(kind), *(odd_cell(it) for it in rows))
    print()


# ---- lawful cases

def lawful():
    """Of each lawful case where a linker gives no right answer: what it does, and how many sequences it does so at."""
    names = headings()
    head("case", *names)
    found = tried([it for it in all_cases() if not it.startswith("odd-")])
    right = (verdicts.TABLE, verdicts.RIGHT, verdicts.KEPT)
    cells = {}
    for at, told in enumerate(found):
        for it in told:
            name = "random ones" if it.case.name.startswith("random") else it.case.about
            if it.verdict not in right:
                cells.setdefault(name, [{} for _ in found])[at].setdefault(it.link.kind, set()).add(told_word(it))
    for name, told in cells.items():
        row(name, *(spelled(it) for it in told))
    print()


def told_word(it):
    if it.verdict == verdicts.WRONG:
        return "**wrong**"
    return "refuses" if it.verdict == verdicts.REFUSED else it.why.split(":")[0]


def spelled(kinds):
    """A cell: what a linker does, by the kinds of image in which it does so."""
    by_word = {}
    for kind, words in kinds.items():
        by_word.setdefault(", ".join(sorted(words)), []).append(kind)
    return "; ".join(f"{words} ({', '.join(kinds)})" for words, kinds in by_word.items()) or "right"


# ---- pages of wrong answers

def wrong(name):
    """The report of each linker's first wrong sequence in a case."""
    names = headings()
    print("\n```text")
    with tempfile.TemporaryDirectory() as room:
        tests = all_four(room, [name])
        tests.words.keep = True
        for case in tests.cases:
            case.links = case.links[:1]
        for title, rows in zip(names, tests.rows()):
            bad = [it for it in rows if it.verdict == verdicts.WRONG]
            if bad:
                number = list(LINKERS.values())[names.index(title)][0]
                at = next(f"{path}" for path, _, files in sorted(os.walk(room)) if "report" in files and number in path
                    and path.endswith(f"{bad[0].link.kind}-{'rewritten' if bad[0].link.relax else 'kept'}"))
                print("\n".join([title, *reports.site_report(bad[0], at)]))
    print("```\n")


def pages():
    """Writes a page for each case that a linker links wrongly."""
    names = headings()
    found = [(name, it) for name, rows in zip(names, tried()) for it in rows if it.verdict == verdicts.WRONG]
    told = {it.case.name: it.case for _, it in found}
    by = {case: sorted({name for name, it in found if it.case.name == case}) for case in told}
    os.makedirs(f"{HERE}/wrong", exist_ok=True)
    for name, case in sorted(told.items()):
        about = case.why or case.about
        with open(f"{HERE}/wrong/{name}.md", "w", encoding="utf-8") as file:
            file.write(f"# {name}\n\n{about[0].upper()}{about[1:]}.\n\n"
                f"<!-- made by python3 workbench/tables.py wrong {name} -->\n<!-- end -->\n")
    with open(f"{HERE}/wrong/README.md", "w", encoding="utf-8") as file:
        file.write(HEAD + "".join(f"| [{name}]({name}.md) | {case.why or case.about} | {', '.join(by[name])} |\n"
            for name, case in sorted(told.items())))
    print(f"{len(told)} pages")


def main():
    tables = {"linkers": linkers, "odd": odd, "lawful": lawful, "wrong": wrong, "pages": pages}
    if len(sys.argv) < 2 or sys.argv[1] not in tables:
        sys.exit(__doc__)
    tables[sys.argv[1]](*sys.argv[2:])


main()
