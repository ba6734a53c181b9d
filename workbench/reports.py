"""What is printed and left of verdicts: a table, JSON, TAP, and reports that can be pasted."""
import json
import os
import re
import subprocess
from collections import Counter

import verdicts
from elf import File


def heads(bench):
    """The linkers' names, with numbers where two are alike."""
    names = [it.name for it in bench.linkers]
    return [name if names.count(name) == 1 else f"{at + 1}-{name}" for at, name in enumerate(names)]


def place(row):
    """By what rows of several linkers are about the same sequence."""
    site = row.site
    where = (site.file, site.section, site.at, site.form) if site else ("", 0, 0, "le")
    return row.case.name, row.link.kind, row.link.relax, *where, row.function


def side_by_side(found):
    """The rows of all linkers by what they are about, in order."""
    rows = {}
    for number, told in enumerate(found):
        for row in told:
            rows.setdefault(place(row), {})[number] = row
    return rows


def lines_of(rows, count):
    """The lines of a table, one for all sequences of a case and image on which each linker's verdict is the same."""
    merged = {}
    for (case, kind, relax, *where), told in rows.items():
        words = tuple(told[at].verdict if at in told else "" for at in range(count))
        merged.setdefault((case, kind, relax, words), []).append((where, told))
    for (case, kind, relax, words), members in merged.items():
        forms = sorted({where[3] for where, _ in members})
        yield case, kind + ("" if relax else ", kept"), f"{len(members)} {' '.join(forms)}", words, members


def as_table(bench, found, with_all):
    """The verdicts side by side, why they are so, and how many there are of each."""
    names = heads(bench)
    rows = [("case", "image", "sequences", *names)]
    notes = []
    for case, kind, about, words, members in lines_of(side_by_side(found), len(names)):
        if with_all or any(it not in ("", verdicts.TABLE) for it in words):
            rows.append((case, kind, about, *words))
            for at, word in enumerate(words):
                if word in (verdicts.WRONG, verdicts.NO_ANSWER, verdicts.UNDECIDED):
                    notes.append(f"{names[at]}: {members[0][1][at].name()}: {word}: {members[0][1][at].why}")
    rows.append(("all", "", ""))
    counts = [Counter(row.verdict for row in told) for told in found]
    for verdict in verdicts.VERDICTS:
        if any(it[verdict] for it in counts):
            rows.append((verdict, "", "", *(str(it[verdict]) for it in counts)))
    widths = [max(len(row[at]) for row in rows if at < len(row)) for at in range(len(rows[0]))]
    table = ["  ".join(f"{cell:{width}}" for cell, width in zip(row, widths)).rstrip() for row in rows]
    return "\n".join(table + [""] * bool(notes) + notes)


def spelled(row):
    site = row.site
    told = {"case": row.case.name, "about": row.case.about, "kind": row.link.kind, "rewriting": row.link.relax,
        "function": row.function, "verdict": row.verdict, "why": row.why}
    if site:
        told |= {"object": site.file, "section": site.section, "offset": site.at, "form": site.form,
            "written": row.case.written(site).hex(), "found": row.found.hex()}
    return told


def as_json(bench, found):
    """All rows, linker by linker."""
    linkers = [{"command": it.command, "version": it.version(), "rows": [spelled(row) for row in rows]}
        for it, rows in zip(bench.linkers, found)]
    return json.dumps({"linkers": linkers}, indent=1)


def as_tap(bench, found):
    """The rows as the Test Anything Protocol has them: wrong is not ok, what was not decided is skipped."""
    lines, number = [f"TAP version 13\n1..{sum(map(len, found))}"], 0
    for name, rows in zip(heads(bench), found):
        for row in rows:
            number += 1
            good = row.verdict not in (verdicts.WRONG, verdicts.NO_ANSWER)
            word = {verdicts.UNDECIDED: "SKIP", verdicts.NO_ANSWER: "TODO"}.get(row.verdict)
            note = f" # {word} {row.why}" if word else ""
            about = f"{name}: {row.name()}: {row.verdict}".replace("#", "")
            lines.append(f"{'ok' if good else 'not ok'} {number} - {about}{note}" + (
                f"\n# {row.why}" if row.verdict == verdicts.WRONG else ""))
    return "\n".join(lines)


# ---- reports of one case

def instructions(path, *words):
    """The instructions of some code, as objdump has them."""
    told = subprocess.run(["objdump", "-d", "-w", *words, path], capture_output=True, text=True).stdout
    return re.findall(r"^ *([0-9a-f]+):\t((?:[0-9a-f]{2} )+) *\t?(.*)$", told, re.M)


def around(rows, start, end, more=2):
    """The instructions that reach into some bytes, with a few before and after."""
    inside = [at for at, (address, raw, _) in enumerate(rows)
        if int(address, 16) < end and int(address, 16) + len(raw.split()) > start]
    if not inside:
        return []
    return [f"    {address:>8}  {raw.strip():32} {text}" for address, raw, text in
        rows[max(0, inside[0] - more):inside[-1] + 1 + more]]


def site_report(row, room):
    """The text about one sequence: what stands in the object and in the image, and what a thread then reads."""
    site = row.site
    lines = [f"{row.name()}: {row.verdict}"] + ([f"  {row.why}"] if row.why else [])
    if not site:
        return lines
    lines += [f"  written: {row.case.written(site).hex()}", *around(instructions(f"{room}/{site.file}", "-j",
        row.case.files[site.file].sections[site.section].name), site.at, site.at + site.length)]
    if row.found:
        lines += [f"  found:   {row.found.hex()}"]
        reading = verdicts.Reading(row.case, File(f"{room}/out"))
        start = reading.begins[site.file, site.section] + site.at
        lines += listed(reading.image.at(start, site.length + 24), start, start + site.length, room)
    return lines


def listed(code, start, end, room):
    """The bytes of an image from a sequence on, as instructions."""
    path = f"{room}/code"
    with open(path, "wb") as file:
        file.write(code)
    rows = instructions(path, "-D", "-b", "binary", "-m", "i386:x86-64", f"--adjust-vma={start:#x}")
    os.remove(path)
    return around(rows, start, end, 1)


def leave(words, version, case, made, rows, room):
    """Writes a report into the folder in which a case was linked by these words."""
    said = made.why if made.outcome == "made" else ""
    lines = [it for it in (case.why or case.about, f"by {version}: {' '.join(words)}", said) if it]
    for row in rows:
        lines += ["", *site_report(row, room)]
    with open(f"{room}/report", "w", encoding="utf-8") as file:
        file.write("\n".join(lines) + "\n")
