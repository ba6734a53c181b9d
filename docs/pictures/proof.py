#!/usr/bin/env python3
"""proof.py [--check]: draws how what a job prints is tied to what its objects mean (proof.svg).

Boxes are what there is of a job, and beside each arrow stand the calls and laws whose clauses tie its ends: public functions,
each behind its crate's name. With --check it says whether each of these is there, and whether the picture is what it would draw.
"""
import glob
import os
import re
import sys

HERE = os.path.dirname(os.path.abspath(__file__))
TOP = os.path.dirname(os.path.dirname(HERE))
WIDE, HIGH = 1240, 500
MONO = 'font-family="DejaVu Sans Mono, monospace"'

# The boxes: place and size, colours, name, and what is in them.
BOXES = [
    (20, 60, 250, 86, "#dceafc", "#2f6db5", "objects",
        ["sections, symbols, relocations, sequences", "of instructions that reach thread-local data"]),
    (620, 60, 250, 86, "#e3f4f1", "#20807a", "meaning",
        ["a sequence is one step, values are marked;", "no table, no stub, no rewritten byte"]),
    (20, 380, 250, 86, "#def3e0", "#2e8540", "images",
        ["sections with their fields, table and stub;", "sequences rewritten, or kept"]),
    (620, 380, 250, 86, "#ffe6d2", "#c0651a", "machine",
        ["instances as a loader leaves them; threads", "take turns, with a run time to ask"]),
    (1060, 220, 160, 86, "#fff3c4", "#b58900", "printed lines", ["thread by thread, with", "points, and all events"]),
]

# The arrows: where they lead, and whether both ways.
ARROWS = [
    ("M270 103 H612", False), ("M50 146 V372", False), ("M270 423 H612", False), ("M650 154 V372", True),
    ("M870 423 H1190 V314", False), ("M870 103 H1190 V212", False),
]

# What stands beside the arrows, from a place downwards: plain words, and the function whose clause says it.
WORDS = [
    (286, 78, [("what is meant: definitions, whole_meaning", None)]),
    (286, 94, [("clean or not: just what check prints", None)]),
    (286, 122, [(None, "job_check::check_job")]),
    (66, 184, [
        ("the image of the objects, or the first fault", "link_core::link"),
        ("each byte of a section, as it is meant", "link_core::bytes_are_meant"),
        ("a rewritten form exactly where the table says", "standing_sequences::linked_images_hold_the_table")]),
    (286, 382, [("the written bytes are read as that very image", None)]),
    (286, 398, [(None, "image_writer::into_file")]),
    (286, 442, [("linked together, they can be loaded together", "linked_modules::linked_images_are_modules")]),
    (666, 184, [
        ("all that is loaded is tied to all that is meant", "linked_jobs::links_are_tied"),
        ("steps, looks and calls stay alike", "call_alike::calls_stay_alike"),
        ("one meaning, rewritten or kept", "meaning_laws::meaning_knows_no_setting")]),
    (886, 78, [("where the job is clean", "linked_jobs::linked_jobs_print")]),
    (886, 122, [("where a thread is, and none share data", "linked_jobs::transcripts_tell_their_threads")]),
    (886, 442, [("whatever the job", "job_turns::run_job")]),
]


def text(x, y, words, size=11, anchor="start", colour="#333", style=""):
    return f'<text x="{x}" y="{y}" font-size="{size}" text-anchor="{anchor}" fill="{colour}" {style}>{words}</text>'


def box(x, y, wide, high, fill, edge, name, inside):
    drawn = [f'<rect x="{x}" y="{y}" width="{wide}" height="{high}" rx="6" fill="{fill}" stroke="{edge}"/>',
        text(x + wide / 2, y + 25, name, 15, "middle", "#222", 'font-weight="bold"')]
    return drawn + [text(x + wide / 2, y + 46 + 16 * row, it, 10.5, "middle") for row, it in enumerate(inside)]


def arrow(path, both):
    start = ' marker-start="url(#head)"' if both else ""
    return f'<path d="{path}" fill="none" stroke="#666" stroke-width="1.4" marker-end="url(#head)"{start}/>'


def words(x, y, said):
    drawn = []
    for plain, function in said:
        if plain:
            drawn.append(text(x, y, plain))
            y += 16
        if function:
            drawn.append(text(x, y, function, 10.5, colour="#1d4f91", style=MONO))
            y += 30
    return drawn


def public_functions(crate):
    """The names of a crate's public functions."""
    found = set()
    for path in glob.glob(f"{TOP}/crates/{crate}/src/**/*.rt", recursive=True):
        with open(path, encoding="utf-8") as file:
            found |= set(re.findall(r"^pub fn (\w+)", file.read(), re.M))
    return found


def missing():
    """The functions of the picture that their crates do not have."""
    names = [function for _, _, said in WORDS for _, function in said if function]
    return [it for it in names if it.split("::")[1] not in public_functions(it.split("::")[0])]


def picture():
    head = '<defs><marker id="head" viewBox="0 0 10 10" refX="9" refY="5" markerWidth="8" markerHeight="8" ' \
        'orient="auto-start-reverse"><path d="M0 0 L10 5 L0 10 z" fill="#666"/></marker></defs>'
    return "\n".join([
        f'<svg xmlns="http://www.w3.org/2000/svg" viewBox="0 0 {WIDE} {HIGH}" font-family="DejaVu Sans, Verdana, sans-serif">',
        "<title>How what a job prints is tied to what its objects mean</title>", head,
        f'<rect width="{WIDE}" height="{HIGH}" fill="#fff"/>',
        text(20, 28, "How what a job prints is tied to what its objects mean", 16, colour="#222", style='font-weight="bold"'),
        text(20, 46, "Below each sentence stands the function whose clause says it, behind its crate's name.", colour="#666"),
        *[arrow(*it) for it in ARROWS], *[it for shape in BOXES for it in box(*shape)],
        *[it for said in WORDS for it in words(*said)], "</svg>", ""])


def main():
    drawn, path, absent = picture(), f"{HERE}/proof.svg", missing()
    if absent:
        print(f"proof.svg names what is not there: {', '.join(absent)}")
    if "--check" in sys.argv:
        same = os.path.exists(path) and open(path, encoding="utf-8").read() == drawn
        if not same:
            print("proof.svg is not what would be drawn: run docs/pictures/proof.py")
        elif not absent:
            print("proof.svg is in step, and each function that it names is there")
        sys.exit(0 if same and not absent else 1)
    with open(path, "w", encoding="utf-8") as file:
        file.write(drawn)
    sys.exit(1 if absent else 0)


main()
