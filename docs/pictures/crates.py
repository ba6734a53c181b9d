#!/usr/bin/env python3
"""crates.py [--check]: draws the crates by layers, as crates.txt lists them, into crates.svg, and lays crates.txt out by these
layers, the highest first; or says whether both are in step.

A crate stands one layer above the highest of those that it uses. A line leads down to each crate that it uses, but for those
that it reaches over another one. Crates of tests, and programs that measure or list, stand in rows of their own, without lines.
"""
import os
import re
import sys

HERE = os.path.dirname(os.path.abspath(__file__))
TOP = os.path.dirname(os.path.dirname(HERE))

# The areas: a name, the colours of its boxes, and the crates.
AREAS = [
    ("commands, and the outside", "#fff3c4", "#b58900", r"tlsld|commands|command_.*|terminal_notes|ports|file_bytes|job_text|generated_job|run_summary"),
    ("check: what objects mean", "#e3f4f1", "#20807a", r"marked_(bytes|memory)|memory_image|meant_.*|job_check"),
    ("definitions and laws, no code", "#f9e4e4", "#a05050",
        r"thread_blocks|job_meaning|whole_meaning|linked_modules|relocated_parts|loaded_(bytes|words|names)|closed_.*|linked_jobs"
        r"|standing_sequences"
        r"|lawful_points|refuted_definitions|shared_data|known_instances|tied_.*|marked_code|site_steps|(held|begin|call)_alike|.*_laws"),
    ("the run time", "#ece4f7", "#6c4ab0",
        r"module_.*|loaded_modules|thread_.*|job_turns|job_race|racing_thread|shared_modules|transcript_text|image_names"),
    ("the machine", "#ffe6d2", "#c0651a", r"amd64_.*|guest_.*"),
    ("objects and images: files", "#dceafc", "#2f6db5", r"elf_.*|object_(rules|faults)|image_.*"),
    ("linking", "#def3e0", "#2e8540", r"(link|tls|relax|sequence|got|site)_.*|placed_sections|dynamic_symbols|job_link"),
    ("others", "#f4f4f4", "#777777", r".*"),
]
BESIDE = re.compile(r".*_(tests|benchmark|listing|fuzz|runs|trials)|object_builder|(input|job)_changes")

HEAD = "# NAME: the crates that it stands on, of this repository or of the kit\n"

WIDTH, ROW, BOX, GAP, MARGIN, LETTER = 1240, 74, 26, 12, 20, 6.7


def read_crates():
    """Each crate of the repository with its line, and with those of the repository that it uses."""
    lines = {}
    with open(f"{TOP}/crates.txt", encoding="utf-8") as file:
        for line in file:
            if line.strip() and not line.startswith("#"):
                lines[line.split(":")[0].split()[0]] = line
    lines = dict(sorted(lines.items()))
    return lines, {name: [it for it in line.split(":", 1)[1].split() if it in lines] for name, line in lines.items()}


def list_by_layers(lines, uses):
    """The text of crates.txt: its lines by layers, each with a comment."""
    text = [HEAD]
    rows = [[name for name in row if not BESIDE.fullmatch(name)] for row in layers_of(uses)]
    for number, row in reversed([*enumerate(rows, 1)]):
        text += [f"\n# layer {number}\n" if row else "", *(lines[name] for name in row)]
    text += ["\n# beside them: tests, what tests are made of, lists, runs of commands, benchmarks\n"]
    text += [lines[name] for name in lines if BESIDE.fullmatch(name)]
    return "".join(text)


def reached(uses):
    """All crates below each crate."""
    below = {}

    def visit(name):
        if name not in below:
            below[name] = set()
            for it in uses[name]:
                below[name] |= {it} | visit(it)
        return below[name]

    for name in uses:
        visit(name)
    return below


def layers_of(uses):
    """The crates by layers, the lowest first."""
    height = {}

    def visit(name):
        if name not in height:
            height[name] = 1 + max(map(visit, uses[name]), default=0)
        return height[name]

    rows = [[] for _ in range(max(map(visit, uses)))]
    for name in uses:
        rows[height[name] - 1].append(name)
    return rows


def width_of(name):
    return LETTER * len(name) + 14


def apart(row, wanted):
    """Places for the boxes of a row, in the order of where they would like to stand, with gaps between them."""
    row = sorted(row, key=lambda name: wanted[name])
    groups = []
    for name in row:
        size = width_of(name) + GAP
        groups.append([wanted[name] - size / 2, size, [name]])
        while len(groups) > 1 and groups[-2][0] + groups[-2][1] > groups[-1][0]:
            at, size, names = groups.pop()
            before = groups[-1]
            share = before[1] / (before[1] + size)
            before[0] = share * before[0] + (1 - share) * (at - before[1])
            before[1] += size
            before[2] += names
    places = {}
    for at, size, names in groups:
        at = min(max(at, MARGIN), WIDTH - MARGIN - size)
        for name in names:
            places[name] = at + (width_of(name) + GAP) / 2
            at += width_of(name) + GAP
    return spread(row, places)


def spread(row, places):
    """The same places, moved so that no two boxes overlap and all stand in the picture."""
    least = MARGIN
    for name in row:
        places[name] = max(places[name], least + width_of(name) / 2)
        least = places[name] + width_of(name) / 2 + GAP
    most = WIDTH - MARGIN
    for name in reversed(row):
        places[name] = min(places[name], most - width_of(name) / 2)
        most = places[name] - width_of(name) / 2 - GAP
    return places


def places_of(rows, lines):
    """Where each box stands, from left to right: near the crates that it is joined to."""
    near = {name: [] for row in rows for name in row}
    for upper, lower in lines:
        near[upper].append(lower)
        near[lower].append(upper)
    area = {name: area_of(name) for name in near}
    at = {}
    for row in rows:
        for number, name in enumerate(sorted(row, key=lambda name: (area[name], name))):
            at[name] = WIDTH * (number + 0.5) / len(row)
    for turn in range(60):
        for row in rows if turn % 2 else rows[::-1]:
            wanted = {name: sum(at[it] for it in near[name]) / len(near[name]) if near[name] else at[name] for name in row}
            at.update(apart(row, wanted))
    return at


def area_of(name):
    return next(number for number, area in enumerate(AREAS) if re.fullmatch(area[3], name))


def box(name, x, y, uses):
    _, fill, edge, _ = AREAS[area_of(name)]
    wide = width_of(name)
    told = f"{name} uses {', '.join(uses[name])}" if uses[name] else f"{name} uses no other crate of the repository"
    return (f'<g><title>{told}</title><rect x="{x - wide / 2:.1f}" y="{y - BOX / 2:.1f}" width="{wide:.1f}" height="{BOX}" rx="5" '
            f'fill="{fill}" stroke="{edge}"/><text x="{x:.1f}" y="{y + 4:.1f}" text-anchor="middle">{name}</text></g>')


def line(upper, lower, at, height):
    (x, y), (u, v) = (at[upper], height[upper] + BOX / 2), (at[lower], height[lower] - BOX / 2)
    middle = (y + v) / 2
    edge = AREAS[area_of(lower)][2]
    return f'<path d="M{x:.1f} {y:.1f} C{x:.1f} {middle:.1f} {u:.1f} {middle:.1f} {u:.1f} {v:.1f}" stroke="{edge}"/>'


def beside(names, y):
    """The crates that stand in rows of their own."""
    drawn, x = [], MARGIN
    for name in sorted(names):
        wide = width_of(name) - 6
        if x + wide > WIDTH - MARGIN:
            x, y = MARGIN, y + 26
        drawn.append(f'<rect x="{x:.1f}" y="{y - 11}" width="{wide:.1f}" height="20" rx="4" fill="#f4f4f4" stroke="#aaa"/>'
                     f'<text x="{x + wide / 2:.1f}" y="{y + 3}" text-anchor="middle" fill="#555">{name}</text>')
        x += wide + 8
    return drawn, y


def key(names, y):
    """The areas that these crates are of, with their colours."""
    drawn, x = [], MARGIN
    for name, fill, edge, _ in [AREAS[it] for it in sorted({area_of(name) for name in names})]:
        drawn.append(f'<rect x="{x}" y="{y - 10}" width="14" height="14" rx="3" fill="{fill}" stroke="{edge}"/>'
                     f'<text x="{x + 20}" y="{y + 2}">{name}</text>')
        x += 34 + 6.2 * len(name)
    return drawn


def picture(uses):
    below = reached(uses)
    shown = [name for name in uses if not BESIDE.fullmatch(name)]
    rows = [row for row in ([name for name in row if name in shown] for row in layers_of(uses)) if row]
    lines = [(name, it) for name in shown for it in uses[name]
             if it in shown and not any(it in below[other] for other in uses[name])]
    at = places_of(rows, lines)
    height = {name: MARGIN + 44 + ROW * (len(rows) - 1 - number) + BOX / 2 for number, row in enumerate(rows) for name in row}
    foot = MARGIN + 44 + ROW * len(rows)
    small, end = beside([name for name in uses if name not in shown], foot + 24)
    parts = [
        f'<svg xmlns="http://www.w3.org/2000/svg" viewBox="0 0 {WIDTH} {end + 24}" '
        'font-family="DejaVu Sans, Verdana, sans-serif" font-size="11">',
        "<title>The crates of tlsld by layers</title>",
        f'<rect width="{WIDTH}" height="{end + 24}" fill="#fff"/>',
        *key(shown, MARGIN + 10),
        '<g fill="none" stroke-width="1.1" stroke-opacity="0.45">', *[line(*it, at, height) for it in lines], "</g>",
        *[box(name, at[name], height[name], uses) for row in rows for name in row],
        f'<text x="{MARGIN}" y="{foot}" fill="#555">Beside them: crates of tests, what tests are made of, and programs that '
        'list, change, run commands or measure.</text>',
        '<g font-size="9.5">', *small, "</g>", "</svg>", "",
    ]
    return "\n".join(parts)


def main():
    lines, uses = read_crates()
    made = {f"{HERE}/crates.svg": picture(uses), f"{TOP}/crates.txt": list_by_layers(lines, uses)}
    if sys.argv[1:] == ["--check"]:
        same = all(os.path.exists(path) and open(path, encoding="utf-8").read() == text for path, text in made.items())
        print("crates.svg is in step with crates.txt" if same
              else "crates.svg or the layers of crates.txt are not what crates.txt gives: run docs/pictures/crates.py")
        sys.exit(0 if same else 1)
    for path, text in made.items():
        with open(path, "w", encoding="utf-8") as file:
            file.write(text)


main()
