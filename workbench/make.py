#!/usr/bin/env python3
"""make.py [--check] [--seed N --count N --into FOLDER]: makes the corpus, workbench/cases, or says whether it is in
step.

Each case is a folder with an object or two, and the file `expected`. The objects are written here, byte by byte
(functions.py, lawful.py, odd.py, random_cases.py); what is expected is what the built `tlsld` says of them: which bytes
it puts in the place of each sequence, and what each function returns. A lawful case is one that `tlsld check` calls
clean. An odd case is refused; what it should return is said of its twin, which does the same by a form of the table.

With --seed and --count it makes as many random cases of that seed into a folder, for `try.py --cases FOLDER`.
"""
import argparse
import filecmp
import json
import os
import shutil
import sys
import tempfile
from concurrent.futures import ThreadPoolExecutor

import lawful
import odd
import random_cases
from plans import TOP, CasePlan
from tlsld import BUILT, Linker, Refused

CASES = f"{TOP}/workbench/cases"
SEED, COUNT, MOST = 1, 200, 4 * 2 ** 20


def called(objects):
    """The names of the functions f0, f1 and so on."""
    names = [name for plan in objects.values() for name in plan.functions() if name.startswith("f")]
    return sorted(names, key=lambda name: int(name[1:]))


def places(case, image, starts, sites):
    """The bytes in the place of each sequence, and where they stand in the image's file."""
    for file, section, at, length, _, _ in sites:
        name, begins = case.objects[file].anchor(section)
        found = starts[name] - begins + at
        yield image[found:found + length].hex(), found


def sites_of(case):
    return [[file, *site] for file, plan in case.objects.items() for site in plan.sites()]


def linked(case, linker, kind, relax, names, sites):
    """What is expected of one link: the choice and the bytes of each sequence and their place, and what functions
    return.
    """
    linker.begin(case, kind, names)
    words = [] if relax else ["--no-relax"]
    try:
        image, starts = linker.image(*words)
        choices = linker.choices()
        if sorted(choices) != sorted((file, section, at) for file, section, at, *_ in sites):
            sys.exit(f"{case.name}: sites are {sorted(choices)}")
        made = []
        for site, (code, place) in zip(sites, places(case, image, starts, sites)):
            made.append([choices[tuple(site[:3])] if relax else "keep", code, place])
        return {"kind": kind, "relax": relax, "size": len(image), "made": made}, linker.values(names, *words)
    except Refused as line:
        return {"kind": kind, "relax": relax, "refused": str(line)}, None


def twin_values(case):
    """What the twin of an odd case returns."""
    with tempfile.TemporaryDirectory() as room:
        for file, plan in case.twin.items():
            plan.write(f"{room}/{file}")
        linker = Linker(room)
        names = called(case.twin)
        linker.begin(CasePlan(case.name, "", case.twin, library=case.library), "plain", names)
        return linker.values(names)


def unclean(case, linker, kind, values):
    """Says why a lawful case is none."""
    told = linker.verdict()
    if told != "clean":
        sys.exit(f"{case.name}, {kind}: {told}")
    for name, (a, b, c, d) in values.items():
        if case.names:
            continue
        if a != b or int(c, 16) != int(a, 16) + 5 or int(d, 16) != int(b, 16) + 7:
            sys.exit(f"{case.name}, {kind}: {name} returns {a} {b} {c} {d}")


def expected(case, room):
    """Writes a case's objects into a folder, and answers what is expected of it."""
    for file, plan in case.objects.items():
        plan.write(f"{room}/{file}")
    names = case.names or called(case.objects)
    sites = [] if case.why else sites_of(case)
    values, links = twin_values(case) if case.twin else None, []
    with tempfile.TemporaryDirectory() as at:
        linker = Linker(at)
        for file in case.objects:
            shutil.copy(f"{room}/{file}", at)
        for kind in case.kinds:
            for relax in case.settings:
                link, returned = linked(case, linker, kind, relax, names, sites)
                if bool(returned) == bool(case.why):
                    sys.exit(f"{case.name}, {kind}: {link}")
                if not case.why:
                    unclean(case, linker, kind, returned)
                    if values not in (None, returned):
                        sys.exit(f"{case.name}, {kind}: {returned}, not {values}")
                    values = returned
                links.append(link)
    return {"about": case.about, "why": case.why, "objects": list(case.objects), "library": case.library,
        "sites": sites_of(case), "values": values, "links": links}


def spelled(value):
    """The text of what is expected, a line for each site, function and link."""
    def lines(rows):
        return "[\n" + ",\n".join("  " + json.dumps(it) for it in rows) + "\n ]" if rows else "[]"
    parts = [f' "{key}": {json.dumps(value[key])}' for key in ("about", "why", "objects", "library")]
    parts.append(f' "sites": {lines(value["sites"])}')
    values = [f'  "{name}": {json.dumps(it)}' for name, it in value["values"].items()]
    parts.append(' "values": {\n' + ",\n".join(values) + "\n }")
    parts.append(f' "links": {lines(value["links"])}')
    return "{\n" + ",\n".join(parts) + "\n}\n"


def write_case(case, into):
    folder = f"{into}/{case.name}"
    os.makedirs(folder)
    text = spelled(expected(case, folder))
    json.loads(text)
    with open(f"{folder}/expected", "w", encoding="utf-8") as file:
        file.write(text)


def write_all(cases, into):
    with ThreadPoolExecutor(os.cpu_count()) as pool:
        list(pool.map(lambda case: write_case(case, into), cases))


def all_cases():
    return [*lawful.cases(), *odd.cases(), *random_cases.cases(SEED, COUNT)]


def differences(ours, theirs):
    """The files in which two corpora differ."""
    there = {os.path.relpath(f"{at}/{name}", root) for root in (ours, theirs)
        for at, _, names in os.walk(root) for name in names}
    for name in sorted(there):
        mine, other = f"{ours}/{name}", f"{theirs}/{name}"
        if not (os.path.exists(mine) and os.path.exists(other) and filecmp.cmp(mine, other, shallow=False)):
            yield name


def size(folder):
    return sum(os.path.getsize(f"{at}/{name}") for at, _, names in os.walk(folder) for name in names)


def check():
    """Ends with whether the corpus is what this makes."""
    with tempfile.TemporaryDirectory() as room:
        write_all(all_cases(), room)
        wrong = list(differences(CASES, room))
    for name in wrong:
        print(f"workbench/cases/{name} is not what make.py makes")
    about = f"workbench/cases is in step: {len(os.listdir(CASES))} cases, {size(CASES):,} bytes"
    print("run workbench/make.py" if wrong else about)
    sys.exit(1 if wrong or size(CASES) > MOST else 0)


def main():
    asked = argparse.ArgumentParser(description=__doc__, formatter_class=argparse.RawDescriptionHelpFormatter)
    asked.add_argument("--check", action="store_true")
    asked.add_argument("--seed", type=int, default=SEED)
    asked.add_argument("--count", type=int, default=COUNT)
    asked.add_argument("--into")
    words = asked.parse_args()
    if not os.path.exists(BUILT):
        sys.exit(f"{BUILT} is not built: cases are made by it alone")
    if words.check:
        check()
    elif words.into:
        write_all(random_cases.cases(words.seed, words.count), words.into)
    else:
        shutil.rmtree(CASES, ignore_errors=True)
        write_all(all_cases(), CASES)
        print(f"{len(os.listdir(CASES))} cases, {size(CASES):,} bytes")


if __name__ == "__main__":
    main()
