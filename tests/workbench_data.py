"""The cases of workbench/cases as the gate has them: a folder of files, and the list of what is run over them.

Of each case the list has a job for each kind of image, the transcript that is expected of it, and the bytes that `link`
is to put in the place of each sequence; of an odd one the refusal. tests/example_data.py puts them into
crates/command_runs, whose main.rt says what the lines of a list are.
"""
import os
import sys

TOP = os.path.dirname(os.path.dirname(os.path.abspath(__file__)))
sys.path.insert(0, f"{TOP}/workbench")

from cases import read_cases  # noqa: E402
from tlsld import CALLS, DRIVERS, KINDS, job  # noqa: E402

HEAD = "# Written by tests/example_data.py from workbench/cases.\n"


def read(path):
    with open(path, "rb") as file:
        return file.read()


def text(name, lines):
    return [f"text {name}", *(f"| {line}" for line in lines)]


def transcript(case):
    """What the calls of a case print: thread by thread, each in the order of its lines."""
    lines = []
    for thread in (1, 2):
        calls = [(name, at) for name in case.functions() for at, (by, _) in enumerate(CALLS) if by == thread]
        lines += [f"t{thread} l{line} g0 = {case.values[name][at]}" for line, (name, at) in enumerate(calls, 1)]
    return lines


def runs(case, link):
    """What is run of an image, and what is looked at."""
    name, setting = KINDS[link.kind], "" if link.relax else " --no-relax"
    if link.refused:
        status = {"job": 5, "object": 6}.get(link.refused.split()[0], 7)
        return [f"row {name} is refused | - | run {name} | {status} {link.refused}"]
    places = ", ".join(f"{at} {code.hex()}" for (_, code), at in zip(link.made, link.places))
    lines = [f"run 0 transcript run {name}{setting}",
        f"row {name} is linked | - | link {name} app out{setting} | 0 linked app {link.size}"]
    return lines + ([f"holds out {places}"] if places else [])


def list_of(case):
    """The lines of a case. A program is the same beside a shared object and alone, where it needs none."""
    lines = [f"folder {case.name}", *(f"file {name} {case.name}/{name}" for name in case.objects)]
    lines += [f"file {name}" for name in ("main.o", "lib.o")]
    links = {(KINDS[it.kind], it.relax): it for it in case.links}
    if not case.why:
        lines += text("transcript", transcript(case))
    for kind in dict.fromkeys(it.kind for it in links.values()):
        lines += text(KINDS[kind], job(case, kind, case.functions()).splitlines())
    return lines + [line for it in links.values() for line in runs(case, it)]


def wanted():
    """The files of the crate's folder data/workbench, by name, and the list `runs` among them."""
    cases = read_cases(f"{TOP}/workbench/cases")
    made = {f"{case.name}/{name}": read(f"{case.folder}/{name}") for case in cases for name in case.objects}
    made |= {name: read(f"{DRIVERS}/{name}") for name in ("main.o", "lib.o")}
    made["runs"] = (HEAD + "".join(f"{line}\n" for case in cases for line in list_of(case))).encode()
    return made
