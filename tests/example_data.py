#!/usr/bin/env python3
"""example_data.py [--check]: copies examples/ and workbench/cases to where the gate can see them, crates/command_runs; or says whether
they are in step.

The gate runs a program over files of its own crate alone. So data/examples of the crate command_runs are the folders of
examples/ whose jobs have something to print: these jobs, the objects, what stands beside the jobs, and `runs`, the list of what
is to be run. data/workbench is the same of the workbench's cases, as tests/workbench_data.py has it. The crate's `stdout` is what
the program prints where all is well: a line for each of these lists, and one for each list of data/cases and data/lying, which
are written by hand. tests/examples.sh says which file beside a job means which runs, and crates/command_runs/src/main.rt what the
lines of a list are. The objects of its trials are copies of these, but for two.
"""
import os
import re
import shutil
import sys

import workbench_data

TOP = os.path.dirname(os.path.dirname(os.path.abspath(__file__)))
CRATE = f"{TOP}/crates/command_runs"
TRIALS = f"{TOP}/crates/command_runs/data"
TRIALS_ALONE = ("no_tls.o", "space.o")
MADE = ("examples/runs", "workbench/runs")
BY_HAND = ("cases/commands", "cases/turns", "cases/verdicts", "cases/failing", "lying/objects", "lying/images")
HEAD = "# Written by tests/example_data.py from examples/.\n"
SETTINGS = ([], ["--no-relax"])


def read(path):
    with open(path, "rb") as file:
        return file.read()


def refusal_status(line):
    """The status that goes with the line of a refusal."""
    return {b"job": 5, b"object": 6}.get(line.split()[0], 7)


def verdict_status(line):
    """The status that goes with the line of a verdict."""
    return 0 if line == b"clean\n" else 9


def runs_of(job, files):
    """What is run of a job, by the names of the files beside it: a status, a file with what is printed, and words."""
    end = job[len("job"):]
    transcript, refusal, verdict = f"transcript{end}", f"refusal{end}", f"verdict{end}"
    raced = f"raced{end}"
    if transcript in files:
        kept = f"{transcript}.kept"
        for expected, setting in zip((transcript, kept if kept in files else transcript), SETTINGS):
            yield 0, expected, ["run", job, *setting]
    for name in sorted(files):
        if name.startswith(f"sites{end}."):
            yield 0, name, ["sites", job, name[len(f"sites{end}."):]]
    if raced in files:
        for setting in SETTINGS:
            yield 0, raced, ["race", job, *setting]
    if refusal in files:
        for setting in SETTINGS:
            yield refusal_status(files[refusal]), refusal, ["run", job, *setting]
    if verdict in files:
        yield verdict_status(files[verdict]), verdict, ["check", job]


def folders():
    """Each folder below examples/ with runs: its name, the contents of the files that they need, and the runs."""
    for path, below, names in os.walk(f"{TOP}/examples"):
        below.sort()
        files = {name: read(f"{path}/{name}") for name in names}
        jobs = [name for name in sorted(files) if re.fullmatch(r"job(-.*)?", name)]
        runs = [run for job in jobs for run in runs_of(job, files)]
        needed = {name for _, expected, words in runs for name in (expected, words[1])}
        kept = {name: files[name] for name in sorted(files) if name in needed or name.endswith(".o")}
        if runs:
            yield os.path.relpath(path, f"{TOP}/examples"), kept, runs


def plain(name):
    """A name that can be a word of a line."""
    if not re.fullmatch(r"[!-~]+", name):
        sys.exit(f"no name for a line of runs: {name!r}")
    return name


def run_count(line):
    """How often a line of a list has a command run: a row that cuts a file does so at each length."""
    kind = line.split(b" ")[0]
    cut = re.match(rb"row [^|]*\| cut \S+ (\d+)\.\.(\d+) ", line)
    return int(cut[2]) - int(cut[1]) if cut else int(kind in (b"run", b"row"))


def last_line(name, text):
    """What is printed at the end of a list where all is well."""
    lines = text.splitlines()
    folders = sum(line.startswith(b"folder ") for line in lines)
    return f"{name}: {sum(map(run_count, lines))} runs in {folders} folders end as they must\n"


def wanted():
    """The files of the crate that come from examples/ and the workbench, by name."""
    listed, made = [HEAD], {}
    for folder, files, runs in folders():
        listed.append(f"folder {plain(folder)}\n")
        listed += [f"file {plain(name)} {plain(folder)}/{plain(name)}\n" for name in files]
        listed += [f"run {status} {expected} {' '.join(map(plain, words))}\n" for status, expected, words in runs]
        made |= {f"data/examples/{folder}/{name}": content for name, content in files.items()}
    made["data/examples/runs"] = "".join(listed).encode()
    made |= {f"data/workbench/{name}": content for name, content in workbench_data.wanted().items()}
    lists = {it: made[f"data/{it}"] for it in MADE} | {it: read(f"{CRATE}/data/{it}") for it in BY_HAND}
    made["stdout"] = "".join(last_line(name, text) for name, text in lists.items()).encode() + trials()
    return made


def trials():
    """What trials print behind the lists: as it stands."""
    before, seed, after = read(f"{CRATE}/stdout").partition(b"seed ")
    return seed + after


def found():
    """These files as they stand."""
    roots = [f"{CRATE}/data/{os.path.dirname(it)}" for it in MADE]
    there = [f"{path}/{name}" for root in roots for path, _, names in os.walk(root) for name in names] + [f"{CRATE}/stdout"]
    return {os.path.relpath(path, CRATE): read(path) for path in there if os.path.exists(path)}


def strangers():
    """The objects of trials that are no copies of one of a list, and do not stand there alone."""
    below = [it for it in os.walk(TRIALS) if it[0] != TRIALS]
    known = {read(f"{path}/{name}") for path, _, names in below for name in names if name.endswith(".o")}
    objects = sorted(name for name in os.listdir(TRIALS) if name.endswith(".o") and name not in TRIALS_ALONE)
    return [name for name in objects if read(f"{TRIALS}/{name}") not in known]


def check(made):
    """Ends with whether the crate's files are those."""
    there = found()
    others = sorted(name for name in made.keys() | there.keys() if made.get(name) != there.get(name))
    for name in others:
        print(f"crates/command_runs/{name} is not what examples/ and workbench/cases give")
    lost = strangers()
    for name in lost:
        print(f"crates/command_runs/data/{name} is no object of a list")
    if lost:
        sys.exit(1)
    print("run tests/example_data.py" if others else "crates/command_runs is in step with examples/ and workbench/cases")
    sys.exit(1 if others else 0)


def write(made):
    for it in MADE:
        shutil.rmtree(f"{CRATE}/data/{os.path.dirname(it)}", ignore_errors=True)
    for name, content in made.items():
        os.makedirs(os.path.dirname(f"{CRATE}/{name}"), exist_ok=True)
        with open(f"{CRATE}/{name}", "wb") as file:
            file.write(content)


def main():
    if sys.argv[1:] not in ([], ["--check"]):
        sys.exit(__doc__)
    made = wanted()
    check(made) if sys.argv[1:] else write(made)


main()
