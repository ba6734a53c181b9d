#!/usr/bin/env python3
"""memory.py [TLSLD] [CASE..]: runs commands again and again, each time with another request for memory refused.

A refused request ends a command with status 1 and the line `out of memory`. Or it changes nothing at all, where the program can do
without. Nothing else may come, from the first word that is read on; no run may hang, and no file may change but OUT of `link`,
which is the old or the whole new one.

`race` has threads, so the request with the number n may come in any of them, and how many there are may differ from run to run.
So each command goes on until a run in which none was refused. What `race` prints hangs on who comes first: its lines and events
then have to fit together. Where threads are started, each start is refused too, alone and with all later ones; and the room for
all that the program holds is limited, in many steps. Neither may change what is printed.

Without names of cases it takes all below. A folder of tests/worked is a case too. Needs gcc, which makes the shim of tests/refuse.c.
"""
import itertools
import os
import re
import resource
import shlex
import shutil
import struct
import subprocess
import sys
import tempfile
from concurrent.futures import ThreadPoolExecutor

HERE = os.path.dirname(os.path.abspath(__file__))
OWN = {"words", "status", "output", "facts"}
WORKED = [
    "link-local-dynamic", "show-pie", "sites-general-dynamic", "run-late-module", "run-unloaded", "run-nested-opens",
    "run-surplus", "run-descriptor-in-late-module", "run-data-of-threads", "run-id-used-again", "run-sixty-four-threads",
    "job-number", "object-entsize", "refused-undefined", "race-late", "race-late-kept", "race-surplus", "race-writable",
    "race-writable-later",
]
EXAMPLES = [f"late_module {words} job" for words in ("run", "check", "race")] + [
    "late_module run job-all", "late_module check job-all", "late_module race job-all", "late_module run job --no-relax",
    "late_module link job plug out", "late_module link job app out --no-relax", "late_module sites job plug",
    "late_module gen 4", "race race job", "race race job-alone", "race race job-apart", "race check job-apart",
]
MANY_THREADS = "run-sixty-four-threads race job"
SAID = (1, b"out of memory\n", b"")
HANGS = (None, b"", b"")
USAGE = 2
SECONDS = 30
MIB = 1 << 20


class Case:
    """A command, and the folder whose files it runs among."""

    def __init__(self, name):
        first, _, words = name.partition(" ")
        worked = f"{HERE}/worked/{first}"
        self.name = name
        self.folder = worked if os.path.isdir(worked) else f"{HERE}/../examples/{first}"
        self.words = shlex.split(words or open(f"{worked}/words").read())

    def lay_files(self, room):
        """Puts the files into a folder of their own, with an old OUT where the command writes one."""
        for name in os.listdir(self.folder):
            if name not in OWN and os.path.isfile(f"{self.folder}/{name}"):
                shutil.copy(f"{self.folder}/{name}", room)
        if self.words[0] == "link":
            with open(f"{room}/{self.words[3]}", "wb") as out:
                out.write(b"old")


class Bench:
    """The program, the shim, and a place for the shim's counts."""

    def __init__(self, tlsld, shim, folder):
        self.tlsld, self.shim, self.counts = tlsld, shim, f"{folder}/counts"

    def run(self, words, room, limit=None, **more):
        """The status of a command and what it puts to standard output and to standard error, or HANGS."""
        def set_limit():
            resource.setrlimit(resource.RLIMIT_AS, (limit, limit))
        try:
            found = subprocess.run([self.tlsld, *words], cwd=room, env={**os.environ, **more}, stdout=subprocess.PIPE,
                                   stderr=subprocess.PIPE, timeout=SECONDS, preexec_fn=set_limit if limit else None)
        except subprocess.TimeoutExpired:
            return HANGS
        return found.returncode, found.stdout, found.stderr

    def refuse(self, words, room, **more):
        """What a command ends with under the shim, and how many requests and starts it made."""
        with open(self.counts, "wb") as file:
            file.write(bytes(16))
        ended = self.run(words, room, LD_PRELOAD=self.shim, COUNT=self.counts, **more)
        with open(self.counts, "rb") as file:
            return ended, struct.unpack("<QQ", file.read())


class Tally:
    """What came of the refused requests of a case."""

    def __init__(self):
        self.said = self.without = self.starts = self.limits = 0
        self.wrong = []

    def line(self, name):
        return (f"{name:44}{self.said:7}{self.without:8}{self.starts:7}{self.limits:7}"
                f"  {self.wrong[0] if self.wrong else 'holds'}")


def contents(room):
    """Each file of a folder, with its bytes."""
    found = {}
    for name in os.listdir(room):
        with open(f"{room}/{name}", "rb") as file:
            found[name] = file.read()
    return found


def fits(text):
    """Whether the lines and the events of a transcript fit together, as those of `race` do whoever came first."""
    added, shown, last = {}, {}, {}
    for line in text.decode().splitlines():
        event = re.fullmatch(r"e(\d+) (t\d+ l\d+) (open|close) \S+", line)
        if event:
            shown[int(event[1])] = (event[2], event[3])
            continue
        said = re.fullmatch(r"((t\d+) l\d+) g([\d,]+) (\S.*)", line)
        if not said:
            return False
        looks = [last.get(said[2], 0), *map(int, said[3].split(","))]
        if looks != sorted(looks):
            return False
        is_open, is_close = said[4].startswith("opened"), said[4] == "closed"
        last[said[2]] = looks[-1] + (is_open or is_close)
        if is_open or is_close:
            added[looks[-1]] = (said[1], "open" if is_open else "close")
    return added == shown and sorted(shown) == list(range(len(shown)))


def heads(text):
    """The thread and the line of each line of a transcript, events left out."""
    return re.findall(rb"^t\d+ l\d+ ", text, re.M)


def is_same(case, ended, whole):
    """Whether a run printed what the command prints with nothing refused."""
    if ended == whole or case.words[0] != "race":
        return ended == whole
    return ended[0] == whole[0] == 0 and ended[2] == b"" and heads(ended[1]) == heads(whole[1]) and fits(ended[1])


def wrong_files(case, before, after, whole):
    """What is wrong with the files that a run left, or None."""
    for name in before.keys() | after.keys():
        is_out = case.words[0] == "link" and name == case.words[3]
        if after.get(name) != before.get(name) and not (is_out and after.get(name) == whole.get(name)):
            return f"{name} changed, or should not be there"
    return None


def shown(ended):
    """How a command ended, for a line of the table."""
    return "hangs" if ended == HANGS else f"status {ended[0]}, {ended[1][:60]!r} and {ended[2][:60]!r}"


def judge(case, ended, whole, tally):
    """Counts what came of a refused request, and says what is wrong with it, or None."""
    if ended == SAID and whole != SAID:
        tally.said += 1
    elif is_same(case, ended, whole):
        tally.without += 1
    else:
        return shown(ended)
    return None


def refuse_memory(bench, case, room, whole, tally):
    """Refuses each request once. Answers how many threads the command starts."""
    ended_whole, files_whole = whole
    before = contents(room)
    for number in itertools.count(1):
        ended, (requests, starts) = bench.refuse(case.words, room, REFUSE=str(number))
        if requests >= number:
            wrong = judge(case, ended, ended_whole, tally)
        else:
            wrong = None if is_same(case, ended, ended_whole) else "differs, with nothing refused"
        wrong = wrong or wrong_files(case, before, contents(room), files_whole)
        if wrong:
            tally.wrong.append(f"request {number} of {requests}: {wrong}")
        if requests < number:
            return starts
        case.lay_files(room)


def refuse_starts(bench, case, room, whole, starts, tally):
    """Refuses each start of a thread once, alone and with all that follow."""
    for later, number in itertools.product("01", range(1, starts + 1)):
        ended, _ = bench.refuse(case.words, room, UNSTARTED=str(number), LATER=later)
        tally.starts += 1
        if not is_same(case, ended, whole):
            tally.wrong.append(f"start {number}, later ones {later}: {shown(ended)}")


def least_room(bench, room):
    """The fewest MiB, in steps of four, in which the program can be loaded and say that there are no words."""
    return next(mib for mib in itertools.count(4, 4) if bench.run([], room, limit=mib * MIB)[0] == USAGE)


def limit_room(bench, case, room, whole, tally):
    """Limits how much the program may hold at once, up to more than all stacks of 64 threads take."""
    for mib in range(least_room(bench, room), 1024, 4):
        ended = bench.run(case.words, room, limit=mib * MIB)
        tally.limits += 1
        if ended != SAID and not is_same(case, ended, whole):
            tally.wrong.append(f"{mib} MiB: {shown(ended)}")


def tally_of(tlsld, shim, name):
    case, tally = Case(name), Tally()
    with tempfile.TemporaryDirectory() as folder, tempfile.TemporaryDirectory() as room:
        bench = Bench(tlsld, shim, folder)
        case.lay_files(room)
        whole = bench.run(case.words, room)
        new_files = contents(room)
        case.lay_files(room)
        starts = refuse_memory(bench, case, room, (whole, new_files), tally)
        refuse_starts(bench, case, room, whole, starts, tally)
        if name == MANY_THREADS:
            limit_room(bench, case, room, whole, tally)
    return tally


def main():
    built = f"{HERE}/../crates/tlsld/out/tlsld"
    tlsld = os.path.abspath(sys.argv[1] if len(sys.argv) > 1 else built)
    names = sys.argv[2:] or [*WORKED, *EXAMPLES, MANY_THREADS]
    tallies = []
    with tempfile.TemporaryDirectory() as room, ThreadPoolExecutor(2 * os.cpu_count()) as pool:
        shim = f"{room}/refuse.so"
        subprocess.run(["gcc", "-O1", "-shared", "-fPIC", f"{HERE}/refuse.c", "-o", shim, "-ldl"], check=True)
        print(f"{'case':44}{'said':>7}{'without':>8}{'starts':>7}{'limits':>7}")
        for name, tally in zip(names, pool.map(lambda name: tally_of(tlsld, shim, name), names)):
            tallies.append(tally)
            print(tally.line(name), flush=True)
    bad = sum(1 for tally in tallies if tally.wrong)
    total = {key: sum(getattr(tally, key) for tally in tallies) for key in ("said", "without", "starts", "limits")}
    print(f"memory: {total['said']} refused requests were said, {total['without']} changed nothing; "
          f"{total['starts']} starts of threads were refused, and {total['limits']} limits set; "
          f"{bad} cases do not hold")
    sys.exit(1 if bad else 0)


main()
