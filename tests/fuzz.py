#!/usr/bin/env python3
"""fuzz.py [PROGRAM] [COUNT] [SEED] [KIND..]: changes so many jobs, objects and images, and runs every command over them in memory.

PROGRAM is crates/command_runs as it was built; crates/command_trials says what it tests. COUNT inputs of each kind, 1,000,000 if it is
not given, are made in slices of 10,000, each by a process with a seed of its own: SEED, SEED + 1, and on. JOBS processes run at
once, two if that is not in the environment. For each kind the rows of all slices are added up, and printed with the greatest memory
of a process and the greatest time of a slice. The status is 1 if a slice ends with an error, which is printed and names the seed and
the input, if an answer has no cause that is known, if fewer than a tenth of the inputs of a kind are accepted, or if one of the known
causes never came (with fewer inputs than the default some never may).
"""
import os
import subprocess
import sys
import time
from collections import Counter
from concurrent.futures import ThreadPoolExecutor

HERE = os.path.dirname(os.path.abspath(__file__))
CRATE = f"{HERE}/../crates/command_runs"
KINDS = ("jobs", "objects", "images")
SLICE = 10_000
JOBS = int(os.environ.get("JOBS", "2"))
ELSEWHERE = {("1", "memory"): "tests/memory.py", ("10", "full"): "tests/limits.py"}


class Sum:
    """What the slices of one kind came to."""

    def __init__(self):
        self.inputs, self.answers = Counter(), Counter()
        self.rows, self.failures = [], []
        self.count = self.accepted = self.greatest = self.seconds = self.longest = self.memory = 0

    def add(self, seed, ended, seconds, memory):
        self.seconds += seconds
        self.longest = max(self.longest, seconds)
        self.memory = max(self.memory, memory)
        if ended.returncode:
            last = ended.stdout.splitlines()[-1:]
            self.failures.append(f"seed {seed}: status {ended.returncode}: {' '.join(last)} {ended.stderr.strip()[-600:]}")
            return
        for line in ended.stdout.splitlines():
            words = line.split()
            if words[0] == "greatest":
                self.greatest = max(self.greatest, int(words[1]))
            elif words[0].isdigit() and len(words) == 4:
                row = (words[0], words[1])
                if row not in self.inputs:
                    self.rows.append(row)
                self.inputs[row] += int(words[2])
                self.answers[row] += int(words[3])
            elif words[0].isdigit():
                self.count += int(words[0])
                self.accepted += int(words[2])


def run_slice(program, kind, count, seed):
    """Runs one slice; returns how it ended, its seconds and the greatest memory of its process in KiB."""
    begun = time.time()
    process = subprocess.Popen([program, str(count), str(seed), kind], cwd=f"{CRATE}/data", stdout=subprocess.PIPE, stderr=subprocess.PIPE, text=True)
    out, err = process.stdout.read(), process.stderr.read()
    _, status, usage = os.wait4(process.pid, 0)
    process.returncode = os.waitstatus_to_exitcode(status)
    return subprocess.CompletedProcess(program, process.returncode, out, err), time.time() - begun, usage.ru_maxrss


def run_kind(program, kind, count, seed):
    """All slices of a kind."""
    total = Sum()
    slices = [(seed + number, min(SLICE, count - number * SLICE)) for number in range(-(-count // SLICE))]
    with ThreadPoolExecutor(JOBS) as pool:
        runs = pool.map(lambda it: (it[0], *run_slice(program, kind, it[1], it[0])), slices)
        for number, (of, ended, seconds, memory) in enumerate(runs, 1):
            total.add(of, ended, seconds, memory)
            if number % 10 == 0:
                print(f"{kind}: {number} of {len(slices)} slices", file=sys.stderr, flush=True)
    return total


def show(kind, seed, total):
    """Prints the rows of a kind."""
    refused = total.count - total.accepted
    print(f"{total.count:,} {kind} from seed {seed} on: {total.accepted:,} accepted, {refused:,} refused")
    print(f"  the greatest input has {total.greatest:,} bytes; a process holds {total.memory / 1024:.1f} MiB at most")
    mean = total.seconds / max(total.count, 1) * 1e6
    print(f"  {total.seconds:.0f} seconds in all, {mean:.0f} microseconds an input, {total.longest:.1f} seconds the longest slice")
    for row in total.rows:
        if total.answers[row]:
            print(f"  {row[0]:>3} {row[1]:<18} {total.inputs[row]:>9,} inputs {total.answers[row]:>11,} answers")
    for failure in total.failures:
        print(f"  FAILED {failure}")


def main(words):
    names = [word for word in words if word in KINDS] or list(KINDS)
    numbers = [int(word) for word in words if word.isdigit()]
    paths = [word for word in words if word not in KINDS and not word.isdigit()]
    program = os.path.abspath(paths[0] if paths else f"{CRATE}/out/command_runs")
    count = numbers[0] if numbers else 1_000_000
    seed = numbers[1] if len(numbers) > 1 else 1
    seen, known, well = Counter(), [], True
    for kind in names:
        total = run_kind(program, kind, count, seed)
        show(kind, seed, total)
        well = well and not total.failures and total.accepted * 10 >= total.count
        seen.update(total.answers)
        known = known or total.rows
    missing = [row for row in known if not seen[row] and row not in ELSEWHERE]
    for row in missing:
        print("never seen:", *row)
    for row, place in ELSEWHERE.items():
        print(f"{row[0]} {row[1]}: {place}")
    return 0 if well and not missing else 1


if __name__ == "__main__":
    sys.exit(main(sys.argv[1:]))
