#!/usr/bin/env python3
"""Runs `rt ci` with the words that follow, and says what it cost, crate by crate, in processor seconds: proofs, tests (which
prove their crate once more), must-fail edits, and building and running programs. The gate takes what earlier runs of the
same files passed, so `python3 tests/costs.py --anew` measures it from nothing, `taskset -c 0,1` in front on two processors. Processes are
looked at twice a second, so each may count half a second too little; the sum is the kernel's own. Lines of the run go to standard
error."""
import os, re, resource, subprocess, sys, threading, time

KINDS = ["proof", "tests", "edits", "programs"]
TICK = os.sysconf("SC_CLK_TCK")


def processes(root):
    """The processes below `root`: number, words, folder, and ticks that each has used."""
    parents, found = {}, {}
    for number in filter(str.isdigit, os.listdir("/proc")):
        try:
            with open(f"/proc/{number}/stat") as it:
                fields = it.read().rpartition(")")[2].split()
            with open(f"/proc/{number}/cmdline", "rb") as it:
                words = it.read().decode(errors="replace").split("\0")
            parents[int(number)] = int(fields[1])
            found[int(number)] = (words, os.readlink(f"/proc/{number}/cwd"), int(fields[11]) + int(fields[12]))
        except OSError:
            pass
    def is_below(number):
        while number and number != root:
            number = parents.get(number, 0)
        return number == root
    return {number: it for number, it in found.items() if is_below(number)}


def kind_of(words, folder):
    """The crate and the kind of work that a process is for."""
    line = " ".join(words)
    name = re.search(r"--crate-name (\w+)", line) or re.search(r"/crates/(\w+)", f"{folder} {line}")
    is_check = "rattle" in words[0] and len(words) > 1 and words[1] in ("check", "build")
    kind = "edits" if "rt-edit" in f"{line} {folder}" else "programs" if not is_check or "--crate-checked" in words else \
        "tests" if "--test" in words else "proof"
    return (name[1] if name else "rt", kind)


def main():
    start, last = time.time(), {}
    run = subprocess.Popen(["rt", "ci", *sys.argv[1:]], stdout=sys.stderr)
    threading.Thread(target=run.wait).start()
    while run.returncode is None:
        for number, (words, folder, ticks) in processes(run.pid).items():
            last[number, kind_of(words, folder)] = ticks
        time.sleep(0.5)
    costs = {}
    for (_, (crate, kind)), ticks in last.items():
        costs.setdefault(crate, dict.fromkeys(KINDS, 0))[kind] += ticks / TICK
    print(f"{'crate':22}" + "".join(f"{it:>10}" for it in [*KINDS, "all"]))
    for crate, of in sorted(costs.items(), key=lambda it: -sum(it[1].values())):
        print(f"{crate:22}" + "".join(f"{it:10.0f}" for it in [*of.values(), sum(of.values())]))
    sums = [sum(it[kind] for it in costs.values()) for kind in KINDS]
    print(f"{'seconds':22}" + "".join(f"{it:10.0f}" for it in [*sums, sum(sums)]))
    used = resource.getrusage(resource.RUSAGE_CHILDREN)
    minutes = (used.ru_utime + used.ru_stime) / 60
    print(f"{minutes:.0f} processor minutes, {(time.time() - start) / 60:.0f} minutes of wall clock")
    sys.exit(run.returncode)


main()
