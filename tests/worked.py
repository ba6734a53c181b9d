#!/usr/bin/env python3
"""worked.py [TLSLD]: runs the proved program on each folder of tests/worked.

A folder holds one command: its words (`words`), the files that it runs among, the exit status (`status`) and what it
prints (`output`; a folder without it says nothing of that). `facts` says what the written file holds, a line each:
`size FILE BYTES` and `bytes FILE OFFSET HEX`. The expected values were there before the program, and were not taken from
it.
"""
import os
import shlex
import shutil
import subprocess
import sys
import tempfile

HERE = os.path.dirname(os.path.abspath(__file__))
OWN = {"words", "status", "output", "facts"}


def read(path):
    with open(path, "rb") as file:
        return file.read()


def holds(line, room):
    """Whether the written file is as a line of `facts` says."""
    fact, name, *rest = line.split()
    found = read(f"{room}/{name}")
    if fact == "size":
        return len(found) == int(rest[0])
    wanted = bytes.fromhex(rest[1])
    return found[int(rest[0]):int(rest[0]) + len(wanted)] == wanted


def complaint(tlsld, folder):
    """What is wrong with a case, or None."""
    words = shlex.split(read(f"{folder}/words").decode())
    with tempfile.TemporaryDirectory() as room:
        for name in set(os.listdir(folder)) - OWN:
            shutil.copy(f"{folder}/{name}", room)
        ran = subprocess.run([tlsld, *words], cwd=room, capture_output=True, timeout=60)
        if ran.returncode != int(read(f"{folder}/status")):
            return f"status {ran.returncode}"
        if os.path.exists(f"{folder}/output") and ran.stdout != read(f"{folder}/output"):
            return f"printed {ran.stdout!r}"
        if os.path.exists(f"{folder}/facts"):
            for line in read(f"{folder}/facts").decode().splitlines():
                if not holds(line, room):
                    return f"the file is not so: {line}"
    return None


def main():
    tlsld = os.path.abspath(sys.argv[1] if len(sys.argv) > 1 else f"{HERE}/../crates/tlsld/out/tlsld")
    failed = 0
    cases = sorted(os.listdir(f"{HERE}/worked"))
    for case in cases:
        said = complaint(tlsld, f"{HERE}/worked/{case}")
        if said:
            failed += 1
            print(f"{case}: {said}")
    print(f"{len(cases) - failed} of {len(cases)} worked cases hold")
    sys.exit(1 if failed else 0)


main()
