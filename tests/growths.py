#!/usr/bin/env python3
"""growths.py [--built]: runs the tests of refused growths again and again, each time with another request for memory refused.

A test ends quietly where what it needs is refused. Where its call is refused the test compares all that can be asked with what it
was before, makes the call again, and says in a line that it did. The call comes last, so its requests are the last ones of the test:
each of them must be told of, and no earlier one. First it builds the tests, by `rt test` in each of their crates; with --built
it takes them as they stand. Needs gcc, which makes the shim of tests/refuse.c. `rt try --test --fail-alloc N` in one of the
crates refuses the Nth request of each test there.
"""
import os
import struct
import subprocess
import sys
import tempfile

HERE = os.path.dirname(os.path.abspath(__file__))
CRATES = f"{HERE}/../crates"
# A crate of tests, a test of its module `growth`, the call, and whether the call asks for memory at all.
TESTS = [
    ("history_tests", "refused_first_open", "Registry::open, event 0", True),
    ("history_tests", "refused_later_open", "Registry::open, event 5", True),
    ("history_tests", "refused_close", "Registry::close, event 1", True),
    ("shared_tests", "refused_open", "Shared::open", True),
    ("shared_tests", "refused_catch_up", "Shared::catch_up", True),
    ("race_tests", "catching_up_asks_for_nothing", "Dtv::catch_up", False),
    ("race_tests", "refused_first_address", "Dtv::address", True),
    ("formats_tests", "refused_read", "Object::read", True),
    ("link_tests", "refused_rewritten_link", "link, exe", True),
    ("link_tests", "refused_kept_link", "link, late-kept", True),
]


def run(crate, test, shim, counts, **more):
    """What a test ends with, what it says of a refused call, and all that it prints. The shim counts its requests there."""
    with open(counts, "wb") as file:
        file.write(bytes(16))
    words = [f"{CRATES}/{crate}/out/{crate}_tests", f"growth::{test}"]
    settings = {**os.environ, "LD_PRELOAD": shim, "COUNT": counts, **more}
    found = subprocess.run(words, env=settings, capture_output=True, text=True, timeout=60)
    said = [line for line in found.stdout.splitlines() if line.startswith("refused: ")]
    return found.returncode, said, found.stdout + found.stderr


def refusals(crate, test, call, shim, room):
    """How many requests the test makes, at which of them its call was refused, and what is wrong."""
    counts = f"{room}/{test}"
    status, said, printed = run(crate, test, shim, counts)
    if status or said:
        return 0, [], [f"with nothing refused: status {status} {printed}"]
    with open(counts, "rb") as file:
        count = struct.unpack("<QQ", file.read())[0]
    refused, wrong = [], []
    for number in range(1, count + 1):
        status, said, printed = run(crate, test, shim, counts, REFUSE=str(number))
        if status or said not in ([], [f"refused: {call}"]):
            wrong.append(f"request {number} of {count}: status {status} {printed}")
        if said:
            refused.append(number)
    return count, refused, wrong


def row(crate, test, call, asks, shim, room):
    """Prints the row of a call, and whether it holds."""
    count, refused, wrong = refusals(crate, test, call, shim, room)
    if refused != list(range(count - len(refused) + 1, count + 1)):
        wrong.append(f"requests {refused} of {count} are not the last ones")
    if asks != bool(refused):
        wrong.append(f"{len(refused)} requests of the call were refused")
    print(f"{call:26} {len(refused):3} of {count:3}   {'no' if wrong else 'yes'}", flush=True)
    for line in wrong:
        print(f"    {line}")
    return not wrong


def main():
    if "--built" not in sys.argv[1:]:
        for crate in dict.fromkeys(test[0] for test in TESTS):
            subprocess.run(["rt", "test"], cwd=f"{CRATES}/{crate}", check=True, stdout=subprocess.DEVNULL)
    with tempfile.TemporaryDirectory() as room:
        shim = f"{room}/refuse.so"
        subprocess.run(["gcc", "-O1", "-shared", "-fPIC", f"{HERE}/refuse.c", "-o", shim, "-ldl"], check=True)
        print("call                       refused in it   all as before, and answered again")
        hold = [row(*test, shim, room) for test in TESTS]
    print(f"growths: {sum(hold)} of {len(hold)} calls hold")
    sys.exit(0 if all(hold) else 1)


main()
