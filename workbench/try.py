#!/usr/bin/env python3
"""try.py COMMAND..: tries linkers on every sequence of the corpus, and says of each what the linker made of it.

A COMMAND is a linker's, in one word, as 'ld.lld {kind} {relax} -o {out} {objects}': {kind} becomes -static, -pie,
-shared or nothing, {relax} --no-relax or nothing. A command without one of them gets only the cases that need none.
README.md has the verdicts. The status is 1 where anything is wrong, 2 for words that can't be used and for a linker
that is not there, else 0.
"""
import argparse
import os
import sys
import tempfile

import reports
import verdicts
from bench import Bench
from linkers import HERE, BadCommand


def arguments():
    asked = argparse.ArgumentParser(description=__doc__, formatter_class=argparse.RawDescriptionHelpFormatter)
    asked.add_argument("commands", nargs="+", metavar="COMMAND")
    asked.add_argument("--cases", default=f"{HERE}/cases", metavar="FOLDER", help="another corpus")
    asked.add_argument("--case", action="append", default=[], metavar="NAME", help="one case; may be given again")
    asked.add_argument("--keep", action="store_true", help="leaves the files of a case in a folder of its name")
    asked.add_argument("--all", action="store_true", help="a row for every case, not only where linkers do otherwise")
    asked.add_argument("--json", action="store_true", help="prints the rows as JSON")
    asked.add_argument("--tap", action="store_true", help="prints the rows as TAP, for a CI")
    asked.add_argument("--seconds", type=float, default=10, help="the limit of time of each link and each run")
    asked.add_argument("--jobs", type=int, default=os.cpu_count(), help="how many run side by side")
    return asked.parse_args()


def kept_room(words):
    """The folder in which the files of a case are left; it must not be there yet."""
    if len(words.case) != 1 or os.path.exists(words.case[0]):
        raise BadCommand("--keep wants one --case, and no file or folder of its name here")
    return os.getcwd()


def tell(words, bench, found):
    if words.json:
        print(reports.as_json(bench, found))
    elif words.tap:
        print(reports.as_tap(bench, found))
    else:
        print(reports.as_table(bench, found, words.all))


def status(bench, found):
    if any(row.verdict == verdicts.WRONG for rows in found for row in rows):
        return 1
    return 0 if all(it.is_there for it in bench.linkers) else 2


def main():
    words = arguments()
    with tempfile.TemporaryDirectory(prefix="workbench-") as room:
        try:
            bench = Bench(words, kept_room(words) if words.keep else room)
        except (BadCommand, OSError) as fault:
            print(f"try.py: {fault}", file=sys.stderr)
            return 2
        unknown = set(words.case) - {it.name for it in bench.cases}
        if unknown or not bench.cases:
            print(f"try.py: no case {' '.join(sorted(unknown)) or words.cases}", file=sys.stderr)
            return 2
        found = bench.rows()
        tell(words, bench, found)
        return status(bench, found)


if __name__ == "__main__":
    sys.exit(main())
