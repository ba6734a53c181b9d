#!/usr/bin/env python3
"""selftest.py: shows that the workbench can fail, and that it doesn't cry wolf. It needs `ld` alone.

damage.py is a linker that damages what `ld` wrote, in one way at a time: each is to be told as wrong at the case that
it is of, and at no other sequence. It also puts mold's forms there, which are right. Linkers that are no good at all,
each in its way, have to be a clear row. Nothing may be left behind.
"""
import json
import os
import subprocess
import sys
import tempfile

HERE = os.path.dirname(os.path.abspath(__file__))
CASES = ["gd-own", "gd-lib", "ie-mov-lib", "addends", "ld-own", "ld-ind-hidden", "desc-own"]
WORDS = "{kind} {relax} -o {out} {objects}"
# What is damaged: the case, the kinds of image, how many sequences of an image are wrong, and a part of the reason. The
# cases beside it are tried too, and stay right.
DAMAGED = {
    "byte": ("gd-own", ("static", "plain", "pie"), 1, "thread 1", ["gd-lib", "ld-own", "desc-own"]),
    "forbidden": ("ie-mov-lib", ("plain", "pie", "shared"), 1, "thread 1", ["gd-own", "ld-own", "desc-own"]),
    "addend": ("addends", ("static", "plain", "pie"), 6, "reads 0x5100, not 0x510", ["gd-own", "ld-own", "ie-mov-lib"]),
    "behind": ("gd-own", ("static", "plain", "pie", "shared"), 1, "outside", ["ld-own", "ie-mov-lib", "desc-own"]),
    "first": ("gd-own", ("static", "plain", "pie"), 2, "thread 2 reads 0x5105, not", ["gd-lib", "ld-own", "desc-own"]),
}
USELESS = {
    "not there": (f"no-such-linker {WORDS}", 2), "crashes": (f"sh -c 'kill -SEGV $$' x {WORDS}", 0),
    "hangs": (f"sh -c 'sleep 1000' x {WORDS}", 0), "wrote nothing": (f"true {WORDS}", 0),
    "no ELF file": (f"sh -c 'echo text > out' x {WORDS}", 0),
}


def tried(command, *words):
    """The status of try.py with one linker, and its rows."""
    command = [sys.executable, f"{HERE}/try.py", "--json", command, *words]
    ran = subprocess.run(command, stdout=subprocess.PIPE, check=False)
    return ran.returncode, json.loads(ran.stdout)["linkers"][0]["rows"]


def cases(names):
    return [word for name in names for word in ("--case", name)]


def damaging(way):
    return f"{sys.executable} {HERE}/damage.py {way} {WORDS}"


def fails(text):
    print(f"selftest: {text}")
    sys.exit(1)


def told(rows, verdict):
    return [it for it in rows if it["verdict"] == verdict]


def check_damage():
    """Each damage is told as wrong, where it is, and nowhere else."""
    for way, (case, kinds, count, reason, beside) in DAMAGED.items():
        status, rows = tried(damaging(way), *cases([case, *beside]))
        wrong = told(rows, "wrong")
        rewritten = [it["kind"] for it in wrong if it["case"] == case and it["rewriting"]]
        found = {kind: rewritten.count(kind) for kind in kinds}
        if status != 1 or found != dict.fromkeys(kinds, count):
            fails(f"{way}: status {status}, wrong are {found}")
        others = [it for it in wrong if it["case"] != case or it["kind"] not in kinds]
        if others or not all(reason in it["why"] for it in wrong):
            fails(f"{way}: {others or wrong}")
        print(f"{way}: {sum(found.values())} sequences of {case} are wrong: {wrong[0]['why']}")


def check_right():
    """What is right is not called wrong: as `ld` writes it, and by mold's forms."""
    for way, verdict in (("nothing", "as the table"), ("mold", "another right form")):
        status, rows = tried(damaging(way), *cases(CASES))
        if status or told(rows, "wrong") or told(rows, "not decided"):
            fails(f"{way}: status {status}, {told(rows, 'wrong')[:1]}")
        changed = [it["verdict"] for it in rows if it["case"] in ("gd-own", "ld-own") and it["rewriting"]
            and it["kind"] in ("static", "pie")]
        if set(changed) != {verdict}:
            fails(f"{way}: {changed}")
        print(f"{way}: {len(told(rows, verdict))} sequences are {verdict}, and none is wrong")


def check_useless():
    """A linker that is no good is a clear row, and the run goes on."""
    for word, (command, wanted) in USELESS.items():
        status, rows = tried(command, "--case", "gd-own", "--seconds", "1")
        clear = [it for it in rows if it["verdict"] == "no answer" and it["why"].startswith(word)]
        if status != wanted or not rows or clear != rows:
            fails(f"{word}: status {status}, {rows[:1]}")
        print(f"{word}: {len(rows)} rows: {rows[0]['why']}")


def check_words():
    """Words that can't be used end with status 2."""
    for words in ([], ["ld -o {out}"], [f"ld {WORDS} {{strange}}"], [f"ld {WORDS}", "--case", "no-such-case"],
            [f"ld {WORDS}", "--keep"], [f"ld '{WORDS}"]):
        ran = subprocess.run([sys.executable, f"{HERE}/try.py", *words], capture_output=True, check=False)
        if ran.returncode != 2 or not ran.stderr:
            fails(f"{words}: status {ran.returncode}")
    print("words that can't be used: status 2")


def main():
    with tempfile.TemporaryDirectory() as room:
        os.environ["TMPDIR"] = room
        os.chdir(room)
        check_words()
        check_right()
        check_damage()
        check_useless()
        if os.listdir(room):
            fails(f"left behind: {os.listdir(room)}")
    print("the workbench fails where it must, and nothing is left behind")


main()
