"""What `tlsld` says of a case: the bytes in the place of each sequence, what its functions return, and refusals."""
import os
import re
import shutil
import subprocess

from plans import TOP

BUILT = f"{TOP}/crates/tlsld/out/tlsld"
DRIVERS = f"{TOP}/workbench/drivers"
KINDS = {"static": "exe", "plain": "exe", "pie": "pie", "shared": "start"}
# The calls of each function: by which thread, and what it adds. Behind them each variable is what it was.
CALLS = [(1, 5), (2, 7), (1, -5), (2, -7)]


class Refused(Exception):
    """A line that `tlsld` ends with in place of an image."""


def job(case, kind, functions):
    """The text of a job in which two threads call each function of a case."""
    lines = ["image main exe main.o"] if kind == "shared" else []
    lines.append(f"image app {KINDS[kind]} {' '.join(case.objects)}")
    lines += ["image lib start lib.o"] if case.library else []
    lines.append("threads 2")
    lines += [f"{thread} call app {name} {added % 2 ** 64} 0 0" for name in functions for thread, added in CALLS]
    return "".join(f"{line}\n" for line in lines)


class NoValue(Exception):
    """A function ends by a fault in place of a value."""


class Linker:
    """`tlsld` over the objects of a case, in a folder."""

    def __init__(self, room):
        self.room = room
        for name in ("main.o", "lib.o"):
            shutil.copy(f"{DRIVERS}/{name}", room)

    def run(self, *words):
        ran = subprocess.run([BUILT, *words], cwd=self.room, capture_output=True)
        return ran.returncode, ran.stdout.decode()

    def said(self, *words):
        """What a command prints; a refusal where it ends by one."""
        status, told = self.run(*words)
        if status:
            raise Refused(told.strip() or f"status {status}")
        return told

    def begin(self, case, kind, functions):
        with open(f"{self.room}/job", "w", encoding="utf-8") as file:
            file.write(job(case, kind, functions))

    def choices(self):
        """What is put in the place of each sequence with rewriting, by object, section and offset there."""
        rows = [line.split() for line in self.said("sites", "job", "app").splitlines()]
        return {(file, int(section), int(at, 16)): choice for file, section, at, _, choice, _ in rows}

    def image(self, *words):
        """The image's bytes, and where in the file each function stands."""
        self.said("link", "job", "app", "out", *words)
        told = self.said("show", "out")
        base = 0x400000 if "kind exe" in told else 0
        places = re.findall(r"^symbol ([0-9a-f]{16}) 2 (\S+)$", told, re.M)
        with open(os.path.join(self.room, "out"), "rb") as file:
            return file.read(), {name: int(value, 16) - base + 4096 for value, name in places}

    def values(self, functions, *words):
        """What each function returned to its calls."""
        told = self.said("run", "job", *words)
        found = {(int(thread), int(line)): value for thread, line, value in
            re.findall(r"^t(\d+) l(\d+) g[0-9,]* = ([0-9a-f]{16})$", told, re.M)}
        answers = {}
        for at, name in enumerate(functions):
            lines = [(1, 2 * at + 1), (2, 2 * at + 1), (1, 2 * at + 2), (2, 2 * at + 2)]
            if not found.keys() >= set(lines):
                raise NoValue(f"{name} does not return: {told}")
            answers[name] = [found[it] for it in lines]
        return answers

    def verdict(self):
        """What `check` says of the calls."""
        return self.run("check", "job")[1].strip()
