"""Linkers as commands: what is run for a case, within which time, and how it ended."""
import os
import re
import shlex
import shutil
import signal
import subprocess

from elf import File, NotElf

HERE = os.path.dirname(os.path.abspath(__file__))
DRIVERS = f"{HERE}/drivers"
KINDS = {"static": ["-static"], "plain": [], "pie": ["-pie"], "shared": ["-shared"]}
PARTS = ("{kind}", "{relax}", "{out}", "{objects}")
CRASHES = re.compile(r"internal error|PLEASE submit|segmentation fault|core dumped|assertion|stack dump", re.I)

ERRORS = re.compile(
    r"error|undefined|unsupported|can't|can ?not|unrecogni|invalid|fatal|must|transition|unresolv", re.I)


class BadCommand(Exception):
    """A command that can't be used, and why."""


def ended(words, room, seconds, environment=None):
    """Runs words as a process of its own, with all that it starts: its status (None where the time was up) and what it
    printed.
    """
    ran = subprocess.Popen(words, cwd=room, stdin=subprocess.DEVNULL, stdout=subprocess.PIPE, stderr=subprocess.STDOUT,
        env=environment, start_new_session=True)
    try:
        said, _ = ran.communicate(timeout=seconds)
        return ran.returncode, said.decode(errors="replace")
    except subprocess.TimeoutExpired:
        os.killpg(ran.pid, signal.SIGKILL)
        said, _ = ran.communicate()
        return None, said.decode(errors="replace")


def system_files():
    """The C library and the loader that this process uses, as paths, by the beginnings of their names."""
    found = {}
    try:
        with open("/proc/self/maps", encoding="utf-8") as file:
            for path in re.findall(r"\s(/\S+)$", file.read(), re.M):
                for name in ("libc.so.6", "ld-linux-x86-64.so.2"):
                    if os.path.basename(path) == name:
                        found[name] = path
    except OSError:
        pass
    return found


class Linker:
    """A linker: its command in words, some of which are filled in."""

    def __init__(self, command, seconds):
        self.command, self.seconds = command, seconds
        try:
            self.words = shlex.split(command)
        except ValueError as fault:
            raise BadCommand(str(fault)) from fault
        for part in ("{out}", "{objects}"):
            if not any(part in it for it in self.words):
                raise BadCommand(f"no {part} in it")
        strange = set(re.findall(r"\{\w*\}", command)) - set(PARTS)
        if strange or not self.words[0].strip("{}"):
            raise BadCommand(f"{' '.join(sorted(strange)) or 'no program'}: it takes {' '.join(PARTS)}")
        self.name = os.path.basename(self.words[0])
        self.is_there = shutil.which(self.words[0]) is not None

    def takes(self, kind, relax):
        """Whether the command can ask for such an image: without {kind} it makes plain programs, without {relax} it
        rewrites.
        """
        return ("{kind}" in self.command or kind == "plain") and ("{relax}" in self.command or relax)

    def filled(self, kind, relax, objects):
        """The words for one image."""
        words = []
        for word in self.words:
            if word == "{kind}":
                words += KINDS[kind]
            elif word == "{relax}":
                words += [] if relax else ["--no-relax"]
            elif word == "{objects}":
                words += objects
            else:
                words.append(word.replace("{out}", "out").replace("{kind}", " ".join(KINDS[kind]))
                    .replace("{relax}", "" if relax else "--no-relax").replace("{objects}", " ".join(objects)))
        return words

    def version(self):
        """The first line that it prints of itself."""
        try:
            status, said = ended([self.words[0], "--version"], None, self.seconds)
        except OSError:
            return ""
        return said.splitlines()[0] if status == 0 and said else ""


def objects_of(case, kind, system):
    """The files of which an image is made, as the linker is told of them."""
    files = list(case.objects)
    if kind == "static":
        files.insert(0, "static.o")
    elif kind != "shared":
        files.insert(0, "hosted.o")
    files += ["lib.so"] if case.library else []
    if kind in ("plain", "pie"):
        files += [system["libc.so.6"], system["ld-linux-x86-64.so.2"]]
    return files


class Made:
    """What a linker made of a case: an image, or a word for what it did in place of that, and why."""

    def __init__(self, outcome, why="", image=None):
        self.outcome, self.why, self.image = outcome, why, image


def message(said):
    """The line of a linker's messages that says most: the first with an error in it, else the last."""
    lines = [it.strip() for it in said.splitlines() if it.strip()]
    return next((it for it in lines if ERRORS.search(it)), (lines or ["without a word"])[-1])


def prepare(case, kind, room):
    """Puts the files of a case into a folder."""
    os.makedirs(room)
    for name in case.objects:
        shutil.copy(f"{case.folder}/{name}", room)
    driver = {"static": "static.o", "shared": None}.get(kind, "hosted.o")
    for name in [driver] * (driver is not None) + ["lib.so"] * case.library:
        shutil.copy(f"{DRIVERS}/{name}", room)


def link(linker, case, kind, relax, room, system):
    """Links a case in a folder of its own."""
    prepare(case, kind, room)
    words = linker.filled(kind, relax, objects_of(case, kind, system))
    try:
        status, said = ended(words, room, linker.seconds, {**os.environ, "TMPDIR": room, "LC_ALL": "C"})
    except OSError as fault:
        return Made("not there", fault.strerror or "")
    if status is None:
        return Made("hangs", f"no end after {linker.seconds} seconds")
    if status < 0 or status >= 128 or (status and CRASHES.search(said)):
        told = next((it.strip() for it in said.splitlines() if CRASHES.search(it)), "")
        return Made("crashes", told or (f"signal {-status}" if status < 0 else message(said)))
    if status:
        return Made("refused", message(said))
    try:
        return Made("made", message(said) if said else "", File(f"{room}/out"))
    except OSError:
        return Made("wrote nothing", message(said) if said else "no file, and status 0")
    except NotElf:
        return Made("no ELF file", "what it wrote is no ELF file for x86-64")
