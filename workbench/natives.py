"""Native runs: a linked image as a process of its own, whose threads call the functions of a case."""
import os
import platform
import sys

from linkers import HERE, ended

# By which thread each function is called, and what it adds: as make.py has it.
CALLS = [(1, 5), (2, 7), (1, -5), (2, -7)]
MASK = 2 ** 64 - 1
# Where a module's code wants its block at a fixed distance, the loader has room for this much.
ROOM = {"PATH": os.environ.get("PATH", ""), "GLIBC_TUNABLES": "glibc.rtld.optional_static_tls=2097152"}


def can_run():
    return sys.platform == "linux" and platform.machine() == "x86_64" and sys.maxsize > 2 ** 32


class Ran:
    """How a run ended: what each call returned, and a word for how it broke off, if it did."""

    def __init__(self, values, broken=""):
        self.values, self.broken = values, broken


def places(image):
    """The addresses of an image's symbols."""
    return {it.name: it.value for it in image.symbols() if it.section}


def calls(image, kind, functions):
    """The words for the calls of these functions: their distances from a module's beginning, or from the driver's base.
    """
    words, where = [], places(image)
    base = 0 if kind == "shared" else where["workbench_base"]
    for name in functions:
        for thread, added in CALLS:
            words += [str(thread), f"{where[name] - base & MASK:x}", f"{added & MASK:x}"]
    return words


def command(kind, image, functions, system):
    """What is run: the program itself, a loader with it, or a child of Python that opens the module."""
    words = calls(image, kind, functions)
    if kind == "static":
        return ["./out", *words]
    if kind == "shared":
        return [sys.executable, "-I", "-S", f"{HERE}/drivers/module.py", *words]
    folders = ".:" + os.path.dirname(system["libc.so.6"])
    return [system["ld-linux-x86-64.so.2"], "--library-path", folders, "./out", *words]


def run(image, kind, functions, room, system, seconds):
    """Calls functions of an image; what each returned, as far as it came."""
    os.chmod(f"{room}/out", 0o755)
    words = command(kind, image, functions, system)
    ran = once(words, functions, room, seconds, ROOM)
    if kind == "shared" and "static TLS block" in ran.broken:
        # such a block is had at the process's start alone
        files = [it for it in ("./lib.so", "./out") if os.path.exists(f"{room}/{it}")]
        ran = once(words, functions, room, seconds, {**ROOM, "LD_PRELOAD": " ".join(files)})
    return ran


def once(words, functions, room, seconds, environment):
    try:
        status, said = ended(words, room, seconds, environment)
    except OSError as fault:
        return Ran({}, f"does not start: {fault.strerror}")
    lines = [it for it in said.splitlines() if len(it) == 16]
    values = {name: lines[4 * at:4 * at + 4] for at, name in enumerate(functions)}
    if status is None:
        return Ran(values, "hangs")
    if status < 0:
        return Ran(values, f"is ended by signal {-status}")
    if status:
        return Ran(values, f"ends with status {status}: {said.splitlines()[-1] if said else ''}")
    return Ran(values)
