#!/usr/bin/env python3
"""ports.py [TLSLD]: what the program makes of files, disks and pipes that fail, each case a row of the tables below.

A row says how the command ends, with which line, and what has changed in the folder. All or nothing: where a plain file or
nothing stands at OUT, it is the old or the whole new file afterwards, no `.part` file is left, and nothing else has changed, unless
a signal ends the program. Only a device, a pipe or a link is written in place. Rows of `link` are run with nothing at OUT and with an old file there.

Some rows have true disks, devices and pipes, others the shim of tests/faulty.c, which needs gcc. Rows that need root, for a small
disk, are left out where it is not there, and counted.
"""
import errno
import itertools
import os
import resource
import shutil
import signal
import struct
import subprocess
import sys
import tempfile
import threading
from contextlib import contextmanager
from dataclasses import dataclass, field

HERE = os.path.dirname(os.path.abspath(__file__))
sys.path.insert(0, HERE)
from object_writer import CODE, FUNCTION, READ, Object

SECONDS = 60
NOBODY = 65534
OLD, NEW, NEW_LARGE, PART = b"old", "the whole image", "the whole large image", "a front of the image"
JOBS = {
    "job": b"image app exe a.o\n1 call app f 0 0 0\n",
    "job-zero": b"image app exe /dev/zero\n",
    "job-null": b"image app exe /dev/null\n",
    "job-version": b"image app exe /proc/version\n",
    "job-pipe": b"image app exe pipe\n1 call app f 0 0 0\n",
    "job-folder": b"image app exe folder\n",
    "job-large": b"image app exe large.o\n",
}
RUN, LINK = "run job", "link job app out"
STORE, SINK, MEMORY = (3, "store fault\n"), (4, ""), (1, "out of memory\n")
# Nothing can be told of a limit of file size by a program that its signal ends: a part is left then.
KILLED = (-signal.SIGXFSZ, "")
RAN, LINKED = (0, "t1 l1 g0 = 000000000000002a\n"), (0, "linked app 12485\n")
NO_EXE, CUT_OBJECT = (5, "job 0 NoExe\n"), (6, "object {} section 0 entry 0 Truncated\n")


class LeftOut(Exception):
    """A row can't be made on this machine."""


class Wrong(Exception):
    """Says what is wrong with a row."""


class Room:
    """A folder with jobs and objects, among which a command runs."""

    def __init__(self, bench, path):
        self.bench, self.path = bench, path
        os.chmod(path, 0o777)
        for name, text in JOBS.items():
            self.put(name, text)
        for name in ("a.o", "large.o"):
            shutil.copy(f"{bench.folder}/{name}", path)
        os.mkdir(f"{path}/folder")

    def at(self, name):
        return f"{self.path}/{name}"

    def put(self, name, content):
        with open(self.at(name), "wb") as file:
            file.write(content)

    def put_old(self, name):
        """Puts an old file there, where a file can be and none is."""
        if os.path.isdir(os.path.dirname(self.at(name))) and len(name) < 256 and not os.path.exists(self.at(name)):
            self.put(name, OLD)

    def state(self):
        """Each name below the folder, with the bytes of a plain file, where a link leads, or nothing."""
        found = {}
        for folder, folders, names in os.walk(self.path):
            for name in folders + names:
                path = f"{folder}/{name}"
                found[os.path.relpath(path, self.path)] = content(path)
        return found


def content(path):
    if os.path.islink(path):
        return os.readlink(path)
    if not os.path.isfile(path):
        return None
    with open(path, "rb") as file:
        return file.read()


class Bench:
    """The program, the shim, the objects, and the images that are made of them."""

    def __init__(self, tlsld, folder):
        self.folder, self.counts = folder, f"{folder}/counts"
        os.chmod(folder, 0o755)
        shutil.copy(tlsld, f"{folder}/tlsld")
        shutil.copy(f"{HERE}/../crates/tlsld/data/a.o", folder)
        subprocess.run(["gcc", "-O1", "-shared", "-fPIC", f"{HERE}/faulty.c", "-o", f"{folder}/faulty.so", "-ldl"], check=True)
        large = Object()
        large.symbol("f", FUNCTION, large.section(".text", CODE, b"\xc3"), 0, 1)
        large.section(".rodata", READ, bytes(300_000))
        large.write(f"{folder}/large.o")
        self.images = {NEW: self.linked("job"), NEW_LARGE: self.linked("job-large")}

    def linked(self, job):
        """The image that is linked with nothing wrong."""
        with tempfile.TemporaryDirectory(dir=self.folder) as path:
            room = Room(self, path)
            if self.run(f"link {job} app out", room)[0]:
                raise SystemExit(f"{job} does not link")
            return content(room.at("out"))

    def run(self, words, room, output=subprocess.PIPE, before=None, ignores=False, faults=None):
        """How a command ends, and what it says on standard output where that is read."""
        environment = {**os.environ}
        if faults:
            environment |= {"LD_PRELOAD": f"{self.folder}/faulty.so", "COUNT": self.counts, **faults}
            with open(self.counts, "wb") as file:
                file.write(bytes(8))
        words = words.split() if isinstance(words, str) else words
        try:
            found = subprocess.run([f"{self.folder}/tlsld", *words], cwd=room.path, env=environment, stdout=output,
                                   stderr=subprocess.DEVNULL, preexec_fn=before, restore_signals=not ignores, timeout=SECONDS)
        except subprocess.TimeoutExpired:
            return "hangs", ""
        return found.returncode, (found.stdout or b"").decode(errors="replace")

    def calls(self):
        """How many calls the shim counted in the last run."""
        with open(self.counts, "rb") as file:
            return struct.unpack("<Q", file.read())[0]

    def is_as_wanted(self, wanted, found):
        if wanted == PART:
            return isinstance(found, bytes) and self.images[NEW].startswith(found)
        return found == self.images.get(wanted, wanted)


# How the outside of a row is made. Each is a context in which the command runs, and gives more words for Bench.run.

@contextmanager
def as_it_is(_room):
    yield {}


def standing(make):
    """Something more stands in the folder."""
    @contextmanager
    def context(room):
        make(room)
        yield {}
    return context


def shimmed(call, how, first=1, times=1):
    """So many calls, from the first one on, go wrong as tests/faulty.c says. No number of times is all."""
    @contextmanager
    def context(_room):
        yield {"faults": {"CALL": call, "HOW": str(how), "FROM": str(first), "TIMES": str(times)}}
    return context


def limited(kind, amount, ignores=False, target=None):
    """The host allows so much. Whoever starts the program says whether the signal that goes with it is ignored."""
    @contextmanager
    def context(room):
        with open(room.at(target) if target else os.devnull, "wb") as file:
            more = {"output": file} if target else {}
            yield {"before": lambda: resource.setrlimit(kind, (amount, amount)), "ignores": ignores, **more}
    return context


def as_another(name, mode):
    """Some user runs the command who is not root, and may not do all with a file or with the folder."""
    @contextmanager
    def context(room):
        os.chmod(room.at(name), mode)
        yield {"before": lambda: os.geteuid() or os.setuid(NOBODY)}
        os.chmod(room.at(name), 0o777)
    return context


def fed(name, content_of):
    """A pipe stands there, and somebody writes to it and closes it."""
    @contextmanager
    def context(room):
        def write():
            with open(room.at(name), "wb") as pipe:
                pipe.write(content_of(room))
        os.mkfifo(room.at(name))
        writer = threading.Thread(target=write, daemon=True)
        writer.start()
        yield {}
        writer.join(SECONDS)
    return context


def drained(name, most, image):
    """A pipe stands there, and somebody reads it, up to so many bytes, and closes it."""
    @contextmanager
    def context(room):
        found = bytearray()
        def read():
            with open(room.at(name), "rb", buffering=0) as pipe:
                while len(found) < most and (piece := pipe.read(min(4096, most - len(found)))):
                    found.extend(piece)
        os.mkfifo(room.at(name))
        reader = threading.Thread(target=read, daemon=True)
        reader.start()
        yield {}
        reader.join(SECONDS)
        if found != room.bench.images[image][:most]:
            raise Wrong(f"the pipe gave {len(found)} bytes, and not the image")
    return context


def putting(target=None, before=None):
    """Standard output is a device, or what is done before the program runs leaves of it."""
    @contextmanager
    def context(_room):
        with open(target or os.devnull, "wb") as file:
            yield {"output": file, "before": before}
    return context


def unread(ignores):
    """Standard output is a pipe that nobody reads."""
    @contextmanager
    def context(_room):
        reads, writes = os.pipe()
        os.close(reads)
        yield {"output": writes, "ignores": ignores}
        os.close(writes)
    return context


def disk(options, old=None, later=None):
    """The folder `folder` is a disk of its own, with an old file on it, and is mounted otherwise then."""
    @contextmanager
    def context(room):
        place = room.at("folder")
        if subprocess.run(["mount", "-t", "tmpfs", "-o", options, "none", place], stderr=subprocess.DEVNULL).returncode:
            raise LeftOut
        try:
            if old:
                room.put(old, OLD)
            if later:
                subprocess.run(["mount", "-o", f"remount,{later}", place], check=True)
            yield {}
        finally:
            subprocess.run(["umount", place], check=True)
    return context


def linked_to(target, name="out"):
    return standing(lambda room: os.symlink(target, room.at(name)))


@contextmanager
def linked_to_full_disk(room):
    with disk("size=8k", "folder/out")(room), linked_to("folder/out")(room):
        yield {}


def taken(count):
    """So many names for new files are taken, by files of others."""
    return standing(lambda room: [room.put(f"out.part{number}", b"other") for number in range(count)])


def object_bytes(room):
    return content(room.at("a.o"))


@dataclass
class Row:
    """What is wrong, the command, how the outside is made, how the command ends, and what of the folder is changed then."""
    what: str
    words: object
    made: object
    ended: tuple
    changed: dict = field(default_factory=dict)


INPUTS = [
    Row("no such job", "run none", as_it_is, STORE),
    Row("the job is a folder", "run folder", as_it_is, STORE),
    Row("the job's path leads through a file", "run a.o/job", as_it_is, STORE),
    Row("the job's name is empty", ["run", ""], as_it_is, STORE),
    Row("the job's name has 300 bytes", "run " + "j" * 300, as_it_is, STORE),
    Row("the job's path has 5,000 bytes", "run " + "./" * 2500 + "job", as_it_is, STORE),
    Row("the job's name is no UTF-8", ["run", b"\xff"], as_it_is, (2, "usage\n")),
    Row("the job is a link to itself", "run ring", linked_to("ring", "ring"), STORE),
    Row("the job is a link to a job", "run ring", linked_to("job", "ring"), RAN),
    Row("the job may not be read", RUN, as_another("job", 0), STORE),
    Row("one file may be open at a time", RUN, limited(resource.RLIMIT_NOFILE, 4), RAN),
    Row("the first open interrupted", RUN, shimmed("open", errno.EINTR), RAN),
    Row("the job is /dev/null", "run /dev/null", as_it_is, NO_EXE),
    Row("the job is /dev/zero", "run /dev/zero", as_it_is, STORE),
    Row("the job is /dev/full", "run /dev/full", as_it_is, STORE),
    Row("the job is a pipe", "run pipe", fed("pipe", lambda room: JOBS["job"]), RAN),
    Row("the job is a pipe with nothing in it", "run pipe", fed("pipe", lambda room: b""), NO_EXE),
    Row("an object is a folder", "run job-folder", as_it_is, STORE),
    Row("an object is /dev/null", "run job-null", as_it_is, (6, CUT_OBJECT[1].format("/dev/null"))),
    Row("an object is /dev/zero", "run job-zero", as_it_is, STORE),
    Row("an object of untold length", "run job-version", as_it_is, (6, "object /proc/version section 0 entry 0 NotElf\n")),
    Row("an object is a pipe", "run job-pipe", fed("pipe", object_bytes), RAN),
    Row("an object is a pipe that ends early", "run job-pipe", fed("pipe", lambda room: object_bytes(room)[:63]),
        (6, CUT_OBJECT[1].format("pipe"))),
    Row("an image is a folder", "show folder", as_it_is, STORE),
    Row("an image is /dev/null", "show /dev/null", as_it_is, (8, "image 0 Truncated\n")),
    Row("an image is /dev/zero", "show /dev/zero", as_it_is, STORE),
    Row("reads of one byte each", RUN, shimmed("read", "short", times=0), RAN),
    Row("a thousand reads interrupted", RUN, shimmed("read", errno.EINTR, times=1000), RAN),
    Row("each read interrupted", RUN, shimmed("read", errno.EINTR, times=0), STORE),
    Row("no memory in the host for a read", RUN, shimmed("read", errno.ENOMEM), MEMORY),
    Row("the job ends early", RUN, shimmed("read", "end", 1, 2), NO_EXE),
    Row("an object ends early", RUN, shimmed("read", "end", 3, 2), (6, CUT_OBJECT[1].format("a.o"))),
    Row("the job is cut as it is read", RUN, shimmed("read", "cut"), (0, ""), {"job": JOBS["job"][:18]}),
    Row("the job grows by zeros as it is read", RUN, shimmed("read", "grow", 2), (5, "job 3 NotText\n")),
    Row("an object grows as it is read", RUN, shimmed("read", "grow", 4), RAN),
    Row("an object grows without end", RUN, shimmed("read", "grow", 4, 0), STORE),
]

OUTPUTS = [
    Row("standard output is closed", RUN, putting(before=lambda: os.close(1)), SINK),
    Row("all three streams are closed", RUN, putting(before=lambda: os.closerange(0, 3)), SINK),
    Row("standard output is /dev/full", RUN, putting("/dev/full"), SINK),
    Row("standard output is only read", RUN, putting(before=lambda: os.dup2(os.open("/", os.O_RDONLY), 1)), SINK),
    Row("a pipe that nobody reads", RUN, unread(False), SINK),
    Row("the same, SIGPIPE ignored", RUN, unread(True), SINK),
    Row("files of at most 10 bytes", RUN, limited(resource.RLIMIT_FSIZE, 10, target="said"), KILLED, {"said": RAN[1][:10].encode()}),
    Row("the same, SIGXFSZ ignored", RUN, limited(resource.RLIMIT_FSIZE, 10, True, "said"), SINK, {"said": RAN[1][:10].encode()}),
    Row("writes of one byte each", RUN, shimmed("write", "short", times=0), RAN),
    Row("a thousand writes interrupted", RUN, shimmed("write", errno.EINTR, times=1000), RAN),
    Row("each write interrupted", RUN, shimmed("write", errno.EINTR, times=0), SINK),
    Row("writes take nothing", RUN, shimmed("write", "end", times=0), SINK),
    Row("no memory in the host for a write", RUN, shimmed("write", errno.ENOMEM), MEMORY),
    Row("a refusal, standard output closed", "run none", putting(before=lambda: os.close(1)), SINK),
    Row("wrong words, standard output closed", "none", putting(before=lambda: os.close(1)), SINK),
]

# Each of these is run twice: with nothing at OUT, and with an old file there.
LINKS = [
    Row("nothing is wrong", LINK, as_it_is, LINKED, {"out": NEW}),
    Row("writes of one byte each", LINK, shimmed("write", "short", times=0), LINKED, {"out": NEW}),
    Row("a thousand writes interrupted", LINK, shimmed("write", errno.EINTR, times=1000), LINKED, {"out": NEW}),
    Row("a thousand and one writes interrupted", LINK, shimmed("write", errno.EINTR, times=1001), STORE),
    Row("a write takes nothing", LINK, shimmed("write", "end"), STORE),
    Row("no memory in the host for a write", LINK, shimmed("write", errno.ENOMEM), MEMORY),
    Row("a disk full at the second write", LINK, shimmed("write", errno.ENOSPC, 2), STORE),
    Row("a disk full behind the image", LINK, shimmed("write", errno.ENOSPC, 4), SINK, {"out": NEW}),
    Row("files of at most 8,192 bytes", LINK, limited(resource.RLIMIT_FSIZE, 8192), KILLED, {"out.part0": PART}),
    Row("the same, SIGXFSZ ignored", LINK, limited(resource.RLIMIT_FSIZE, 8192, True), STORE),
    Row("files of no byte, SIGXFSZ ignored", LINK, limited(resource.RLIMIT_FSIZE, 0, True), STORE),
    Row("a folder that may not be written", LINK, as_another(".", 0o555), STORE),
    Row("a folder that is not there", "link job app none/out", as_it_is, STORE),
    Row("a path through a file", "link job app a.o/out", as_it_is, STORE),
    Row("a path that ends in a slash", "link job app none/", as_it_is, STORE),
    Row("an empty name", ["link", "job", "app", ""], as_it_is, STORE),
    Row("a name of 249 bytes", "link job app " + "o" * 249, as_it_is, LINKED, {"o" * 249: NEW}),
    Row("a name of 250 bytes, the new file's is too long", "link job app " + "o" * 250, as_it_is, STORE),
    Row("a name of 256 bytes", "link job app " + "o" * 256, as_it_is, STORE),
    Row("OUT is the job", "link job app job", as_it_is, LINKED, {"job": NEW}),
    Row("OUT is the object", "link job app a.o", as_it_is, LINKED, {"a.o": NEW}),
    Row("three names of new files are taken", LINK, taken(3), LINKED, {"out": NEW}),
    Row("a hundred are taken", LINK, taken(100), STORE),
    Row("a link has the new file's name", LINK, linked_to("none", "out.part0"), LINKED, {"out": NEW}),
    Row("standard output is closed", LINK, putting(before=lambda: os.close(1)), SINK, {"out": NEW}),
    Row("all three streams are closed", LINK, putting(before=lambda: os.closerange(0, 3)), SINK, {"out": NEW}),
    Row("standard output is /dev/full", LINK, putting("/dev/full"), SINK, {"out": NEW}),
    Row("a pipe that nobody reads", LINK, unread(False), SINK, {"out": NEW}),
]

ON_DISK = "link job app folder/out"
DISKS = [
    Row("a disk of 8,192 bytes", ON_DISK, disk("size=8k"), STORE),
    Row("the same, with an old file", ON_DISK, disk("size=8k", "folder/out"), STORE),
    Row("a disk that an old file fills", ON_DISK, disk("size=4k", "folder/out"), STORE),
    Row("a disk for no file more", ON_DISK, disk("nr_inodes=2", "folder/out"), STORE),
    Row("a disk that is only read", ON_DISK, disk("size=1m", "folder/out", "ro"), STORE),
    Row("a disk with room", ON_DISK, disk("size=1m", "folder/out"), LINKED, {"folder/out": NEW}),
]

IN_PLACE = [
    Row("OUT is a folder", "link job app folder", as_it_is, STORE),
    Row("OUT is /dev/null", "link job app /dev/null", as_it_is, LINKED),
    Row("OUT is /dev/zero", "link job app /dev/zero", as_it_is, LINKED),
    Row("OUT is /dev/full", "link job app /dev/full", as_it_is, STORE),
    Row("OUT is a pipe", "link job app pipe", drained("pipe", 1 << 20, NEW), LINKED),
    Row("OUT is a pipe, a large image", "link job-large app pipe", drained("pipe", 1 << 20, NEW_LARGE), (0, "linked app {}\n")),
    Row("OUT is a pipe, closed early", "link job-large app pipe", drained("pipe", 10, NEW_LARGE), STORE),
    Row("OUT is a link to a file", LINK, linked_to("job-null"), LINKED, {"job-null": NEW}),
    Row("OUT is a link to nothing", LINK, linked_to("none"), LINKED, {"none": NEW}),
    Row("OUT is a link to itself", LINK, linked_to("out"), STORE),
    Row("OUT is a link to a folder", LINK, linked_to("folder"), STORE),
    Row("OUT is a link to a file on a full disk", LINK, linked_to_full_disk, STORE, {"folder/out": PART}),
]


@dataclass
class Sweep:
    """A call, an error, and the status of the command with each such call in turn failing so, and then with none."""
    what: str
    words: str
    call: str
    error: int
    statuses: list


SWEEPS = [
    Sweep("each open denied", LINK, "open", errno.EACCES, [3, 3, 3, 0]),
    Sweep("each open, too many files", LINK, "open", errno.EMFILE, [3, 3, 3, 0]),
    Sweep("each open, no memory", LINK, "open", errno.ENOMEM, [1, 1, 1, 0]),
    Sweep("each length not told", LINK, "statx", errno.EIO, [3, 3, 3, 0]),
    Sweep("each read, a broken disk", LINK, "read", errno.EIO, [3, 3, 3, 3, 0]),
    Sweep("each read, no longer there", LINK, "read", errno.ESTALE, [3, 3, 3, 3, 0]),
    Sweep("each write, a full disk", LINK, "write", errno.ENOSPC, [3, 3, 3, 4, 0]),
    Sweep("each write, no more allowed", LINK, "write", errno.EDQUOT, [3, 3, 3, 4, 0]),
    Sweep("each write, a broken disk", LINK, "write", errno.EIO, [3, 3, 3, 4, 0]),
    Sweep("each write would wait", LINK, "write", errno.EAGAIN, [3, 3, 3, 4, 0]),
    Sweep("each close, of which no notice is taken", LINK, "close", errno.EIO, [0, 0, 0, 0]),
    Sweep("the new name, a broken disk", LINK, "rename", errno.EIO, [3, 0]),
    Sweep("the new name, denied", LINK, "rename", errno.EACCES, [3, 0]),
]


def changes(before, after):
    """What of a folder is new, other or gone."""
    missing = object()
    return {name: after.get(name, "gone") for name in before.keys() | after.keys()
            if before.get(name, missing) != after.get(name, missing)}


def complaint(bench, room, row):
    """What is wrong with a row, or None."""
    with row.made(room) as more:
        before = room.state()
        ended = bench.run(row.words, room, **more)
        changed = changes(before, room.state())
    wanted = row.ended[0], row.ended[1].replace("{}", str(len(bench.images[NEW_LARGE])))
    if ended != wanted:
        return f"status {ended[0]} and {ended[1][:60]!r}, not {wanted[0]} and {wanted[1]!r}"
    if changed.keys() != row.changed.keys():
        return f"changed: {', '.join(sorted(changed)) or 'nothing'}, not {', '.join(row.changed) or 'nothing'}"
    wrong = [name for name, content in row.changed.items() if not bench.is_as_wanted(content, changed[name])]
    return f"not as wanted: {', '.join(wrong)}" if wrong else None


def sweep_complaint(bench, room, sweep, has_old):
    """What is wrong with a sweep, or None."""
    for number, status in enumerate(sweep.statuses, 1):
        if has_old:
            room.put("out", OLD)
        elif os.path.exists(room.at("out")):
            os.remove(room.at("out"))
        texts = {0: LINKED[1], 1: MEMORY[1], 3: STORE[1], 4: ""}
        row = Row(sweep.what, sweep.words, shimmed(sweep.call, sweep.error, number), (status, texts[status]),
                  {"out": NEW} if status in (0, 4) else {})
        wrong = complaint(bench, room, row)
        if wrong:
            return f"call {number} of {bench.calls()}: {wrong}"
    is_all = bench.calls() == len(sweep.statuses) - 1
    return None if is_all else f"there are {bench.calls()} calls"


def at_once(bench, room, count):
    """What is wrong where so many commands write one file at once, or None."""
    processes = [subprocess.Popen([f"{bench.folder}/tlsld", *LINK.split()], cwd=room.path, stdout=subprocess.PIPE)
                 for _ in range(count)]
    ends = {(process.communicate(timeout=SECONDS)[0].decode(), process.returncode) for process in processes}
    parts = [name for name in room.state() if ".part" in name]
    if ends != {LINKED[::-1]} or parts or content(room.at("out")) != bench.images[NEW]:
        return f"they end with {ends}, and leave {parts}"
    return None


def rows():
    """Each row's name, and a function that says what is wrong with it in a room."""
    for row in [*INPUTS, *OUTPUTS, *LINKS, *DISKS, *IN_PLACE]:
        yield row.what, lambda bench, room, row=row: complaint(bench, room, row)
    for row in LINKS:
        name = (row.words.split() if isinstance(row.words, str) else row.words)[3]
        yield f"{row.what}; an old file", lambda bench, room, row=row, name=name: \
            room.put_old(name) or complaint(bench, room, row)
    for sweep, has_old in itertools.product(SWEEPS, (False, True)):
        yield sweep.what + ("; an old file" if has_old else ""), \
            lambda bench, room, sweep=sweep, has_old=has_old: sweep_complaint(bench, room, sweep, has_old)
    yield "thirty-two write one file at once", lambda bench, room: at_once(bench, room, 32)


def main():
    tlsld = os.path.abspath(sys.argv[1] if len(sys.argv) > 1 else f"{HERE}/../crates/tlsld/out/tlsld")
    held = failed = left_out = 0
    with tempfile.TemporaryDirectory() as folder:
        bench = Bench(tlsld, folder)
        for what, wrong_with in rows():
            with tempfile.TemporaryDirectory(dir=folder) as path:
                try:
                    wrong = wrong_with(bench, Room(bench, path))
                except LeftOut:
                    left_out += 1
                    continue
                except Wrong as said:
                    wrong = str(said)
            held, failed = held + (not wrong), failed + bool(wrong)
            print(f"{what:50}  {wrong or 'holds'}", flush=True)
    print(f"ports: {held} rows hold, {failed} do not, {left_out} were left out")
    sys.exit(1 if failed else 0)


main()
