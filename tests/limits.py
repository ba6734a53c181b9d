#!/usr/bin/env python3
"""limits.py [TLSLD] [JOB..]: the largest lawful jobs, each by every command that takes it, within a minute and 1 GiB.

A row is a job and a command: how long it takes by the clock and on all processors together, the greatest memory that it holds at
once, and whether it says what it should. Without names of jobs it takes all of the first table. The jobs of the second pass several limits together; nothing is
promised of them, so they fail no run, and say what a job may cost. All objects are made here, by a process of its own, since what
a process held before it became the program counts as the program's.
"""
import multiprocessing
import os
import re
import resource
import subprocess
import sys
import tempfile
import threading
import time
from itertools import cycle, islice

HERE = os.path.dirname(os.path.abspath(__file__))
sys.path.insert(0, HERE)
from object_writer import ABSOLUTE_64, CODE, DTPOFF32, FUNCTION, NOTYPE, READ, THREAD_LOCAL, VARIABLE, WRITE, Object, general_dynamic, local_dynamic

SECONDS, MIB = 60, 1024
PATIENCE, ROOM = 240, 8 << 30
IMAGES, LINES, THREADS, INSTANCES = 64, 65_536, 64, 4_095
SECTION, PARTS, BLOCK, RELOCATIONS = 1 << 20, 16, 1 << 20, 1 << 19
FUEL, TURNS = (1 << 32) - 1, 65_536
RET, NOP = b"\xc3", b"\x90"
RUN, KEPT, RACE, CHECK = "run job", "run job --no-relax", "race job", "check job"
APP, PLUG, SITES = "link job app out", "link job plug out", "sites job plug"
ALL = (RUN, KEPT, RACE, CHECK, APP, PLUG)


# Objects.

def adder(ends="01088b00c3"):
    """A function that asks for the calling thread's copy of v, which begins as 5, and adds its argument to it."""
    made = Object()
    text, data = made.section(".text", CODE), made.section(".tdata", THREAD_LOCAL, b"\5\0\0\0", 4)
    made.symbol("f", FUNCTION, text)
    variable = made.symbol("v", VARIABLE, data, 0, 4)
    get_address = made.symbol("__tls_get_addr", NOTYPE)
    text.emit(["57", *general_dynamic(variable, get_address), "59", ends])
    return made


def adding_loop():
    """The same, of all numbers from its argument down: add %ecx, (%rax); sub $1, %rcx; jne back; mov (%rax), %eax."""
    return adder("01084883e90175f88b00c3")


def coded(name, hexadecimal):
    """A function of this code."""
    made = Object()
    made.symbol(name, FUNCTION, made.section(".text", CODE, bytes.fromhex(hexadecimal)))
    return made


def counting_loop():
    """The sum of all numbers from its argument down: xor %eax, %eax; add %rdi, %rax; sub $1, %rdi; jne back."""
    return coded("f", "31c04801f84883ef0175f7c3")


def filled(name, flags, count, size=SECTION):
    """So many sections of this size."""
    made = Object()
    for number in range(count):
        section = made.section(f"{name}{number}", flags, (NOP if flags == CODE else b"\5") * size)
        if flags == CODE:
            section.content[:1] = RET
            made.symbol(f"f{number}", FUNCTION, section)
    return made


def words(name, count):
    """A function, and so many words for its address, each of which the loader has to write."""
    made = Object()
    function = made.symbol(name, FUNCTION, made.section(".text", CODE, RET))
    section = made.section(".rodata", READ, bytes(8 * count))
    for number in range(count):
        section.relocate(8 * number, ABSOLUTE_64, function, number)
    return made


def sequences(name, count):
    """A function that reaches so many variables, each by a general dynamic sequence of its own."""
    made = Object()
    text, data = made.section(".text", CODE), made.section(".tbss", THREAD_LOCAL, alignment=4, zeros=4 * count)
    variables = [made.symbol("v", VARIABLE, data, 4 * number, 4, is_local=True) for number in range(count)]
    made.symbol(name, FUNCTION, text)
    get_address = made.symbol("__tls_get_addr", NOTYPE)
    text.emit(part for variable in variables for part in general_dynamic(variable, get_address))
    text.emit(["31c0c3"])
    return made


def with_names(names, is_local):
    """A function f, functions of these names, and a word for the address of each."""
    made = Object()
    text = made.section(".text", CODE, RET * len(names))
    symbols = [made.symbol(name, FUNCTION, text, place, is_local=is_local) for place, name in enumerate(names)]
    made.symbol("f", FUNCTION, text)
    table = made.section(".rodata", READ, bytes(8 * len(names)))
    for number, symbol in enumerate(symbols):
        table.relocate(8 * number, ABSOLUTE_64, symbol, 0)
    return made


# Jobs.

class Job:
    """A job in the making: its lines and, in its folder, its objects."""

    def __init__(self, folder):
        self.folder, self.lines, self.count = folder, [], 0

    def image(self, name, kind, *objects):
        files = [f"{name}{number}.o" for number in range(len(objects))]
        for file, made in zip(files, objects):
            made.write(f"{self.folder}/{file}")
        self.lines.append(f"image {name} {kind} {' '.join(files)}")

    def say(self, *lines):
        self.lines += lines

    def threads(self, lines):
        """The lines of threads: as many as a job may still have."""
        taken = list(islice(lines, LINES - len(self.lines)))
        self.lines += taken
        self.count = len(taken)

    def in_turns(self):
        turns = islice(cycle(range(1, THREADS + 1)), TURNS)
        self.say(f"threads {THREADS}", f"order {' '.join(map(str, turns))}")

    def write(self):
        with open(f"{self.folder}/job", "w") as file:
            file.write("\n".join(self.lines) + "\n")


def images_lines_threads(job):
    """64 images, 65,536 lines, 64 threads in turns, most fuel; all 43 late modules stay open, and others open them again."""
    job.image("app", "exe", counting_loop())
    for number in range(1, IMAGES):
        job.image(f"m{number}", "start" if number <= 20 else "late", adder())
    job.in_turns()
    job.say(f"fuel {FUEL}", *[f"1 open m{number}" for number in range(21, IMAGES)])
    job.threads(used_modules())
    job.count += IMAGES - 21


def used_modules():
    """Endless lines: each thread in turn opens a module, calls it, looks at what that left, and closes it."""
    for number in cycle(range(IMAGES - 1)):
        for thread in range(1, THREADS + 1):
            image = (number + thread) % (IMAGES - 1) + 1
            used = [f"{thread} call m{image} f 7 0 0", f"{thread} peek m{image} v 4"]
            yield from used if image <= 20 else [f"{thread} open m{image}", *used, f"{thread} close m{image}"]


def fuel(job):
    """Most fuel, and calls of three million steps each: ten that count in a register, ten that write a variable."""
    job.image("app", "exe", counting_loop())
    job.image("plug", "start", adding_loop())
    job.say("threads 4", f"fuel {FUEL}")
    job.threads(f"{number % 4 + 1} call {name} f 1000000 0 0" for number in range(10) for name in ("app", "plug"))


def fuel_beside_images(job):
    """Six such calls of a tenth of the steps, with 63 modules open: what a thread reaches is looked for in one after the other."""
    job.image("app", "exe", counting_loop())
    for number in range(1, IMAGES):
        job.image(f"m{number}", "late", adding_loop())
    job.say(f"fuel {FUEL}", *[f"1 open m{number}" for number in range(1, IMAGES)])
    calls = [f"1 call m{number} f 1 0 0" for number in range(1, IMAGES)]
    job.threads([*calls, *[f"1 call {name} f 100000 0 0" for name in ("app", "m1", "m2", "m32", "m62", "m63")]])
    job.count += IMAGES - 1


def code(job):
    """A program and a module of 2^24 bytes of code each; the module is opened twice."""
    for name, kind in (("app", "pie"), ("plug", "late")):
        job.image(name, kind, filled(".text", CODE, PARTS))
    job.threads(["1 call app f0 0 0 0", *["1 open plug", "1 call plug f15 0 0 0", "1 close plug"] * 2])


def constants(job):
    """The same of constants."""
    for name, kind in (("app", "pie"), ("plug", "late")):
        job.image(name, kind, coded("f", "c3"), filled(".rodata", READ, PARTS - 1))
    job.threads(["1 call app f 0 0 0", *["1 open plug", "1 call plug f 0 0 0", "1 close plug"] * 2])


def data(job):
    """The same of data, a program alone. `race` takes no data."""
    job.image("app", "pie", coded("f", "c3"), filled(".data", WRITE, PARTS - 1))
    job.threads(["1 call app f 0 0 0"])


def thread_local(job):
    """A program with 2^20 bytes of thread-local data, of which 64 threads see the last ones."""
    made = coded("f", "c3")
    made.symbol("v", VARIABLE, made.section(".tdata", THREAD_LOCAL, b"\5" * BLOCK), BLOCK - 8, 8)
    job.image("app", "exe", made)
    job.say(f"threads {THREADS}")
    job.threads(f"{thread} peek app v 8" for thread in range(1, THREADS + 1))


def tokens(job):
    """A program with 2^20 bytes of thread-local data, where 64 threads keep the base of their block, which is no number."""
    made = Object()
    text, data = made.section(".text", CODE), made.section(".tdata", THREAD_LOCAL, b"\5" * BLOCK)
    variable = made.symbol("v", VARIABLE, data, BLOCK - 8, 8)
    made.symbol("f", FUNCTION, text)
    get_address = made.symbol("__tls_get_addr", NOTYPE)
    text.emit(["57", *local_dynamic(variable, get_address), "488db8", (DTPOFF32, variable, 0), "4889075f31c0c3"])
    job.image("app", "exe", made)
    job.say(f"threads {THREADS}")
    job.threads(f"{thread} call app f 0 0 0" for thread in range(1, THREADS + 1))


def relocated_words(job):
    """A program and a module with 2^19 relocations each, of words that hold addresses; the module is opened twice."""
    for name, kind in (("app", "pie"), ("plug", "late")):
        job.image(name, kind, *[words(f"f{number}", RELOCATIONS // 4) for number in range(4)])
    job.threads(["1 call app f0 0 0 0", *["1 open plug", "1 call plug f3 0 0 0", "1 close plug"] * 2])


def relocated_code(job):
    """A program and a module with 2^19 relocations each, of sequences that reach 2^18 variables; all are run through."""
    for name, kind in (("app", "exe"), ("plug", "late")):
        job.image(name, kind, *[sequences(f"f{number}", RELOCATIONS // 16) for number in range(8)])
    job.say("1 open plug")
    job.threads(f"1 call {name} f{number} 0 0 0" for name in ("app", "plug") for number in range(8))
    job.count += 1


def instances(job):
    """4,095 instances, and a load too many, while 63 other threads call and look, in turns first."""
    job.image("app", "exe", counting_loop())
    job.image("plug", "late", adder())
    job.in_turns()
    loads = ["1 open plug", "1 call plug f 7 0 0", "1 close plug"] * (INSTANCES - 1) + ["1 open plug"]
    job.say(*loads)
    job.threads(f"{thread} {word}" for word in cycle(["call plug f 1 0 0", "peek plug v 4"]) for thread in range(2, THREADS + 1))
    job.count += len(loads)


def opens(job):
    """30,000 opens of one module and as many closes, while 63 other threads call and look, in turns first."""
    job.image("app", "exe", counting_loop())
    job.image("plug", "late", adder())
    job.in_turns()
    events = ["1 open plug"] * 30_000 + ["1 close plug"] * 30_000
    job.say(*events)
    job.threads(f"{thread} {word}" for word in cycle(["call plug f 1 0 0", "peek plug v 4"]) for thread in range(2, THREADS + 1))
    job.count += len(events)


def named_lines(job):
    """60,000 lines with a name of 255 bytes."""
    job.image("app", "exe", coded("n" * 255, "89f8c3"))
    job.threads(f"1 call app {'n' * 255} {number} 0 0" for number in range(60_000))


def named_symbols(job):
    """60,000 symbols of one name of 255 bytes, and a relocation to each."""
    job.image("app", "pie", with_names(["n" * 255] * 60_000, is_local=True))
    job.threads(["1 call app f 0 0 0"])


def named_globals(job):
    """As many names of 255 bytes as an image may share, which differ in their last five alone, a relocation to each, and a call."""
    names = [f"{'n' * 250}{number:05}" for number in range((1 << 22) // 280 - 1)]
    job.image("app", "pie", with_names(names, is_local=False))
    job.threads(f"1 call app {name} 0 0 0" for name in names)


def generated(job):
    """The largest job that `gen` makes."""


def loads_of_data(job):
    """4,094 loads of a module with 2^20 bytes of data."""
    job.image("app", "exe", counting_loop())
    job.image("plug", "late", coded("f", "c3"), filled(".data", WRITE, 1))
    job.threads(["1 open plug", "1 call plug f 0 0 0", "1 close plug"] * (INSTANCES - 1))


def loads_of_words(job):
    """4,094 loads of a module with 2^19 relocations."""
    job.image("app", "exe", counting_loop())
    job.image("plug", "late", *[words(f"f{number}", RELOCATIONS // 4) for number in range(4)])
    job.threads(["1 open plug", "1 call plug f0 0 0 0", "1 close plug"] * (INSTANCES - 1))


def loads_of_blocks(job):
    """4,094 loads of a module with 2^20 bytes of thread-local data, of each of which a block is made."""
    made = coded("f", "c3")
    made.symbol("v", VARIABLE, made.section(".tdata", THREAD_LOCAL, b"\5" * BLOCK), 0, 8)
    job.image("app", "exe", counting_loop())
    job.image("plug", "late", made)
    job.threads(["1 open plug", "1 peek plug v 8", "1 close plug"] * (INSTANCES - 1))


def blocks_of_threads(job):
    """64 threads with 2^20 bytes of thread-local data in each of 16 modules: a block is made of each, 1 GiB in all."""
    job.image("app", "exe", counting_loop())
    for number in range(PARTS):
        made = coded("f", "c3")
        made.symbol("v", VARIABLE, made.section(".tdata", THREAD_LOCAL, b"\5" * BLOCK), 0, 8)
        job.image(f"m{number}", "start", made)
    job.say(f"threads {THREADS}")
    job.threads(f"{thread} peek m{number} v 8" for thread in range(1, THREADS + 1) for number in range(PARTS))


def images_of_constants(job):
    """16 images of 2^24 bytes."""
    job.image("app", "pie", coded("f", "c3"), filled(".rodata", READ, PARTS - 1))
    for number in range(PARTS - 1):
        job.image(f"m{number}", "start", coded("f", "c3"), filled(".rodata", READ, PARTS - 1))
    job.threads(f"1 call m{number} f 0 0 0" for number in range(PARTS - 1))


def turns(job):
    """A job of 2^28 bytes, all of it an order of turns."""
    job.image("app", "exe", counting_loop())
    job.threads(["1 call app f 7 0 0"])
    job.write()
    room = (1 << 28) - os.path.getsize(f"{job.folder}/job") - len("order\n")
    job.say("order" + " 1" * (room // 2))


WITHIN = {
    images_lines_threads: (RUN, KEPT, RACE, CHECK, APP, "link job m63 out"),
    fuel: (RUN, KEPT, RACE, CHECK, APP),
    fuel_beside_images: (RUN, KEPT, RACE, CHECK, APP),
    code: ALL, constants: ALL, data: (RUN, KEPT, CHECK, APP), thread_local: (RUN, RACE, CHECK, APP),
    tokens: (RUN, KEPT, RACE, CHECK, APP),
    relocated_words: ALL, relocated_code: (*ALL, SITES),
    instances: ALL, opens: ALL,
    named_lines: (RUN, RACE, CHECK, APP), named_symbols: (RUN, KEPT, RACE, CHECK, APP), named_globals: (RUN, KEPT, RACE, CHECK, APP),
    generated: ("gen 1000",),
}
BEYOND = {
    loads_of_data: (RUN, CHECK), loads_of_words: (RUN, RACE, CHECK), loads_of_blocks: (RUN, RACE, CHECK),
    blocks_of_threads: (RUN, RACE, CHECK), images_of_constants: (RUN, RACE, CHECK, APP), turns: (RUN, RACE, CHECK, APP),
}


# Runs.

def make(maker, folder):
    """Makes a job in a folder, and answers how many lines its threads have."""
    job = Job(folder)
    maker(job)
    if job.lines:
        job.write()
    return job.count


def run(tlsld, command, folder):
    """The status of a command, its seconds by the clock and of processors, and its MiB. What it prints is in the file `said`."""
    def limit():
        resource.setrlimit(resource.RLIMIT_AS, (ROOM, ROOM))
    with open(f"{folder}/said", "wb") as said:
        began = time.monotonic()
        child = subprocess.Popen([tlsld, *command.split()], cwd=folder, stdout=said, preexec_fn=limit)
        alarm = threading.Timer(PATIENCE, child.kill)
        alarm.start()
        _, status, usage = os.wait4(child.pid, 0)
        alarm.cancel()
    child.returncode = os.waitstatus_to_exitcode(status)
    return child.returncode, time.monotonic() - began, usage.ru_utime + usage.ru_stime, usage.ru_maxrss / 1024


def wrong_text(maker, command, folder, count):
    """What is wrong with what a command printed of a job, or None."""
    with open(f"{folder}/said", "rb") as file:
        said = file.read()
    word = command.split()[0]
    if word in ("run", "race"):
        found = len(re.findall(rb"^t\d+ l\d+ g", said, re.M))
        faults = said.count(b" fault ")
        if word == "race" and maker in (opens, instances):
            # another thread may have closed the module meanwhile
            faults -= said.count(b" fault unloaded")
        return None if found == count and not faults else f"{found} lines of {count}, faults {faults}"
    if word == "link":
        return None if said.split()[2:] == [b"%d" % os.path.getsize(f"{folder}/out")] else f"says {said[:60]!r}"
    return None if word != "check" or said == b"clean\n" else f"says {said[:60]!r}"


def verdict(maker, command, folder, count, status, seconds, mib):
    """What is wrong with a row, or `holds`."""
    if status:
        with open(f"{folder}/said", "rb") as file:
            return f"status {status} {file.read(60)!r}"
    wrong = wrong_text(maker, command, folder, count)
    if wrong:
        return wrong
    return "holds" if seconds <= SECONDS and mib <= MIB else "too slow" if seconds > SECONDS else "too large"


def print_rows(tlsld, maker, commands):
    """Makes a job, prints a row for each command, and answers how many do not hold."""
    failed = 0
    with tempfile.TemporaryDirectory() as folder:
        with multiprocessing.Pool(1) as pool:
            count = pool.apply(make, (maker, folder))
        for command in commands:
            status, seconds, used, mib = run(tlsld, command, folder)
            said = verdict(maker, command, folder, count, status, seconds, mib)
            failed += said != "holds"
            print(f"{maker.__name__:22}{command:20}{seconds:8.2f}{used:10.2f}{mib:7.0f}  {said}", flush=True)
    return failed


def main():
    words = sys.argv[1:]
    tlsld = os.path.abspath(words[0] if words else f"{HERE}/../crates/tlsld/out/tlsld")
    chosen = [maker for maker in {**WITHIN, **BEYOND} if maker.__name__ in words[1:]] or list(WITHIN)
    failed = rows = 0
    print(f"{'job':22}{'command':20}{'seconds':>8}{'processor':>10}{'MiB':>7}")
    for maker in chosen:
        commands = {**WITHIN, **BEYOND}[maker]
        wrong = print_rows(tlsld, maker, commands)
        if maker in WITHIN:
            rows, failed = rows + len(commands), failed + wrong
    print(f"limits: {rows - failed} of {rows} rows are right, within {SECONDS} seconds and {MIB} MiB")
    sys.exit(1 if failed else 0)


main()
