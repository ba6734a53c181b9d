#!/usr/bin/env python3
"""terminal.py [TLSLD]: what the program says on standard error, at a terminal and elsewhere.

Each row runs one command three times: with standard error at a terminal, in a pipe, and closed. The status and standard
output have to be the same bytes each time, and those that the row names; at a terminal one line more has to stand on
standard error, or none, and elsewhere nothing. Prints the lines, and what differs.
"""
import os
import pty
import subprocess
import sys
import tempfile

HERE = os.path.dirname(os.path.abspath(__file__))
sys.path.insert(0, HERE)
from object_writer import CODE, FUNCTION, THREAD_LOCAL, TPOFF32, VARIABLE, Object

USAGE = "usage\n"
FAULT = "store fault\n"
COMMANDS = ("tlsld: commands: run JOB, race JOB, link JOB IMAGE OUT, sites JOB IMAGE, show FILE, check JOB, gen N; "
            "run, race and link take --no-relax\n")
NO_FILE = "No such file or directory (os error 2)"
LATE = "object late.o section 3 entry 0 RelocRange\n"
LATE_NAMES = "tlsld: late.o: section .rela.text, symbol x\n"


def write(path, text):
    with open(path, "w", encoding="utf-8") as file:
        file.write(text)


def job(name, obj):
    write(name, f"image app exe {obj}\n1 call app f 0 0 0\n")


def made(path, offset, symbol="x", section=".text"):
    """An object whose one relocation stands at this offset of nine bytes of code."""
    it = Object()
    text = it.section(section, CODE, bytes.fromhex("648b042500000000c3"))
    data = it.section(".tdata", THREAD_LOCAL, b"*\0\0\0", 4)
    it.symbol("f", FUNCTION, text, 0, 9)
    text.relocate(offset, TPOFF32, it.symbol(symbol, VARIABLE, data, 0, 4), 0)
    it.write(path)


def misplaced(path):
    """An object whose variable passes the end of its section."""
    it = Object()
    text = it.section(".text", CODE, b"\xc3")
    data = it.section(".tdata", THREAD_LOCAL, b"*\0\0\0", 4)
    it.symbol("f", FUNCTION, text, 0, 1)
    it.symbol("wide", VARIABLE, data, 0, 5)
    it.write(path)


def unaligned(path):
    it = Object()
    it.section(".text", CODE, b"\xc3", 3)
    it.write(path)


def lay():
    """Makes the files of the rows."""
    made("good.o", 4)
    made("late.o", 6)
    made("escape.o", 6, "x\x1b[31m\u00e9", ".t\next")
    made("long.o", 6, "s" * 81, ".text." + "n" * 74)
    misplaced("wide.o")
    unaligned("three.o")
    write("text.o", "no object\n")
    with open("large", "wb") as file:
        file.truncate((1 << 28) + 1)
    for name in ("good", "late", "escape", "long", "wide", "three", "text", "gone"):
        job(name, f"{name}.o")
    job("large-job", "large")
    job("folder-job", "folder")
    os.mkdir("folder")


# The words, the status, standard output, and the line at a terminal.
ROWS = [
    ([], 2, USAGE, COMMANDS),
    (["help"], 2, USAGE, COMMANDS),
    (["--help"], 2, USAGE, COMMANDS),
    (["run"], 2, USAGE, COMMANDS),
    (["check", "good", "--no-relax"], 2, USAGE, COMMANDS),
    (["gen", "1001"], 2, USAGE, COMMANDS),
    ([b"run", b"\xff"], 2, USAGE, COMMANDS),
    (["run", "nothing"], 3, FAULT, f"tlsld: nothing: {NO_FILE}\n"),
    (["race", "nothing"], 3, FAULT, f"tlsld: nothing: {NO_FILE}\n"),
    (["check", "nothing"], 3, FAULT, f"tlsld: nothing: {NO_FILE}\n"),
    (["sites", "nothing", "app"], 3, FAULT, f"tlsld: nothing: {NO_FILE}\n"),
    (["link", "nothing", "app", "out"], 3, FAULT, f"tlsld: nothing: {NO_FILE}\n"),
    (["show", "nothing"], 3, FAULT, f"tlsld: nothing: {NO_FILE}\n"),
    (["run", "folder"], 3, FAULT, "tlsld: folder: Is a directory (os error 21)\n"),
    (["run", "folder-job"], 3, FAULT, "tlsld: folder: is a directory\n"),
    (["run", "good/job"], 3, FAULT, "tlsld: good/job: Not a directory (os error 20)\n"),
    (["run", "red\x1b[31m\u00e9"], 3, FAULT, f"tlsld: red\\x1b[31m\\xc3\\xa9: {NO_FILE}\n"),
    (["run", "n" * 81], 3, FAULT, f"tlsld: {'n' * 80}..: {NO_FILE}\n"),
    (["run", "gone"], 3, FAULT, f"tlsld: gone.o: {NO_FILE}\n"),
    (["show", "large"], 3, FAULT, "tlsld: large: the file is too large\n"),
    (["run", "large-job"], 3, FAULT, "tlsld: large: the file is too large\n"),
    (["link", "good", "app", "none/out"], 3, FAULT, f"tlsld: none/out: {NO_FILE}\n"),
    (["run", "late"], 6, LATE, LATE_NAMES),
    (["race", "late"], 6, LATE, LATE_NAMES),
    (["check", "late"], 6, LATE, LATE_NAMES),
    (["sites", "late", "app"], 6, LATE, LATE_NAMES),
    (["link", "late", "app", "out"], 6, LATE, LATE_NAMES),
    (["run", "escape"], 6, "object escape.o section 3 entry 0 RelocRange\n",
     "tlsld: escape.o: section .rela.t\\x0aext, symbol x\\x1b[31m\\xc3\\xa9\n"),
    (["run", "long"], 6, "object long.o section 3 entry 0 RelocRange\n",
     f"tlsld: long.o: section .rela.text.{'n' * 69}.., symbol {'s' * 80}..\n"),
    (["run", "wide"], 6, "object wide.o section 3 entry 2 SymbolRange\n",
     "tlsld: wide.o: section .symtab, symbol wide\n"),
    (["run", "three"], 6, "object three.o section 1 entry 0 SectionAlign\n", "tlsld: three.o: section .text\n"),
    (["run", "text"], 6, "object text.o section 0 entry 0 Truncated\n", ""),
    (["run", "good"], 0, "t1 l1 g0 = 000000000000002a\n", ""),
    (["show", "good.o"], 8, "image 16 Header\n", ""),
    (["link", "good", "other", "out"], 5, "job 0 Name\n", ""),
]


def at_terminal(words):
    """The status, standard output, and standard error at a terminal."""
    ours, its = pty.openpty()
    with subprocess.Popen(words, stdout=subprocess.PIPE, stderr=its) as run:
        os.close(its)
        out = run.stdout.read()
        status = run.wait()
    shown = b""
    while True:
        try:
            more = os.read(ours, 65536)
        except OSError:
            break
        if not more:
            break
        shown += more
    os.close(ours)
    return status, out, shown.replace(b"\r\n", b"\n")


def in_pipe(words):
    run = subprocess.run(words, capture_output=True, check=False)
    return run.returncode, run.stdout, run.stderr


def closed(words):
    run = subprocess.run(["sh", "-c", 'exec "$@" 2>&-', "sh", *words], stdout=subprocess.PIPE, check=False)
    return run.returncode, run.stdout, b""


def fed(tool, way):
    """The answer over an object that comes from a pipe, and so can't be read once more."""
    os.mkfifo("pipe.o")
    job("pipe", "pipe.o")
    feeder = subprocess.Popen(["sh", "-c", "cat late.o > pipe.o"])
    answer = way([tool, "run", "pipe"])
    feeder.wait()
    os.remove("pipe.o")
    return answer


def main():
    tool = os.path.abspath(sys.argv[1] if len(sys.argv) > 1 else f"{HERE}/../crates/tlsld/out/tlsld")
    failed = 0
    with tempfile.TemporaryDirectory() as folder:
        os.chdir(folder)
        lay()
        for words, status, out, line in ROWS:
            want = status, out.encode()
            for way, shown in (at_terminal, line), (in_pipe, ""), (closed, ""):
                answer = way([tool, *words])
                if answer != (*want, shown.encode()):
                    print(f"{words} {way.__name__}: {answer}, not {(*want, shown.encode())}")
                    failed += 1
            print(f"{status} {line}", end="" if line else "\n")
        want = 6, b"object pipe.o section 3 entry 0 RelocRange\n", b""
        for way in at_terminal, in_pipe, closed:
            answer = fed(tool, way)
            if answer != want:
                print(f"a pipe {way.__name__}: {answer}, not {want}")
                failed += 1
        os.chdir(HERE)
    print(f"{len(ROWS)} rows, {failed} differ")
    sys.exit(1 if failed else 0)


main()
