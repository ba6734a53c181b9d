#!/usr/bin/env python3
"""sequences.py WHAT: prints a table of docs/SEQUENCES.md. No byte and no answer in it is typed by hand.

    forms      the table of forms, as the program's source has it (crates/sequence_forms)
    places     what `tlsld link` puts in the place of each, by what its variable is bound to
    registers  the same of the two forms that name a register, for each register
    left       what is unknown behind each, by what `tlsld check` says of code that relies on it

Objects are made by `as` as this file has them, images by `tlsld`; code is read by objdump. What other linkers put there is told by
workbench/tables.py.
"""
import os
import re
import subprocess
import sys
import tempfile

TOP = os.path.dirname(os.path.dirname(os.path.abspath(__file__)))
REGISTERS = ["rax", "rcx", "rdx", "rbx", "rsp", "rbp", "rsi", "rdi", *[f"r{n}" for n in range(8, 16)]]
FLAGS = {"zero": "je", "sign": "js", "carry": "jb", "overflow": "jo"}

# The forms, as an assembler is told to write them.
FORMS = {
    "gd": [".byte 0x66", "leaq x@tlsgd(%rip), %rdi", ".value 0x6666", "rex64", "call __tls_get_addr@PLT"],
    "gd-ind": [".byte 0x66", "leaq x@tlsgd(%rip), %rdi", ".byte 0x66", "rex64", "call *__tls_get_addr@GOTPCREL(%rip)"],
    "ld": ["leaq x@tlsld(%rip), %rdi", "call __tls_get_addr@PLT"],
    "ld-ind": ["leaq x@tlsld(%rip), %rdi", "call *__tls_get_addr@GOTPCREL(%rip)"],
    "ie-mov": ["movq x@gottpoff(%rip), %rax"],
    "ie-add": ["addq x@gottpoff(%rip), %rax"],
    "desc-lea": ["leaq x@tlsdesc(%rip), %rax"],
    "desc-call": ["call *x@tlscall(%rax)"],
}
# What has to stand before a form.
BEFORE = {"desc-call": FORMS["desc-lea"]}
DATA = [".section .tdata, \"awT\", @progbits", ".globl x", ".type x, @object", ".align 4", ".size x, 4", "x: .long 42"]


def tidy(text):
    """An instruction as objdump prints it, with .. in the place of numbers that depend on addresses."""
    text = re.sub(r"\s*(#.*|<[^>]*>)\s*$", "", text.strip())
    text = re.sub(r"-?0x[0-9a-f]+\(%", "..(%", text)
    text = re.sub(r"\$0x[0-9a-f]+", "$..", text)
    text = re.sub(r"\b(call|jmp) +[0-9a-f]+$", r"\1 ..", text)
    return re.sub(r"\s+", " ", text)


class Code:
    """Some code: the bytes of each instruction, and the instructions."""

    def __init__(self, rows):
        self.bytes = " ".join(raw.replace(" ", "") for raw, _ in rows)
        self.text = "; ".join(tidy(text) for _, text in rows)


class Room:
    """A folder in which things are made and linked."""

    def __init__(self, at):
        self.at = at

    def run(self, *words):
        ran = subprocess.run(words, cwd=self.at, stdout=subprocess.PIPE, stderr=subprocess.STDOUT)
        return ran.returncode, ran.stdout.decode(errors="replace")

    def write(self, name, lines):
        with open(f"{self.at}/{name}", "w", encoding="utf-8") as file:
            file.write("\n".join(lines) + "\n")

    def assemble(self, name, lines):
        self.write(f"{name}.s", lines)
        status, said = self.run("as", "-o", f"{name}.o", f"{name}.s")
        if status:
            sys.exit(said)

    def program(self, before, sequence, after, own):
        """The object main.o: a function f, with a sequence between the labels `here` and `there`; x may be its own variable."""
        self.assemble("main", [".globl f", ".type f, @function", "f: subq $8, %rsp", *before, ".globl here", "here:", *sequence,
            ".globl there", "there:", *after, "movl $7, %eax", "addq $8, %rsp", "ret", ".size f, . - f", *(DATA if own else [])])

    def place(self, name):
        """Where the sequence of an object or a program stands, and how many bytes it has."""
        told = self.run("readelf", "-sW", name)[1]
        at = {it: int(value, 16) for value, it in re.findall(r"^ +\d+: ([0-9a-f]+) .* (here|there)$", told, re.M)}
        return at["here"], at["there"] - at["here"]

    def read(self, name, start, count, *words):
        """The code of a file from a place on."""
        bounds = [f"--start-address={start:#x}", f"--stop-address={start + count:#x}"]
        told = self.run("objdump", "-D", "-w", "-z", *words, *bounds, name)[1]
        return Code(re.findall(r"^ *[0-9a-f]+:\t((?:[0-9a-f]{2} )+) *\t?(.*)$", told, re.M))

    def written(self):
        """The sequence as the assembler wrote it."""
        return self.read("main.o", *self.place("main.o"), "-j", ".text")

    def by_tlsld(self, own, *words):
        """What tlsld makes of the sequence."""
        self.write("job", ["image app exe main.o", *([] if own else ["image lib start lib.o"])])
        self.assemble("lib", DATA)
        self.run("tlsld", "link", "job", "app", "out", *words)
        begins = next(int(it.split()[1], 16) for it in self.run("tlsld", "show", "out")[1].splitlines() if it.endswith(" here"))
        with open(f"{self.at}/out", "rb") as file:
            file.seek(4096 + begins - 0x400000)
            code = file.read(self.place("main.o")[1])
        with open(f"{self.at}/code", "wb") as file:
            file.write(code)
        return self.read("code", 0, len(code), "-b", "binary", "-m", "i386:x86-64")

    def verdict(self, before, sequence, after):
        """The last word of what `check` says of code that runs a sequence."""
        self.program(before, sequence, after, True)
        self.write("job", ["image app exe main.o", "1 call app f 0 0 0"])
        return self.run("tlsld", "check", "job")[1].split()[-1]


# ---- tables

def code(words):
    return f"`{words}`" if words else ""


def row(*cells):
    print(f"| {' | '.join(cells)} |")


def head(*cells):
    print()
    row(*cells)
    print("|" + "---|" * len(cells))


def bindings(name):
    """Whether the variable is the program's own or a module's; local dynamic code asks for none."""
    return [(True, "any")] if name.startswith("ld") else [(True, "the program's"), (False, "a module's")]


def source_rows():
    """The rows of the program's table: name, cells, type of the first relocation, offsets, and how the run time is called."""
    with open(f"{TOP}/crates/sequence_forms/src/forms.rt", encoding="utf-8") as file:
        table = file.read().split("pub fn row(self)")[1]
    for name, body in re.findall(r"Form::(\w+) => (.*?)(?=// |\Z)", table, re.S):
        cells = re.search(r"cells!\[([^\]]*)\]", body)[1].replace("0x", "")
        kind = re.search(r"\b(TlsGd|TlsLd|GotTpOff|GotPc32TlsDesc|TlsDescCall)\b", body)[1]
        offsets = re.findall(r"^\s*(?:first_at: )?(\d+),$", body, re.M) or ["3"]
        call = re.search(r"Call::(\w+)", body)
        yield re.sub(r"(?<!^)([A-Z])", r"-\1", name).lower(), cells, kind, offsets, call and call[1]


def forms(_):
    kinds = {"TlsGd": "TLSGD", "TlsLd": "TLSLD", "GotTpOff": "GOTTPOFF", "GotPc32TlsDesc": "GOTPC32_TLSDESC",
        "TlsDescCall": "TLSDESC_CALL"}
    calls = {"Direct": "PLT32 or PC32", "Indirect": "GOTPCREL, GOTPCRELX or REX_GOTPCRELX"}
    print("\n```text")
    for name, cells, kind, offsets, call in source_rows():
        second = f"; {calls[call]} at {offsets[1]}" if call else ""
        print(f"{name:11}{cells:41}{kinds[kind]} at {offsets[0]}{second}")
    print("```\n")


def chosen(room, name):
    """The choice that `sites` prints for a form of the program that was linked last."""
    return next(it.split()[4] for it in room.run("tlsld", "sites", "job", "app")[1].splitlines() if it.split()[3] == name)


def places(room):
    head("form", "its variable", "in its place", "bytes", "in assembler")
    for name in FORMS:
        room.program(BEFORE.get(name, []), FORMS[name], [], True)
        row(code(name), "", "as written", code(room.written().bytes), code("; ".join(FORMS[name])))
        for own, words in bindings(name):
            room.program(BEFORE.get(name, []), FORMS[name], [], own)
            made = room.by_tlsld(own)
            choice = chosen(room, name)
            row("", words, code(choice), *(("", "") if choice == "keep" else (code(made.bytes), code(made.text))))
    print()


def registers(room):
    print("\n```text\n      mov x@gottpoff(%rip)  ie-le           add x@gottpoff(%rip)  ie-le")
    for register in REGISTERS:
        cells = []
        for operation in ("movq", "addq"):
            room.program([], [f"{operation} x@gottpoff(%rip), %{register}"], [], True)
            cells += [room.written().bytes, room.by_tlsld(True).bytes]
        print(f"%{register:4} {cells[0]:21} {cells[1]:15} {cells[2]:21} {cells[3]}")
    print("```\n")


def unknown_after(room, name):
    """What is unknown after a form: the cells of its row."""
    known = [f"movq $1, %{it}" for it in REGISTERS if it != "rsp"] + ["movq %rsp, -8(%rsp)"]
    before = [*known, *BEFORE.get(name, []), "testq %rsp, %rsp"]
    lost = [f"%{it}" for it in REGISTERS if it not in ("rax", "rsp")
        and room.verdict(before, FORMS[name], [f"cmpq $1, %{it}"]) == "undefined"]
    flags = [it for it, jump in FLAGS.items() if room.verdict(before, FORMS[name], [f"{jump} 1f", "1:"]) == "flags"]
    answer = room.verdict(before, FORMS[name], ["cmpq $1, %rax"])
    stack = room.verdict(before, FORMS[name], ["movq -8(%rsp), %rdx", "cmpq $1, %rdx"])
    return ("a number" if answer == "clean" else f"`{answer}`", ", ".join(lost) or "none", ", ".join(flags) or "none",
        "below %rsp" if stack == "undefined" else "none")


def left(room):
    head("form", "%rax", "registers", "flags", "stack")
    rows = {}
    for name in FORMS:
        rows.setdefault(unknown_after(room, name), []).append(code(name))
    for cells, names in rows.items():
        row(", ".join(names), *cells)
    print()


def main():
    tables = {"forms": forms, "places": places, "registers": registers, "left": left}
    if len(sys.argv) != 2 or sys.argv[1] not in tables:
        sys.exit(__doc__)
    with tempfile.TemporaryDirectory() as at:
        tables[sys.argv[1]](Room(at))


if __name__ == "__main__":
    main()
