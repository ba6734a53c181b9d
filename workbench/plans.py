"""Objects and cases in the making: what stands in them, before `make.py` writes them and asks `tlsld` what is expected.
"""
import os
import shutil
import struct
import sys

TOP = os.path.dirname(os.path.dirname(os.path.abspath(__file__)))
sys.path.insert(0, f"{TOP}/tests")

from object_writer import CODE, FUNCTION, NOTYPE, THREAD_LOCAL, VARIABLE, Object  # noqa: E402
from assembler import Code  # noqa: E402
from elf import File  # noqa: E402
from functions import GOTPC32_TLSDESC, GOTTPOFF, TLSDESC_CALL, TLSGD, TLSLD  # noqa: E402

ELEMENTS = 4
RUN_TIME, TABLE = "__tls_get_addr", "_GLOBAL_OFFSET_TABLE_"
HIDDEN, PROTECTED = 2, 3
KINDS = ("static", "plain", "pie", "shared")


class Variable:
    """A thread-local variable of four numbers: its name, how it is bound, whether it begins as zeros, and zeros before
    it.
    """

    def __init__(self, name, binding="own", zero=False, before=0, alignment=4, first=0x5000):
        self.name, self.binding, self.zero, self.before = name, binding, zero, before
        self.alignment, self.first = alignment, first

    def content(self):
        return struct.pack("<4I", *(0 if self.zero else self.first + at for at in range(ELEMENTS)))


class ObjectPlan:
    """An object: sections of code, variables, and how its relocations are put in order."""

    def __init__(self, variables=(), order=None):
        self.codes, self.variables, self.order = [], list(variables), order

    def code(self, name=".text", alignment=16):
        made = Code()
        self.codes.append((name, alignment, made))
        return made

    def places(self, zero):
        """Where the variables of one section lie in it."""
        at, placed = 0, []
        for it in self.variables:
            if it.zero == zero:
                at = -(-(at + it.before) // it.alignment) * it.alignment
                placed.append((it, at))
                at += 4 * ELEMENTS
        return placed, at

    def data(self, made):
        """Adds the sections of variables; answers which variable lies where."""
        where = {}
        for zero, name in ((False, ".tdata"), (True, ".tbss")):
            placed, size = self.places(zero)
            if not placed:
                continue
            content = bytearray(size)
            for it, at in placed:
                content[at:at + 4 * ELEMENTS] = it.content()
            alignment = max(it.alignment for it, _ in placed)
            section = made.section(name, THREAD_LOCAL, b"" if zero else content, alignment, size if zero else 0)
            where |= {it.name: (it, section, at) for it, at in placed}
        return where

    def symbols(self, made, sections, where):
        """Adds all symbols, local ones first; answers their numbers by name."""
        numbers = {}
        for local in (True, False):
            for name, (it, section, at) in where.items():
                if (it.binding == "local") == local:
                    visibility = {"hidden": HIDDEN, "protected": PROTECTED}.get(it.binding, 0)
                    weak = it.binding == "weak"
                    numbers[name] = made.symbol(name, VARIABLE, section, at, 4 * ELEMENTS, local, weak, visibility)
        for section, (_, _, code) in zip(sections, self.codes):
            for name, at, size in code.functions:
                numbers[name] = made.symbol(name, FUNCTION, section, at, size)
        for _, _, code in self.codes:
            for it in code.fields:
                if it.symbol not in numbers:
                    plain = it.symbol in (RUN_TIME, TABLE)
                    numbers[it.symbol] = made.symbol(it.symbol, NOTYPE if plain else VARIABLE)
        return numbers

    def write(self, path):
        made = Object()
        sections = [made.section(name, CODE, code.bytes, alignment) for name, alignment, code in self.codes]
        where = self.data(made)
        made.section(".note.GNU-stack", 0, b"", 1)
        numbers = self.symbols(made, sections, where)
        for section, (_, _, code) in zip(sections, self.codes):
            fields = self.order(code.fields) if self.order else code.fields
            for it in fields:
                section.relocate(it.at, it.kind, numbers[it.symbol], it.addend)
        made.write(path)

    def sites(self):
        """The sequences: the section's number, the place there, the length, the form and the function."""
        for number, (_, _, code) in enumerate(self.codes, 1):
            for it in code.sites:
                yield number, it.at, it.length, it.form, it.function

    def functions(self):
        """The names of its functions."""
        return [name for _, _, code in self.codes for name, _, _ in code.functions]

    def anchor(self, number):
        """A function of a section, and where it stands there."""
        name, at, _ = self.codes[number - 1][2].functions[0]
        return name, at


class GivenObject:
    """An object that a compiler made. Its sequences are found by the relocations that each form begins with."""

    def __init__(self, path):
        self.path, self.file = path, File(path)

    def write(self, path):
        shutil.copyfile(self.path, path)

    def functions(self):
        return [it.name for it in self.file.symbols() if it.kind == FUNCTION]

    def anchor(self, number):
        return next((it.name, it.value) for it in self.file.symbols() if it.kind == FUNCTION and it.section == number)

    def sites(self):
        """The sequences, as ObjectPlan has them."""
        for number, part in self.file.code_sections():
            code = self.file.content(part)
            for it in self.file.relocations(number):
                if it.kind in STARTS:
                    at = it.place - STARTS[it.kind]
                    form, length = form_at(it.kind, code[at:])
                    within = [name.name for name in self.file.symbols() if name.kind == FUNCTION
                        and name.section == number and name.value <= at < name.value + name.size]
                    yield number, at, length, form, within[0]


# How far into a sequence the relocation stands that it begins with.
STARTS = {TLSGD: 4, TLSLD: 3, GOTTPOFF: 3, GOTPC32_TLSDESC: 3, TLSDESC_CALL: 0}


def form_at(kind, code):
    """The form and the length of a sequence, by its first relocation's type and its bytes."""
    if kind == TLSGD:
        return ("gd-ind" if code[10] == 0xff else "gd"), 16
    if kind == TLSLD:
        return ("ld-ind", 13) if code[7] == 0xff else ("ld", 12)
    if kind == GOTTPOFF:
        return ("ie-mov" if code[1] == 0x8b else "ie-add"), 7
    return ("desc-lea", 7) if kind == GOTPC32_TLSDESC else ("desc-call", 2)


class CasePlan:
    """A case: objects by the names of their files, the kinds and settings in which it is linked, and for an odd form
    why it is one.

    The twin of an odd case is a plan that does the same by a form of the table: it says which values are right. Names
    are those of the functions that are called, where these are not f0, f1 and so on.
    """

    def __init__(self, name, about, objects, kinds=KINDS, settings=(True, False), library=False, why="", twin=None,
                 names=()):
        self.names = list(names)
        self.name, self.about, self.objects, self.kinds, self.settings = name, about, objects, kinds, settings
        self.library, self.why, self.twin = library, why, twin
