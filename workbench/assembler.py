"""A small assembler: the instructions that stand around a case's sequences, jumps to labels, and fields of relocations.
"""
import struct

REGISTERS = ["rax", "rcx", "rdx", "rbx", "rsp", "rbp", "rsi", "rdi", *[f"r{n}" for n in range(8, 16)]]
CONDITIONS = {"o": 0, "no": 1, "b": 2, "ae": 3, "e": 4, "ne": 5, "s": 8, "ns": 9}


def number(register):
    return REGISTERS.index(register)


class Field:
    """The field of a relocation: where it stands, the type, the symbol's name and the addend."""

    def __init__(self, at, kind, symbol, addend):
        self.at, self.kind, self.symbol, self.addend = at, kind, symbol, addend


class Site:
    """A sequence: where it begins, its length, its form, and the function in which it stands."""

    def __init__(self, at, length, form, function):
        self.at, self.length, self.form, self.function = at, length, form, function


class Code:
    """The code of one section in the making."""

    def __init__(self):
        self.bytes = bytearray()
        self.fields, self.sites, self.functions, self.jumps = [], [], [], []
        self.labels = {}

    def raw(self, digits):
        self.bytes += bytes.fromhex(digits)

    def field(self, kind, symbol, addend=-4, size=4):
        """A field of this many bytes; of none it is a relocation that has a place alone."""
        self.fields.append(Field(len(self.bytes), kind, symbol, addend))
        self.bytes += bytes(size)

    def label(self, name):
        self.labels[name] = len(self.bytes)

    def begin(self, name):
        """Begins a function of this name."""
        self.functions.append([name, len(self.bytes), 0])

    def end(self):
        """Ends the function, and sets its jumps."""
        for at, name in self.jumps:
            struct.pack_into("<i", self.bytes, at, self.labels[name] - at - 4)
        self.jumps, self.labels = [], {}
        self.functions[-1][2] = len(self.bytes) - self.functions[-1][1]

    def site(self, form, write):
        """A sequence of this form, which `write` emits."""
        at = len(self.bytes)
        write()
        self.sites.append(Site(at, len(self.bytes) - at, form, self.functions[-1][0]))

    # ---- instructions

    def wide(self, opcode, reg, rm, mod=3):
        """An instruction of 64 bits with two register numbers."""
        rex = 0x48 | (reg >> 3) << 2 | rm >> 3
        self.bytes += bytes([rex, opcode, mod << 6 | (reg & 7) << 3 | rm & 7])

    def push(self, register):
        self.raw(("41" if number(register) > 7 else "") + f"{0x50 + number(register) % 8:02x}")

    def pop(self, register):
        self.raw(("41" if number(register) > 7 else "") + f"{0x58 + number(register) % 8:02x}")

    def set(self, register, value):
        """movq $value, %register"""
        self.wide(0xc7, 0, number(register))
        self.bytes += struct.pack("<i", value)

    def move(self, source, target):
        """movq %source, %target"""
        self.wide(0x89, number(source), number(target))

    def add(self, source, target):
        """addq %source, %target"""
        self.wide(0x01, number(source), number(target))

    def compare(self, register, value):
        """cmpq $value, %register"""
        self.wide(0x81, 7, number(register))
        self.bytes += struct.pack("<i", value)

    def thread_pointer(self, opcode, register):
        """An instruction with %fs:0 and a register: 8b movq, 03 addq, 2b subq, from memory."""
        self.raw("64")
        self.wide(opcode, number(register), 4, 0)
        self.raw("2500000000")

    def jump(self, condition, label):
        self.bytes += bytes([0x0f, 0x80 + CONDITIONS[condition]])
        self.jumps.append((len(self.bytes), label))
        self.bytes += bytes(4)

    def go(self, label):
        self.raw("e9")
        self.jumps.append((len(self.bytes), label))
        self.bytes += bytes(4)
