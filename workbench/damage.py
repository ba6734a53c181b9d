#!/usr/bin/env python3
"""damage.py WAY WORD..: runs `ld` on the words, and then changes what it wrote, in a way that selftest.py has to be
told of.

    nothing    leaves it
    byte       changes one byte of the first general dynamic sequence that was rewritten
    forbidden  rewrites the first initial exec sequence to local exec, though its variable may be another image's
    addend     leaves the addend out of each offset
    behind     changes the byte behind the first sequence
    first      gives every thread the first one's block, in programs by general dynamic sequences
    mold       puts the forms of mold there, which are right
"""
import struct
import subprocess
import sys

from elf import TLS_SEGMENT, File
from functions import DTPOFF32, GOTTPOFF, PC32, TLSGD, TLSLD
from plans import CODE, FUNCTION, Object

POINTER = bytes.fromhex("64488b042500000000")
GD_LE, LD_LE = POINTER + bytes.fromhex("488d80"), bytes.fromhex("666666") + POINTER
WRITABLE = 3


class Image:
    """A linked image that is changed: its bytes, and the relocations of the objects that it was linked from."""

    def __init__(self, path, objects):
        self.path, self.file = path, File(path)
        self.bytes = bytearray(self.file.bytes)
        self.objects = [File(it) for it in objects if it.endswith(".o") and "/" not in it]
        self.where = {it.name: it.value for it in self.file.symbols() if it.section}

    def places(self, kind):
        """Where in the file the fields of relocations of this type stand, each with its addend."""
        for made in self.objects:
            for number, _ in made.code_sections():
                known = [it for it in made.symbols() if it.section == number and it.kind == 2 and it.name in self.where]
                for it in made.relocations(number):
                    if it.kind == kind and known:
                        address = self.where[known[0].name] - known[0].value + it.place
                        yield self.file.place(address), it.addend

    def put(self, at, new):
        self.bytes[at:at + len(new)] = new

    def number(self, at):
        return struct.unpack_from("<i", self.bytes, at)[0]

    def put_number(self, at, value):
        struct.pack_into("<i", self.bytes, at, value)

    def distance(self):
        """From the beginning of the block to the thread pointer."""
        for kind, _, _, address, _, _, size, alignment in self.file.segments:
            if kind == TLS_SEGMENT:
                return size + (-(address + size) & (alignment - 1))
        return 0

    def write(self):
        with open(self.path, "wb") as file:
            file.write(self.bytes)


def byte(image):
    for at, _ in image.places(TLSGD):
        if image.bytes[at - 4:].startswith(GD_LE):
            image.put(at + 7, b"\x81")
            return


def forbidden(image):
    for at, _ in image.places(GOTTPOFF):
        if image.bytes[at - 2] == 0x8b:
            register = image.bytes[at - 1] >> 3 & 7
            prefix = 0x49 if image.bytes[at - 3] == 0x4c else 0x48
            image.put(at - 3, bytes([prefix, 0xc7, 0xc0 + register, 0xf0, 0xff, 0xff, 0xff]))
            return


def addend(image):
    for at, added in image.places(DTPOFF32):
        image.put_number(at, image.number(at) - added)


def behind(image):
    for at, _ in image.places(TLSGD):
        image.put(at + 12, bytes([image.bytes[at + 12] ^ 0x01]))
        return


def first(image):
    for at, _ in image.places(TLSGD):
        if image.bytes[at - 4:].startswith(GD_LE) and "first_block" in image.where:
            helper = image.file.place(image.where["first_block"])
            image.put(at - 4, b"\xe8" + struct.pack("<i", helper - at - 1) + bytes.fromhex("0f1f4000"))


def mold(image):
    for at, _ in image.places(TLSGD):
        if image.bytes[at - 4:].startswith(GD_LE):
            image.put(at + 5, bytes.fromhex("4881c0"))
    changed = False
    for at, _ in image.places(TLSLD):
        longer = image.bytes[at - 3] == image.bytes[at] == 0x66
        begins = at - 3 + longer
        if image.bytes[begins:].startswith(LD_LE):
            distance = struct.pack("<i", image.distance())
            image.put(at - 3, bytes.fromhex("31c0 64488b00 482d") + distance + b"\x90" * longer)
            changed = True
    for at, _ in image.places(DTPOFF32):
        if changed:
            image.put_number(at, image.number(at) + image.distance())


def helper():
    """An object with a function that answers the first thread's pointer to whoever calls it."""
    made = Object()
    code, data = made.section(".text", CODE), made.section(".data", WRITABLE, bytes(8), 8)
    made.section(".note.GNU-stack", 0, b"", 1)
    slot = made.symbol("first_pointer", 1, data, 0, 8, True)
    code.emit(["488b05", (PC32, slot, -4), "4885c0 7510", POINTER.hex(), "488905", (PC32, slot, -4), "c3"])
    made.symbol("first_block", FUNCTION, code, 0, code.size)
    made.write("first-block.o")
    return "first-block.o"


WAYS = {"nothing": None} | {it.__name__: it for it in (byte, forbidden, addend, behind, first, mold)}


def main():
    way, words = sys.argv[1], sys.argv[2:]
    if way == "first" and "-shared" not in words:
        words.append(helper())
    status = subprocess.run(["ld", *words], check=False).returncode
    if status == 0 and WAYS[way]:
        image = Image(words[words.index("-o") + 1], words)
        WAYS[way](image)
        image.write()
    return status


sys.exit(main())
