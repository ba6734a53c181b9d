"""Reads of ELF64 files what the workbench asks: sections, symbols and relocations, and the bytes at an address."""
import struct

X86_64, LOAD, TLS_SEGMENT, CODE = 62, 1, 7, 4
DYNAMIC, HASH, STRINGS, SYMBOL_TABLE = 2, 4, 5, 6
PROGBITS, SYMBOLS, RELOCATIONS, DYNAMIC_SYMBOLS = 1, 2, 4, 11
FIELD_SIZES = {0: 0, 1: 8, 17: 8, 18: 8, 24: 8, 25: 8, 29: 8, 31: 8, 35: 0}


class NotElf(Exception):
    """The bytes are no ELF file of 64 bits for x86-64."""


class Section:
    def __init__(self, name, fields):
        self.name = name
        _, self.kind, self.flags, self.address, self.offset, self.size, self.link, self.info, _, self.entry = fields


class Symbol:
    def __init__(self, name, fields):
        self.name = name
        _, info, _, self.section, self.value, self.size = fields
        self.kind = info & 15


class Relocation:
    def __init__(self, place, kind, symbol, addend):
        self.place, self.kind, self.symbol, self.addend = place, kind, symbol, addend

    def size(self):
        """How many bytes its field has."""
        return FIELD_SIZES.get(self.kind, 4)


class File:
    """An object, a program or a shared object."""

    def __init__(self, path):
        with open(path, "rb") as file:
            self.bytes = file.read()
        machine = self.bytes[18:20]
        if len(self.bytes) < 64 or self.bytes[:5] != b"\x7fELF\2" or machine != struct.pack("<H", X86_64):
            raise NotElf
        try:
            self.read()
        except (struct.error, IndexError, ValueError) as fault:
            raise NotElf from fault

    def read(self):
        self.kind, = struct.unpack_from("<H", self.bytes, 16)
        programs, sections = struct.unpack_from("<QQ", self.bytes, 32)
        count_programs, = struct.unpack_from("<H", self.bytes, 56)
        count, names = struct.unpack_from("<HH", self.bytes, 60)
        self.segments = self.rows("<IIQQQQQQ", programs, count_programs)
        headers = self.rows("<IIQQQQIIQQ", sections, count)
        self.sections = [Section(self.string(headers[names][4] + it[0]), it) for it in headers] if count else []

    def rows(self, layout, at, count):
        """The rows of a table."""
        size = struct.calcsize(layout)
        return [struct.unpack_from(layout, self.bytes, at + size * number) for number in range(count)]

    def string(self, at):
        return self.bytes[at:self.bytes.index(b"\0", at)].decode(errors="replace")

    def symbols(self):
        """The symbols of the table that has most: the one for linkers, else the one for loaders."""
        for kind in (SYMBOLS, DYNAMIC_SYMBOLS):
            for table in self.sections:
                if table.kind == kind:
                    names = self.sections[table.link].offset
                    rows = self.rows("<IBBHQQ", table.offset, table.size // 24)
                    return [Symbol(self.string(names + it[0]), it) for it in rows]
        return self.loaded_symbols()

    def loaded_symbols(self):
        """The symbols for a loader, of a file without sections: its older hash table says how many there are."""
        for kind, _, offset, _, _, size, _, _ in self.segments:
            if kind == DYNAMIC:
                told = dict(self.rows("<QQ", offset, size // 16))
                if {HASH, STRINGS, SYMBOL_TABLE} <= told.keys():
                    count, = struct.unpack("<I", self.at(told[HASH] + 4, 4))
                    names = self.place(told[STRINGS])
                    rows = self.rows("<IBBHQQ", self.place(told[SYMBOL_TABLE]), count)
                    return [Symbol(self.string(names + it[0]), it) for it in rows]
        return []

    def content(self, section):
        return self.bytes[section.offset:section.offset + section.size]

    def relocations(self, number):
        """The relocations of a section."""
        for table in self.sections:
            if table.kind == RELOCATIONS and table.info == number:
                for place, info, addend in self.rows("<QQq", table.offset, table.size // 24):
                    yield Relocation(place, info & 0xffffffff, info >> 32, addend)

    def code_sections(self):
        """The sections of code: each with its number."""
        return [(number, it) for number, it in enumerate(self.sections) if it.kind == PROGBITS and it.flags & CODE]

    def at(self, address, size):
        """The bytes at an address; fewer if the file has no more there."""
        place = self.place(address)
        return b"" if place is None else self.bytes[place:place + size]

    def place(self, address):
        """Where in the file the byte of an address stands."""
        for kind, _, offset, begins, _, in_file, _, _ in self.segments:
            if kind == LOAD and begins <= address < begins + in_file:
                return offset + address - begins
        return None
