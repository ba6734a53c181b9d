"""Writes relocatable ELF64 objects for x86-64, section by section, for tests that need more of one thing than a compiler makes.

The sections stand in the file in the order in which they were added, each with its relocations behind it, then the symbols and
the names. Names are kept once each, so that 60,000 symbols of one name are a small file. Nothing is checked: a test that wants a
lawful object has to ask for one.
"""
import struct

PROGBITS, NOBITS = 1, 8
READ, WRITE, CODE, THREAD_LOCAL = 0x2, 0x3, 0x6, 0x403
NOTYPE, FUNCTION, VARIABLE = 0, 2, 6
ABSOLUTE_64, PLT32, TLSGD, TLSLD, DTPOFF32, GOTTPOFF, TPOFF32 = 1, 4, 19, 20, 21, 22, 23


class Names:
    """A string table that holds each name once."""

    def __init__(self):
        self.bytes = bytearray(1)
        self.places = {"": 0}

    def place(self, name):
        if name not in self.places:
            self.places[name] = len(self.bytes)
            self.bytes += name.encode() + b"\0"
        return self.places[name]


class Section:
    """A section that is loaded, and the relocations of it."""

    def __init__(self, name, kind, flags, alignment, content, size):
        self.name, self.kind, self.flags, self.alignment = name, kind, flags, alignment
        self.content, self.size = content, size
        self.relocations = bytearray()

    def relocate(self, offset, kind, symbol, addend):
        self.relocations += struct.pack("<QQq", offset, symbol << 32 | kind, addend)

    def emit(self, parts):
        """Appends these parts: code as hexadecimal digits, or the field of a relocation as its type, symbol and addend."""
        for part in parts:
            if isinstance(part, str):
                self.content += bytes.fromhex(part)
            else:
                self.relocate(len(self.content), *part)
                self.content += bytes(4)
        self.size = len(self.content)


class Object:
    """An object in the making. Symbols with LOCAL binding have to be added before those that other objects see."""

    def __init__(self):
        self.sections = []
        self.names = Names()
        self.symbols = [bytes(24)]
        self.locals = 1

    def section(self, name, flags, content=b"", alignment=16, zeros=0):
        """A section of this content, or of so many zeros that the file does not hold."""
        kind = NOBITS if zeros else PROGBITS
        made = Section(name, kind, flags, alignment, bytearray(content), zeros or len(content))
        self.sections.append(made)
        return made

    def symbol(self, name, kind, section=None, value=0, size=0, is_local=False, is_weak=False, visibility=0):
        """The number of a new symbol; without a section it is one that another object defines."""
        where = self.sections.index(section) + 1 if section else 0
        info = (0 if is_local else 32 if is_weak else 16) + kind
        self.symbols.append(struct.pack("<IBBHQQ", self.names.place(name), info, visibility, where, value, size))
        self.locals += is_local
        return len(self.symbols) - 1

    def tables(self):
        """The sections that are not loaded: a name, a type, flags, content, a link, an info, an alignment, an entry's size."""
        symbols = len(self.sections) + sum(1 for section in self.sections if section.relocations) + 1
        for number, section in enumerate(self.sections, 1):
            if section.relocations:
                yield f".rela{section.name}", 4, 0x40, section.relocations, symbols, number, 8, 24
        yield ".symtab", 2, 0, b"".join(self.symbols), symbols + 1, self.locals, 8, 24
        yield ".strtab", 3, 0, bytes(self.names.bytes), 0, 0, 1, 0

    def write(self, path):
        parts = [(it.name, it.kind, it.flags, it.content, 0, 0, it.alignment, 0) for it in self.sections]
        sizes = [it.size for it in self.sections]
        for table in self.tables():
            parts.append(table)
            sizes.append(len(table[3]))
        names = Names()
        for part in parts:
            names.place(part[0])
        names.place(".shstrtab")
        parts.append((".shstrtab", 3, 0, bytes(names.bytes), 0, 0, 1, 0))
        sizes.append(len(names.bytes))
        with open(path, "wb") as file:
            file.write(bytes(64))
            headers = [bytes(64)] + [self.put(file, names, part, size) for part, size in zip(parts, sizes)]
            pad(file, 8)
            table = file.tell()
            file.write(b"".join(headers))
            file.seek(0)
            file.write(b"\x7fELF\2\1\1" + bytes(9) + struct.pack(
                "<HHIQQQIHHHHHH", 1, 62, 1, 0, 0, table, 0, 64, 0, 0, 64, len(headers), len(headers) - 1))

    @staticmethod
    def put(file, names, part, size):
        """Appends a section's content, and answers its header."""
        name, kind, flags, content, link, info, alignment, entry = part
        pad(file, 16)
        place = file.tell()
        file.write(content)
        return struct.pack("<IIQQQQIIQQ", names.place(name), kind, flags, 0, place, size, link, info, alignment, entry)


def pad(file, alignment):
    file.write(bytes(-file.tell() % alignment))


def general_dynamic(variable, get_address):
    """The sequence that puts the address of the calling thread's copy of a variable into %rax."""
    return ["66488d3d", (TLSGD, variable, -4), "666648e8", (PLT32, get_address, -4)]


def local_dynamic(variable, get_address):
    """The sequence that puts the base of the calling thread's block into %rax."""
    return ["488d3d", (TLSLD, variable, -4), "e8", (PLT32, get_address, -4)]
