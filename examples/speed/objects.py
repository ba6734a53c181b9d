#!/usr/bin/env python3
"""objects.py FOLDER small N | code N | sequences N: writes objects of the same shape for every linker, and a job.

small:      N objects of some 30 bytes of code each, with a variable of their own, which every third reaches by a general
            dynamic sequence, by an initial executable one or by a local dynamic one
code:       the same, each with 256 KiB of code
sequences:  N objects of 40,000 sequences each: general dynamic, initial executable (a move and an addition) and local
            dynamic in turn, 70,000 relocations in all
"""
import os
import struct
import sys

TLSGD, TLSLD, DTPOFF32, GOTTPOFF, PLT32 = 19, 20, 21, 22, 4
FUNCTION, VARIABLE, GET_ADDRESS = 1, 2, 3
SEQUENCES = 40_000

# Code as hexadecimal digits, and a relocation for each field of four zero bytes.
GENERAL = ["66488d3d", (TLSGD, VARIABLE, -4), "666648e8", (PLT32, GET_ADDRESS, -4)]
LOCAL = ["488d3d", (TLSLD, VARIABLE, -4), "e8", (PLT32, GET_ADDRESS, -4), "8b80", (DTPOFF32, VARIABLE, 0)]
MOVE = ["488b05", (GOTTPOFF, VARIABLE, -4)]
ADDITION = ["4c030d", (GOTTPOFF, VARIABLE, -4)]


def laid(parts):
    """The code of these parts, and its relocations."""
    code, relocations = bytearray(), []
    for part in parts:
        if isinstance(part, str):
            code += bytes.fromhex(part)
        else:
            kind, symbol, addend = part
            relocations.append(struct.pack("<QQq", len(code), symbol << 32 | kind, addend))
            code += bytes(4)
    return code, b"".join(relocations)


def written(path, number, code, relocations):
    """Writes an object with this code, a function and a variable of 4 bytes."""
    names = f"\0f{number}\0x{number}\0__tls_get_addr\0".encode()
    symbol = lambda name, kind, section, size: struct.pack("<IBBHQQ", names.index(name), 16 + kind, 0, section, 0, size)
    symbols = [bytes(24), symbol(f"f{number}\0".encode(), 2, 1, len(code)), symbol(f"x{number}\0".encode(), 6, 3, 4),
               symbol(b"__tls", 0, 0, 0)]
    parts = [
        (b".text", 1, 6, code, 0, 0, 16, 0),
        (b".rela.text", 4, 0x40, relocations, 4, 1, 8, 24),
        (b".tdata", 1, 0x403, struct.pack("<I", 42), 0, 0, 4, 0),
        (b".symtab", 2, 0, b"".join(symbols), 5, 1, 8, 24),
        (b".strtab", 3, 0, names, 0, 0, 1, 0),
    ]
    sections = b"\0" + b"".join(part[0] + b"\0" for part in parts) + b".shstrtab\0"
    parts.append((b".shstrtab", 3, 0, sections, 0, 0, 1, 0))
    headers, body = [bytes(64)], bytearray()
    for name, kind, flags, content, link, info, alignment, size in parts:
        body += bytes(-len(body) % 16)
        at = sections.index(b"\0" + name + b"\0") + 1
        headers.append(struct.pack("<IIQQQQIIQQ", at, kind, flags, 0, 64 + len(body), len(content), link, info,
                                   alignment, size))
        body += content
    body += bytes(-len(body) % 16)
    header = b"\x7fELF\2\1\1" + bytes(9) + struct.pack("<HHIQQQIHHHHHH", 1, 62, 1, 0, 0, 64 + len(body), 0, 64, 0, 0, 64,
                                                       len(headers), len(headers) - 1)
    with open(path, "wb") as file:
        file.write(header + body + b"".join(headers))


def parts_of(shape, number):
    """The code of an object, in parts."""
    if shape == "sequences":
        return (GENERAL + MOVE + ADDITION + LOCAL) * (SEQUENCES // 4) + ["c3"]
    return [GENERAL + ["8b00"], MOVE + ["648b00"], LOCAL][number % 3] + ["c3"]


def main():
    folder, shape, count = sys.argv[1], sys.argv[2], int(sys.argv[3])
    os.makedirs(folder, exist_ok=True)
    for number in range(count):
        code, relocations = laid(parts_of(shape, number))
        if shape == "code":
            code += b"\x90" * (256 * 1024 - len(code))
        written(f"{folder}/o{number}.o", number, bytes(code), relocations)
    with open(f"{folder}/job", "w") as job:
        job.write("image app exe " + " ".join(f"o{number}.o" for number in range(count)) + "\n")


main()
