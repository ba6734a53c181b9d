#!/usr/bin/env python3
"""blocks.py [--check] [TLSLD]: draws where the blocks of two threads lie (thread.svg), and the parts of an image (image.svg).

All numbers are those that the program prints of the job of examples/blocks: the addresses that its threads return, and what `show`
says of its images. With --check it says whether the pictures are what it would draw.
"""
import os
import re
import subprocess
import sys
import tempfile

HERE = os.path.dirname(os.path.abspath(__file__))
TOP = os.path.dirname(os.path.dirname(HERE))
EXAMPLE = f"{TOP}/examples/blocks"
COLOURS = {
    "app": ("#dceafc", "#2f6db5"), "lib": ("#def3e0", "#2e8540"), "fast": ("#ffe6d2", "#c0651a"), "slow": ("#ece4f7", "#6c4ab0"),
    "plain": ("#f6f6f6", "#888888"), "table": ("#fff3c4", "#b58900"),
}


def run(tlsld, *words):
    return subprocess.run([tlsld, *words], cwd=EXAMPLE, stdout=subprocess.PIPE, check=True).stdout.decode().splitlines()


def shown(tlsld, image, *flags):
    """What `show` prints of an image, as words."""
    with tempfile.TemporaryDirectory() as room:
        run(tlsld, "link", "job", image, f"{room}/out", *flags)
        return [line.split() for line in run(tlsld, "show", f"{room}/out")]


# ---- drawing

def text(x, y, words, size=12, anchor="start", colour="#222", style=""):
    return f'<text x="{x}" y="{y}" font-size="{size}" text-anchor="{anchor}" fill="{colour}" {style}>{words}</text>'


def box(x, y, wide, high, colours, style=""):
    fill, edge = COLOURS[colours]
    return f'<rect x="{x}" y="{y}" width="{wide}" height="{high}" rx="4" fill="{fill}" stroke="{edge}" {style}/>'


def svg(wide, high, title, parts):
    return "\n".join([
        f'<svg xmlns="http://www.w3.org/2000/svg" viewBox="0 0 {wide} {high}" font-family="DejaVu Sans, Verdana, sans-serif">',
        f"<title>{title}</title>", f'<rect width="{wide}" height="{high}" fill="#fff"/>', *parts, "</svg>", ""])


MONO = 'font-family="DejaVu Sans Mono, monospace"'

# ---- a thread's blocks


class Block:
    """A thread's block of an image."""

    def __init__(self, tlsld, image, variable, function):
        told = shown(tlsld, image)
        self.image, self.variable = image, variable
        self.size = next(int(line[3]) for line in told if line[0] == "tls")
        self.offset = next(int(line[1], 16) for line in told if line[0] == "symbol" and line[3] == variable)
        self.starts = {}
        self.function = function

    def found(self, thread, address):
        self.starts[thread] = address - self.offset


def blocks_of(tlsld):
    """The blocks of the job's images, with the addresses that its threads return."""
    blocks = [Block(tlsld, *it) for it in (("app", "own", "own_place"), ("lib", "shared", "shared_place"),
                                           ("fast", "near", "near_place"), ("slow", "far", "far_place"))]
    lines = {1: [], 2: []}
    for line in open(f"{EXAMPLE}/job", encoding="utf-8").read().splitlines():
        if line[0].isdigit():
            lines[int(line[0])].append(line.split())
    for line in run(tlsld, "run", "job"):
        said = re.match(r"t(\d+) l(\d+) g\S+ = ([0-9a-f]{16})$", line)
        if said:
            called = lines[int(said[1])][int(said[2]) - 1][3]
            for block in blocks:
                if block.function == called:
                    block.found(int(said[1]), int(said[3], 16))
    return blocks


def thread_picture(tlsld):
    app, lib, fast, slow = blocks_of(tlsld)
    pointer = {thread: thread * 2**40 + 2**38 for thread in (1, 2)}
    below = pointer[1] - lib.starts[1]
    surplus = {thread: pointer[thread] - below - 4096 for thread in (1, 2)}
    stack = {thread: thread * 2**40 + 2**39 - 65536 for thread in (1, 2)}
    x = {1: 420, 2: 690}
    wide = 250
    drawn = [text(20, 30, "Two threads, and a block for each of every image", 16, style='font-weight="bold"'),
             text(20, 50, "Higher addresses stand higher. Sizes are not to scale.", 11, colour="#666")]
    for thread in (1, 2):
        drawn.append(text(x[thread] + wide / 2, 50, f"thread {thread}", 13, "middle", style='font-weight="bold"'))

    def row(y, high, colours, at, words, label, more=(), dashed=False):
        style = 'stroke-dasharray="5 4"' if dashed else ""
        for thread in (1, 2):
            drawn.append(box(x[thread], y, wide, high, colours, style))
            drawn.append(text(x[thread] + 8, y + high - 7, f"{at[thread]:#x}", 11, colour="#555", style=MONO))
            if words:
                drawn.append(text(x[thread] + wide - 8, y + high - 7, words, 11, "end", style=MONO))
        drawn.append(text(20, y + 15, label, 12))
        for number, it in enumerate(more):
            drawn.append(text(20, y + 30 + 14 * number, it, 10.5, colour="#666"))

    def gap(y):
        for thread in (1, 2):
            drawn.append(text(x[thread] + wide / 2, y, "· · ·", 14, "middle", colour="#999"))

    row(66, 44, "plain", stack, "65,536 bytes", "the stack", ["up to t·2^40 + 2^39"])
    gap(130)
    row(144, 44, "plain", pointer, "its own address", "%fs:0, the thread pointer", ["t·2^40 + 2^38; the eight bytes there hold this number"])
    row(194, 52, "app", app.starts, f"{app.variable}: {app.size} bytes", "the program, app",
        ["right below the thread pointer: a distance that", "the linker knows, so x@tpoff is a number"])
    row(252, 52, "lib", lib.starts, f"{lib.variable}: {lib.size} bytes", "lib, which starts with it",
        ["below that: a distance that the loader knows,", "a word of the global offset table"])
    row(310, 120, "plain", surplus, "4,096 bytes in all", "the surplus: room for late modules", [
        "whose code wants a fixed distance: fast takes the", "next bytes when it is loaded, and no byte of it", "is given again"], True)
    for thread in (1, 2):
        drawn.append(box(x[thread] + 6, 316, wide - 12, 40, "fast"))
        drawn.append(text(x[thread] + 14, 349, f"{fast.starts[thread]:#x}", 11, colour="#555", style=MONO))
        drawn.append(text(x[thread] + wide - 14, 349, f"{fast.variable}: {fast.size} bytes", 11, "end", style=MONO))
    gap(450)
    row(464, 52, "slow", slow.starts, f"{slow.variable}: {slow.size} bytes", "slow, another late module",
        ["t·2^40 + i·2^24, i its instance: found through", "the run time, made when the thread first asks"])
    return svg(960, 536, "Where the blocks of two threads lie", drawn)


# ---- an image's parts

def parts_of(told):
    """The parts of an image, each with its name, its colours, its access, address and length."""
    tls = next((int(line[1], 16) for line in told if line[0] == "tls"), None)
    got = next((int(line[1], 16) for line in told if line[0] == "relro"), None)
    lines = [line for line in told if line[0] == "part"]
    parts = []
    for number, (_, access, address, length) in enumerate(lines):
        at = int(address, 16)
        if number == len(lines) - 1:
            name, colours = "dynamic tables", "plain"
        elif access == "x":
            name, colours = ("the stub", "table") if number else ("code", "app")
        elif access == "r":
            name, colours = ("initial image (.tdata)", "slow") if at == tls else ("constants", "lib")
        else:
            name, colours = ("global offset table", "table") if at == got else ("data", "fast")
        parts.append((name, colours, access, at, int(length)))
    return parts


def contents(told, at, length):
    """What `show` says to lie in a part: functions, and words that the loader writes."""
    names = [line[3] for line in told if line[0] == "symbol" and line[2] in "12" and at <= int(line[1], 16) < at + length]
    kinds = {"7": "the run time's address", "8": "an address", "16": "a module's id", "17": "an offset in a block",
             "18": "a distance", "36": "a descriptor"}
    words = [kinds[line[2]] for line in told if line[0] == "reloc" and at <= int(line[1], 16) < at + length]
    return ", ".join(names + words)


def column(x, title, told):
    drawn = [text(x, 72, title, 13, style='font-weight="bold"')]
    wide, y = 390, 86
    drawn += [box(x, y, wide, 34, "plain"), text(x + 10, y + 22, "headers", 12), text(x + wide - 10, y + 22, "file offset 0", 11, "end", "#555", MONO)]
    for name, colours, access, at, length in parts_of(told):
        y += 42
        inside = contents(told, at, length)
        drawn += [box(x, y, wide, 38, colours), text(x + 10, y + 16, name, 12, style='font-weight="bold"'),
                  text(x + wide - 10, y + 16, f"{at:#x} {length} bytes {access}", 11, "end", "#444", MONO)]
        if inside:
            drawn.append(text(x + 10, y + 31, inside, 10, colour="#444"))
        elif name == "initial image (.tdata)":
            drawn.append(text(x + 10, y + 31, "what each thread's block begins as", 10, colour="#444"))
        elif name == "the stub":
            drawn.append(text(x + 10, y + 31, "jmp through the table's last word", 10, colour="#444"))
        elif name == "dynamic tables":
            drawn.append(text(x + 10, y + 31, "the array, hash table, symbols, relocations, names", 10, colour="#444"))
        elif name == "constants":
            drawn.append(text(x + 10, y + 31, "read, and never written", 10, colour="#444"))
        elif name == "data":
            drawn.append(text(x + 10, y + 31, "one copy for all threads", 10, colour="#444"))
    return drawn, y + 38


def image_picture(tlsld):
    kept, rewritten = shown(tlsld, "app", "--no-relax"), shown(tlsld, "app")
    drawn = [text(20, 30, "The parts of an image, in the order of their addresses", 16, style='font-weight="bold"'),
             text(20, 48, "Each begins on a page of its own. In the file, the byte of an address stands 4,096 behind its distance from the beginning.", 11, colour="#666")]
    left, end = column(20, "app, with --no-relax", kept)
    right, other = column(450, "app, with sequences rewritten", rewritten)
    return svg(860, max(end, other) + 20, "The parts of an image", drawn + left + right)


def main():
    words = [it for it in sys.argv[1:] if it != "--check"]
    tlsld = os.path.abspath(words[0] if words else f"{TOP}/crates/tlsld/out/tlsld")
    wrong = []
    for name, drawn in (("thread.svg", thread_picture(tlsld)), ("image.svg", image_picture(tlsld))):
        path = f"{HERE}/{name}"
        if "--check" in sys.argv:
            if not os.path.exists(path) or open(path, encoding="utf-8").read() != drawn:
                wrong.append(name)
        else:
            with open(path, "w", encoding="utf-8") as file:
                file.write(drawn)
    if "--check" in sys.argv:
        print(f"not what examples/blocks gives: {', '.join(wrong)}: run docs/pictures/blocks.py" if wrong else "thread.svg and image.svg are in step with examples/blocks")
    sys.exit(1 if wrong else 0)


main()
