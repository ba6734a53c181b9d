#!/usr/bin/env python3
"""run_docs.py [--write] [TLSLD] [FILE..]: runs what the documents show, and compares what it prints with what stands there.

In a document three things are run, by sh, with the program TLSLD as `tlsld`:

- A block that begins with the line ```console FOLDER, command by command, in a copy of that folder of the repository (`.` is an
  empty one, and `top` the repository itself, for commands that only read). A line that begins with `$ ` is a command, and the
  next lines are what it prints, errors too. A line `...` stands for any lines. Two spaces and `# ` begin a remark.
  A line `$ cd FOLDER` tells a reader of the folder; it is not run.
- A block that begins with the line ```sh FOLDER, pasted whole into one shell. The next block has what it prints, errors not.
  It is left out where the program is not built, since it would build it.
- What stands between the lines `<!-- made by COMMAND -->` and `<!-- end -->`: what the command prints at the top of the
  repository. With --write that is put there. A command that ends with status 77 lacks what it needs, and is left out.

Blocks of other kinds are not run. Without names it takes README.md, the pages of docs/, and those of the examples and of the workbench.
"""
import glob
import os
import re
import shutil
import subprocess
import sys
import tempfile

TOP = os.path.dirname(os.path.dirname(os.path.abspath(__file__)))
BUILT = f"{TOP}/crates/tlsld/out/tlsld"
REMARK = re.compile(r" {2,}# .*$")
LACKS = 77


class Case:
    """A command that a document shows: its line there, its folder, and what it is to print."""

    def __init__(self, number, folder, command, shown):
        self.number, self.folder, self.command, self.shown = number, folder, command, shown


def fences(lines):
    """The blocks of a document: the number of the line that opens each, the words behind its backticks, and its lines."""
    begun = None
    for number, line in enumerate(lines, 1):
        if line.startswith("```") and begun:
            yield begun
            begun = None
        elif line.startswith("```"):
            begun = (number, line[3:], [])
        elif begun:
            begun[2].append(line)


def console(number, folder, inside):
    """The commands of a block that is run command by command."""
    found = []
    for at, line in enumerate(inside, number + 1):
        if line == f"$ cd {folder}":
            continue
        if line.startswith("$ "):
            found.append(Case(at, folder, line[2:], []))
        elif found:
            found[-1].shown.append(line)
    return found


def blocks(lines):
    """What is run in one folder, block by block."""
    all_of = list(fences(lines))
    for at, (number, words, inside) in enumerate(all_of):
        if re.match(r"console \S+$", words):
            yield console(number, words.split()[1], inside)
        elif re.match(r"sh \S+$", words) and os.path.exists(BUILT):
            yield [Case(number, words.split()[1], "exec 2>/dev/null\n" + "\n".join(inside), all_of[at + 1][2])]


def matches(shown, printed):
    """Whether what is shown, with its remarks and gaps, is what was printed."""
    if not shown:
        return not printed
    if shown[0] == "...":
        return any(matches(shown[1:], printed[at:]) for at in range(len(printed) + 1))
    return bool(printed) and printed[0] in (shown[0], REMARK.sub("", shown[0])) and matches(shown[1:], printed[1:])


def run(command, room, tools):
    """What a command prints, line by line; nothing is known where it lacks what it needs."""
    paths = {**os.environ, "PATH": f"{tools}:{os.environ['PATH']}", "LC_ALL": "C"}
    ran = subprocess.run(["sh", "-c", command], cwd=room, env=paths, stdout=subprocess.PIPE, stderr=subprocess.STDOUT,
        timeout=300)
    return None if ran.returncode == LACKS else ran.stdout.decode(errors="replace").splitlines()


def room_for(folder, above):
    """The folder in which a block is run, in a new folder or the repository itself."""
    room = TOP if folder == "top" else f"{above}/room" if folder == "." else f"{above}/{os.path.basename(folder)}"
    if folder == ".":
        os.mkdir(room)
    elif folder != "top":
        shutil.copytree(f"{TOP}/{folder}", room)
    return room


def wrong_in(block, tools):
    """The cases of a block whose output is not as it is shown, each with its output."""
    with tempfile.TemporaryDirectory() as above:
        room = room_for(block[0].folder, above)
        for case in block:
            printed = run(case.command, room, tools)
            if printed is not None and not matches(case.shown, printed):
                yield case, printed


def made_parts(lines):
    """The parts of a document that a command makes: where each begins and ends, and the command."""
    begun = None
    for at, line in enumerate(lines):
        opens = re.match(r"<!-- made by (.+) -->$", line)
        if opens:
            begun = (at + 1, opens[1])
        elif line == "<!-- end -->" and begun:
            yield begun[0], at, begun[1]
            begun = None


def stale_parts(path, lines, tools, write):
    """How many parts are made, and those that are not what their commands print; these are written anew if they are to be."""
    parts, stale = list(made_parts(lines)), []
    for start, end, command in reversed(parts):
        printed = run(command, TOP, tools)
        if printed is None:
            print(f"{os.path.relpath(path, TOP)}:{start}: left out, since something is not here that it needs: {command}")
        elif lines[start:end] != printed:
            stale.append((Case(start, "top", command, lines[start:end]), printed))
            lines[start:end] = printed
    if stale and write:
        with open(path, "w", encoding="utf-8") as file:
            file.write("\n".join(lines) + "\n")
    return len(parts), [] if write else stale


def tell(path, case, printed):
    print(f"{os.path.relpath(path, TOP)}:{case.number}: $ {case.command}")
    print("".join(f"    shown    {line}\n" for line in case.shown), end="")
    print("".join(f"    printed  {line}\n" for line in printed), end="")


def documents():
    return [f"{TOP}/README.md", *sorted(glob.glob(f"{TOP}/docs/*.md")),
        *sorted(glob.glob(f"{TOP}/examples/**/README.md", recursive=True)),
        f"{TOP}/workbench/README.md", *sorted(glob.glob(f"{TOP}/workbench/wrong/*.md"))]


def main():
    words = [it for it in sys.argv[1:] if it != "--write"]
    built = os.path.abspath(words[0] if words else BUILT)
    ran = failed = 0
    with tempfile.TemporaryDirectory() as tools:
        os.symlink(built, f"{tools}/tlsld")
        for path in words[1:] or documents():
            with open(path, encoding="utf-8") as file:
                lines = file.read().splitlines()
            count, wrong = stale_parts(path, lines, tools, "--write" in sys.argv)
            ran += count
            for block in blocks(lines):
                ran += len(block)
                wrong += wrong_in(block, tools) if block else []
            failed += len(wrong)
            for case, printed in wrong:
                tell(path, case, printed)
    print(f"{ran - failed} of {ran} commands print what the documents show")
    sys.exit(1 if failed else 0)


main()
