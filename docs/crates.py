#!/usr/bin/env python3
"""crates.py: prints the table of crates, each with the first sentence of its root file up to a colon (src/lib.rt, src/main.rt), but
those of README's rows Tests and Benchmarks."""
import os
import re

TOP = os.path.dirname(os.path.dirname(os.path.abspath(__file__)))


def tests():
    """The crates of README's rows Tests and Benchmarks."""
    with open(f"{TOP}/README.md", encoding="utf-8") as file:
        return {it for line in file if line.startswith(("| **Tests**", "| **Benchmarks**")) for it in re.findall(r"`(\w+)`", line)}


def names():
    """The other crates, as crates.txt has them."""
    with open(f"{TOP}/crates.txt", encoding="utf-8") as file:
        return sorted({line.split(":")[0].split()[0] for line in file if ":" in line.split("#")[0]} - tests())


def essay(name):
    """The first paragraph of a crate's essay."""
    at = f"{TOP}/crates/{name}/src"
    with open(f"{at}/lib.rt" if os.path.exists(f"{at}/lib.rt") else f"{at}/main.rt", encoding="utf-8") as file:
        words = []
        for line in file:
            if not line.startswith("//!") or not line[3:].strip():
                break
            words += line[3:].split()
    return " ".join(words)


def sentence(text):
    """Its first sentence, up to a colon, without the brackets of a link."""
    first = re.split(r"(?<=[a-z0-9`)\]])(?:\. |\.$|: )", text)[0]
    return re.sub(r"\[(`[^`]+`)\]", r"\1", first)


def main():
    wide = max(map(len, names())) + 2
    for name in names():
        print(f"{name:{wide}}{sentence(essay(name))}")


main()
