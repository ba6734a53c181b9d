#!/usr/bin/env python3
"""by_tlsld.py WORD..: the built `tlsld` as a linker for try.py. It makes modules alone: a program would be linked to a
driver, which defines the run time's function, and `tlsld` takes no object that does so.
"""
import shutil
import subprocess
import sys

from tlsld import BUILT, DRIVERS


def main():
    words = sys.argv[1:]
    if "-shared" not in words:
        print("tlsld: error: a driver defines __tls_get_addr")
        return 1
    objects = [it for it in words if it.endswith(".o")]
    lines = ["image main exe main.o", f"image app start {' '.join(objects)}"]
    if "lib.so" in words:
        lines.append("image lib start lib.o")
    for name in ("main.o", "lib.o"):
        shutil.copy(f"{DRIVERS}/{name}", ".")
    with open("job", "w", encoding="utf-8") as file:
        file.write("\n".join(lines) + "\n")
    setting = [it for it in words if it == "--no-relax"]
    return subprocess.run([BUILT, "link", "job", "app", words[words.index("-o") + 1], *setting], check=False).returncode


sys.exit(main())
