#!/usr/bin/env python3
"""time.py TLSLD: times `link` beside the linkers that are there, on the same objects.

Each linker links the objects of each shape five times, in turns, where no output stands yet; the least wall-clock time
of each is printed in milliseconds, and the greatest memory in MiB. For tlsld the growth from 1,000 to 8,000 objects
stands in the last line.
"""
import glob
import os
import subprocess
import sys
import tempfile
import time

SHAPES = [("small", 1000), ("small", 4000), ("small", 8000), ("code", 60), ("sequences", 7)]
OTHERS = ["ld.bfd", "ld.gold", "ld.lld", "mold"]


def run(words, folder):
    started = time.perf_counter()
    child = subprocess.Popen(words, cwd=folder, stdout=subprocess.DEVNULL, stderr=subprocess.DEVNULL)
    _, status, usage = os.wait4(child.pid, 0)
    return (time.perf_counter() - started) * 1000, usage.ru_maxrss / 1024, status


def main():
    tlsld = os.path.abspath(sys.argv[1])
    here = os.path.dirname(os.path.abspath(__file__))
    linkers = [name for name in OTHERS if subprocess.run(["which", name], capture_output=True).returncode == 0]
    best = {}
    with tempfile.TemporaryDirectory() as room:
        for shape, count in SHAPES:
            folder = f"{room}/{shape}{count}"
            subprocess.run([sys.executable, f"{here}/objects.py", folder, shape, str(count)], check=True)
            objects = sorted(name for name in os.listdir(folder) if name.endswith(".o"))
            with open(f"{folder}/list", "w") as file:
                file.write("\n".join(objects))
            words = {"tlsld": [tlsld, "link", "job", "app", "out"]}
            for name in linkers:
                words[name] = [name, "-e", "f0", "-o", f"out.{name}", "@list"]
            for _ in range(5):
                for name, line in words.items():
                    for old in glob.glob(f"{folder}/out*"):
                        os.remove(old)
                    took, memory, status = run(line, folder)
                    if status != 0:
                        print(f"{name} failed on {shape} {count}: status {status}")
                    old = best.get((shape, count, name), (1e9, 0))
                    best[shape, count, name] = (min(old[0], took), max(old[1], memory))
            said = "  ".join(f"{name} {best[shape, count, name][0]:.0f} ms {best[shape, count, name][1]:.0f} MiB"
                             for name in words)
            print(f"{shape} {count}: {said}", flush=True)
    growth = best["small", 8000, "tlsld"][0] / best["small", 1000, "tlsld"][0]
    print(f"from 1,000 to 8,000 objects: {growth:.1f} times")


main()
