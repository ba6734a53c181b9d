#!/bin/sh
# Makes the objects of this folder anew, by gcc 12.2 and binutils 2.40. They stand in the repository: nobody needs a
# compiler.
set -eu
cd "$(dirname "$0")"
for name in static hosted; do
    gcc -c -O1 -fPIE -fvisibility=hidden -ffreestanding -fno-stack-protector -fno-asynchronous-unwind-tables \
        -fcf-protection=none -fno-tree-loop-distribute-patterns -Wall -Wextra -o $name.o $name.c
done
for name in lib main; do
    as -o $name.o $name.s
done
ld -shared -soname lib.so -z noseparate-code --hash-style=sysv -o lib.so lib.o
