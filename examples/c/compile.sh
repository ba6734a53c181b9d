#!/bin/sh
# Makes the objects in objects/, which gcc 12.2 made.
set -eu
cd "$(dirname "$0")"
for file in counters sums; do
    gcc -c -O1 -fPIC $file.c -o objects/$file.o
    gcc -c -O0 -fPIC -mtls-dialect=gnu2 $file.c -o objects/$file-descriptors.o
    gcc -c -O1 $file.c -o objects/$file-local.o
done
gcc -c -O1 -fPIC main.c -o objects/main.o
