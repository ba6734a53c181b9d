#!/bin/sh
# Makes the objects here, which gcc 12.2 and clang 14 made.
set -eu
cd "$(dirname "$0")"
gcc -c -O1 -fPIE app.c own.c
gcc -c -O1 -fPIC lib.c
clang -c -O1 -fPIE place.c
