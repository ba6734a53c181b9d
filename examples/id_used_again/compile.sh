#!/bin/sh
# Makes the objects here, which gcc 12.2 made.
set -eu
cd "$(dirname "$0")"
gcc -c -O1 -fPIC main.c first.c second.c
