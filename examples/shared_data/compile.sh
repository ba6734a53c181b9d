#!/bin/sh
# Makes the object here, which gcc 12.2 made.
set -eu
cd "$(dirname "$0")"
gcc -c -O1 -fPIE count.c
