#!/bin/sh
# Makes the objects here, which gcc 12.2 and GNU as 2.40 made.
set -eu
cd "$(dirname "$0")"
as -o bare.o bare.s
gcc -c -O1 -fPIC uses.c
gcc -c -O1 -fno-pic table.c
gcc -c -O1 -fPIC -mtls-dialect=gnu2 pair.c
