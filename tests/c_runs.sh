#!/bin/sh
# Runs C files as the machine's gcc compiles them, and compares what each call returns with what it returns natively.
#
#     sh tests/c_runs.sh [TLSLD]
#
# examples/c has two files with _Thread_local variables, and native.c calls their functions by two threads. tlsld links them as a
# program at a fixed address, as one at any address, as a module that starts with a program, and as one that is opened, called, closed
# and opened again, and runs the same calls, in both settings. Natively the files are linked to native.c, or opened as a shared object.
# Code of -O0 and -Os is not run: it has instructions that the machine does not know, such as cltq. The workbench has these files too,
# as gcc made them once, for any linker: workbench/cases/c-pic and so on.
set -eu
top=$(cd "$(dirname "$0")/.." && pwd)
tlsld=${1:-$top/crates/tlsld/out/tlsld}
room=$(mktemp -d)
trap 'rm -rf "$room"' EXIT
cd "$room"
runs=0

# compile FLAGS..: the objects, as these flags make them
compile() {
    flags=$*
    for file in counters sums; do
        gcc -c "$@" "$top/examples/c/$file.c" -o "$file.o"
    done
}

# first IMAGE, second IMAGE: the calls of the two threads
first() {
    echo "1 call $1 next 0 0 0"
    echo "1 call $1 add 3 0 0"
    echo "1 call $1 before 0 0 0"
    echo "1 call $1 next 0 0 0"
    echo "1 call $1 add 0xffffffffffffffa6 0 0"
}
second() {
    echo "2 call $1 next 0 0 0"
    echo "2 call $1 before 0 0 0"
    echo "2 call $1 add 1 0 0"
}

# started KIND NAME: a job whose image starts with the program; the threads take turns
started() {
    if [ "$1" = start ]; then
        echo "image main exe main.o"
    fi
    echo "image $2 $1 counters.o sums.o"
    echo "threads 2"
    echo "order 2 1 1 2 1 2 1"
    first "$2"
    second "$2"
}

# opened: a job whose image is opened twice by the first thread, before the second calls it
opened() {
    echo "image main exe main.o"
    echo "image plug late counters.o sums.o"
    echo "threads 2"
    echo "1 open plug"
    first plug
    echo "1 close plug"
    echo "1 open plug"
    first plug
    second plug
}

# returned: what each call returned, with its thread
returned() {
    sed -n 's/^\(t[12]\) l[0-9]* g[0-9,]* = \([0-9a-f]*\)$/\1 \2/p' | sed 's/ 0*\([0-9a-f]\)/ \1/'
}

# same NAME WANTED: both settings of the job, against what was returned natively
same() {
    for flag in "" --no-relax; do
        # shellcheck disable=SC2086
        "$tlsld" run job $flag >said || { echo "$1 $flags $flag: $(head -n 1 said)"; exit 1; }
        returned <said >found
        if ! diff "$2" found >differs; then
            echo "$1 $flags $flag: natively < and here >"
            cat differs
            exit 1
        fi
        runs=$((runs + 1))
    done
}

# all of the first thread, and then all of the second, as a transcript has them
by_thread() {
    sort -s -k1,1
}

started_runs() {
    for kind in "$@"; do
        started "$kind" app >job
        same "$kind" wanted
    done
}

opened_runs() {
    opened >job
    same late wanted-opened
}

gcc -c -O1 "$top/examples/c/main.c" -o main.o
gcc -O1 -fPIE "$top/examples/c/native.c" "$top/examples/c/counters.c" "$top/examples/c/sums.c" -lpthread -ldl -o native
gcc -O1 -fPIC -shared "$top/examples/c/counters.c" "$top/examples/c/sums.c" -o plug.so
gcc -O1 -fPIE "$top/examples/c/native.c" -lpthread -ldl -o native-opens
./native | by_thread >wanted
./native-opens ./plug.so | by_thread >wanted-opened
for level in -O1 -O2; do
    compile $level -fPIC
    started_runs exe pie start
    opened_runs
    compile $level -fPIE
    started_runs exe pie
    # of one file alone, since gcc finds two variables of a file by a symbol that no object defines
    compile $level -fPIC
    gcc -c $level -fPIC -mtls-dialect=gnu2 "$top/examples/c/sums.c" -o sums.o
    flags="$flags, sums.c by descriptors"
    started_runs exe pie start
    opened_runs
done
echo "c_runs: $runs runs return what they return natively"
