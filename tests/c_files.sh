#!/bin/sh
# Links C files as the machine's gcc compiles them, and holds the images beside readelf and objdump.
#
#     sh tests/c_files.sh [TLSLD]
#
# examples/c has three files with _Thread_local variables. With -fPIC at -O0 to -O2 they link as a program at a fixed address, as one
# at any address and as a module that starts with a program, in both settings; without -fPIC as the two programs, and as a module they
# are LocalExecInModule; with -mtls-dialect=gnu2 at -O0 as all three. At -O1 gcc finds two variables of one file by the symbol
# _TLS_MODULE_BASE_, which no object defines: Undefined. readelf and objdump take each image without a warning.
set -eu
top=$(cd "$(dirname "$0")/.." && pwd)
tlsld=${1:-$top/crates/tlsld/out/tlsld}
room=$(mktemp -d)
trap 'rm -rf "$room"' EXIT
cd "$room"
cases=0

# compile NAME FLAGS..: the objects NAME-counters.o and NAME-sums.o
compile() {
    name=$1
    shift
    for file in counters sums; do
        gcc -c "$@" "$top/examples/c/$file.c" -o "$name-$file.o"
    done
}

# job KIND NAME: a job that links them as an image of this kind
job() {
    if [ "$1" = start ]; then
        echo "image main exe main.o" >job
    else
        : >job
    fi
    echo "image app $1 $2-counters.o $2-sums.o" >>job
}

# links KIND NAME: both settings, and what other programs say of the images
links() {
    job "$1" "$2"
    for flag in "" --no-relax; do
        # shellcheck disable=SC2086
        "$tlsld" link job app out $flag >said || { echo "$1 $2 $flag: $(cat said)"; exit 1; }
        readelf -lWd out >told 2>&1
        objdump -d out >>told 2>&1
        if grep -i warning told; then
            echo "$1 $2 $flag: a warning"
            exit 1
        fi
        cases=$((cases + 1))
    done
}

# refused KIND NAME LINE: it does not link, and this is why
refused() {
    job "$1" "$2"
    if "$tlsld" link job app out >said; then
        echo "$1 $2: it links"
        exit 1
    fi
    [ "$(cat said)" = "$3" ] || { echo "$1 $2: $(cat said), and not $3"; exit 1; }
    cases=$((cases + 1))
}

gcc -c -O2 "$top/examples/c/main.c" -o main.o
for level in -O0 -O1 -O2; do
    compile "pic$level" $level -fPIC
    for kind in exe pie start; do
        links $kind "pic$level"
    done
    compile "plain$level" $level -fPIE
    links exe "plain$level"
    links pie "plain$level"
    refused start "plain$level" "link app LocalExecInModule plain$level-counters.o section 2 entry 0"
done
compile gnu2-O0 -O0 -fPIC -mtls-dialect=gnu2
for kind in exe pie start; do
    links $kind gnu2-O0
done
compile gnu2-O1 -O1 -fPIC -mtls-dialect=gnu2
for kind in exe pie start; do
    refused $kind gnu2-O1 "link app Undefined gnu2-O1-counters.o section 2 entry 2"
done
echo "c_files: $cases cases hold"
