#!/bin/sh
# Images beside other programs: `tests/images.sh [FOLDER]`. Needs crates/image_listing/out/image_listing and
# crates/image_fuzz/out/image_fuzz, which `rt run` in these two folders builds, and gcc and the GNU tools. Prints what
# is wrong, and fails if anything is.
#
# 1. Of each file NAME.image in FOLDER, what image_listing prints is what NAME.expected has.
# 2. What ld makes of a small object, in three ways, is no image: it has a first fault, within the file.
# 3. readelf and objdump take each image that the writer makes without a warning. These are those of crates/*/data:
#    image_fuzz says that the writer makes them again, byte for byte.
set -u
top=$(cd "$(dirname "$0")/.." && pwd)
listing=$top/crates/image_listing/out/image_listing
fuzz=$top/crates/image_fuzz/out/image_fuzz
for program in "$listing" "$fuzz"; do
    [ -x "$program" ] || { echo "$program is not built: rt run in its crate's folder builds it" && exit 1; }
done
cases=${1:-}
[ -z "$cases" ] || cases=$(cd "$cases" && pwd) || exit 1
folder=$(mktemp -d)
trap 'rm -rf "$folder"' EXIT
cd "$folder" || exit 1
failed=0

# wrong TEXT: something is.
wrong() {
    echo "$1"
    failed=1
}

# lists FILE STATUS: lists a file into `out`, which must end with this status.
lists() {
    "$listing" "$1" > out
    status=$?
    [ "$status" -eq "$2" ] || wrong "$1: status $status, not $2: $(head -c 200 out)"
}

count=0
for image in ${cases:+"$cases"/*.image}; do
    expected=${image%.image}.expected
    case $(head -n 1 "$expected") in
    kind*) lists "$image" 0 ;;
    *) lists "$image" 8 ;;
    esac
    cmp -s out "$expected" || wrong "$image: '$(head -c 200 out)', not '$(head -c 200 "$expected")'"
    count=$((count + 1))
done

# faulty FILE: the file has a first fault, within it.
faulty() {
    lists "$1" 8
    size=$(wc -c < "$1")
    offset=$(sed -n 's/^image \([0-9]*\) \(Truncated\|Header\|Segment\|Dynamic\|Relocation\|TlsPlace\)$/\1/p' out)
    [ "${offset:-$((size + 1))}" -le "$size" ] || wrong "$1: '$(head -c 200 out)' of $size bytes"
}

cat > object.c <<'END'
__thread int counter = 42;
static __thread long hidden;
int data = 7;
int *next(void) { hidden += data; return &counter; }
END
gcc -c -O2 -fPIC object.c || exit 1
cat > runtime.s <<'END'
    .globl __tls_get_addr
__tls_get_addr:
    ret
    .section .note.GNU-stack, "", @progbits
END
as runtime.s -o runtime.o || exit 1
ld -e next object.o runtime.o -o fixed && faulty fixed
ld -pie -e next object.o runtime.o -o anywhere && faulty anywhere
ld -shared object.o -o shared && faulty shared
for made in fixed anywhere shared; do
    [ -f "$made" ] || wrong "$made: ld did not make it"
done

# quiet WORD..: the program takes the file and warns of nothing.
quiet() {
    "$@" > out 2> errors || wrong "$*: failed"
    [ ! -s errors ] || wrong "$*: $(head -c 200 errors)"
    ! grep -qi warning out || wrong "$*: $(grep -i warning out | head -n 1)"
}

for image in "$top"/crates/image_listing/data/*.image "$top"/crates/image_fuzz/data/*.image; do
    "$fuzz" 0 "$image" > out || wrong "$image: the writer makes another"
    quiet readelf -lWd "$image"
    quiet objdump -p "$image"
done

[ "$failed" -eq 0 ] && echo "$count files are told as expected, ld's outputs refused, and the writer's images taken"
exit "$failed"
