#!/bin/sh
# The program as it is built, over real files: each status that it ends with, and what it puts. Needs crates/tlsld/out/tlsld,
# which ./example builds. Prints what differs, and fails if anything does.
set -u
top=$(cd "$(dirname "$0")/.." && pwd)
tool=$top/crates/tlsld/out/tlsld
folder=$(mktemp -d)
trap 'rm -rf "$folder"' EXIT
cd "$folder" || exit 1
cp "$top/crates/tlsld/data/a.o" "$top/crates/tlsld/data/job" .
failed=0

# ends STATUS TEXT: the last run ended so, and its output is in the file `out`.
ends() {
    if [ "$status" -ne "$1" ] || [ "$(cat out)" != "$2" ]; then
        echo "$what: status $status and '$(cat out)', not $1 and '$2'"
        failed=1
    fi
}

# runs WORD..: runs the program on these words.
runs() {
    what="tlsld $*"
    "$tool" "$@" > out
    status=$?
}

runs run job
ends 0 't1 l1 g0 = 000000000000002a'
runs check job
ends 0 'clean'
runs check job --no-relax
ends 2 'usage'
runs --no-relax
ends 2 'usage'
runs run nothing
ends 3 'store fault'
runs run .
ends 3 'store fault'

runs show a.o
ends 8 'image 16 Header'
head -c 63 /dev/zero > zeros
runs show zeros
ends 8 'image 63 Truncated'
runs show nothing
ends 3 'store fault'

what='output to a full disk'
: > out
"$tool" run job > /dev/full
status=$?
ends 4 ''

printf 'image app pie a.o\n1 call app f 0 0 0\n' > job
runs run job
ends 0 't1 l1 g0 = 000000000000002a'

cp "$top/examples/unclean/flags/f.o" .
printf 'image app exe f.o\n1 call app f 0 0 0\n' > job
runs check job
ends 9 'unclean t1 l1 at 0000000000400010 flags'

# The largest file that is fetched has 2^28 bytes.
printf 'image app exe large\n1 call app f 0 0 0\n' > job
truncate -s 268435456 large
runs run job
ends 6 'object large section 0 entry 0 NotElf'
truncate -s 268435457 large
runs run job
ends 3 'store fault'

truncate -s 268435456 large
what='200 MB of memory'
(ulimit -v 200000 && exec "$tool" run job > out)
status=$?
ends 1 'out of memory'

[ "$failed" -eq 0 ] && echo 'each status is right'
exit "$failed"
