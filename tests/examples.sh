#!/bin/sh
# Runs every example on the program, and compares what it prints with what stands in the example's folder. The gate makes the
# same runs in memory, over copies of these files (crates/command_runs); at the end this says whether the copies are in step.
#
#     sh tests/examples.sh [TLSLD]
#
# In each folder below examples/, a file `job` or `job-NAME` is a job, and beside it may stand, with the same ending:
#
#     transcript       what `run` prints, with and without --no-relax
#     transcript.kept  what it prints with --no-relax, where that differs
#     raced            what `race` prints, with and without --no-relax, where that hangs on no thread's pace
#     sites.IMAGE      what `sites` prints of that image
#     verdict          what `check` prints
#     refusal          the line that `run` ends with, and `link`, with and without --no-relax
#
# A status goes with each: 0, of an unclean job 9, of a refusal 5, 6 or 7. Prints what differs, and fails if anything does.
set -u
top=$(cd "$(dirname "$0")/.." && pwd)
tlsld=${1:-$top/crates/tlsld/out/tlsld}
case $tlsld in /*) ;; *) tlsld=$PWD/$tlsld ;; esac
[ -x "$tlsld" ] || { echo "$tlsld is not built" && exit 1; }
room=$(mktemp -d)
trap 'rm -rf "$room"' EXIT
ran=0
failed=0

# holds WANTED STATUS WORD..: the program ends so on these words, in the folder of the example.
holds() {
    wanted=$1
    ends=$2
    shift 2
    "$tlsld" "$@" >"$room/out"
    status=$?
    ran=$((ran + 1))
    if [ "$status" -ne "$ends" ] || ! cmp -s "$room/out" "$wanted"; then
        echo "$folder: tlsld $*: status $status, not $ends:"
        diff "$wanted" "$room/out" | sed 's/^/    /'
        failed=$((failed + 1))
    fi
}

# refusal_status FILE: the status that goes with the line of a refusal.
refusal_status() {
    case $(cat "$1") in
    job\ *) echo 5 ;;
    object\ *) echo 6 ;;
    *) echo 7 ;;
    esac
}

# runs JOB: what is said of a job, by the files beside it.
runs() {
    job=$1
    end=${job#job}
    if [ -f "transcript$end" ]; then
        holds "transcript$end" 0 run "$job"
        kept=transcript$end.kept
        [ -f "$kept" ] || kept=transcript$end
        holds "$kept" 0 run "$job" --no-relax
    fi
    for sites in sites"$end".*; do
        [ ! -f "$sites" ] || holds "$sites" 0 sites "$job" "${sites#sites"$end".}"
    done
    if [ -f "raced$end" ]; then
        holds "raced$end" 0 race "$job"
        holds "raced$end" 0 race "$job" --no-relax
    fi
    if [ -f "refusal$end" ]; then
        ends=$(refusal_status "refusal$end")
        holds "refusal$end" "$ends" run "$job"
        holds "refusal$end" "$ends" run "$job" --no-relax
    fi
    if [ -f "verdict$end" ]; then
        if [ "$(cat "verdict$end")" = clean ]; then ends=0; else ends=9; fi
        holds "verdict$end" "$ends" check "$job"
    fi
}

for job in "$top"/examples/*/job* "$top"/examples/*/*/job*; do
    folder=$(dirname "$job")
    cd "$folder" || exit 1
    folder=${folder#"$top"/}
    runs "$(basename "$job")"
done
for name in a.o job; do
    cmp "$top/examples/thread_local_42/$name" "$top/crates/tlsld/data/$name" || failed=$((failed + 1))
done
python3 "$top/tests/example_data.py" --check || failed=$((failed + 1))
[ "$failed" -eq 0 ] && echo "$ran runs of examples print what stands beside them"
[ "$failed" -eq 0 ]
