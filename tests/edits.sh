#!/bin/sh
# Wrong bodies that the prover must refuse: those of crates/NAME/must-fail, which the gate tries too, and those of
# tests/edits/NAME. Tries all of the crates that are named, or of all, on a copy of the repository, and fails if the prover
# lets one through, or if an edit can no longer be made (tests/edits_apply.py tells that at once).
set -eu
cd "$(dirname "$0")/.."
copy=$(mktemp -d)
trap 'rm -rf "$copy"' EXIT
[ $# -gt 0 ] || set -- $(ls -d crates/*/must-fail/ tests/edits/*/ | sed 's,/$,,; s,/must-fail$,,; s,.*/,,' | sort -u)
tar cf - --exclude out crates crates.txt HANDLES | tar xf - -C "$copy"
for crate in "$@"; do
    [ -d "tests/edits/$crate" ] || continue
    mkdir -p "$copy/crates/$crate/must-fail"
    cp "tests/edits/$crate"/* "$copy/crates/$crate/must-fail"
done
cd "$copy"
rt must-fail "$@"
