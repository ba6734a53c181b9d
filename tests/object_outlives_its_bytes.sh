#!/bin/sh
# An Object lends what its bytes hold, so a program whose Object outlives its bytes does not compile. Makes such a program beside
# copies of the crates, checks it, and passes if it is refused because of that borrow. Needs `rt` on the path.
set -eu
top=$(cd "$(dirname "$0")/.." && pwd)
copy=$(mktemp -d)
trap 'rm -rf "$copy"' EXIT
mkdir -p "$copy/crates/outlives/src"
for crate in elf_records object_rules object_faults elf_object; do cp -r "$top/crates/$crate" "$copy/crates"; done
cp "$top/HANDLES" "$copy"
grep -E '^(elf_records|object_rules|object_faults|elf_object):' "$top/crates.txt" > "$copy/crates.txt"
echo 'outlives: elf_object' >> "$copy/crates.txt"
cat > "$copy/crates/outlives/src/lib.rt" <<'RATTLE'
#![tactic(auto)]

use elf_object::{Object, ObjectFault};
use std::alloc::Global;

/// Reads an object, and lets its bytes go before the object is used.
pub fn count(alloc: Global) -> Result<u32, ObjectFault> {
    let object;
    {
        let bytes = [0; 64];
        object = Object::read(alloc, &bytes)?;
    }
    Ok(object.section_count())
}
RATTLE
cd "$copy/crates/outlives"
if rt check > "$copy/log" 2>&1; then
    echo "not refused: an Object outlived its bytes"
    exit 1
fi
if ! grep -q 'borrow-e0597' "$copy/log"; then
    cat "$copy/log"
    echo "refused, but not because the bytes do not live long enough (E0597)"
    exit 1
fi
echo "refused, as it must be: the bytes do not live long enough"
