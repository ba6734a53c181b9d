"""Says which edits' texts are gone: each `old:` text stands once in its file, as earlier pairs of its edit leave that."""
import pathlib
import sys

TOP = pathlib.Path(__file__).resolve().parent.parent


def fault(edit, crate):
    """What is wrong with an edit of a crate, or None."""
    texts, name, old = {}, None, None
    for line in edit.read_text().splitlines():
        key, _, value = line.partition(":")
        value = value.removeprefix(" ")
        if key == "file":
            name = value.strip()
            path = TOP / "crates" / crate / name
            if not path.is_file():
                return f"no file {name}"
            texts.setdefault(name, path.read_text())
        elif key == "old":
            old = value
            if texts[name].count(old) != 1:
                return f"{name} has {texts[name].count(old)} times: {old}"
        elif key == "new":
            texts[name] = texts[name].replace(old, value)
    return None if old else "no pair"


def main():
    edits = [(edit, edit.parts[-3]) for edit in sorted(TOP.glob("crates/*/must-fail/*.edit"))]
    edits += [(edit, edit.parts[-2]) for edit in sorted(TOP.glob("tests/edits/*/*.edit"))]
    faults = [(edit, found) for edit, crate in edits if (found := fault(edit, crate))]
    for edit, found in faults:
        print(f"{edit.relative_to(TOP)}: {found}")
    print(f"{len(edits)} edits, {len(faults)} gone")
    return 1 if faults else 0


sys.exit(main())
