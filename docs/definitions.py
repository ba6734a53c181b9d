"""definitions.py: the definitions in this repository, and which others each one names.

An `Item` is what is read in one piece: in a file of definitions (`.antt`) a definition with its comment, the head of a module
with parameters, or a heading; in a source file (`.rt`) a type, a constant, a trait, or the contract of a function. A name leads
to what the file's imports say, through re-exports (`pub use`, also those of a crate's `Lib`).
"""
import functools
import glob
import os
import re

TOP = os.path.dirname(os.path.dirname(os.path.abspath(__file__)))
USE = re.compile(r"(?:unfoldable |ghost )?(pub )?use Rattle\.(\w+)\.specs\.([\w.]+?)(?:\.\{(.*)\}| as (\S+?))?;?$")
RUST_USE = re.compile(r"^(?:pub )?use ([\w:]+?)(?:::\{([^}]*)\}|::(\w+(?: as \w+)?));", re.M)
MADE = re.compile(r"(?:(?:abbrev|unfoldable|pub|record|data|module)\s+|infix\w*\s+\d+\s+)+(\S+)|(\S+) :(?= |$)")
RUST_MADE = re.compile(r"(?:pub(?:\(\w+\))? )?(struct|enum|const|trait|type|fn) (\w+)")
WORD = re.compile(r"[^\s(){}\[\],;]+")


def read(path):
    """The text of a file."""
    with open(path, encoding="utf-8") as file:
        return file.read()


def indentation(line):
    """How many spaces begin a line."""
    return len(line) - len(line.lstrip())


def names_in(text):
    """The names of an import's list, each with what it is there: `a as b` is b here and a there."""
    for it in filter(None, (it.strip() for it in text.split(","))):
        there, _, here = it.partition(" as ")
        yield here or there, there


class Item:
    """What is read in one piece: its file, kind and name, the indentation of its first line, what stands above it and is read
    with it (headings, heads of modules), its code in parts (what it declares, then each clause), and how many lines it has."""

    def __init__(self, file, kind, name, indent, above=()):
        self.file, self.kind, self.name, self.indent, self.above = file, kind, name, indent, list(above)
        self.parts, self.lines = [], 0

    def add(self, line, comments=0):
        """Takes a line of code, and the lines of comment before it."""
        begins = indentation(line) == self.indent and not re.match(r"\s*(unfolding\b|[)}])", line)
        if begins or not self.parts:
            self.parts.append("")
        self.parts[-1] += re.sub(r"\s--\s.*|//.*", "", line) + "\n"
        self.lines += 1 + comments


class File:
    """A file: its items, those of each name, what its imports name, what it hands on, and how many lines are imports or blank."""

    def __init__(self, path):
        self.path = path
        self.crate, self.name = re.search(r"/crates/(\w+)/(?:specs|src)/(.*)\.", path).groups()
        self.items, self.made, self.uses, self.modules, self.handed, self.rust_uses = [], {}, {}, {}, {}, {}
        self.imports = self.blanks = 0

    def __str__(self):
        return f"{self.crate}/{self.name}"

    def make(self, item, *names):
        """Takes an item, which makes these names."""
        self.items.append(item)
        for name in names:
            self.made.setdefault(name, []).append(item)
        return item

    def use(self, line):
        """Takes a line if it is an import."""
        found = USE.match(line)
        if found:
            public, crate, module, names, alias = found.groups()
            own = {here: (crate, module, there) for here, there in names_in(names or "")}
            self.uses.update(own)
            self.handed.update(own if public else {})
            if names is None:
                self.modules[alias or module.split(".")[-1]] = (crate, module)
        return bool(found) or bool(re.match(r"(pub )?(use|mod) ", line))


class Reader:
    """Reads a file of definitions line by line."""

    def __init__(self, path):
        self.file, self.item, self.comment, self.above = File(path), None, [], []
        for line in read(path).splitlines():
            self.take(line)

    def take(self, line):
        """Takes the next line."""
        if not line.strip():
            self.file.blanks += 1
            self.head()
        elif line.lstrip().startswith("--"):
            self.comment.append(line)
        elif self.file.use(line):
            self.file.imports += 1
            self.head()
        else:
            self.code(line)

    def head(self):
        """Ends a comment that no code follows: it is a heading, or stands within a definition."""
        if self.comment and self.item and indentation(self.comment[0]) > self.item.indent:
            self.item.lines += len(self.comment)
        elif self.comment:
            indent = indentation(self.comment[0])
            self.leave(indent, headings=True)
            heading = self.file.make(Item(self.file, "heading", "", indent, [it for it in self.above if it.kind == "module"]))
            heading.lines = len(self.comment)
            self.above.append(heading)
        self.comment = []

    def leave(self, indent, headings=False):
        """Leaves the modules, and with `headings` the headings, that end before a line of this indentation."""
        ends = {"module": indent, "heading": indent if headings else indent + 1}
        self.above = [it for it in self.above if it.indent < ends[it.kind] or self.is_own(it)]

    def is_own(self, it):
        """Whether an item is the heading of the whole file."""
        return it is self.file.items[0] and it.kind == "heading"

    def code(self, line):
        """Takes a line of a definition, or one that begins another."""
        found, indent = MADE.match(line.strip()), indentation(line)
        if not self.item or indent < self.item.indent or (indent == self.item.indent and found):
            self.begin(line, found, indent)
        elif re.match(r"\s*[A-Z]\S* :", line) and "data " in self.item.parts[0]:
            self.file.made.setdefault(WORD.search(line)[0], []).append(self.item)
        self.item.add(line, len(self.comment))
        self.comment = []
        if self.item.kind == "module" and line.endswith("where"):
            self.above, self.item = [*self.above, self.item], None

    def begin(self, line, found, indent):
        """Begins an item."""
        self.leave(indent)
        name = found[1] or found[2]
        if line.lstrip().startswith("module "):
            self.item = self.file.make(Item(self.file, "module", name, indent, self.above))
        else:
            self.item = self.file.make(Item(self.file, "definition", name, indent, self.above), name)


def rust_file(path):
    """Reads a source file: its types, constants and traits, and the contracts of its free functions."""
    file, item, comments, text = File(path), None, 0, read(path)
    for crate, names, name in RUST_USE.findall(text):
        file.rust_uses.update((here, (crate.split("::")[0], there)) for here, there in names_in(names or name))
    for line in text.splitlines():
        found = RUST_MADE.match(line)
        if item and item.kind == "contract" and line == "{":
            item = None
        elif item and line.strip():
            item.add(line)
        elif found:
            item = file.make(Item(file, "contract" if found[1] in ("trait", "fn") else "type", found[2], 0), found[2])
            item.add(line, comments)
        else:
            file.use(line)
        if item and (line in ("}", "};") or item.kind == "type" and indentation(line) == 0 and line.endswith((";", "}"))):
            item = None
        comments = comments + 1 if re.match(r"///|#\[", line) else 0
    return file


@functools.cache
def file_at(path):
    """The file of definitions of that path, read."""
    return Reader(path).file


@functools.cache
def module_at(crate, module):
    """The file of a module of definitions, if it is one of the repository's; a crate's `Lib` may hand on that of another."""
    path = f"{TOP}/crates/{crate}/specs/{module.replace('.', '/')}.antt"
    if os.path.isfile(path):
        return file_at(path)
    lib = f"{TOP}/crates/{crate}/specs/Lib.antt"
    handed = file_at(lib).modules.get(module) if os.path.isfile(lib) else None
    return module_at(*handed) if handed else None


@functools.cache
def rust_files(crate):
    """The source files of a crate, by their modules."""
    paths = glob.glob(f"{TOP}/crates/{crate}/src/**/*.rt", recursive=True)      # none of a crate of the kit
    return {file.name.replace("/", "."): file for file in map(rust_file, sorted(paths))}


def rust_named(crate, name, file=None):
    """What a source file's text calls by that name, or without one who uses the crate."""
    files = rust_files(crate)
    known = file or files.get("lib")
    names = known.rust_uses if known else {}
    if file and (name in file.made or name not in names):
        return file.made.get(name, [])
    first, there = names.get(name, (crate, name))
    if first != crate and first not in files and rust_files(first):
        return rust_named(first, there)
    return next((it.made[there] for it in files.values() if there in it.made), [])


def declared(crate, module, name):
    """A type that is made in code, or a constant: `declared.FILE.TYPE`, `.TheVariants` of it, or `declared.FILE.TheConstants`."""
    words = module.split(".")[1:]
    wanted = name if words[-1] == "TheConstants" else words[-2] if words[-1] == "TheVariants" else words[-1]
    files = [rust_files(crate).get(".".join(words[:at])) for at in range(len(words), 0, -1)]
    return next((it.made[wanted] for it in files if it and wanted in it.made), []) or rust_named(crate, wanted)


def named(crate, module, name):
    """The items of that name in a module."""
    if module.startswith("declared"):
        return declared(crate, module, name)
    file = module_at(crate, module)
    if not file:
        return []
    return file.made.get(name) or (named(*file.handed[name]) if name in file.handed else [])


def meant(file, word):
    """The items that a word of a file names: its own, or those that it imports."""
    first, _, rest = word.rstrip(".").partition(".")
    if rest and first in file.modules:
        return named(*file.modules[first], rest.split(".")[0])
    if first in file.uses:
        return named(*file.uses[first])
    if file.path.endswith(".rt"):
        return rust_named(file.crate, first, file) if first[:1].isupper() else []
    return file.made.get(first, [])


def mixfix(file, text):
    """The operators among a file's names that a text uses: each part between holes stands in it; `do` uses `>>=`."""
    words = set(WORD.findall(text)) | ({">>="} if "←" in text else set())
    return [it for it in {*file.uses, *file.made} if "◌" in it and words.issuperset(filter(None, it.split("◌")))]


def bound(part, is_clause):
    """The names that a part of a definition binds: behind λ, let and :, before ←, and in the patterns of a clause."""
    found = set(re.findall(r"(?:\blet |\bpub )([^\s()]+)", part))
    for names in re.findall(r"[({]([^(){}:=.λ→]+) : |λ ([^.(]*)\.|^\s*(\S+) ←", part, re.M):
        found.update(WORD.findall(" ".join(names)))
    if is_clause:
        patterns = WORD.findall(re.split(r"\s=\s", part)[0])[1:]
        found.update(it for it in patterns if not it[0].isupper() and "." not in it)
    return found


def named_by(item, part, number):
    """The items that a part of an item names; which is its first, or a clause, tells its number."""
    text = re.sub(r"\b(ensures|requires|ghost) \w+(?= \{|:)", "", part)
    text = re.sub(r"(?<=[{;\s])[\w']+ = ", " ", text) if item.kind == "definition" else text
    own = bound(part, number > 0) if item.kind in ("definition", "module") else set()
    for module in (it for it in item.above if it.kind == "module"):
        own |= bound(module.parts[0], False)
    words = [it for it in WORD.findall(text) if it.split(".")[0] not in own]
    words += re.findall(r"\b[A-Z]\w*", text) if item.kind in ("contract", "type") else []
    return [it for word in {*words, *mixfix(item.file, text)} for it in meant(item.file, word)]


def imported(files):
    """These files of definitions, and all that they import, and so on."""
    found, left = set(), list(files)
    while left:
        file = left.pop()
        if file not in found:
            found.add(file)
            uses = {it[:2] for it in (*file.uses.values(), *file.modules.values())}
            left += [it for it in (module_at(*use) for use in uses if not use[1].startswith("declared")) if it]
    return found
