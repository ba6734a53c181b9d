"""The corpus, as it is read: cases, and what is expected of each link."""
import json
import os

from elf import File


class Site:
    """A sequence of a case: the object, the section, the offset there, the length, the form and the function."""

    def __init__(self, file, section, at, length, form, function):
        self.file, self.section, self.at, self.length = file, section, at, length
        self.form, self.function = form, function


class Link:
    """What is expected of one image: of each sequence the choice, its bytes, and where in `tlsld`'s image they stand;
    and that image's size. Or the line with which `tlsld` refuses it.
    """

    def __init__(self, told):
        self.kind, self.relax = told["kind"], told["relax"]
        self.refused = told.get("refused", "")
        self.size = told.get("size", 0)
        self.made = [(choice, bytes.fromhex(digits)) for choice, digits, _ in told.get("made", [])]
        self.places = [place for _, _, place in told.get("made", [])]


class Case:
    """A case: its name, its folder, and what stands in the file `expected`."""

    def __init__(self, folder):
        self.folder, self.name = os.path.abspath(folder), os.path.basename(folder)
        with open(f"{folder}/expected", encoding="utf-8") as file:
            told = json.load(file)
        self.about, self.why, self.objects, self.library = (told[it] for it in ("about", "why", "objects", "library"))
        self.values = told["values"]
        self.sites = [Site(*it) for it in told["sites"]]
        self.links = [Link(it) for it in told["links"]]
        self.files = {name: File(f"{folder}/{name}") for name in self.objects}

    def functions(self):
        return list(self.values)

    def fields(self, file, section):
        """The places of a section that are fields of relocations."""
        return {at for it in self.files[file].relocations(section) for at in range(it.place, it.place + it.size())}

    def code(self, file, section):
        """The bytes of a section of code."""
        part = self.files[file].sections[section]
        return self.files[file].content(part)

    def written(self, site):
        """The bytes of a sequence as the object has them."""
        return self.code(site.file, site.section)[site.at:site.at + site.length]

    def kept_cells(self, site):
        """The places in a sequence that are no field, as the object has it."""
        fields = self.fields(site.file, site.section)
        return [at for at in range(site.length) if site.at + at not in fields]

    def table_cells(self, site, choice):
        """The places that are no field in what stands there by the table: a new form's field is its last four bytes."""
        if choice == "keep":
            return self.kept_cells(site)
        has_field = choice != "ld-le" and site.form != "desc-call"
        return list(range(site.length - 4 * has_field))


def read_cases(folder, names=()):
    """The cases of a corpus, or those of these names."""
    found = sorted(it for it in os.listdir(folder) if os.path.exists(f"{folder}/{it}/expected"))
    return [Case(f"{folder}/{it}") for it in found if not names or it in names]
