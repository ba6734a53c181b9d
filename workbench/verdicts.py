"""What a linked image is worth, sequence by sequence: by its bytes, and by what threads read that run it."""
import natives
from functions import LOST

TABLE, RIGHT, KEPT, REFUSED, WRONG = "as the table", "another right form", "kept", "refused", "wrong"
UNDECIDED, NO_ANSWER = "not decided", "no answer"
VERDICTS = [TABLE, RIGHT, KEPT, REFUSED, WRONG, UNDECIDED, NO_ANSWER]


class Row:
    """The verdict on one sequence of one image, why, and the bytes that stand there. A function that reaches its
    variable by a field alone (local exec) has a row without a site."""

    def __init__(self, case, link, site, verdict, why="", found=b"", function=""):
        self.case, self.link, self.site, self.verdict, self.why, self.found = case, link, site, verdict, why, found
        self.function = site.function if site else function

    def name(self):
        setting = "" if self.link.relax else ", not rewritten"
        place = f"{self.site.form} at {self.site.at:#x} of {self.site.file}" if self.site else f"le in {self.function}"
        return f"{self.case.name} ({self.link.kind}{setting}) {place}"


class Lost(Exception):
    """Code of a case is not found in an image."""


class Reading:
    """The code of a case in an image: where each section lies, and what stands there."""

    def __init__(self, case, image):
        self.case, self.image = case, image
        self.where = {it.name: it.value for it in image.symbols() if it.section}
        self.begins = {(file, number): self.beginning(file, number) for file in case.objects
            for number, part in case.files[file].code_sections() if part.size}

    def beginning(self, file, number):
        """The address of a section, by a function in it."""
        for it in self.case.files[file].symbols():
            if it.section == number and it.name in self.where and it.kind == 2:
                return self.where[it.name] - it.value
        raise Lost(f"the image has no symbol of {file}'s section {number}")

    def bytes(self, file, number):
        size = self.case.files[file].sections[number].size
        found = self.image.at(self.begins[file, number], size)
        if len(found) < size:
            raise Lost(f"the image ends in {file}'s section {number}")
        return found

    def site(self, site):
        return self.bytes(site.file, site.section)[site.at:site.at + site.length]

    def flows(self):
        """Whether code that goes on in the next object does so in the image."""
        if ("second.o", 1) not in self.begins or "rest" not in self.where:
            return True
        return self.where["rest"] == self.begins["first.o", 1] + self.case.files["first.o"].sections[1].size

    def changed(self, file, number):
        """The places in a section that are other than in the object, and are no field and no sequence's."""
        sites = [it for it in self.case.sites if (it.file, it.section) == (file, number)]
        free = self.case.fields(file, number) | {at for it in sites for at in range(it.at, it.at + it.length)}
        pairs = zip(self.case.code(file, number), self.bytes(file, number))
        return [at for at, (old, new) in enumerate(pairs) if old != new and at not in free]


def agrees(found, wanted, cells):
    return all(found[at] == wanted[at] for at in cells)


def shape(case, site, expected, found):
    """By its bytes alone: as the table, kept, or another form."""
    if expected and agrees(found, expected[1], case.table_cells(site, expected[0])):
        return TABLE
    return KEPT if agrees(found, case.written(site), case.kept_cells(site)) else RIGHT


def misread(wanted, values, broken):
    """What is wrong with what a function returned to its calls; nothing if it is right."""
    for (thread, added), good, found in zip(natives.CALLS, wanted, [*values, *[None] * 4]):
        if found is None:
            return f"thread {thread}: the call {broken or 'prints nothing'}"
        if found != good:
            number = int(found, 16)
            if number >> 32 and not number & 0xffffffff and number >> 32 <= len(LOST):
                name = LOST[(number >> 32) - 1]
                return f"thread {thread}: {'%' if name.isalnum() else ''}{name} is lost"
            return f"thread {thread} reads {number:#x}, not {int(good, 16):#x}"
    return ""


def faults(case, link, image, room, system, seconds):
    """What is wrong with each function's calls, by a run of all, and of those that it did not reach by a run of their
    own.
    """
    names = case.functions()
    told = {}
    ran = natives.run(image, link.kind, names, room, system, seconds)
    for name in names:
        values = ran.values.get(name, [])
        if len(values) < 4 and (ran.broken or len(names) > 1):
            own = natives.run(image, link.kind, [name], room, system, seconds)
            values, broken = own.values.get(name, []), own.broken
        else:
            broken = ran.broken
        told[name] = misread(case.values[name], values, broken)
    return told


def blamed(case, file, number, changed):
    """For each place outside that has changed, the sequence nearest to it."""
    near = {}
    sites = [it for it in case.sites if (it.file, it.section) == (file, number)] or case.sites
    for at in changed:
        if sites:
            nearest = min(sites, key=lambda it: min(abs(at - it.at), abs(at - it.at - it.length + 1)))
            near.setdefault(nearest, []).append(at)
    return near


def outside(case, reading):
    """What has changed outside of sequences and fields, by the sequence nearest to it."""
    told = {}
    for file, number in reading.begins:
        for site, places in blamed(case, file, number, reading.changed(file, number)).items():
            old, new = case.code(file, number), reading.bytes(file, number)
            at = places[0]
            told[site] = f"byte {at:#x} of {file}, outside, was {old[at]:02x} and is {new[at]:02x}" + (
                f", and {len(places) - 1} more" if len(places) > 1 else "")
    return told


def all_rows(case, link, verdict, why):
    with_sites = {it.function for it in case.sites}
    others = [Row(case, link, None, verdict, why, function=name) for name in case.functions() if name not in with_sites]
    return [Row(case, link, site, verdict, why) for site in case.sites] + others


def hindrance(link, reading, system):
    """Why an image can't be run, if it can't."""
    if not natives.can_run():
        return "not run: this is no x86-64 Linux"
    if not reading.flows():
        return "not run: the two sections are not one behind the other in the image"
    if link.kind in ("plain", "pie") and len(system) < 2:
        return "not run: no C library is here to link to"
    return ""


def judged(case, link, image, room, system, seconds):
    """The verdicts on an image."""
    try:
        reading = Reading(case, image)
        told = outside(case, reading)
        found = [reading.site(it) for it in case.sites]
    except Lost as fault:
        return all_rows(case, link, UNDECIDED, str(fault))
    why_not = hindrance(link, reading, system)
    wrong = {} if why_not else faults(case, link, image, room, system, seconds)
    rows = []
    for at, (site, code) in enumerate(zip(case.sites, found)):
        form = shape(case, site, link.made[at] if link.made else None, code)
        fault = told.get(site) or wrong.get(site.function)
        both = "; ".join(it for it in (told.get(site), wrong.get(site.function)) if it)
        verdict = WRONG if fault else UNDECIDED if why_not else form
        # of a function that is not called, since it returns an address, nothing is said
        if fault or site.function in case.values:
            rows.append(Row(case, link, site, verdict, both or why_not, code))
    with_sites = {it.function for it in case.sites}
    for name in case.functions():
        if name not in with_sites:
            verdict = WRONG if wrong.get(name) else UNDECIDED if why_not else TABLE
            rows.append(Row(case, link, None, verdict, wrong.get(name, why_not), function=name))
    return rows


def rows_of(case, link, made, room, system, seconds):
    """The verdicts on what a linker made of a case."""
    if made.outcome == "refused":
        return all_rows(case, link, REFUSED, made.why)
    if made.outcome != "made":
        return all_rows(case, link, NO_ANSWER, f"{made.outcome}: {made.why}")
    return judged(case, link, made.image, room, system, seconds)
