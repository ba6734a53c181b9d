"""Cases by linkers: each image is linked in a folder of its own, and judged."""
import shutil
from concurrent.futures import ThreadPoolExecutor

import reports
import verdicts
from cases import read_cases
from linkers import Linker, link, objects_of, system_files


class Bench:
    """What is tried: cases by linkers, in folders below one."""

    def __init__(self, words, room):
        self.words, self.room, self.system = words, room, system_files()
        self.linkers = [Linker(it, words.seconds) for it in words.commands]
        self.cases = read_cases(words.cases, words.case)

    def trials(self):
        """Each image to be linked: the linker's number, a case, and what is expected of the image."""
        for number, linker in enumerate(self.linkers):
            for case in self.cases:
                for it in case.links:
                    if linker.takes(it.kind, it.relax):
                        yield number, case, it

    def folder(self, number, case, it):
        relax = "rewritten" if it.relax else "kept"
        return f"{self.room}/{case.name}/{number + 1}-{self.linkers[number].name}/{it.kind}-{relax}"

    def tried(self, trial):
        """Links one image, and says what it is worth."""
        number, case, it = trial
        room = self.folder(number, case, it)
        made = link(self.linkers[number], case, it.kind, it.relax, room, self.system)
        rows = verdicts.rows_of(case, it, made, room, self.system, self.words.seconds)
        if self.words.keep:
            linker = self.linkers[number]
            words = linker.filled(it.kind, it.relax, objects_of(case, it.kind, self.system))
            reports.leave(words, linker.version(), case, made, rows, room)
        else:
            shutil.rmtree(room, ignore_errors=True)
        return number, rows

    def rows(self):
        """The verdicts of each linker, in the corpus's order."""
        found = [[] for _ in self.linkers]
        with ThreadPoolExecutor(max(1, self.words.jobs)) as pool:
            for number, rows in pool.map(self.tried, self.trials()):
                found[number] += rows
        return found
