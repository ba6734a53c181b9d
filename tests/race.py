#!/usr/bin/env python3
"""race.py [TLSLD] [RUNS], race.py [TLSLD] --cost, race.py --selftest: runs `race` many times, and judges each text it prints.

What `race` prints may differ from run to run, so no text stands beside a job to compare with. Two things are asked of each one:

- It is lawful. Its events are a history of opens and closes, and each line is what that history asks for at the points that the
  line prints. The rule is written out below once more. Of images it knows only which start with the program and which come late.
- It is what the code does. Any history can be had by turns too, so `run` prints the same text in an order that gives each thread
  the same points. This compares what calls returned and what bytes were shown, of which the rule knows nothing.

RUNS (1,000) is how many runs there are in all, as many of each of the twenty jobs, and half of these with --no-relax. --cost
compares the time and the memory of `race` with those of `run`. --selftest, with which the first form begins too, says which wrong
texts the rule refuses; it needs no program.
"""
import os
import re
import shutil
import subprocess
import sys
import tempfile
import time
from dataclasses import dataclass
from itertools import combinations, zip_longest

TOP = os.path.abspath(f"{os.path.dirname(os.path.abspath(__file__))}/..")
SETTINGS = [[], ["--no-relax"]]
MOST_INSTANCES = 4095
# A run takes milliseconds, so one that takes so many seconds hangs.
LONGEST = 60


class Wrong(Exception):
    """A text is not as it has to be; the message says where, and how."""


class Job:
    """What a job says of its images and of its threads' lines, thread 1 first."""

    def __init__(self, text):
        self.text = text
        rows = [row.split() for row in text.splitlines() if row.split() and not row.startswith("#")]
        kinds = {row[1]: row[2] for row in rows if row[0] == "image"}
        self.late = {image for image, kind in kinds.items() if kind == "late"}
        self.starting = len(kinds) - len(self.late)
        self.threads = next((int(row[1], 0) for row in rows if row[0] == "threads"), 1)
        own = {thread: [row[1:] for row in rows if row[0] == str(thread)] for thread in range(1, self.threads + 1)}
        self.lines = [(thread, number, words) for thread in own for number, words in enumerate(own[thread], 1)]

    def in_order_of(self, lines):
        """The job with turns that see just as many events as the looks of these lines: by points, and what adds an event last."""
        looks = sorted((point, bool(line.event), line.thread) for line in lines for point in line.points)
        kept = [row for row in self.text.splitlines() if row.split()[:1] != ["order"]]
        return "\n".join([*kept, " ".join(["order", *(str(thread) for _, _, thread in looks)]), ""])


@dataclass(frozen=True)
class Line:
    """A line of a thread: its words in the job, how many events each of its looks saw, and what came of it."""
    thread: int
    number: int
    words: list
    points: list
    result: str

    @property
    def event(self):
        """The event that came of it, or None."""
        is_accepted = self.result.startswith(("opened", "closed"))
        return f"t{self.thread} l{self.number} {self.words[0]} {self.words[1]}" if is_accepted else None

    def __str__(self):
        return f"t{self.thread} l{self.number} g{','.join(map(str, self.points))} {self.result}"


@dataclass(frozen=True)
class Modules:
    """What a history leaves: how many instances were made, and of each open image which one it is, and its opens less closes."""
    made: int
    open: dict

    def instance(self, image):
        """Which instance the image is, or None where it is not open."""
        return self.open.get(image, (None, 0))[0]

    def after(self, verb, image):
        """What is left after one more event."""
        instance, opens = self.open.get(image, (self.made + 1, 0))
        opens += 1 if verb == "open" else -1
        others = {name: it for name, it in self.open.items() if name != image}
        return Modules(max(self.made, instance), {**others, image: (instance, opens)} if opens else others)


def read(job, text):
    """The lines and the events of a text, each there once and in order."""
    rows = text.split("\n")
    if rows.pop() or len(rows) < len(job.lines):
        raise Wrong("the text is cut short")
    lines, events = [], []
    for (thread, number, words), row in zip(job.lines, rows):
        found = re.fullmatch(rf"t{thread} l{number} g(\d+(?:,\d+)*) (.+)", row)
        if not found:
            raise Wrong(f"'{row}' stands where t{thread} l{number} has to")
        lines.append(Line(thread, number, words, [int(point) for point in found[1].split(",")], found[2]))
    for index, row in enumerate(rows[len(lines):]):
        found = re.fullmatch(rf"e{index} (t\d+ l\d+ (?:open|close) \S+)", row)
        if not found:
            raise Wrong(f"'{row}' stands where e{index} has to")
        events.append(found[1])
    return lines, events


def history(job, events):
    """What each front of the history leaves, from the empty one to the whole."""
    found = [Modules(job.starting, {})]
    for index, event in enumerate(events):
        verb, image = event.split()[2:]
        if image not in job.late or verb == "close" and not found[-1].instance(image):
            raise Wrong(f"e{index} {event}: no such event can come there")
        found.append(found[-1].after(verb, image))
    return found


def answers(job, words, seen):
    """What may come of a line whose looks find these modules, as a regular expression."""
    verb, image, *more = words
    is_late = image in job.late
    # an image that starts with the program is always there
    instances = [modules.instance(image) if is_late else 1 for modules in seen]
    if verb == "open":
        is_full = seen[0].made == MOST_INSTANCES
        return "refused unknown" if not is_late else f"opened {instances[0]}" if instances[0] else \
            "refused full" if is_full else f"opened {seen[0].made + 1}|refused static-full"
    if verb == "close":
        return "refused permanent" if not is_late else "closed" if instances[0] else "refused not-open"
    if not instances[0]:
        return "refused not-open"
    if verb == "peek":
        count = 2 * int(more[1], 0)
        return "refused (symbol|length)|bytes" + (f" [0-9a-f]{{{count}}}" if count else "")
    # a call looks again where it asks for a variable of a late module, and ends there if the instance that it is of is gone
    if any(it != instances[0] for it in instances[:-1]):
        return "an end at an earlier look"
    return "fault unloaded" if instances[-1] != instances[0] else "= [0-9a-f]{16}|refused symbol|fault (address|code|steps)"


def judge_line(job, line, least, events, modules):
    """Refuses a line that does not fit the history at its points, none of which is below the least one."""
    for before, point in zip([least, *line.points], line.points):
        if not before <= point < len(modules):
            raise Wrong(f"{line}: point {point} is not one of {before} to {len(events)}")
    asked = answers(job, line.words, [modules[point] for point in line.points])
    if not re.fullmatch(asked, line.result):
        raise Wrong(f"{line}: the history asks for '{asked}'")
    if len(line.points) > 1 and (line.words[0] != "call" or line.result.startswith("refused")):
        raise Wrong(f"{line}: it looks once")
    first = line.points[0]
    if line.event and events[first:first + 1] != [line.event]:
        raise Wrong(f"{line}: it is not event {first}")
    for point in range(first, len(events)) if line.result == "refused static-full" else []:
        # what is used up is not given again
        if events[point].split()[3] == line.words[1] and not modules[point].instance(line.words[1]):
            raise Wrong(f"{line}: e{point} loads it")


def judge(job, text):
    """Refuses a text that is not lawful, and else gives its lines."""
    lines, events = read(job, text)
    modules = history(job, events)
    least = {}
    for line in lines:
        judge_line(job, line, least.get(line.thread, 0), events, modules)
        # a thread has seen its own event from its next look on
        least[line.thread] = line.points[-1] + bool(line.event)
    added = {line.points[0] for line in lines if line.event}
    for index, event in enumerate(events):
        if index not in added:
            raise Wrong(f"e{index} {event}: it is no line's")
    return lines


@dataclass(frozen=True)
class Case:
    """A job's text, and the folder that its objects lie in."""
    name: str
    folder: str
    text: str


def stored(place, name="job"):
    """A job that the repository has."""
    with open(f"{TOP}/{place}/{name}") as file:
        return Case(f"{place}/{name}", f"{TOP}/{place}", file.read())


def spread(place, threads, again, lines):
    """A job over the images of a stored one, of threads that do the same again and again, and begin at different lines of it."""
    text = [row for row in stored(place).text.splitlines() if row.startswith("image ")] + [f"threads {threads}"]
    for thread in range(1, threads + 1):
        first = thread % len(lines)
        text += [f"{thread} {line}" for line in (lines[first:] + lines[:first]) * again]
    return Case(f"{place}, {len(lines) * again} lines a thread", f"{TOP}/{place}", "\n".join([*text, ""]))


def cases():
    """Twenty jobs of 2 to 64 threads: late modules that one thread opens, or all, the surplus, descriptors, and none of these."""
    examples = ["race", "late_module", "id_used_again", "descriptors", "initial_exec", "startup_module"]
    worked = ["run-unloaded", "run-threads", "run-block-is-gone", "run-call-symbol", "run-sixty-four-threads"]
    late = ["open plug", "call plug f 7 0 0", "peek plug v 4", "close plug"]
    return [
        *(stored(f"examples/{it}") for it in examples),
        stored("examples/race", "job-apart"),
        stored("examples/late_module", "job-all"),
        *(stored(f"tests/worked/{it}") for it in worked),
        spread("examples/race", 2, 50, late),
        spread("tests/worked/race-late", 64, 5, late),
        spread("tests/worked/race-surplus", 64, 5, ["open plug", "call plug f 0 0 0", "peek plug v 8", "close plug"]),
        spread("examples/static_surplus", 4, 3, ["open plug", "call plug place 0 0 0", "peek plug buffer 4", "close plug"]),
        spread("tests/worked/run-unloaded", 16, 10, ["open plug", "call plug f 0 0 0", "call plug f 0 0 0", "close plug"]),
        spread("tests/worked/run-descriptor-in-late-module", 64, 5, ["open plug", "call plug f 0 0 0", "close plug"]),
        spread("examples/id_used_again", 8, 10, ["open first", "call first next 0 0 0", "close first", "call second next 0 0 0",
            "open second", "call first next 0 0 0", "close second"]),
    ]


def wrong_texts(text):
    """Texts that are not lawful, made of the one of examples/late_module: of each kind a list."""
    rows = text.splitlines(keepends=True)
    lines, events = [row for row in rows if row[0] == "t"], [row.split(" ", 1)[1] for row in rows if row[0] == "e"]

    def with_events(events):
        return "".join([*lines, *(f"e{index} {event}" for index, event in enumerate(events))])

    def exchanged(one, other):
        order = [other if it == one else one if it == other else it for it in range(len(events))]
        return with_events([events[it] for it in order])

    points = list(re.finditer(r"(?<=[g,])[1-9]", text))
    stale = [
        ("t1 l3 g1 closed", "t1 l3 g1 refused not-open"),
        ("t1 l4 g2 opened 3", "t1 l4 g2 opened 2"),
        ("t1 l5 g3 bytes 05000000", "t1 l5 g3 refused not-open"),
        ("t2 l1 g1,1 = 0000000000000069", "t2 l1 g1 refused not-open"),
        ("t2 l2 g1,2 fault unloaded", "t2 l2 g1,2 = 000000000000006a"),
    ]
    return {
        "two events exchanged": [exchanged(one, other) for one, other in combinations(range(len(events)), 2)],
        "a point one lower": [f"{text[:it.start()]}{int(it[0]) - 1}{text[it.end():]}" for it in points],
        "an event left out": ["".join(row for row in rows if row[:2] != f"e{index}") for index in range(len(events))],
        "an event left out, the others counted anew": [with_events(events[:it] + events[it + 1:]) for it in range(len(events))],
        "an event said twice": [with_events([*events, event]) for event in events],
        "a stale answer": [text.replace(old, new) for old, new in stale],
    }


def complaint(judged, *words):
    """What is wrong by a call that judges these, or None."""
    try:
        judged(*words)
        return None
    except Wrong as why:
        return str(why)


def selftest():
    """Whether the rule takes a lawful text, and no wrong one; says of each kind how many it refuses, and why the last of them."""
    job, lawful = Job(stored("examples/late_module").text), stored("examples/late_module", "transcript").text
    holds = complaint(judge, job, lawful) is None
    for kind, texts in wrong_texts(lawful).items():
        said = [complaint(judge, job, text) for text in texts]
        holds = holds and None not in said
        print(f"refused: {kind}, {len(said) - said.count(None)} of {len(said)}: {said[-1]}")
    print(f"race: the rule {'takes a lawful text, and refuses the wrong ones' if holds else 'IS WRONG'}")
    return holds


def prepare(case, room):
    """Puts a job and its objects into a folder."""
    for name in os.listdir(case.folder):
        if name.endswith(".o"):
            shutil.copy(f"{case.folder}/{name}", room)
    with open(f"{room}/job", "w") as file:
        file.write(case.text)


def printed(tlsld, room, *words):
    """What a command prints, which has to end, and well."""
    try:
        ran = subprocess.run([tlsld, *words], cwd=room, capture_output=True, timeout=LONGEST)
    except subprocess.TimeoutExpired:
        raise Wrong(f"tlsld {' '.join(words)} hangs") from None
    if ran.returncode != 0:
        raise Wrong(f"tlsld {' '.join(words)} ends with status {ran.returncode}, {ran.stdout[:80]!r}")
    return ran.stdout.decode()


def judge_by_turns(tlsld, room, job, text, setting):
    """Refuses a text that is not lawful, and one that `run` does not print in an order with the same points."""
    with open(f"{room}/turns", "w") as file:
        file.write(job.in_order_of(judge(job, text)))
    turned = printed(tlsld, room, "run", "turns", *setting)
    for row, wanted in zip_longest(text.splitlines(), turned.splitlines()):
        if row != wanted:
            raise Wrong(f"{row}: by turns it is {wanted}")


def race(tlsld, case, runs):
    """Runs a job so often, half of it in each setting, and judges what comes; says how many texts that is."""
    job, texts = Job(case.text), set()
    with tempfile.TemporaryDirectory() as room:
        prepare(case, room)
        for number in range(runs):
            setting = SETTINGS[number % len(SETTINGS)]
            text = printed(tlsld, room, "race", "job", *setting)
            if (text, number % len(SETTINGS)) not in texts:
                judge_by_turns(tlsld, room, job, text, setting)
                texts.add((text, number % len(SETTINGS)))
    found = len({text for text, _ in texts})
    print(f"{job.threads:3} threads: {runs} runs, {found} texts: {case.name}", flush=True)


def refuses_old_bytes(tlsld):
    """Whether a text is refused that shows bytes from before its module was opened anew: by turns, for the rule has no bytes."""
    case, lawful = stored("examples/late_module"), stored("examples/late_module", "transcript").text
    with tempfile.TemporaryDirectory() as room:
        prepare(case, room)
        said = [complaint(judge_by_turns, tlsld, room, Job(case.text), text, [])
            for text in (lawful, lawful.replace("bytes 05000000", "bytes 0c000000"))]
    print(f"refused by turns: {said[1]}")
    return said[0] is None and said[1] is not None


def races(tlsld, runs):
    """Whether all texts of all jobs are as they have to be."""
    jobs, wrong = cases(), 0
    for case in jobs:
        said = complaint(race, tlsld, case, runs // len(jobs))
        if said:
            wrong += 1
            print(f"WRONG: {case.name}: {said}", flush=True)
    print(f"race: {runs // len(jobs)} runs of each of {len(jobs)} jobs; {wrong} jobs have a wrong one")
    return wrong == 0


def measured(tlsld, room, command):
    """The milliseconds that a command takes for a long text, and the KiB of memory that it has had when it puts it."""
    begin = time.monotonic()
    process = subprocess.Popen([tlsld, command, "job"], cwd=room, stdout=subprocess.PIPE, pipesize=4096)
    os.read(process.stdout.fileno(), 1)
    # it waits for room in the pipe now (what wait4 tells of a process counts what its parent had, too)
    with open(f"/proc/{process.pid}/status") as file:
        most = re.search(r"VmHWM:\s+(\d+)", file.read())
    process.stdout.read()
    process.wait()
    return (time.monotonic() - begin) * 1000, int(most[1])


def cost(tlsld):
    """Whether 64 threads that only call take no longer by `race` than by `run`, and at most a MiB of memory each beyond it.

    The times say something where nothing else keeps the processors busy. Of the last job, which is small, they are shown alone:
    most of it is starting 64 threads."""
    holds = True
    for is_small, case in [
        (False, spread("tests/worked/run-loop", 64, 10, ["call app f 1000 0 0"])),
        (False, spread("tests/worked/run-sixty-four-threads", 64, 100, ["call app f 0 0 0"])),
        (True, spread("tests/worked/run-sixty-four-threads", 64, 3, ["call app f 0 0 0"])),
    ]:
        with tempfile.TemporaryDirectory() as room:
            prepare(case, room)
            pairs = [(measured(tlsld, room, "run"), measured(tlsld, room, "race")) for _ in range(7)]
        by_turns, at_once = zip(*pairs)
        run, raced = min(by_turns)[0], min(at_once)[0]
        more = (max(most for _, most in at_once) - min(most for _, most in by_turns)) / 64
        holds = holds and (is_small or raced <= run) and more <= 1024
        print(f"{case.name}: run {run:.1f} ms, race {raced:.1f} ms and at most {more:.0f} KiB a thread more", flush=True)
    print(f"race: costs {'no more time than run, and at most a MiB a thread' if holds else 'TOO MUCH'}")
    return holds


def main():
    words = [word for word in sys.argv[1:] if not word.startswith("--")]
    tlsld = os.path.abspath(words[0] if words else f"{TOP}/crates/tlsld/out/tlsld")
    if "--cost" in sys.argv:
        holds = cost(tlsld)
    else:
        runs = int(words[1]) if len(words) > 1 else 1000
        holds = selftest() and ("--selftest" in sys.argv or refuses_old_bytes(tlsld) and races(tlsld, runs))
    sys.exit(0 if holds else 1)


main()
