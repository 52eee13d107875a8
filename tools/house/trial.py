"""Asks the prover for wrong bodies, over built libraries, and finds the result of each."""

from __future__ import annotations

import sys
from collections import Counter
from collections.abc import Collection, Iterable, Iterator, Sequence
from pathlib import Path
from typing import NamedTuple

from edits.edits import Edit
from edits.prover import Libraries, Prover, Run
from edits.report import ERROR, GOAL, PROVED, Report
from edits.slots import Slots
from edits.sources import Crate, read_crate

from .bodies import Plant, list_flags, write_real, put_under_conditions, list_ways, add_paths
from .heads import Head, Kinds, read_head, read_kinds

AT_ONCE = 40
"""How many bodies a run of the prover is asked for."""

PROVES, REFUSED, ELSEWHERE, NOT_JUDGED, NOT_SOURCE = "proves", "refused", "elsewhere", "not-judged", "not-source"
WORDS = (PROVES, REFUSED, ELSEWHERE, NOT_JUDGED, NOT_SOURCE)


class QuietProver(Prover):
    """A prover whose runs are told of on standard error, beside the list."""

    def note(self, crate: Crate, edits: Sequence[Edit], run: Run) -> None:
        print(f"plants: {crate.name}: a run of {run.seconds:.0f} s, {run.memory:.1f} GB", file=sys.stderr)


class Place(NamedTuple):
    """A body in the copy: its plant, the name that the prover knows it by, and its lines in the file, from 1."""

    plant: Plant
    name: str
    first: int
    last: int


class Copy:
    """A crate with plants: each beside its function under a name of its own, or in the function's place if that is a
    method of a trait, of which a copy has one body at most. The proof of such a method is left out."""

    def __init__(self, crate: Crate, plants: Sequence[Plant], kinds: Kinds) -> None:
        self.texts, self.places = dict(crate.texts), list[Place]()
        for file in sorted({plant.head.item.file for plant in plants}):
            lines, shift = crate.texts[file].split("\n"), 0
            here = [(at, plant) for at, plant in enumerate(plants) if plant.head.item.file == file]
            for at, plant in sorted(here, key=lambda pair: pair[1].head.item.first):
                shift += self.write(plant, at, lines, shift, kinds)
            self.texts[file] = "\n".join(lines)

    def write(self, plant: Plant, at: int, lines: list[str], shift: int, kinds: Kinds) -> int:
        """Writes a plant into the lines of its file, of which `shift` were added above it; the lines that it adds."""
        item, is_of_trait = plant.head.item, plant.head.is_of_trait
        name = item.name if is_of_trait else f"{item.name}_planted_{at}"
        word = name.rpartition("::")[2]
        header = "\n".join(item.header()).replace(f"fn {item.word()}", f"fn {word}", 1)
        attributes = [] if is_of_trait else find_tactics(lines, item.first - 1 + shift)
        text = [*attributes, *f"{header}\n{add_paths(plant.text, kinds)}\n}}".split("\n")]
        begin = item.first - 1 + shift if is_of_trait else item.last + shift
        old = item.last - item.first + 1 if is_of_trait else 0
        lines[begin : begin + old] = text
        self.places.append(Place(plant, name, begin + 1, begin + len(text)))
        if is_of_trait:
            within = f"proofs/{name.replace('::', '/')}/"
            self.texts = {path: text for path, text in self.texts.items() if not path.startswith(within)}
        return len(text) - old

    def find_unread(self, report: Report) -> list[Plant]:
        """The plants that the compiler doesn't read, by the lines of its errors."""
        errors = [error for error in map(ERROR.match, report.lines) if error and error["file"].endswith(".rt")]
        lines = {(error["file"].removeprefix("./"), int(error["line"])) for error in errors}
        return [
            place.plant
            for place in self.places
            if any(file == place.plant.head.item.file and place.first <= line <= place.last for file, line in lines)
        ]


def find_tactics(lines: Sequence[str], at: int) -> list[str]:
    """The attribute of tactics in the line above an item, if there is one."""
    return [lines[at - 1]] if at and lines[at - 1].lstrip().startswith("#[tactic(") else []


def read_word(name: str, report: Report) -> str:
    """What a run says of a body, by the name that the prover knows it by."""
    goals: list[tuple[str, str]] = []
    for line in report.lines:
        if goal := GOAL.match(line):
            goals.append((line, goal[3]))
        elif line.startswith("fn "):
            function, _, verdict = line[3:].partition(": ")
            if function.partition("::")[2] == name:
                return choose_word(verdict, goals)
            goals = []
    return NOT_JUDGED


def choose_word(verdict: str, goals: Iterable[tuple[str, str]]) -> str:
    """The word for what is said of a function and the goals that are open in it."""
    if verdict.startswith(PROVED):
        return PROVES
    own = [line for line, _ in goals if "requires holds at this call" not in line]
    if any("gave up" not in line for line in own):
        return REFUSED
    return ELSEWHERE if goals and not own else NOT_JUDGED


class Trial:
    """The trial of a crate's functions."""

    def __init__(self, crate: Crate, kinds: Kinds, prover: Prover) -> None:
        self.crate, self.kinds, self.prover = crate, kinds, prover
        self.words: dict[Plant, str] = {}

    def judge(self, plants: Iterable[Plant]) -> None:
        """Finds the word of each plant, some at a time."""
        left = [plant for plant in plants if plant not in self.words]
        while left:
            batch = take_batch(left)
            self.judge_together(batch)
            left = [plant for plant in left if plant not in self.words]

    def judge_together(self, plants: Sequence[Plant]) -> None:
        """Finds the words of plants that one copy can have. Those that can't be read are left out, and the others tried
        once more."""
        while plants:
            copy = Copy(self.crate, plants, self.kinds)
            names = [word for place in copy.places for word in ("--only", place.name)]
            folder = str(self.prover.room / f"{self.crate.name}.kept")
            report = self.prover.check(self.crate, [], copy.texts, ["--incremental", folder, *names])
            unread = copy.find_unread(report) if not any(line.startswith("only=") for line in report.lines) else []
            self.words |= dict.fromkeys(unread, NOT_SOURCE)
            if not unread:
                proved = [place.plant for place in copy.places if read_word(place.name, report) == PROVES]
                for plant in proved:
                    print(f"plants: proved: {plant.head.item.name}: {' '.join(plant.text.split())}", file=sys.stderr)
                self.words |= {place.plant: read_word(place.name, report) for place in copy.places}
            plants = [plant for plant in plants if plant not in self.words]

    def try_all(self, heads: Collection[Head]) -> None:
        """Tries each function's own answer and the bodies that give up; then those with a flag, and those under a
        condition of functions whose own answer can be judged."""
        real = {head: Plant(head, "real", write_real(head)) for head in heads}
        later = list[Plant]()
        self.judge([*real.values(), *(plant for head in heads for plant in list_ways(head))])
        self.judge(plant for head in heads for plant in list_flags(head, self.kinds) if self.is_news(plant))
        for head in heads:
            if self.words[real[head]] == PROVES:
                later += put_under_conditions(head, self.kinds, self.list_refused(head))
        self.judge(later)

    def list_refused(self, head: Head) -> list[Plant]:
        """The bodies that give up and that the function's contract doesn't let through."""
        return [plant for plant in list_ways(head) if self.words[plant] in (REFUSED, NOT_JUDGED)]

    def is_news(self, plant: Plant) -> bool:
        """Whether a body with a flag says more than the one that gives up in the same way."""
        return all(self.words[way] != PROVES for way in list_ways(plant.head) if way.text == plant.wrong)

    def list_let_through(self) -> list[Plant]:
        """The bodies that are let through, in the order of the sources: of those that only differ in their condition, or
        in what they set, the first."""
        proved = [plant for plant, word in self.words.items() if word == PROVES and plant.kind != "real"]
        first = {(plant.head, plant.kind, plant.wrong or plant.text): plant for plant in reversed(proved)}
        return sorted(reversed(first.values()), key=lambda plant: (plant.head.item.file, plant.head.item.first))

    def write_lines(self) -> Iterator[str]:
        """A line for each body that is let through, and the counts."""
        for plant in self.list_let_through():
            item = plant.head.item
            yield f"house {item.file}:{item.first} {item.name}: {{ {' '.join(plant.text.split())} }}"
        numbers = Counter(word for plant, word in self.words.items() if plant.kind != "real")
        unjudged = sum(word != PROVES for plant, word in self.words.items() if plant.kind == "real")
        counts = " ".join(f"{word}={numbers[word]}" for word in WORDS)
        yield f"house crate={self.crate.name} {counts} own-answer-not-judged={unjudged}"


def take_batch(plants: Sequence[Plant]) -> list[Plant]:
    """The first of these plants that one copy can have: of a method of a trait one at most."""
    batch: list[Plant] = []
    for plant in plants:
        clash = plant.head.is_of_trait and any(other.head == plant.head for other in batch)
        batch += [plant] * (not clash)
    return batch[:AT_ONCE]


def try_crate(top: Path, name: str, libraries: Libraries, room: Path, only: Sequence[str] = ()) -> list[str]:
    """What the house's bodies come to in a crate, or in those of its functions whose file and name have one of the words."""
    crate = read_crate(top / "crates" / name)
    kinds = read_kinds(crate, [read_crate(top / "crates" / below) for below in libraries.list_below(name)])
    heads = [head for item in crate.items if (head := read_head(crate, item))]
    wanted = [head for head in heads if not only or any(word in f"{head.item.file} {head.item.name}" for word in only)]
    trial = Trial(crate, kinds, QuietProver(libraries, room, Slots(lambda running: running == 0)))
    trial.try_all(wanted)
    return list(trial.write_lines())
