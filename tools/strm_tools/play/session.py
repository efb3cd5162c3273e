"""A session: the script so far, the order in which its lines were executed, and what takes back and repeats each change.

Each section of the script has lines that were executed, and after them lines that wait. A comment is a line too, and is passed
over with the command after it."""
from __future__ import annotations

import random
import weakref
from itertools import takewhile
from string import ascii_lowercase
from typing import Any, Callable, Iterable, Iterator, NamedTuple, Sequence

from strm_tools.hints import require_right
from strm_tools.labels import labels_of
from strm_tools.library import Library, difference
from strm_tools.model import WORDS, Data, Model, Values
from strm_tools.play.state import Rows, rows_of
from strm_tools.script import script_of, value_of


def text_of(lines: Iterable[str]) -> str:
    """A text of these lines."""
    return "\n".join([*lines, ""])


def is_command(text: str) -> bool:
    return bool(text) and not text.startswith("#")


class Executed(NamedTuple):
    """A line that was executed: its worker, its text and its reply. In one section of all workers it has another text, or None if
    there are too few letters for their registers, and another line of replies."""

    worker: int
    text: str
    reply: str
    in_one_section: str | None
    told: str


class Section:
    """The lines of a worker, of which the first were executed."""

    def __init__(self, lines: Iterable[str] = ()) -> None:
        self.lines = list(lines)
        self.done = 0

    def waiting(self) -> int:
        return sum(map(is_command, self.lines[self.done :]))

    def comments(self) -> list[str]:
        """The comments before the next command that waits."""
        return [text for text in takewhile(lambda text: not is_command(text), self.lines[self.done :]) if text]

    def commands(self) -> list[int]:
        """The places of the commands that were executed."""
        return [at for at, text in enumerate(self.lines[: self.done]) if is_command(text)]


class Letters:
    """The registers of all workers as those of one, so that strm executes the lines of all in a given order as one section: the letter of
    each register that holds a message, by worker and name. An empty one gets a free letter when a line names it."""

    def __init__(self) -> None:
        self.given: dict[tuple[int, str], str] = {}

    def letter(self, worker: int, name: str) -> str | None:
        """The letter of a register, which is its own name if that is free, or None if no letter is."""
        if (worker, name) not in self.given:
            free = [letter for letter in (name, *ascii_lowercase) if letter not in self.given.values()]
            if not free:
                return None
            self.given[worker, name] = free[0]
        return self.given[worker, name]

    def renamed(self, model: Model, worker: int, text: str) -> str | None:
        """A line of a worker, which the model executes next, with letters; or None if there are too few."""
        self.given = {pair: letter for pair, letter in self.given.items() if pair[1] in model.workers[pair[0]]}
        word, *rest = text.split(" ")
        items = WORDS[word].items
        words = [self.letter(worker, value) if item in ("from", "to") else value for item, value in zip(items, rest)]
        known = [word for word in words if word is not None]
        return " ".join([word, *known]) if len(known) == len(words) else None


class Play:
    """A pool since it was opened, perhaps with lines that wait. The methods from `add` to `rewind` are changes: a session takes one back by
    playing those before it again."""

    def __init__(self, header: list[str], sections: Sequence[list[str]] = ([],), strm: Any = None) -> None:
        self.header = header
        # The package whose library replies, or None.
        self.strm = strm
        self.pool = script_of(text_of(header))[0]
        self.sections = list(map(Section, sections))
        # The worker whose lines are entered, and whether they wait.
        self.turn = 0
        self.holds = False
        # The comments that may be labels.
        self.comments = [line for lines in (header, *sections) for line in lines if line.startswith("#:")]
        self.clear()

    def clear(self) -> None:
        """Nothing is executed yet."""
        self.model = Model(self.pool)
        self.library = Library(self.strm, self.pool) if self.strm else None
        # Where the library and the plain model differ, or nothing.
        self.differs = ""
        for _ in self.sections:
            self.begin_registers()
        self.letters = Letters()
        self.executed: list[Executed] = []
        # The number of each data block in use, and how many were taken so far.
        self.numbers: weakref.WeakKeyDictionary[Data, int] = weakref.WeakKeyDictionary()
        self.taken = 0

    def add(self, worker: int, text: str) -> None:
        """Executes a line of a worker, before its waiting lines."""
        section = self.sections[worker]
        self.enter(worker, section.done, text)
        self.pass_over(worker)

    def wait(self, worker: int, text: str) -> None:
        """A line of a worker waits."""
        self.enter(worker, len(self.sections[worker].lines), text)

    def serve(self, workers: Iterable[int]) -> None:
        """Executes a waiting line of each of these workers, in this order."""
        for worker in workers:
            section = self.sections[worker]
            while not is_command(section.lines[section.done]):
                section.done += 1
            self.pass_over(worker)

    def run(self, workers: Iterable[int]) -> None:
        """Executes all waiting lines, in the order of these workers. Then no line waits any more."""
        self.serve(workers)
        self.holds = False

    def begin(self) -> None:
        """Another section begins."""
        self.sections.append(Section())
        self.begin_registers()
        self.turn = len(self.sections) - 1

    def begin_registers(self) -> None:
        self.model.begin()
        if self.library:
            self.library.begin()

    def turn_to(self, worker: int) -> None:
        """The lines that are entered are those of this worker."""
        self.turn = worker

    def hold(self, holds: bool) -> None:
        """The lines that are entered wait, or do not."""
        self.holds = holds

    def rewind(self) -> None:
        """All lines wait again."""
        for section in self.sections:
            section.done = 0
        self.clear()

    def enter(self, worker: int, place: int, text: str) -> None:
        """A section has another line at this place."""
        self.sections[worker].lines.insert(place, text)
        if text.startswith("#:"):
            self.comments.append(text)

    def labels(self) -> dict[int, str]:
        """The labels of queues."""
        return labels_of("\n".join(self.comments)).queues

    def pass_over(self, worker: int) -> None:
        """Executes the next line of a worker, if it is a command."""
        section = self.sections[worker]
        text = section.lines[section.done]
        section.done += 1
        if is_command(text):
            self.execute(worker, text)

    def execute(self, worker: int, text: str) -> None:
        word, items, values = parted(text)
        self.model.turn_to(worker)
        in_one_section = self.letters.renamed(self.model, worker, text)
        reply = self.model.answer(word, items, values)
        if self.library:
            self.library.turn_to(worker)
            proved = self.library.answer(word, items, values)
            self.differs = self.differs or difference([proved], [reply])
            reply = proved
        for item, value in zip(items, values):
            for block in self.model.held.get(value, []) if item in ("from", "to") else []:
                if block.data not in self.numbers:
                    self.taken += 1
                    self.numbers[block.data] = self.taken
        told = f"0:{len(self.header) + 2 + len(self.executed)} {reply}"
        self.executed.append(Executed(worker, text, reply, in_one_section, told))

    def waiting(self) -> list[int]:
        """The workers that have a waiting line."""
        return [worker for worker, section in enumerate(self.sections) if section.waiting()]

    def waiting_up_to(self, number: int) -> tuple[int, int] | None:
        """The worker whose line has this number in the script, and how many lines of it wait up to there. Without such a line, None."""
        for worker, section in enumerate(self.sections):
            end = number - self.first_line(worker) + 1
            if 1 <= end <= len(section.lines):
                return worker, sum(map(is_command, section.lines[section.done : end]))
        return None

    def first_line(self, worker: int) -> int:
        """The number in the script of the first line of a section."""
        return len(self.header) + 2 + sum(1 + len(section.lines) for section in self.sections[:worker])

    def script(self) -> str:
        """The script so far, with its waiting lines."""
        lines = list(self.header)
        for section in self.sections:
            lines += ["worker", *section.lines]
        return text_of(lines)

    def rows(self) -> Iterator[tuple[str, str, str]]:
        """What was executed, in this order: worker and number in the script, text, reply."""
        places = [iter(section.commands()) for section in self.sections]
        first = [self.first_line(worker) for worker in range(len(self.sections))]
        for line in self.executed:
            yield f"{line.worker}:{first[line.worker] + next(places[line.worker])}", line.text, line.reply

    def rows_of_section(self, worker: int) -> Iterator[tuple[str, str, str | None]]:
        """The commands of a section: number in the script, text, and reply or None if it waits."""
        replies = iter([line.reply for line in self.executed if line.worker == worker])
        first = self.first_line(worker)
        for at, text in enumerate(self.sections[worker].lines):
            if is_command(text):
                yield f"{worker}:{first + at}", text, next(replies, None)

    def text(self) -> str:
        """What strm prints for the script if it executes the lines in this order."""
        return text_of([*(f"{at} {reply}" for at, _, reply in self.rows()), *self.report()])

    def report(self) -> list[str]:
        """The report of the library, or without it of the plain model."""
        return (self.library or self.model).report()

    def place(self) -> str:
        """The number in the script of the line that is entered next, with its worker."""
        section = self.sections[self.turn]
        return f"{self.turn}:{self.first_line(self.turn) + (len(section.lines) if self.holds else section.done)}"

    def one_section(self) -> tuple[str, str] | None:
        """A script of one section that executes the lines in this order, and its text; None if there are too few letters."""
        lines = [line.in_one_section for line in self.executed if line.in_one_section is not None]
        if len(lines) < len(self.executed):
            return None
        return text_of([*self.header, "worker", *lines]), text_of([*(line.told for line in self.executed), *self.model.report()])


def parted(text: str) -> tuple[str, list[str], Values]:
    """The word of a command, its items and its values."""
    word, *rest = text.split(" ")
    items = WORDS[word].items
    return word, items, [value_of(*pair) for pair in zip(items, rest)]


def draw(workers: Sequence[int], seed: int, step: int) -> int:
    """The worker that a seed draws at this step, out of those that have a waiting line."""
    return workers[int(random.Random(f"{seed} {step}").random() * len(workers))]


def drawn_order(play: Play, seed: int) -> list[int]:
    """The workers of all waiting lines in an order that a seed draws."""
    left = [section.waiting() for section in play.sections]
    order: list[int] = []
    while any(left):
        waiting = [worker for worker, count in enumerate(left) if count > 0]
        order.append(draw(waiting, seed, len(play.executed) + len(order)))
        left[order[-1]] -= 1
    return order


class Change(NamedTuple):
    """What a line of the session did: the method of `Play`, what it was given, and what to call the change."""

    method: str
    given: tuple[Any, ...]
    named: str


def opening(header: list[str], *sections: list[str]) -> Change:
    """The change that opens a pool, perhaps with sections whose lines wait."""
    return Change("open", (header, sections or ([],)), "another pool")


def parts_of(script: str, path: str = "-") -> list[list[str]]:
    """The lines of the header of a script, which is in the file of this path, and of each of its sections. Raises `Wrong` for a fault."""
    require_right(script, path)
    parts: list[list[str]] = [[]]
    for line in script[:-1].split("\n"):
        if line == "worker":
            parts.append([])
        else:
            parts[-1].append(line)
    return parts


def changes_of(script: str, path: str = "-") -> Iterator[Change]:
    """The changes that open the pool of a script, as `parts_of` reads it, and execute its lines, section by section."""
    header, *sections = parts_of(script, path)
    yield opening(header)
    for worker, lines in enumerate(sections):
        if worker > 0:
            yield Change("begin", (), "worker")
        for line in lines:
            yield Change("add", (worker, line), line)


class Session:
    """The changes so far, of which the first opens a pool, and those that were taken back."""

    def __init__(self, changes: Iterable[Change], strm: Any = None) -> None:
        self.strm = strm
        self.changes = list(changes)
        self.undone: list[Change] = []
        self.play_again()

    def play_again(self) -> None:
        """Plays all changes since the pool was opened."""
        begin = max(at for at, change in enumerate(self.changes) if change.method == "open")
        header, sections = self.changes[begin].given
        self.play = Play(header, sections, self.strm)
        self.before: Rows = rows_of(self.play)
        for at, change in enumerate(self.changes[begin + 1 :], begin + 2):
            self.make(change, at == len(self.changes))

    def make(self, change: Change, is_last: bool = True) -> None:
        """Makes a change, and keeps what was drawn before the last."""
        if is_last:
            self.before = rows_of(self.play)
        getattr(self.play, change.method)(*change.given)

    def do(self, method: str, *given: object, named: str) -> None:
        """Makes a change that can be taken back."""
        change = Change(method, given, named)
        self.make(change)
        self.changes.append(change)
        self.undone.clear()

    def open(self, changes: Iterable[Change]) -> None:
        """Opens another pool, and executes its script."""
        self.changes += changes
        self.undone.clear()
        self.play_again()

    def undo(self, count: int) -> list[Change]:
        """Takes back this many changes, and returns those that it took back."""
        left, taken = list(self.changes), []
        while count > 0 and len(left) > 1:
            change = left.pop()
            taken.append(change)
            count -= change.named != ""
        self.changes = left
        self.undone += taken
        self.play_again()
        return taken

    def redo(self, count: int) -> list[Change]:
        """Makes this many changes again that were taken back, and returns them."""
        made = []
        while count > 0 and self.undone:
            change = self.undone.pop()
            made.append(change)
            count -= change.named != ""
        self.changes += made
        self.play_again()
        return made

    def pool_alone(self) -> str:
        """A script that only opens the pool."""
        return text_of([*self.play.header, "worker"])

    def models(self, count: int) -> Iterator[Model]:
        """A model that executes the first lines again, as many as `count` says: before them, and after each."""
        model = Model(self.play.pool)
        for _ in self.play.sections:
            model.begin()
        yield model
        for line in self.play.executed[:count]:
            word, items, values = parted(line.text)
            model.turn_to(line.worker)
            model.answer(word, items, values)
            yield model

    def model_before(self, place: int) -> Model:
        """The model before the executed line at a place, which is counted from 0."""
        *_, model = self.models(place)
        model.turn_to(self.play.executed[place].worker)
        return model

    def since(self, place: int, facts: Sequence[Callable[[Model], bool]]) -> list[int | None]:
        """For each fact of a model, the place of the line since which it has held up to the line at `place`. If it does not hold then, None."""
        begins: list[int | None] = [None] * len(facts)
        for at, model in enumerate(self.models(place + 1), -1):
            begins = [(at if begin is None else begin) if fact(model) else None for begin, fact in zip(begins, facts)]
        return begins
