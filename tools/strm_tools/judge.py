"""Judges the text of a script whose sections workers have served: it tells an order, which the plain model replays. A text
that ends early is judged too, as far as it goes."""
from __future__ import annotations

import copy
import itertools
import re
from typing import Callable, Sequence

from strm_tools.library import difference, opened
from strm_tools.model import Model, Pool
from strm_tools.rules import EFFECTS, explains, why
from strm_tools.script import Commands, Wrong, script_of
from strm_tools.shown import CARRIAGE_RETURN
from strm_tools.words import counted

REPLY = re.compile(r"(0|[1-9][0-9]?):[1-9][0-9]* ")
# Of how many workers a message counts the lines that have no reply.
WORKERS_SHOWN = 4


def wrong_line(number: int, wanted: str, line: str | None = None, more: str = "") -> Wrong:
    """Why a text is wrong in this line, which is None after the last one."""
    if line is not None and line.endswith("\r"):
        more = f"; {CARRIAGE_RETURN}"
    return Wrong(f"line {number}: expected {wanted}, here {'the text ends' if line is None else repr(line)}{more}", "text")


def require_same(proved: list[str], plain: list[str]) -> None:
    """Raises `Wrong` if the library has another line than the plain model."""
    differs = difference(proved, plain)
    if differs:
        raise Wrong(differs)


class Replay:
    """A script whose lines the plain model serves in the order that a text tells. `read` reads the script."""

    def __init__(self, script: str, read: Callable[[str], tuple[Pool, Sequence[Commands]]] = script_of) -> None:
        pool, self.sections = read(script)
        self.model = Model(pool)
        for _ in self.sections:
            self.model.begin()
        self.served = [0] * len(self.sections)
        self.order: list[int] = []

    def waits(self, worker: int) -> bool:
        """Whether there is such a worker, and a line of it left."""
        return worker < len(self.sections) and self.served[worker] < len(self.sections[worker])

    def waiting(self) -> list[int]:
        return list(filter(self.waits, range(len(self.sections))))

    def line(self, model: Model, worker: int) -> str:
        """The line of the text where a model serves the next line of this worker."""
        number, word, items, values = self.sections[worker][self.served[worker]]
        model.turn_to(worker)
        return f"{worker}:{number} {model.answer(word, items, values)}"

    def serve(self, worker: int) -> str:
        """Serves the next line of this worker, and returns the line of the text."""
        line = self.line(self.model, worker)
        self.served[worker] += 1
        self.order.append(worker)
        return line

    def reason(self) -> str:
        """Why the line that was served last has its reply, as a sentence after a semicolon, or nothing if no rule decides a reply `ok`."""
        *others, last = self.order
        before = Replay("", lambda _: (self.model.pool, self.sections))
        for worker in others:
            before.serve(worker)
        _, word, items, values = self.sections[last][before.served[last]]
        before.model.turn_to(last)
        if not explains(word, copy.deepcopy(before.model).answer(word, items, values)):
            return ""
        found = why(before.model, word, items, values)
        return "" if found.rule.decides in EFFECTS else f"; {found.text()}"

    def follow(self, lines: list[str]) -> list[str]:
        """Serves the lines that the first lines of a text tell of, and returns what comes behind them."""
        for at, line in enumerate(lines):
            told = REPLY.match(line)
            if told is None:
                return lines[at:]
            worker = int(told[1])
            if worker >= len(self.sections):
                raise wrong_line(at + 1, f"a worker from 0 to {len(self.sections) - 1}", line)
            wanted = self.serve(worker) if self.waits(worker) else None
            if line != wanted:
                reason = self.reason() if wanted and wanted.startswith(told[0]) else ""
                raise wrong_line(at + 1, repr(wanted) if wanted else f"no further reply to worker {worker}", line, reason)
        return []

    def finish(self, text: str) -> None:
        """Serves all lines in the order that a text tells, which has to be the text of the script in this order."""
        *lines, piece = text.split("\n")
        rest = self.follow([*lines, piece] if piece else lines)
        begin = len(self.order) + 1
        if self.waiting():
            raise wrong_line(begin, "a reply", rest[0] if rest else None, f"; {self.left()}. Is the text cut off, or of another script?")
        for number, (line, wanted) in enumerate(itertools.zip_longest(rest, self.model.report()), begin):
            if line != wanted:
                raise wrong_line(number, "the end of the text" if wanted is None else repr(wanted), line)
        if piece:
            raise wrong_line(len(lines) + 1, "a line feed at the end of the line", piece)

    def left(self) -> str:
        """Which lines of the script have no reply, in words."""
        waiting = self.waiting()
        counts = [f"{counted(len(self.sections[worker]) - self.served[worker], 'line')} of worker {worker}" for worker in waiting]
        if len(counts) > WORKERS_SHOWN:
            counts[WORKERS_SHOWN:] = [f"lines of {counted(len(counts) - WORKERS_SHOWN, 'other worker')}"]
        number, *_ = self.sections[waiting[0]][self.served[waiting[0]]]
        return f"no reply to {', '.join(counts)}; the first is line {number} of the script"

    def play(self, text: str | None = None) -> None:
        """Executes all lines in the order of a text, or worker 0's, then worker 1's, and so on: then the library too, if there is one."""
        if text is not None:
            self.finish(text)
            return
        library = opened(self.model.pool, len(self.sections))
        for worker in range(len(self.sections)):
            while self.waits(worker):
                reply = self.serve(worker).partition(" ")[2]
                if library:
                    _, word, items, values = self.sections[worker][self.served[worker] - 1]
                    library.turn_to(worker)
                    require_same([library.answer(word, items, values)], [reply])
        if library:
            require_same(library.report(), self.model.report())

    def ahead(self) -> list[str]:
        """What may come next: the line of any worker that has one left, or else the report."""
        waiting = self.waiting()
        if not waiting:
            return ["".join(f"{line}\n" for line in self.model.report())]
        return [f"{self.line(copy.deepcopy(self.model), worker)}\n" for worker in waiting]


def judge(script: str, text: str) -> list[int]:
    """Raises `Wrong` where this is no text of the script under any order that keeps each worker's own. Returns the order, as
    the workers of its lines."""
    replay = Replay(script)
    replay.finish(text)
    return replay.order


def is_serial(order: list[int]) -> bool:
    return order == sorted(order)


def takes_turns(order: list[int]) -> bool:
    """Whether a worker's lines come before and after another's. In the serial order none do, and in no order of whole sections."""
    return len(list(itertools.groupby(order))) > len(set(order))


def judge_beginning(script: str, text: str) -> None:
    """Raises `Wrong` where no such text of the script begins so."""
    *lines, piece = text.split("\n")
    replay = Replay(script)
    rest = "\n".join([*replay.follow(lines), piece])
    if not any(following.startswith(rest) for following in replay.ahead()):
        raise Wrong(f"nothing that may come next begins so: {rest!r}")
