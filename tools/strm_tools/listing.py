"""A run as a listing: a line for each command, with its worker and line number, the command, the reply and, if asked for, the reason."""
from __future__ import annotations

from typing import Sequence

from strm_tools.judge import Replay
from strm_tools.labels import labels_of
from strm_tools.model import Values
from strm_tools.rules import Before, before_line, denies, enabled, why_not

# A command that is longer moves its reply to the right; the other replies are below each other.
WIDEST = 40


class Listed(Replay):
    """A replay that keeps a row for each line, in the order in which they were executed. If they are explained, a line
    that was refused, or has the reply `no`, has the reason too, and a line that enabled a queue has which one, and why. One after which
    a band is wanted no longer, which enabled none, has why not."""

    def __init__(self, script: str, is_explained: bool = False) -> None:
        super().__init__(script)
        self.script = script.split("\n")
        self.is_explained = is_explained
        self.labels = labels_of(script).queues
        # Of each line: worker, number, text, reply and reason.
        self.lines: list[tuple[int, int, str, str, str]] = []

    def serve(self, worker: int) -> str:
        number, word, items, values = self.sections[worker][self.served[worker]]
        self.model.turn_to(worker)
        before = before_line(self.model, word, values) if self.is_explained else None
        told = super().serve(worker)
        reply = told.partition(" ")[2]
        reason = self.reason_of(word, items, values, reply, before) if before else ""
        self.lines.append((worker, number, self.script[number - 1], reply, reason))
        return told

    def reason_of(self, word: str, items: list[str], values: Values, reply: str, before: Before) -> str:
        """Why a line was refused, or has the reply `no`, or which queue it enabled, and why, or why a band's drain enabled none."""
        if denies(reply):
            return why_not(self.model, word, items, values, reply).text(self.labels)
        return enabled(self.model, word, values, before, self.labels)


def listed(script: str, text: str | None = None, is_explained: bool = False) -> Listed:
    """A replay of a script by a text, or of its lines worker by worker."""
    replay = Listed(script, is_explained)
    replay.play(text)
    return replay


def rows_of(replay: Listed, first: int = 1, last: int | None = None) -> list[tuple[str, str, str]]:
    """The rows of the lines from FIRST to LAST of the script, in the order in which they were executed. Reasons are below each other."""
    lines = [line for line in replay.lines if first <= line[1] and (last is None or line[1] <= last)]
    width = max((len(reply) for *_, reply, reason in lines if reason), default=0)
    return [(f"{worker}:{number}", line, f"{reply:<{width}}  {reason}" if reason else reply) for worker, number, line, reply, reason in lines]


def listing(rows: Sequence[tuple[str, str, str]]) -> str:
    """The rows side by side, each column as wide as its longest entry, but that of commands not wider than `WIDEST`."""
    place, command = (max((len(row[column]) for row in rows), default=0) for column in (0, 1))
    command = min(command, WIDEST)
    return "".join(f"{at:<{place}}  {line:<{command}}  {reply}\n" for at, line, reply in rows)
