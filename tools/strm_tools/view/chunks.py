"""The lines of a run as a page has them: in chunks, of which the page reads only those that it shows.

A chunk has two texts. One is JSON: the pool before the chunk's first line, by parts (film.py), and the changes of each line. The other
has a row for each line of the page's list:

    #..                      a comment of the script
    =..                      a line of the script's header; after a tab comes the number of a queue
    >                        the opening of the pool, which is frame 0
    W:L COMMAND              line L of the script, executed by worker W. After a tab comes the reply, unless it is `ok`, and after another
                             what the line made happen: F2.0, band 0 of queue 2 became full; E2, queue 2 was enabled; B2, the same as
                             back-enabling. After a third tab comes the rule that decided (rules.py), with its numbers:
                             full B=0 Q=2 N=9 H=8
    @3                       the lines from here on are calls of another caller than before: of number 3, or after @ alone of none

In rows `&` is `&amp;`, `<` is `&lt;`, and a carriage return is U+240D. Rows of labels (labels.py) are left out, since the page shows them elsewhere."""
from __future__ import annotations

import json
from array import array
from bisect import bisect_right
from itertools import count
from typing import TYPE_CHECKING, Callable

from strm_tools.labels import Labels, form_of
from strm_tools.rules import Found

if TYPE_CHECKING:
    from strm_tools.view.film import Line

# A chunk ends after this many lines, or with changes of this many bytes, if these are more than those of the pool before.
MOST_LINES = 500
MOST_BYTES = 50_000
HEADER = ("pool ", "class ", "queue ", "bufcalls ")


def compact(value: object) -> str:
    return json.dumps(value, separators=(",", ":"))


def shielded(text: str) -> str:
    """A row that cannot end its element, or itself."""
    return text.replace("&", "&amp;").replace("<", "&lt;").replace("\r", "\u240d")


def is_shown(line: str) -> bool:
    """Whether a line of the script that is not a command has a row."""
    return line.startswith(HEADER) or line.startswith("#") and not form_of(line)


def text_of_rule(why: Found | None) -> str:
    """A rule with its numbers as a row has it, or nothing."""
    return " ".join([why.name, *(f"{name}={number}" for name, number in why.numbers.items())]) if why else ""


def is_command(line: str) -> bool:
    return bool(line) and line != "worker" and not line.startswith(("#", *HEADER))


class Chunks:
    """Takes the lines of a run, and hands on each chunk by `write`: its rows and its JSON. `script` is the lines of the script, `labels` its
    labels, and `state` returns the pool as it is."""

    def __init__(self, script: list[str], labels: Labels, state: Callable[[], object], write: Callable[[str, str], None]) -> None:
        self.script = script
        self.state = state
        self.write = write
        # The callers: the line from which each one's calls are, its label, and the labels, each once. The caller of the line before.
        self.begins = [number for number, _ in labels.callers]
        self.callers = [label for _, label in labels.callers]
        self.names = labels.names_of_callers()
        self.caller = ""
        # The lines and the rows of each chunk.
        self.lines: array[int] = array("L")
        self.rows: array[int] = array("L")
        self.queues = count()
        self.begin()
        header = next(number for number, line in enumerate(self.script) if line.startswith("bufcalls ")) + 1
        self.rows_now = [*self.passed(0, header), ">"]
        self.end = max((number for number, line in enumerate(self.script, 1) if is_command(line)), default=header)

    def begin(self) -> None:
        """Begins a chunk with the pool as it is."""
        self.opening = compact(self.state())
        self.rows_now = []
        self.changes: list[str] = []
        self.bytes = 0

    def passed(self, begin: int, end: int) -> list[str]:
        """The rows of lines that are no commands, from one place in the script to another."""
        return [self.row_of(line) for line in self.script[begin:end] if is_shown(line)]

    def row_of(self, line: str) -> str:
        if line.startswith("#"):
            return shielded(line)
        return f"={line}\t{next(self.queues)}" if line.startswith("queue ") else f"={line}"

    def rows_before(self, number: int) -> list[str]:
        """The rows before that of a command: the comments up to the command before it in the script, and between them its caller, unless the
        line before has the same."""
        begin = number - 1
        while not is_command(self.script[begin - 1]) and not self.script[begin - 1].startswith(HEADER):
            begin -= 1
        place = bisect_right(self.begins, number) - 1
        label = max(begin, self.begins[place]) if place >= 0 else begin
        before, self.caller = self.caller, self.callers[place] if place >= 0 else ""
        caller = [f"@{self.names.index(self.caller) if self.caller else ''}"] if before != self.caller else []
        return [*self.passed(begin, label), *caller, *self.passed(label, number - 1)]

    def add(self, line: Line) -> None:
        """Takes the next line."""
        command, reply = self.script[line.number - 1], "" if line.reply == "ok" else line.reply
        fields = [f"{line.worker}:{line.number} {command}", reply, " ".join(line.events), text_of_rule(line.why)]
        self.rows_now += [*self.rows_before(line.number), "\t".join(fields).rstrip("\t")]
        self.changes.append(compact(line.changes))
        self.bytes += len(self.changes[-1])
        if len(self.changes) == MOST_LINES or self.bytes > max(MOST_BYTES, len(self.opening)):
            self.hand_on()
            self.begin()

    def hand_on(self) -> None:
        self.lines.append(len(self.changes))
        self.rows.append(len(self.rows_now))
        self.write("\n".join(self.rows_now), f"[{self.opening},[{','.join(self.changes)}]]")

    def finish(self) -> None:
        """Hands on the last chunk, with the comments after the last command."""
        self.rows_now += self.passed(self.end, len(self.script))
        self.hand_on()
