"""What strm-check reports of a script: its faults, each with what was expected, and notes that help."""
from __future__ import annotations

import io
import itertools
import re
from typing import Callable, Counter, Iterator, NamedTuple

from strm_tools.faults import FITS, FORMS, HEADER, MOST, STAGE, ConfigFault, LineFault, Reading, config_faults, line_kind, misfit
from strm_tools.hints import config_hints, hints
from strm_tools.labels import WRITTEN, form_of, queues_of
from strm_tools.limits import SCRIPT_BYTES
from strm_tools.refused import refusals
from strm_tools.script import TOO_LONG
from strm_tools.shown import shown
from strm_tools.words import MEANINGS, PLACES, WORDS, allowed, counted, misplaced, whole_form, wrong_count

# How many bytes of a script strm reads if `--max` does not say otherwise.
BYTES_BY_DEFAULT = 1_048_576


class Finding(NamedTuple):
    """A line of the report: a fault or a note. If its number is 0, it is of the whole script."""

    number: int
    kind: str
    words: str

    def is_fault(self) -> bool:
        return self.kind != "note"

    def line(self, name: str) -> str:
        place = f"{name}:{self.number}" if self.number else name
        return f"{place}: {self.kind}: {self.words}\n"


def names_of(first: str) -> list[str]:
    """What the manual calls the words after this first word."""
    return WORDS[first].form.split()


def unknown(fault: LineFault, words: list[str]) -> str:
    return f"word 1 is {shown(words[0])}; expected {allowed(fault.before)}"


def order(fault: LineFault, words: list[str]) -> str:
    return misplaced(words[0], fault.before)


def toomany(fault: LineFault, words: list[str]) -> str:
    kind = line_kind(words[0])
    return f"this is {kind} line {fault.above + 1}; expected at most {MOST[kind]}"


def missing_name(first: str, rest: list[str]) -> str:
    """The name of the first word that is missing in a line with too few: one without which the others fit. If there are several, it is the
    last, but no bytes, since a number may be a byte too."""
    items = FORMS[first]
    ways = [
        kept
        for kept in itertools.combinations(range(len(items)), len(rest))
        if all(FITS[items[place]][0](word) for place, word in zip(kept, rest))
    ]
    kept = min(ways, key=lambda kept: "octets" in items and items.index("octets") not in kept, default=range(len(rest)))
    return next(name for place, name in enumerate(names_of(first)) if place not in kept)


def shape(_: LineFault, words: list[str]) -> str:
    names = names_of(words[0])
    counts = wrong_count(whole_form(words[0]), len(words))
    if len(words) <= len(names):
        return f"{counts}; {missing_name(words[0], words[1:])} is missing"
    place = words.index("") if "" in words else 1 + len(names)
    return f"{counts}; word {place + 1} is {shown(words[place])}"


def wrong_word(_: LineFault, words: list[str]) -> str:
    first, *rest = words
    place = misfit(first, rest)
    item = FORMS[first][place - 1]
    return f"word {place + 1} is {shown(words[place])}; expected {names_of(first)[place - 1]}: {MEANINGS[item]}"


def cut(fault: LineFault, _: list[str]) -> str:
    return f"the last line is {shown(fault.line)}; expected a line feed at its end"


def missing(fault: LineFault, _: list[str]) -> str:
    *kinds, last = (kind for kind in HEADER if STAGE[kind] > STAGE[fault.before])
    lines = f"{', '.join(kinds)} and {last} lines" if kinds else f"a {last} line"
    if fault.number == 1:
        return f"the script is empty; expected {lines}"
    place = "" if fault.before == "nothing" else f" {PLACES[fault.before]}"
    return f"the script ends{place}; expected {lines}"


EXPLAINED: dict[str, Callable[[LineFault, list[str]], str]] = {
    "unknown": unknown,
    "order": order,
    "toomany": toomany,
    "shape": shape,
    **dict.fromkeys(["number", "register", "word", "hex"], wrong_word),
    "cut": cut,
    "missing": missing,
}


def of_line(fault: LineFault, script: bytes) -> Iterator[Finding]:
    """A fault of a line, and its notes."""
    yield Finding(fault.number, fault.kind, EXPLAINED[fault.kind](fault, fault.line.split(" ")))
    for hint in hints(fault, script):
        yield Finding(fault.number, "note", hint)


def of_config(fault: ConfigFault) -> Iterator[Finding]:
    """A fault of the pool that the header describes, and its notes."""
    yield Finding(fault.number, f"bad config: {fault.which}", fault.why)
    for hint in config_hints(fault):
        yield Finding(fault.number, "note", hint)


def label_note(line: str, queues: int) -> str | None:
    """What is wrong with a comment that begins as a label does, or None. `queues` is the number of queues."""
    labelled = form_of(line)
    if labelled is None:
        word = "".join(line.split(" ")[1:2])
        return f"this comment begins with #: but is no label; expected {WRITTEN.get(word) or ' or '.join(WRITTEN.values())}"
    above = [queue for queue in queues_of(labelled[1]) if queue >= queues]
    return f"the label names queue {above[0]}; expected at most {queues - 1}" if above else None


def of_labels(script: bytes, queues: int) -> Iterator[Finding]:
    """Notes on comments that begin as labels do."""
    number, end = 1, 0
    for found in re.finditer(rb"^#:[^\n]*", script, re.MULTILINE):
        number += script.count(b"\n", end, found.start())
        end = found.start()
        note = label_note(found[0].decode("utf-8", "replace"), queues)
        if note:
            yield Finding(number, "note", note)


def too_long(most: int) -> list[Finding]:
    """What is found in a script of more bytes than it may have, which is not read any further."""
    more = f"more than {most} bytes; give strm and strm-check a greater --max, up to {SCRIPT_BYTES}"
    return [Finding(0, "input too long", TOO_LONG if most == SCRIPT_BYTES else more)]


def lines_of(script: bytes) -> io.TextIOWrapper:
    """The lines of a script, given as bytes, with their ends. Each byte is a character."""
    return io.TextIOWrapper(io.BytesIO(script), encoding="latin-1", newline="\n")


class Checked:
    """A script, given as bytes, that is checked for its first fault, or for every fault. Its notes come after its faults."""

    def __init__(self, script: bytes, every: bool) -> None:
        self.script = script
        self.every = every
        self.reading = Reading()
        self.is_right = True
        # The faults that were not asked for.
        self.rest: Iterator[Iterator[Finding]] = iter(())

    def faults(self) -> Iterator[Finding]:
        """Each fault, with the notes on its causes."""
        faults = self.all_faults()
        for found in faults:
            self.is_right = False
            yield from found
            if not self.every:
                self.rest = faults
                return

    def all_faults(self) -> Iterator[Iterator[Finding]]:
        for fault in self.reading.faults(lines_of(self.script)):
            yield of_line(fault, self.script)
        for of_pool in config_faults(self.reading.header):
            yield of_config(of_pool)

    def notes(self) -> Iterator[Finding]:
        """Notes that belong to no fault: how many faults there are beyond the first, if only this was asked for; or else on labels, and on
        commands, if there is no fault."""
        more = sum(1 for _ in self.rest)
        if more:
            yield Finding(0, "note", f"--all reports {counted(more, 'more fault')}")
        if self.is_right or self.every:
            yield from of_labels(self.script, self.reading.queues())
        if self.is_right:
            yield from self.notes_on_commands()

    def notes_on_commands(self) -> Iterator[Finding]:
        """Notes on commands that always fail: all, or the first that fails for a reason, with how many more do."""
        first: dict[str, Finding] = {}
        counts: Counter[str] = Counter()
        for number, kind, why in refusals(lines_of(self.script), self.reading.header):
            finding = Finding(number, "note", f"this line always fails: {why}")
            if self.every:
                yield finding
            else:
                first.setdefault(kind, finding)
                counts[kind] += 1
        for kind, finding in first.items():
            more = f"; --all notes {counted(counts[kind] - 1, 'more such line')}" if counts[kind] > 1 else ""
            yield finding._replace(words=finding.words + more)


def findings(script: bytes, every: bool) -> Iterator[Finding]:
    """The faults of a script, each with its notes."""
    return Checked(script, every).faults()
