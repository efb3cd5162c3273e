"""Which faults strm finds in a script: in a line, by its words and its place, or in the pool that the header describes."""
from __future__ import annotations

import functools
import io
import re
from typing import Any, Callable, Iterable, Iterator, List, Mapping, Match, NamedTuple, Optional, Tuple, Union

from strm_tools.limits import CLASSES, COMMAND_LINES, DATA_BLOCK_BYTES, DATA_BLOCKS, MESSAGE_BLOCKS, QUEUES, WISHES, WORKERS
from strm_tools.model import HIGH_PRIORITY, ORDINARY, WORDS

# What says whether a word, or a line, has a form.
Fits = Callable[[str], Optional[Match[str]]]
# A line of a header: number, first word, and the further words of a line without a fault, or None.
HeaderLine = Tuple[int, str, Optional[List[str]]]
# The further words of a line, each as an int if it is a number, or else as a str.
Values = List[Any]
# The greatest value of each word that is a number.
GREATEST = {
    **dict.fromkeys(["size", "block", "at", "place", "id", "high", "low"], 2**32 - 1),
    **dict.fromkeys(["band", "marked", "queue", "next"], 255),
    "count": 2**31 - 1,
}


def at_most(greatest: int) -> str:
    """A pattern of the numbers from 0 to the greatest, without leading zeros."""
    digits = str(greatest)
    patterns = ["0", digits]
    for place, digit in enumerate(digits):
        rest = len(digits) - place - 1
        if place > 0:
            patterns.append(f"[1-9][0-9]{{{rest}}}")
        least = 1 if place == 0 else 0
        if int(digit) > least:
            patterns.append(f"{digits[:place]}[{least}-{int(digit) - 1}][0-9]{{{rest}}}")
    return "|".join(patterns)


def number(greatest: int) -> Fits:
    """What says whether a word is a number from 0 to the greatest."""
    return re.compile(at_most(greatest)).fullmatch


# The pattern of each word after the first, and the fault of one that does not match.
PATTERNS = {
    **{item: (at_most(greatest), "number") for item, greatest in GREATEST.items()},
    "count": (f"{at_most(2**31 - 1)}|-(?!0)(?:{at_most(2**31)})", "number"),
    "next": (f"-|{at_most(255)}", "number"),
    **dict.fromkeys(["from", "to"], ("[a-z]", "register")),
    "octets": ("-|(?:[0-9a-f]{2}){1,64}", "hex"),
    "kind": ("|".join([*ORDINARY, *HIGH_PRIORITY]), "word"),
    "flag": ("all|data", "word"),
    "service": ("s|n", "word"),
}
FITS = {item: (re.compile(pattern).fullmatch, fault) for item, (pattern, fault) in PATTERNS.items()}
HEADER = {"pool": "id size", "class": "size size", "queue": "high low service next", "bufcalls": "size id", "worker": ""}
# The words after each first word.
FORMS = {**{word: items.split() for word, items in HEADER.items()}, **{word: row.items for word, row in WORDS.items()}}
# Which lines may follow each line, and how many there may be.
AFTER = {
    "nothing": ["pool"],
    "pool": ["class"],
    "class": ["class", "queue"],
    "queue": ["queue", "bufcalls"],
    "bufcalls": ["worker"],
    "worker": ["command", "worker"],
    "command": ["command", "worker"],
}
MOST = {"class": CLASSES, "queue": QUEUES, "worker": WORKERS, "command": COMMAND_LINES}
# How far a script was read after each line: commands and sections may come in any order.
STAGE = {kind: min(stage, 5) for stage, kind in enumerate(AFTER)}


# A byte order mark, of which each byte is a character.
BYTE_ORDER_MARK = "\xef\xbb\xbf"


def line_kind(word: str) -> str:
    return word if word in HEADER else "command"


def bare_of(text: str) -> str:
    """The first word of a text, up to a tab, a carriage return or one of ( ) , ; and without a byte order mark and spaces before it."""
    begin = len(BYTE_ORDER_MARK) if text.startswith(BYTE_ORDER_MARK) else 0
    return next(re.finditer(r"[ \t]*([^ \t\r(),;]*)", text[begin:]))[1]


@functools.lru_cache(maxsize=None)
def has_form(first: str) -> Fits:
    """What says whether a line with this first word has the further words that it needs."""
    return re.compile(first + "".join(f" (?:{PATTERNS[item][0]})" for item in FORMS[first])).fullmatch


def misfit(first: str, rest: list[str]) -> int:
    """The place of the first word that does not have the form that the line needs, or 0, where the first word of a line is."""
    places = enumerate(zip(FORMS[first], rest), 1)
    return next((place for place, (item, word) in places if not FITS[item][0](word)), 0)


def fault_in(first: str, rest: list[str], before: str, counts: Mapping[str, int]) -> str | None:
    """The first fault of a line after such a line, where there are this many of each kind, or None."""
    if first not in FORMS:
        return "unknown"
    if line_kind(first) not in AFTER[before]:
        return "order"
    if counts[line_kind(first)] == MOST.get(line_kind(first)):
        return "toomany"
    if len(FORMS[first]) != len(rest):
        return "shape"
    place = misfit(first, rest)
    return FITS[FORMS[first][place - 1]][1] if place else None


class LineFault(NamedTuple):
    """A fault of a line."""

    # The line's number, from 1; the line after the last for `missing`.
    number: int
    # What strm calls the fault.
    kind: str
    # The line without its end.
    line: str
    # The kind of the last line before it that is no comment.
    before: str
    # How many lines of its kind came before it.
    above: int

    def reported(self) -> str:
        """The fault as strm reports it."""
        return f"line {self.number}: {self.kind}"

    def told(self) -> str:
        """The fault as strm reports it, which names its line."""
        return self.reported()


class Reading:
    """A script as far as it was read. Reading goes on after a fault:

    - an unknown line changes nothing, except one that has a known first word beside what `bare_of` takes away, or in capitals;
    - a line out of order moves the reading on to the line's own place in the header, and never back;
    - the first line too many has a fault, and the others of its kind have none for their number;
    - a line with a fault in its words is otherwise read as the line that it should be."""

    def __init__(self) -> None:
        self.before = "nothing"
        self.counts = dict.fromkeys([*HEADER, "command"], 0)
        # The header's lines, without those too many.
        self.header: list[HeaderLine] = []

    def is_right(self, kind: str, first: str, line: str) -> bool:
        """Whether a line of this kind has no fault. This is quicker than to look for the fault."""
        return kind in AFTER[self.before] and self.counts[kind] != MOST.get(kind) and has_form(first)(line) is not None

    def take(self, number: int, line: str) -> LineFault | None:
        """Reads a line that is neither empty nor a comment. Returns its fault, or None."""
        first = line.partition(" ")[0]
        meant = first if first in FORMS else bare_of(line).lower()
        if meant not in FORMS:
            return LineFault(number, "unknown", line, self.before, 0)
        kind = line_kind(meant)
        fault = None
        if meant != first or not self.is_right(kind, first, line):
            name = fault_in(first, line.split(" ")[1:], self.before, self.counts)
            fault = LineFault(number, name, line, self.before, self.counts[kind]) if name else None
        if kind in HEADER and self.counts[kind] < MOST.get(kind, 1):
            self.header.append((number, meant, None if fault else line.split(" ")[1:]))
        if STAGE[kind] >= STAGE[self.before]:
            self.before = kind
        self.counts[kind] += 1
        return fault

    def queues(self) -> int:
        """The number of queues."""
        return min(self.counts["queue"], QUEUES)

    def faults(self, lines: Iterable[str]) -> Iterator[LineFault]:
        """The fault of each line that has one. The lines have their ends."""
        number = 0
        for number, line in enumerate(lines, 1):
            if line[-1] != "\n":
                yield LineFault(number, "cut", line, self.before, 0)
                return
            if line[0] not in "\n#":
                fault = self.take(number, line[:-1])
                if fault:
                    yield fault
        if STAGE[self.before] < STAGE["worker"]:
            yield LineFault(number + 1, "missing", "", self.before, 0)


class ConfigFault(NamedTuple):
    """A fault of the pool that a header describes: what strm calls it, the number of the line, and what is wrong."""

    which: str
    number: int
    why: str

    def reported(self) -> str:
        """The fault as strm reports it."""
        return f"bad config: {self.which}"

    def told(self) -> str:
        """The fault as strm reports it, with its line and what is wrong."""
        return f"line {self.number}: {self.reported()}: {self.why}"


Fault = Union[LineFault, ConfigFault]


class Header:
    """The values of a header's lines that have no fault of their own, each with the number of the line."""

    def __init__(self, lines: list[HeaderLine]) -> None:
        self.lines = lines

    def of(self, first: str) -> list[tuple[int, Values]]:
        """The lines with this first word, in order."""
        return [(number, list(map(value_of, values))) for number, word, values in self.lines if word == first and values]

    def queues(self) -> list[tuple[int, int, Values]]:
        """The place of each queue, beside the line's number and values. A line with a fault takes a place too."""
        places = enumerate(line for line in self.lines if line[1] == "queue")
        return [(place, number, list(map(value_of, values))) for place, (number, _, values) in places if values]

    def queue_count(self) -> int:
        return sum(first == "queue" for _, first, _ in self.lines)


def value_of(word: str) -> int | str:
    return int(word) if word.isdigit() else word


def mblks(header: Header) -> Iterator[tuple[int, str]]:
    for number, (_, count) in header.of("pool"):
        if not 1 <= count <= MESSAGE_BLOCKS:
            yield number, f"{count} message blocks; expected 1 to {MESSAGE_BLOCKS}"


def class_size(header: Header) -> Iterator[tuple[int, str]]:
    before: tuple[int, int] | None = None
    for number, (size, _) in header.of("class"):
        if not 1 <= size <= DATA_BLOCK_BYTES:
            yield number, f"the size is {size}; expected 1 to {DATA_BLOCK_BYTES}"
        elif before and size <= before[1]:
            yield number, f"the size is {size}; expected more than {before[1]}, the size in line {before[0]}"
        else:
            before = number, size


def class_total(header: Header) -> Iterator[tuple[int, str]]:
    total = 0
    for number, (_, count) in header.of("class"):
        if count == 0:
            yield number, "0 data blocks; expected 1 or more"
        elif total <= DATA_BLOCKS < total + count:
            yield number, f"{total + count} data blocks in the classes up to here; expected at most {DATA_BLOCKS}"
        total += count


def marks(header: Header) -> Iterator[tuple[int, str]]:
    for queue, number, (high, low, *_) in header.queues():
        if low >= high:
            yield number, f"queue {queue} has the low water mark {low}; expected less than the high one, {high}"


def next_queue(header: Header) -> Iterator[tuple[int, str]]:
    leads: dict[int, tuple[int, int]] = {}
    last = header.queue_count() - 1
    for queue, number, (*_, following) in header.queues():
        if following == "-":
            continue
        if not queue < following <= last:
            greater = f"a greater number than {queue}, up to {last}, or " if queue < last else ""
            absent = f", and there is no queue {following}" if following > last else ""
            yield number, f"queue {following} is next of queue {queue}{absent}; expected {greater}-"
        elif following in leads:
            other, line = leads[following]
            yield number, f"queue {following} is next of queue {queue}; expected another, since line {line} leads queue {other} to it"
        leads.setdefault(following, (queue, number))


def bufcalls(header: Header) -> Iterator[tuple[int, str]]:
    for number, (wishes, _) in header.of("bufcalls"):
        if wishes > WISHES:
            yield number, f"{wishes} wishes at a time; expected 0 to {WISHES}"


def first_id(header: Header) -> Iterator[tuple[int, str]]:
    for number, (_, own) in header.of("bufcalls"):
        if own == 0:
            yield number, "the first wish has the id 0; expected 1 or more"


# The faults of a header, in the order in which strm checks for them. Whatever has no class or no queue has a fault of order.
CONFIG_FAULTS = {
    "Mblks": mblks,
    "ClassSize": class_size,
    "ClassTotal": class_total,
    "Marks": marks,
    "Next": next_queue,
    "Bufcalls": bufcalls,
    "FirstId": first_id,
}


def config_faults(lines: list[HeaderLine]) -> list[ConfigFault]:
    """The faults of the pool that these lines of a header describe (`Reading.header`), in the order in which strm checks for them."""
    header = Header(lines)
    return [ConfigFault(which, *fault) for which, faults in CONFIG_FAULTS.items() for fault in faults(header)]


def lines_of(script: str) -> io.StringIO:
    """The lines of a script, each with its end."""
    return io.StringIO(script, newline="\n")


def first_fault(script: str) -> Fault | None:
    """The first fault of a script: of a line, or else of the pool that its header describes, or None."""
    reading = Reading()
    return next(reading.faults(lines_of(script)), None) or next(iter(config_faults(reading.header)), None)


def fault_of(script: str) -> str | None:
    """Why strm does not run a script, as strm reports it, or None."""
    fault = first_fault(script)
    return fault.reported() if fault else None
