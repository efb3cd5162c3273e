"""A script without faults, as values: the pool that it describes, and its commands."""
from __future__ import annotations

import functools
from array import array
from typing import Any, Iterator, List, Protocol, Tuple

from strm_tools.limits import SCRIPT_BYTES
from strm_tools.model import WORDS, Pool, Values

TOO_LONG = f"more than {SCRIPT_BYTES} bytes, the most that strm reads"


class Wrong(Exception):
    """Why something that a tool was given is wrong. `of` is the argument whose file that is in, such as `script`, or "" if it is in none."""

    def __init__(self, why: object, of: str = "") -> None:
        super().__init__(why)
        self.of = of


# A command: number, word, items, values.
Command = Tuple[int, str, List[str], Values]


def value_of(item: str, text: str) -> Any:
    """What a word of a command line stands for."""
    if item == "octets":
        return bytes.fromhex("" if text == "-" else text)
    return text if item in ("from", "to", "kind", "flag") else int(text)


class Commands(Protocol):
    """The commands of a section."""

    def __len__(self) -> int: ...

    def __getitem__(self, place: int, /) -> Command: ...


class Section:
    """The commands of a section. Each is read when it is asked for, so that a long section takes
    little memory."""

    def __init__(self, lines: list[str]) -> None:
        self.lines = lines
        self.numbers: array[int] = array("L")

    def __len__(self) -> int:
        return len(self.numbers)

    def __getitem__(self, place: int) -> Command:
        number = self.numbers[place]
        word, *rest = self.lines[number - 1].split(" ")
        items = WORDS[word].items
        return number, word, items, [value_of(*pair) for pair in zip(items, rest)]

    def __iter__(self) -> Iterator[Command]:
        return map(self.__getitem__, range(len(self)))


def lazily(script: str) -> tuple[Pool, list[Section]]:
    """The pool of a script without faults, and its sections."""
    header: dict[str, list[list[str]]] = {"pool": [], "class": [], "queue": [], "bufcalls": []}
    lines = script.split("\n")
    sections: list[Section] = []
    for number, line in enumerate(lines, 1):
        word, _, rest = line.partition(" ")
        if word in header:
            header[word].append(rest.split(" "))
        elif line == "worker":
            sections.append(Section(lines))
        elif word in WORDS:
            sections[-1].numbers.append(number)
    return pool_of(header), sections


# A script that is judged again and again is read once.
@functools.lru_cache(maxsize=1)
def script_of(script: str) -> tuple[Pool, list[list[Command]]]:
    """The pool of a script without faults, and the commands of each section, which are lists."""
    pool, sections = lazily(script)
    return pool, [list(section) for section in sections]


def pool_of(header: dict[str, list[list[str]]]) -> Pool:
    """The pool that the lines of a header describe."""
    return Pool(
        mblks=int(header["pool"][0][1]),
        classes=[(int(size), int(count)) for size, count in header["class"]],
        queues=[(int(high), int(low), service, "-" if after == "-" else int(after)) for high, low, service, after in header["queue"]],
        bufcalls=int(header["bufcalls"][0][0]),
        first_id=int(header["bufcalls"][0][1]),
    )
