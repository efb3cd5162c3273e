"""Each word that a line of a script may begin with: its form, as in strm(1) but in capital letters, and what it does."""
from __future__ import annotations

import textwrap
from typing import Iterator, NamedTuple

from strm_tools import model
from strm_tools.faults import AFTER, GREATEST
from strm_tools.model import HIGH_PRIORITY, ORDINARY
from strm_tools.shown import shown


class Word(NamedTuple):
    """What comes after a word, and what the line does."""

    form: str
    does: str


# The words of the header and of a section, in the order in which they come.
HEADER = {
    "pool": Word("ID MBLKS", "The pool has this id and MBLKS message blocks."),
    "class": Word("SIZE COUNT", "The pool has COUNT data blocks of SIZE bytes."),
    "queue": Word(
        "HIWAT LOWAT SERVICE NEXT",
        "A queue, numbered from 0: its two water marks, s or n for a service procedure or none, and its next queue or -.",
    ),
    "bufcalls": Word("WISHES ID", "At most WISHES wishes are recorded at a time, and the first has this id."),
    "worker": Word("", "Begins another section, with empty registers: the commands of another worker."),
}
# The letter or word of an item in a form, where that is not the item's name. A second register is S.
NAMES = {
    **dict.fromkeys(["from", "to"], "R"),
    **dict.fromkeys(["block", "place"], "K"),
    **dict.fromkeys(["band", "marked"], "B"),
    **{"queue": "Q", "count": "N", "octets": "HEX", "kind": "TYPE", "flag": "WHAT", "high": "HIWAT", "low": "LOWAT"},
}


def form_of(items: list[str]) -> str:
    """The form of a command, such as `R K S`."""
    names = [NAMES.get(item, item.upper()) for item in items]
    return " ".join("S" if name == "R" in names[:at] else name for at, name in enumerate(names))


# The commands, in the groups of strm(1).
COMMANDS: dict[str, dict[str, Word]] = {}
for word, row in model.WORDS.items():
    COMMANDS.setdefault(row.group, {})[word] = Word(form_of(row.items), row.does.replace("*", ""))
WORDS = {**HEADER, **{word: entry for group in COMMANDS.values() for word, entry in group.items()}}
# The types, by the priority that a message has with them.
TYPES = {"Types of ordinary priority": ORDINARY, "Types of high priority": HIGH_PRIORITY}
# What each word after the first has to be, by its item in strm_tools.model and strm_tools.faults.
MEANINGS = {
    **{item: f"a number, 0 to {greatest}" for item, greatest in GREATEST.items()},
    "count": "a number, -2147483648 to 2147483647",
    "queue": "a queue, 0 to 255",
    **dict.fromkeys(["band", "marked"], "a band, 0 to 255"),
    "next": "a queue, 0 to 255, or - for none",
    **dict.fromkeys(["from", "to"], "a register, a to z"),
    "octets": "two digits, 0 to 9 or a to f, for each of 1 to 64 bytes, or - for none",
    "kind": "a type, such as M_DATA, or M_PCPROTO of high priority",
    "flag": "all or data",
    "service": "s for a service procedure, or n for none",
}
# Where a line is, by the line before it.
PLACES = {"nothing": "at the beginning", **{kind: f"after a {kind} line" for kind in HEADER}, "command": "after a command"}


def allowed(before: str) -> str:
    """The lines that may follow such a line, in words."""
    return " or ".join("a command" if kind == "command" else kind for kind in AFTER[before])


def misplaced(word: str, before: str) -> str:
    """That a line with this first word may not follow such a line."""
    return f"word 1 is {shown(word)} {PLACES[before]}; expected {allowed(before)}"


def whole_form(word: str) -> str:
    """A word with what comes after it, such as `putq Q R`."""
    return f"{word} {WORDS[word].form}".rstrip()


def table() -> Iterator[str]:
    """Each line that a script may have, in groups: its form, and what it does. Then the types, by priority."""
    for group, words in {"The header and sections": HEADER, **COMMANDS}.items():
        yield f"{group}\n"
        for word, entry in words.items():
            yield f"  {whole_form(word)}\n"
            yield filled(entry.does)
    for priority, types in TYPES.items():
        yield f"{priority}\n"
        yield filled(" ".join(types))


def filled(text: str) -> str:
    """A paragraph of the table."""
    return textwrap.fill(text, 79, initial_indent=" " * 6, subsequent_indent=" " * 6, break_on_hyphens=False) + "\n"


def counted(number: int, what: str) -> str:
    """A number with its noun, such as `1 line`."""
    return f"{number} {what}{'' if number == 1 else 's'}"


def wrong_count(form: str, here: int) -> str:
    """That a line has another number of words than its form, such as `putq Q R`."""
    return f"{form}: {counted(len(form.split()), 'word')}, here {here}"
