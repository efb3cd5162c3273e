"""The lines of a driver's trace, one by one. strm-record(1) explains their forms."""
from __future__ import annotations

import re
from typing import NamedTuple, Sequence

from strm_tools.faults import FITS, FORMS, HEADER, number
from strm_tools.labels import form_of
from strm_tools.model import HIGH_PRIORITY, ORDINARY, REPLIES
from strm_tools.words import MEANINGS, WORDS, wrong_count

# The form of each line, by its first word.
LINES = {
    "h": "h LINE",
    "c": "c DATA SIZE",
    "b": "b DATA PLACE HEX",
    "~": "~ BLOCK NEXT DATA READ WRITE TYPE BAND",
    "!": "! WHO CALL | REPLY",
    "=": "= BLOCK NEXT DATA READ WRITE TYPE BAND",
    "-": "- BLOCK",
    ".": ". WHO COMMAND | REPLY",
    "r": "r LINE",
    "#": "# TEXT",
}
# What the messages in a call are called, and what each has to be: they have no registers yet.
MESSAGES = {"from": ("<N", "a message that the call takes"), "to": (">N", "a message that the call returns, or > for none")}
# What words in capitals in the form of a reply stand for, if not a number.
IN_REPLIES = {"HEX": "(-|([0-9a-f]{2})+)", "TYPE": "M_[A-Z]+", "NAME": "[A-Za-z]+"}
REPLY = re.compile("|".join(re.sub("[A-Z]+|(?<==)", lambda part: IN_REPLIES.get(str(part[0]), "[0-9]+"), form) for form in REPLIES))
MOST_QUOTED = 80
MOST_NUMBER = 2**31 - 1
is_number = number(MOST_NUMBER)


class Bad(Exception):
    """Why a trace is wrong, and the number of the line that is, if it is another than the last one."""

    def __init__(self, why: str, line: int | None = None) -> None:
        super().__init__(why)
        self.line = line


class Beyond(Bad):
    """What a trace has and no script can have."""


class Block(NamedTuple):
    """A message block without the one that follows it: its data block, which has the type, its places there, and its band."""

    data: int
    read: int
    write: int
    kind: str
    band: int


class Told(NamedTuple):
    """What a line says of a block: its number, the number of the block that follows it, if any, and the rest."""

    number: int
    next: int | None
    block: Block


class Call(NamedTuple):
    """A call, or a command, as a line has it: who made it, its word, what each further word is, these words, and the reply."""

    who: str
    word: str
    items: list[str]
    words: list[str]
    reply: str


def shortened(text: str) -> str:
    """A text, not longer than people read."""
    return text if len(text) <= MOST_QUOTED else text[:MOST_QUOTED] + ".."


def quoted(text: str) -> str:
    return shortened(repr(text))


def words_in(mark: str, text: str) -> dict[str, str]:
    """The words of a line behind its first one, as many as its form has."""
    words, wanted = text.split(" "), LINES[mark].split(" ")[1:]
    if len(words) != len(wanted):
        raise Bad(wrong_count(LINES[mark], len(words) + 1))
    return dict(zip(wanted, words))


def number_in(words: dict[str, str], name: str) -> int:
    if not is_number(words[name]):
        raise Bad(f"{name} is a number from 0 to {MOST_NUMBER}, here {quoted(words[name])}")
    return int(words[name])


def block_number(text: str) -> int:
    return number_in(words_in("-", text), "BLOCK")


def capacity(text: str) -> tuple[int, int]:
    """The number of a data block, and its size."""
    words = words_in("c", text)
    return number_in(words, "DATA"), number_in(words, "SIZE")


def new_bytes(text: str) -> tuple[int, int, bytes]:
    """The number of a data block, a place in it, and the bytes from there on."""
    words = words_in("b", text)
    if not re.fullmatch("([0-9a-f]{2})+", words["HEX"]):
        raise Bad(f"HEX is two hexadecimal digits for each byte, here {quoted(words['HEX'])}")
    return number_in(words, "DATA"), number_in(words, "PLACE"), bytes.fromhex(words["HEX"])


def told_block(mark: str, text: str) -> Told:
    """What a line says of a block."""
    words = words_in(mark, text)
    if words["TYPE"] not in ORDINARY + HIGH_PRIORITY:
        raise Bad(f"TYPE is a type such as M_DATA, here {quoted(words['TYPE'])}")
    if number_in(words, "BAND") > 255:
        raise Bad(f"BAND is a band from 0 to 255, here {words['BAND']}")
    data, read, write, band = (number_in(words, name) for name in ("DATA", "READ", "WRITE", "BAND"))
    following = None if words["NEXT"] == "-1" else number_in(words, "NEXT")
    return Told(number_in(words, "BLOCK"), following, Block(data, read, write, words["TYPE"], band))


def is_message(item: str, word: str) -> bool:
    return bool(re.fullmatch("<[0-9]+" if item == "from" else ">[0-9]*", word) and is_number(word[1:] or "0"))


def require_words(first: str, rest: Sequence[str], is_call: bool = False) -> None:
    """Raises `Bad` unless these are the words of a line of a script that begins with the first one, or of such a call."""
    messages = MESSAGES if is_call else {}
    names = [messages.get(item, [name])[0] for item, name in zip(FORMS[first], WORDS[first].form.split())]
    form = " ".join([first, *names])
    if len(names) != len(rest):
        raise Bad(wrong_count(form, len(rest) + 1))
    for item, name, word in zip(FORMS[first], names, rest):
        if not (is_message(item, word) if item in messages else FITS[item][0](word)):
            raise Bad(f"{form}: {name} is {messages[item][1] if item in messages else MEANINGS[item]}, here {quoted(word)}")


def header_line(text: str) -> str:
    """The first word of a line of a header."""
    first, *rest = text.split(" ")
    if first not in HEADER or first == "worker":
        raise Bad(f"a header has the lines pool, class, queue and bufcalls, and not {quoted(first)}")
    require_words(first, rest)
    return first


def call_in(mark: str, text: str) -> Call:
    """The call of a line `!`, or the command of a line `.`."""
    told, bar, reply = text.partition(" | ")
    who, _, call = told.partition(" ")
    if not (bar and who and call and reply):
        raise Bad(f"expected {LINES[mark]!r}")
    if not form_of(f"#: caller {who}"):
        raise Bad(f"WHO has 1 to 40 characters, here {len(who)}")
    if not REPLY.fullmatch(reply):
        raise Bad(f"expected a reply of strm, here {quoted(reply)}")
    word, *words = call.split(" ")
    if word not in FORMS or word in HEADER:
        raise Bad(f"strm has no command {quoted(word)}")
    require_words(word, words, is_call=mark == "!")
    return Call(who, word, FORMS[word], words, reply)
